/* soundio.c: libsoundio's ring buffer of bytes. Debian: libsoundio-dev. Asked for 64 bytes, it takes a page, 512 items of 8 bytes, mapped twice in a
 * row, so that no batch wraps. */
#include <soundio/soundio.h>
#include "relay.h"

static struct SoundIoRingBuffer *ring;
static void make(void) {
    struct SoundIo *io = soundio_create();
    ring = io ? soundio_ring_buffer_create(io, 64) : NULL;
    if (!ring) exit(2);
}
static size_t put_all(const uint64_t *v, size_t n) {
    size_t room = (size_t)soundio_ring_buffer_free_count(ring) / sizeof *v;
    if (n > room) n = room;
    memcpy(soundio_ring_buffer_write_ptr(ring), v, n * sizeof *v);
    soundio_ring_buffer_advance_write_ptr(ring, (int)(n * sizeof *v));
    return n;
}
static size_t take_all(uint64_t *v, size_t n) {
    size_t inside = (size_t)soundio_ring_buffer_fill_count(ring) / sizeof *v;
    if (n > inside) n = inside;
    memcpy(v, soundio_ring_buffer_read_ptr(ring), n * sizeof *v);
    soundio_ring_buffer_advance_read_ptr(ring, (int)(n * sizeof *v));
    return n;
}
static int put(uint64_t v) { return put_all(&v, 1) == 1; }
static int take(uint64_t *v) { return take_all(v, 1) == 1; }

int main(int argc, char **argv) {
    const relay_queue queues[] = {
        { "soundio", "queue 512", NULL, make, put, take, NULL, NULL, 0 },
        { "soundio_named_8", "queue 8", "stored, but at least", make, put, take, NULL, NULL, 0 },
        { "soundio_batch", "queue 512", NULL, make, put, take, put_all, take_all, 0 },
    };
    return relay_main(argc, argv, queues, 3);
}
