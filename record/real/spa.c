/* spa.c: the ring buffer of PipeWire's SPA: two indexes for memory of the caller's. Debian: libspa-0.2-dev. All of its 64 bytes are used. */
#include <spa/utils/ringbuffer.h>
#include "relay.h"

enum { BYTES = 64 };
static struct spa_ringbuffer ring;
static uint64_t memory[BYTES / sizeof(uint64_t)];
static void make(void) { spa_ringbuffer_init(&ring); }
static size_t put_all(const uint64_t *v, size_t n) {
    uint32_t at, bytes;
    size_t room = (size_t)(BYTES - spa_ringbuffer_get_write_index(&ring, &at)) / sizeof *v;
    if (n > room) n = room;
    bytes = (uint32_t)(n * sizeof *v);
    spa_ringbuffer_write_data(&ring, memory, BYTES, at % BYTES, v, bytes);
    spa_ringbuffer_write_update(&ring, (int32_t)(at + bytes));
    return n;
}
static size_t take_all(uint64_t *v, size_t n) {
    uint32_t at, bytes;
    size_t inside = (size_t)spa_ringbuffer_get_read_index(&ring, &at) / sizeof *v;
    if (n > inside) n = inside;
    bytes = (uint32_t)(n * sizeof *v);
    spa_ringbuffer_read_data(&ring, memory, BYTES, at % BYTES, v, bytes);
    spa_ringbuffer_read_update(&ring, (int32_t)(at + bytes));
    return n;
}
static int put(uint64_t v) { return put_all(&v, 1) == 1; }
static int take(uint64_t *v) { return take_all(v, 1) == 1; }

int main(int argc, char **argv) {
    const relay_queue queues[] = {
        { "spa", "queue 8", NULL, make, put, take, NULL, NULL, 0 },
        { "spa_batch", "queue 8", NULL, make, put, take, put_all, take_all, 0 },
    };
    return relay_main(argc, argv, queues, 2);
}
