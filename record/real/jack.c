/* jack.c: JACK's ring buffer of bytes. Debian: libjack-jackd2-dev. One of 64 bytes has room for 63, and so for 7 items of 8: recorded as
 * `queue 8`, it reports full with room. A batch that wraps becomes visible in two steps, the items before the wrap first. With the first of
 * its two vectors a call stores or takes only up to the wrap, without implying that there is no more room, or nothing more inside: recorded
 * like the others, it would imply that. */
#include <jack/ringbuffer.h>
#include "relay.h"

static jack_ringbuffer_t *ring;
static void make(void) {
    ring = jack_ringbuffer_create(64);
    if (!ring) exit(2);
}
static size_t put_all(const uint64_t *v, size_t n) {
    size_t room = jack_ringbuffer_write_space(ring) / sizeof *v;
    return jack_ringbuffer_write(ring, (const char *)v, (n < room ? n : room) * sizeof *v) / sizeof *v;
}
static size_t take_all(uint64_t *v, size_t n) {
    size_t inside = jack_ringbuffer_read_space(ring) / sizeof *v;
    return jack_ringbuffer_read(ring, (char *)v, (n < inside ? n : inside) * sizeof *v) / sizeof *v;
}
static size_t fewer(size_t n, jack_ringbuffer_data_t at) { return n * sizeof(uint64_t) < at.len ? n : at.len / sizeof(uint64_t); }
static size_t put_to_wrap(const uint64_t *v, size_t n) {
    jack_ringbuffer_data_t room[2];
    jack_ringbuffer_get_write_vector(ring, room);
    n = fewer(n, room[0]);
    memcpy(room[0].buf, v, n * sizeof *v);
    jack_ringbuffer_write_advance(ring, n * sizeof *v);
    return n;
}
static size_t take_to_wrap(uint64_t *v, size_t n) {
    jack_ringbuffer_data_t inside[2];
    jack_ringbuffer_get_read_vector(ring, inside);
    n = fewer(n, inside[0]);
    memcpy(v, inside[0].buf, n * sizeof *v);
    jack_ringbuffer_read_advance(ring, n * sizeof *v);
    return n;
}
static int put(uint64_t v) { return put_all(&v, 1) == 1; }
static int take(uint64_t *v) { return take_all(v, 1) == 1; }

int main(int argc, char **argv) {
    const relay_queue queues[] = {
        { "jack", "queue 7", NULL, make, put, take, NULL, NULL, 0 },
        { "jack_named_8", "queue 8", "full, but at most", make, put, take, NULL, NULL, 0 },
        { "jack_batch", "queue 7", NULL, make, put, take, put_all, take_all, RELAY_AS_MANY },
        { "jack_vector", "queue 7", NULL, make, put, take, put_to_wrap, take_to_wrap, RELAY_SOME },
        { "jack_vector_as_batch", "queue 7", "only|no more, but item", make, put, take, put_to_wrap, take_to_wrap, RELAY_AS_MANY },
    };
    return relay_main(argc, argv, queues, 5);
}
