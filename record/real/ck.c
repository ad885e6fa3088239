/* ck.c: Concurrency Kit's ck_ring. Debian: libck-dev. A ring of 8 slots holds 7: recorded as `queue 8`, it reports full with room. */
#include <ck_ring.h>
#include "relay.h"

static ck_ring_t ring;
static ck_ring_buffer_t slots[8];
static void make(void) { ck_ring_init(&ring, 8); }
static int put(uint64_t v) { return ck_ring_enqueue_spsc(&ring, slots, (void *)(uintptr_t)(v + 1)); }
static int take(uint64_t *v) {
    void *p;
    if (!ck_ring_dequeue_spsc(&ring, slots, &p)) return 0;
    *v = (uint64_t)(uintptr_t)p - 1;
    return 1;
}

int main(int argc, char **argv) {
    const relay_queue queues[] = {
        { "ck", "queue 7", NULL, make, put, take, NULL, NULL, 0 },
        { "ck_named_8", "queue 8", "full, but at most", make, put, take, NULL, NULL, 0 },
    };
    return relay_main(argc, argv, queues, 2);
}
