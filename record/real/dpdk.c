/* dpdk.c: DPDK's rte_ring, for one producer and one consumer. Debian: libdpdk-dev. A ring of 8 slots holds 7, unless it is made
 * for exactly 8. `burst` stores as many as there is room for; `bulk` all or nothing: recorded as a burst, it reports full with room. */
#include <rte_ring.h>
#include "relay.h"

static struct rte_ring *ring;
static void make_of(unsigned flags) {
    ssize_t size = (rte_ring_get_memsize(16) + 127) / 128 * 128;
    ring = aligned_alloc(128, (size_t)size);
    if (!ring || rte_ring_init(ring, "ring", 8, RING_F_SP_ENQ | RING_F_SC_DEQ | flags)) exit(2);
}
static void make(void) { make_of(0); }
static void make_exact(void) { make_of(RING_F_EXACT_SZ); }
static void *of(uint64_t v) { return (void *)(uintptr_t)(v + 1); }
static uint64_t value(void *p) { return (uint64_t)(uintptr_t)p - 1; }
static int put(uint64_t v) { return rte_ring_sp_enqueue(ring, of(v)) == 0; }
static int take(uint64_t *v) {
    void *p;
    if (rte_ring_sc_dequeue(ring, &p)) return 0;
    *v = value(p);
    return 1;
}
static size_t put_some(const uint64_t *v, size_t n, unsigned (*enqueue)(struct rte_ring *, void *const *, unsigned, unsigned *)) {
    void *p[RELAY_BATCH];
    for (size_t i = 0; i < n; i++) p[i] = of(v[i]);
    return enqueue(ring, p, (unsigned)n, NULL);
}
static size_t take_some(uint64_t *v, size_t n, unsigned (*dequeue)(struct rte_ring *, void **, unsigned, unsigned *)) {
    void *p[RELAY_BATCH];
    size_t m = dequeue(ring, p, (unsigned)n, NULL);
    for (size_t i = 0; i < m; i++) v[i] = value(p[i]);
    return m;
}
static size_t put_burst(const uint64_t *v, size_t n) { return put_some(v, n, rte_ring_sp_enqueue_burst); }
static size_t take_burst(uint64_t *v, size_t n) { return take_some(v, n, rte_ring_sc_dequeue_burst); }
static size_t put_bulk(const uint64_t *v, size_t n) { return put_some(v, n, rte_ring_sp_enqueue_bulk); }
static size_t take_bulk(uint64_t *v, size_t n) { return take_some(v, n, rte_ring_sc_dequeue_bulk); }

int main(int argc, char **argv) {
    const relay_queue queues[] = {
        { "dpdk", "queue 7", NULL, make, put, take, NULL, NULL, 0 },
        { "dpdk_exact", "queue 8", NULL, make_exact, put, take, NULL, NULL, 0 },
        { "dpdk_burst", "queue 7", NULL, make, put, take, put_burst, take_burst, 0 },
        { "dpdk_bulk", "queue 7", NULL, make, put, take, put_bulk, take_bulk, RELAY_ALL_OR_NONE },
        { "dpdk_bulk_as_burst", "queue 7", "full, but at most|empty, but item", make, put, take, put_bulk, take_bulk, 0 },
    };
    return relay_main(argc, argv, queues, 5);
}
