#include <stdatomic.h>  /* my_ring.h: a queue with a bug, for README.md: with lines 12 and 13 swapped it is right */
#include <stdbool.h>
#include <stdint.h>

enum { CAPACITY = 2 };
static uint64_t slot[CAPACITY];
static _Atomic uint64_t head, tail;

static bool my_put(uint64_t item) {
    uint64_t t = atomic_load_explicit(&tail, memory_order_relaxed);
    if (t - atomic_load_explicit(&head, memory_order_acquire) == CAPACITY) return false;
    atomic_store_explicit(&tail, t + 1, memory_order_release);
    slot[t % CAPACITY] = item;
    return true;
}

static bool my_take(uint64_t *item) {
    uint64_t h = atomic_load_explicit(&head, memory_order_relaxed);
    if (h == atomic_load_explicit(&tail, memory_order_acquire)) return false;
    *item = slot[h % CAPACITY];
    atomic_store_explicit(&head, h + 1, memory_order_release);
    return true;
}
