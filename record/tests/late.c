/* late.c: for record/test: a ring for explore.h over atomic slots, whose consumer moves the head `relaxed`. No execution that is tried shows what is wrong:
 * its load of a slot may come after the store of the head, and so find what the producer stores there next. -DSIZES: each slot is written in two halves. */
#include <stdatomic.h>
#include <stdbool.h>
#include "explore.h"

enum { CAPACITY = 2 };
static ring_calls rec;
static _Atomic uint64_t head, tail;
static union { _Atomic uint64_t whole; _Atomic uint32_t half[2]; } slot[CAPACITY];

static void reset(void) {
    head = tail = 0;
    for (int i = 0; i < CAPACITY; i++) slot[i].whole = 0;
}

static bool my_put(uint64_t item) {
    const uint64_t t = atomic_load_explicit(&tail, memory_order_relaxed);
    if (t - atomic_load_explicit(&head, memory_order_acquire) == CAPACITY) return false;
#ifdef SIZES
    atomic_store_explicit(&slot[t % CAPACITY].half[1], 0, memory_order_relaxed);
    atomic_store_explicit(&slot[t % CAPACITY].half[0], (uint32_t)item, memory_order_relaxed);
#else
    atomic_store_explicit(&slot[t % CAPACITY].whole, item, memory_order_relaxed);
#endif
    atomic_store_explicit(&tail, t + 1, memory_order_release);
    return true;
}

static bool my_take(uint64_t *item) {
    const uint64_t h = atomic_load_explicit(&head, memory_order_relaxed);
    if (h == atomic_load_explicit(&tail, memory_order_acquire)) return false;
    *item = atomic_load_explicit(&slot[h % CAPACITY].whole, memory_order_relaxed);
    atomic_store_explicit(&head, h + 1, memory_order_relaxed);
    return true;
}

static void produce(void) {
    for (uint64_t item = 1; item <= 3; item++) {
        ring_calls_put(&rec, item);
        if (my_put(item)) ring_calls_stored(&rec); else ring_calls_full(&rec);
    }
}

static void consume(void) {
    for (int i = 0; i < 3; i++) {
        uint64_t item;
        ring_calls_take(&rec);
        if (my_take(&item)) ring_calls_item(&rec, item); else ring_calls_empty(&rec);
    }
}

int main(void) { return explore(reset, produce, consume, "queue 2"); }
