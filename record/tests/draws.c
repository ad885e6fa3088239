/* draws.c: for record/test: a ring for explore.h whose test draws: how many items a put offers, and whether a take looks twice. `draws bug`: only a put of
 * three items after one of two is wrong, so that no seed but one shows it. */
#include <stdbool.h>
#include <stdatomic.h>
#include <string.h>
#include "explore.h"

enum { CAPACITY = 4, MOST = 3 };
static ring_calls rec;
static _Atomic uint64_t head, tail;
static uint64_t slot[CAPACITY];
static bool has_bug;

static void reset(void) {
    head = tail = 0;
    for (int i = 0; i < CAPACITY; i++) slot[i] = 0;
}

static size_t put_all(const uint64_t *items, size_t n, size_t before) {
    const uint64_t t = atomic_load_explicit(&tail, memory_order_relaxed), room = CAPACITY - (t - atomic_load_explicit(&head, memory_order_acquire));
    const size_t stored = n < room ? n : (size_t)room;
    for (size_t i = 0; i < stored; i++) slot[(t + i) % CAPACITY] = items[has_bug && before == 2 && n == 3 ? 0 : i];
    atomic_store_explicit(&tail, t + stored, memory_order_release);
    return stored;
}

static bool take(uint64_t *item) {
    const uint64_t h = atomic_load_explicit(&head, memory_order_relaxed);
    if (h == atomic_load_explicit(&tail, memory_order_acquire)) return false;
    *item = slot[h % CAPACITY];
    atomic_store_explicit(&head, h + 1, memory_order_release);
    return true;
}

static void produce(void) {
    for (uint64_t item = 1, before = 0, call = 0; call < 2; call++) {
        const size_t n = 1 + explore_choose(MOST);
        const uint64_t items[MOST] = { item, item + 1, item + 2 };
        ring_calls_put_all(&rec, items, n);
        const size_t stored = put_all(items, n, before);
        ring_calls_stored_of(&rec, stored, n);
        item += stored;
        before = n;
    }
}

static void consume(void) {
    for (int i = 0; i < 4; i++) {
        uint64_t item;
        ring_calls_take(&rec);
        if (take(&item) || (explore_choose(2) && take(&item))) ring_calls_item(&rec, item); else ring_calls_empty(&rec);
    }
}

int main(int argc, char **argv) {
    has_bug = argc > 1 && strcmp(argv[1], "bug") == 0;
    return explore(reset, produce, consume, "queue 4");
}
