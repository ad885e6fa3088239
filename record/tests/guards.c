/* guards.c: for record/test: a correct queue of 1 for explore.h, whose condition is written in one of seven ways (-DGUARD=1 to 7). Each side looks whose turn
 * it is, by an acquire, and only then at a plain word that is of the side whose turn it is. gcc's pass `reassoc` makes five of the ways look at that word
 * in any case, which is a data race that the text does not have. */
#include <stdatomic.h>
#include <stdbool.h>
#include "explore.h"

#define TURN atomic_load_explicit(&turn, memory_order_acquire)
#if GUARD == 1
#define MAY_PUT(body) if (!TURN && !full) { body }
#define MAY_TAKE(body) if (TURN && full) { body }
#elif GUARD == 2
#define MAY_PUT(body) if (TURN == 0 && full == 0) { body }
#define MAY_TAKE(body) if (TURN == 1 && full == 1) { body }
#elif GUARD == 3
#define MAY_PUT(body) if (!TURN) if (!full) { body }
#define MAY_TAKE(body) if (TURN) if (full) { body }
#elif GUARD == 4
#define MAY_PUT(body) if (TURN < 1 && full < 1) { body }
#define MAY_TAKE(body) if (TURN > 0 && full > 0) { body }
#elif GUARD == 5
#define MAY_PUT(body) if (!(TURN || full)) { body }
#define MAY_TAKE(body) if (!(!TURN || !full)) { body }
#elif GUARD == 6
#define MAY_PUT(body) if (TURN ? 0 : !full) { body }
#define MAY_TAKE(body) if (TURN ? full : 0) { body }
#else
#define MAY_PUT(body) if (TURN != 1 && full != 1) { body }
#define MAY_TAKE(body) if (TURN != 0 && full != 0) { body }
#endif

static ring_calls rec;
static atomic_int turn;                 /* 0: the producer's, 1: the consumer's */
static unsigned full;
static uint64_t slot;

static void reset(void) {
    turn = 0;
    full = 0;
    slot = 0;
}

static bool my_put(uint64_t item) {
    bool stored = false;
    MAY_PUT(slot = item; full = 1; stored = true; atomic_store_explicit(&turn, 1, memory_order_release);)
    return stored;
}

static bool my_take(uint64_t *item) {
    bool taken = false;
    MAY_TAKE(*item = slot; full = 0; taken = true; atomic_store_explicit(&turn, 0, memory_order_release);)
    return taken;
}

static void produce(void) {
    for (uint64_t item = 1; item <= 3; item++) {
        ring_calls_put(&rec, item);
        if (my_put(item)) ring_calls_stored(&rec); else ring_calls_full(&rec);
    }
}

static void consume(void) {
    for (int i = 0; i < 3; i++) {
        uint64_t item;
        ring_calls_take(&rec);
        if (my_take(&item)) ring_calls_item(&rec, item); else ring_calls_empty(&rec);
    }
}

int main(void) { return explore(reset, produce, consume, "queue 1"); }
