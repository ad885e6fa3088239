/* orders.c: a test of a queue of orders.h, for record/explore: `record/explore record/broken/orders.c -- -DBUG=1`. */
#include "../include/explore.h"
#include "orders.h"

static ring_calls rec;

/* (with a third put nothing would be lost: it wakes the sleeper) */
enum { CALLS = FORM == BELL ? 2 : 3 };

static void produce(void) {
    for (uint64_t item = 1; item <= CALLS; item++) {
        ring_calls_put(&rec, item);
        if (q_put(item)) ring_calls_stored(&rec); else ring_calls_full(&rec);
    }
#ifdef HAS_CLOSE
    ring_calls_close(&rec);
    q_close();
    ring_calls_closed(&rec);
#endif
}

static void consume(void) {
    for (int i = 0; i < CALLS; i++) {
        uint64_t item = 0;
        ring_calls_take(&rec);
        const int got = q_take(&item);
        if (got == ITEM) ring_calls_item(&rec, item);
        else if (got == NONE) ring_calls_empty(&rec);
        else if (got == CLOSED) ring_calls_told(&rec);
        else ring_calls_take_nothing(&rec);
    }
}

int main(void) { return explore(q_reset, produce, consume, HEAD_LINE); }
