/* twelve.c: records a producer and a consumer over a queue of twelve.h, as two threads, `twelve PUTS SEED`; or, with -DEXPLORED, as the
 * two sides of a test for explore.h, the same two functions. */
#include <stdio.h>
#include <stdlib.h>
#ifdef EXPLORED
#include "../include/explore.h"
#else
#include <pthread.h>
#include "../include/ring_calls.h"
#endif
#include <sched.h>
#include "twelve.h"

static queue q;
static ring_calls rec;
static uint64_t puts_wanted = FORM == BATCHES ? 4 : FORM == NODES ? 5 : BUG == 5 || BUG == 6 ? 7 : 3;

#ifdef EXPLORED
static void rest(bool stopped) { if (stopped) sched_yield(); }
static bool goes_on(void) { return true; }
#else
/* If the end is lost, the consumer never learns of it: it gives up some takes after the producer has finished. */
static atomic_bool is_over;
static bool goes_on(void) {
    static int late;
    return (late += is_over) < 1000;
}

/* Between calls a side pauses for a moment, sometimes longer, and longer if it was stopped. */
static _Thread_local uint64_t random_state;
static void rest(bool stopped) {
    random_state ^= random_state << 13;
    random_state ^= random_state >> 7;
    random_state ^= random_state << 17;
    for (volatile uint64_t n = random_state % (stopped || random_state % 64 == 0 ? 200 : 8); n > 0;) n = n - 1;
    if (random_state % 4096 == 0 || (stopped && random_state % 64 == 0)) sched_yield();
}
#endif

static void produce(void) {
#if FORM == BATCHES
    for (uint64_t tries = 0, item = 1; tries < puts_wanted; tries++) {
        const uint64_t items[BATCH] = { item, item + 1 };
        ring_calls_put_all(&rec, items, BATCH);
        const unsigned stored = q_put_all(&q, items, BATCH);
        ring_calls_stored_of(&rec, stored, BATCH);
        item += stored;
        rest(stored < BATCH);
    }
#else
    for (uint64_t tries = 0, item = 1; tries < puts_wanted; tries++) {
        ring_calls_put(&rec, item);
        const bool stored = q_put(&q, item);
        if (stored) ring_calls_stored(&rec); else ring_calls_full(&rec);
        item += stored;
        rest(!stored);
    }
#endif
    ring_calls_close(&rec);
    q_close(&q);
    ring_calls_closed(&rec);
}

static void consume(void) {
    for (int got = NONE; got != CLOSED && goes_on();) {
        uint64_t item = 0;
        ring_calls_take(&rec);
        got = q_take(&q, &item);
        if (got == ITEM) ring_calls_item(&rec, item); else if (got == NONE) ring_calls_empty(&rec); else ring_calls_told(&rec);
        rest(got == NONE);
    }
}

#ifdef EXPLORED
static void reset(void) { q_reset(&q); }
int main(void) { return explore(reset, produce, consume, HEAD_LINE); }
#else
/* The first side waits for the other. */
static atomic_int here;
static void meet(void) {
    for (here++; here < 2;) sched_yield();
}

static void *run_producer(void *seed) {
    random_state = *(uint64_t *)seed * 11 + 5;
    meet();
    produce();
    is_over = true;
    return NULL;
}
static void *run_consumer(void *seed) {
    random_state = *(uint64_t *)seed * 13 + 7;
    meet();
    consume();
    return NULL;
}

int main(int argc, char **argv) {
    pthread_t p, c;
    if (argc != 3) { fputs("usage: twelve PUTS SEED\n", stderr); return 2; }
    puts_wanted = strtoull(argv[1], NULL, 10);
    uint64_t seed = strtoull(argv[2], NULL, 10);
    if (!ring_calls_init(&rec, puts_wanted * 64 + (1 << 20))) return 2;
    q_reset(&q);
    if (pthread_create(&p, NULL, run_producer, &seed) || pthread_create(&c, NULL, run_consumer, &seed)) return 2;
    pthread_join(p, NULL);
    pthread_join(c, NULL);
    return !ring_calls_write(&rec, HEAD_LINE, stdout);
}
#endif
