/* my.c: a whole program that records a queue: ./my [SEED] writes the recording (README.md, "A whole program"). */
#define _GNU_SOURCE                                     /* to pin threads, on Linux */
#include <pthread.h>
#include <sched.h>
#include "ring_calls.h"
#include "my_queue.h"                                   /* int my_put(uint64_t item), int my_take(uint64_t *item): 0 if full, empty */

enum { CALLS = 100000 };
static ring_calls rec;
static _Atomic int here;                                /* how many threads have begun */
static uint64_t seed = 1;

/* -DPIN: each side on its own processor; if the system lacks that one, the thread stays where it is. */
static void begin(int processor) {
#ifdef PIN
    cpu_set_t one;
    CPU_ZERO(&one);
    CPU_SET(processor, &one);
    pthread_setaffinity_np(pthread_self(), sizeof one, &one);
#endif
    (void)processor;
    for (here++; here < 2;) sched_yield();              /* the first one waits for the other */
}

/* Between calls mostly no pause, sometimes a short one, rarely a long one: so each side falls behind at times, and the queue gets full and empty. */
static void rest(uint64_t *dice) {
    *dice ^= *dice << 13;
    *dice ^= *dice >> 7;
    *dice ^= *dice << 17;
    if (*dice % 8 == 0) for (volatile uint64_t n = *dice >> 8 & (*dice % 256 == 0 ? 16383 : 255); n > 0;) n = n - 1;
    if (*dice % 1024 == 1) sched_yield();
}

static void *produce(void *unused) {
    uint64_t item = 0, dice = seed * 2 + 1;
    begin(0);
    for (int i = 0; i < CALLS; i++) {
        ring_calls_put(&rec, item);
        if (my_put(item)) { ring_calls_stored(&rec); item++; } else { ring_calls_full(&rec); sched_yield(); }
        rest(&dice);
    }
    return unused;
}

static void *consume(void *unused) {
    uint64_t item, dice = seed * 4 + 3;
    begin(1);
    for (int i = 0; i < CALLS; i++) {
        ring_calls_take(&rec);
        if (my_take(&item)) ring_calls_item(&rec, item); else { ring_calls_empty(&rec); sched_yield(); }
        rest(&dice);
    }
    return unused;
}

int main(int argc, char **argv) {                       /* ./my SEED: another seed, other pauses */
    pthread_t p, c;
    if (argc > 1) seed = strtoull(argv[1], NULL, 10);
    if (!ring_calls_init(&rec, 1 << 20)) return 2;
    /* If your queue lets you, start its counts just below their wrap, as head = tail = UINT32_MAX - 1000: no run gets there otherwise. */
    pthread_create(&p, NULL, produce, NULL);
    pthread_create(&c, NULL, consume, NULL);
    pthread_join(p, NULL);
    pthread_join(c, NULL);
    return !ring_calls_write(&rec, "queue 8", stdout);  /* 8: its capacity */
}
