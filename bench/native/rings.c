/* rings.c: the cost of an item through the proved ring in C, and through ordinary rings, for bench/native_bench.py.
 *
 *   rings RING CAPACITY MODULUS BATCH TAKE_BATCH ITEMS    RING is proved (one item per call), several (batches), seq_cst, cached or boost
 *
 * Two threads pass the items 1, 2, ..; a side that finds the ring full or empty pauses as `lamport_ring run` does, and yields on every
 * 256th call. It prints the nanoseconds that all items took; status 1 for a wrong item. An ordinary ring ignores MODULUS, and passes items
 * one by one. */
#define _GNU_SOURCE
#include <pthread.h>
#include <sched.h>
#include <stdatomic.h>
#include <stdio.h>
#include <stdlib.h>
#include <string.h>
#include <time.h>
#include "counter_ring.h"

static size_t capacity, batch, take_batch, items;
static uint64_t *offered, *taken; /* the items to put, and those that were taken */

/* ---- the proved ring */

/* Each handle has cache lines of its own, since each call writes to it. */
static struct {
    _Alignas(128) ring_putter putter;
    _Alignas(128) ring_taker taker;
} ends;

static size_t proved_put(const uint64_t *row, size_t many) {
    (void)many;
    return ring_put(&ends.putter, *row) == RING_DONE;
}

static size_t proved_take(uint64_t *row, size_t most) {
    (void)most;
    return ring_take(&ends.taker, row) == RING_DONE;
}

static size_t several_put(const uint64_t *row, size_t many) {
    size_t stored;
    return ring_put_all(&ends.putter, row, many, &stored) == RING_DONE ? stored : 0;
}

static size_t several_take(uint64_t *row, size_t most) {
    size_t found;
    return ring_take_all(&ends.taker, row, most, &found) == RING_DONE ? found : 0;
}

/* ---- ordinary rings: each index has cache lines of its own; the capacity is a power of two */

static struct {
    _Alignas(128) _Atomic size_t head;
    size_t seen_tail;
    _Alignas(128) _Atomic size_t tail;
    size_t seen_head;
    _Alignas(128) _Atomic uint64_t *cells;
} ring;

/* Sequentially consistent, as in C if no order is given; each call loads the other side's index. */
static size_t seq_cst_put(const uint64_t *row, size_t many) {
    size_t tail = ring.tail;
    (void)many;
    if (tail - ring.head == capacity) return 0;
    ring.cells[tail & (capacity - 1)] = *row;
    ring.tail = tail + 1;
    return 1;
}

static size_t seq_cst_take(uint64_t *row, size_t most) {
    size_t head = ring.head;
    (void)most;
    if (head == ring.tail) return 0;
    *row = ring.cells[head & (capacity - 1)];
    ring.head = head + 1;
    return 1;
}

/* With acquire and release; a side caches the other's index until it needs a newer value. */
static size_t cached_put(const uint64_t *row, size_t many) {
    size_t tail = atomic_load_explicit(&ring.tail, memory_order_relaxed);
    (void)many;
    if (tail - ring.seen_head == capacity) {
        ring.seen_head = atomic_load_explicit(&ring.head, memory_order_acquire);
        if (tail - ring.seen_head == capacity) return 0;
    }
    atomic_store_explicit(&ring.cells[tail & (capacity - 1)], *row, memory_order_relaxed);
    atomic_store_explicit(&ring.tail, tail + 1, memory_order_release);
    return 1;
}

static size_t cached_take(uint64_t *row, size_t most) {
    size_t head = atomic_load_explicit(&ring.head, memory_order_relaxed);
    (void)most;
    if (head == ring.seen_tail) {
        ring.seen_tail = atomic_load_explicit(&ring.tail, memory_order_acquire);
        if (head == ring.seen_tail) return 0;
    }
    *row = atomic_load_explicit(&ring.cells[head & (capacity - 1)], memory_order_relaxed);
    atomic_store_explicit(&ring.head, head + 1, memory_order_release);
    return 1;
}

#ifdef WITH_BOOST /* boost.cpp */
int boost_open(size_t capacity);
size_t boost_put(const uint64_t *row, size_t many);
size_t boost_take(uint64_t *row, size_t most);
#endif

/* ---- the two sides */

typedef size_t put_call(const uint64_t *row, size_t many);
typedef size_t take_call(uint64_t *row, size_t most);

static inline void turn(uint64_t calls) {
    if (calls % 256 == 255) sched_yield();
}

/* A side has had to wait `times` times in a row. */
static void rest(uint64_t times) {
    if (times > 1 && times * capacity > 16) sched_yield();
    else for (size_t i = 0; i < 4 * capacity; i++) __builtin_ia32_pause();
}

static inline __attribute__((always_inline)) void put_items(put_call *put) {
    uint64_t calls = 0, times = 0;
    size_t next = 0;
    while (next < items) {
        size_t many = items - next < batch ? items - next : batch, stored;
        turn(calls++);
        stored = put(offered + next, many);
        next += stored;
        if (stored != 0) times = 0;
        else rest(++times);
    }
}

static inline __attribute__((always_inline)) void take_items(take_call *take) {
    uint64_t calls = 0, times = 0;
    size_t next = 0;
    while (next < items) {
        size_t most = items - next < take_batch ? items - next : take_batch, found;
        turn(calls++);
        found = take(taken + next, most);
        next += found;
        if (found != 0) times = 0;
        else rest(++times);
    }
}

#define SIDES(name)                               \
    static void *name##_puts(void *nothing) {     \
        put_items(name##_put);                    \
        return nothing;                           \
    }                                             \
    static void name##_takes(void) { take_items(name##_take); }
SIDES(proved)
SIDES(several)
SIDES(seq_cst)
SIDES(cached)
#ifdef WITH_BOOST
SIDES(boost)
#endif

static const struct {
    const char *name;
    void *(*puts)(void *);
    void (*takes)(void);
} rings[] = {
    { "proved", proved_puts, proved_takes },
    { "several", several_puts, several_takes },
    { "seq_cst", seq_cst_puts, seq_cst_takes },
    { "cached", cached_puts, cached_takes },
#ifdef WITH_BOOST
    { "boost", boost_puts, boost_takes },
#endif
};

static double now(void) {
    struct timespec at;
    clock_gettime(CLOCK_MONOTONIC, &at);
    return (double)at.tv_sec * 1e9 + (double)at.tv_nsec;
}

static int open_ring(const char *name, size_t modulus) {
    if (strcmp(name, "proved") == 0 || strcmp(name, "several") == 0)
        return ring_open(&ends.putter, &ends.taker, capacity, modulus, 64, batch, take_batch) == RING_OPENED;
#ifdef WITH_BOOST
    if (strcmp(name, "boost") == 0) return boost_open(capacity);
#endif
    ring.cells = calloc(capacity, sizeof *ring.cells);
    return ring.cells != NULL && (capacity & (capacity - 1)) == 0 && batch == 1 && take_batch == 1;
}

int main(int words, char **word) {
    if (words == 7) {
        capacity = strtoul(word[2], NULL, 10);
        batch = strtoul(word[4], NULL, 10);
        take_batch = strtoul(word[5], NULL, 10);
        items = strtoul(word[6], NULL, 10);
        offered = malloc(items * sizeof *offered);
        taken = malloc(items * sizeof *taken);
        if (!offered || !taken) return 1;
        for (size_t i = 0; i < items; i++) offered[i] = i;
        for (size_t i = 0; i < sizeof rings / sizeof *rings; i++) {
            pthread_t puts;
            double began;
            if (strcmp(word[1], rings[i].name) != 0) continue;
            if (!open_ring(word[1], strtoul(word[3], NULL, 10))) break;
            began = now();
            if (pthread_create(&puts, NULL, rings[i].puts, NULL) != 0) return 1;
            rings[i].takes();
            pthread_join(puts, NULL);
            began = now() - began;
            if (memcmp(offered, taken, items * sizeof *taken) != 0) return fprintf(stderr, "a wrong item\n"), 1;
            printf("%.0f\n", began);
            return 0;
        }
    }
    fprintf(stderr, "usage: rings proved|several|seq_cst|cached|boost CAPACITY MODULUS BATCH TAKE_BATCH ITEMS\n");
    return 2;
}
