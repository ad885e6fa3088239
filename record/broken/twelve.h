/* twelve.h: small queues for one producer and one consumer in C11, of seven common forms with their common memory orders, each correct if BUG
 * is 0; and 13 bugs like those found in such queues. README.md lists them. -DBUG=n selects a bug, and the form that has it; -DBUG=0 -DFORM=n a form. */
#include <stdatomic.h>
#include <stdbool.h>
#include <stdint.h>
#include <string.h>

#ifndef BUG
#define BUG 0
#endif

#define COUNTS 1
#define SLOT_FREE 2
#define CACHED 3
#define BLOCKING 4
#define BATCHES 5
#define NODES 6
#define WIDE 7
#ifndef FORM
#if BUG == 3
#define FORM CACHED
#elif BUG == 7 || BUG == 12
#define FORM SLOT_FREE
#elif BUG == 8
#define FORM BLOCKING
#elif BUG == 9
#define FORM NODES
#elif BUG == 10
#define FORM BATCHES
#elif BUG == 13
#define FORM WIDE
#else
#define FORM COUNTS
#endif
#endif

enum { NONE, ITEM, CLOSED };

#define LOAD(word) atomic_load_explicit(&(word), memory_order_relaxed)
#define ACQUIRE(word) atomic_load_explicit(&(word), memory_order_acquire)
#define RELEASE(word, value) atomic_store_explicit(&(word), value, memory_order_release)

#if FORM == COUNTS
/* Counts that only grow, and wrap with their type. Bugs 1, 2, 4, 5, 6, 11. */
#if BUG == 5
typedef uint16_t count;
enum { CAPACITY = 6, START = UINT16_MAX - 1 };
#elif BUG == 6
typedef uint32_t count;
enum { CAPACITY = 6 };
#define START (UINT32_MAX - 1)
#else
typedef uint64_t count;
enum { CAPACITY = 2, START = 0 };
#endif
#define HEAD_LINE (CAPACITY == 6 ? "queue 6" : "queue 2")

typedef struct { uint64_t slot[CAPACITY]; _Atomic count head, tail; atomic_bool closed; } queue;

static void q_reset(queue *q) {
    memset(q->slot, 0, sizeof q->slot);
    atomic_init(&q->head, START);
    atomic_init(&q->tail, START);
    atomic_init(&q->closed, false);
}

static bool q_put(queue *q, uint64_t item) {
    const count tail = LOAD(q->tail), inside = (count)(tail - ACQUIRE(q->head));
    if (BUG == 4 ? inside > CAPACITY : inside >= CAPACITY) return false;
    if (BUG == 2) RELEASE(q->tail, (count)(tail + 1));
    q->slot[tail % CAPACITY] = item;
    if (BUG == 1) atomic_store_explicit(&q->tail, tail + 1, memory_order_relaxed);
    else if (BUG != 2) RELEASE(q->tail, (count)(tail + 1));
    return true;
}

static bool q_look(queue *q, uint64_t *item) {
    const count head = LOAD(q->head);
    if (head == ACQUIRE(q->tail)) return false;
    *item = q->slot[head % CAPACITY];
    RELEASE(q->head, (count)(head + 1));
    return BUG != 11 || ACQUIRE(q->tail) != (count)(head + 1);
}
#endif

#if FORM == SLOT_FREE
/* Slots from head up to tail, of which one stays free. Bugs 7 and 12. */
enum { SLOTS = 3 };
#define HEAD_LINE "queue 2"
typedef struct { uint64_t slot[SLOTS]; atomic_uint head, tail; atomic_bool closed; } queue;

static void q_reset(queue *q) {
    memset(q->slot, 0, sizeof q->slot);
    atomic_init(&q->head, 0);
    atomic_init(&q->tail, 0);
    atomic_init(&q->closed, false);
}

static bool q_put(queue *q, uint64_t item) {
    const unsigned tail = LOAD(q->tail), next = (tail + 1) % SLOTS;
    if (next == ACQUIRE(q->head)) return false;
    q->slot[tail] = item;
    RELEASE(q->tail, next);
    return true;
}

static bool q_look(queue *q, uint64_t *item) {
    const unsigned head = LOAD(q->head), next = (head + 1) % SLOTS;
    if (head == ACQUIRE(q->tail)) return false;
    *item = q->slot[head];
    if (BUG != 12 || next != 0) RELEASE(q->head, next);
    return true;
}
#endif

#if FORM == CACHED
/* Each side caches the other's count, and loads it again if the cached one would stop it. Bug 3. */
enum { CAPACITY = 2 };
#define HEAD_LINE "queue 2"
typedef struct { uint64_t slot[CAPACITY]; _Atomic uint64_t head, tail; uint64_t seen_head, seen_tail; atomic_bool closed; } queue;

static void q_reset(queue *q) {
    memset(q->slot, 0, sizeof q->slot);
    atomic_init(&q->head, 0);
    atomic_init(&q->tail, 0);
    atomic_init(&q->closed, false);
    q->seen_head = q->seen_tail = 0;
}

static bool q_put(queue *q, uint64_t item) {
    const uint64_t tail = LOAD(q->tail);
    if (tail - q->seen_head == CAPACITY) {
        const uint64_t before = q->seen_head;
        q->seen_head = ACQUIRE(q->head);
        if (tail - (BUG == 3 ? before : q->seen_head) == CAPACITY) return false;
    }
    q->slot[tail % CAPACITY] = item;
    RELEASE(q->tail, tail + 1);
    return true;
}

static bool q_look(queue *q, uint64_t *item) {
    const uint64_t head = LOAD(q->head);
    if (head == q->seen_tail && head == (q->seen_tail = ACQUIRE(q->tail))) return false;
    *item = q->slot[head % CAPACITY];
    RELEASE(q->head, head + 1);
    return true;
}
#endif

#if FORM == BLOCKING
#include <linux/futex.h>
#include <sys/syscall.h>
#include <unistd.h>

/* Both sides wait on a futex, so this needs Linux: each change increments the count of events, and wakes the other. Bug 8. */
enum { CAPACITY = 2 };
#define HEAD_LINE "queue 2"
typedef struct { uint64_t slot[CAPACITY]; _Atomic uint64_t head, tail; atomic_uint events; atomic_bool closed; } queue;

static void q_reset(queue *q) {
    memset(q->slot, 0, sizeof q->slot);
    atomic_init(&q->head, 0);
    atomic_init(&q->tail, 0);
    atomic_init(&q->events, 0);
    atomic_init(&q->closed, false);
}

static void q_wait(queue *q, unsigned events) { syscall(SYS_futex, &q->events, FUTEX_WAIT_PRIVATE, events, NULL, NULL, 0); }

static void q_wake(queue *q) {
    atomic_fetch_add_explicit(&q->events, 1, memory_order_release);
    syscall(SYS_futex, &q->events, FUTEX_WAKE_PRIVATE, 1, NULL, NULL, 0);
}

static bool q_put(queue *q, uint64_t item) {
    const uint64_t tail = LOAD(q->tail);
    for (;;) {
        const unsigned events = ACQUIRE(q->events);
        if (tail - ACQUIRE(q->head) < CAPACITY) break;
        q_wait(q, events);
    }
    q->slot[tail % CAPACITY] = item;
    RELEASE(q->tail, tail + 1);
    q_wake(q);
    return true;
}

static int q_take(queue *q, uint64_t *item) {
    const uint64_t head = LOAD(q->head);
    for (;;) {
        const unsigned events = ACQUIRE(q->events);
        const bool closed = ACQUIRE(q->closed);
        if (head != ACQUIRE(q->tail)) break;
        if (closed) return CLOSED;
        q_wait(q, events);
    }
    *item = q->slot[head % CAPACITY];
    RELEASE(q->head, head + 1);
    q_wake(q);
    return ITEM;
}

static void q_close(queue *q) {
    RELEASE(q->closed, true);
    if (BUG == 8) syscall(SYS_futex, &q->events, FUTEX_WAKE_PRIVATE, 1, NULL, NULL, 0);
    else q_wake(q);
}
#endif

#if FORM == BATCHES
/* Puts of several items with one move of the tail, takes of one; one slot stays free. Bug 10. */
enum { SLOTS = 4, BATCH = 2 };
#define HEAD_LINE "queue 3"
typedef struct { uint64_t slot[SLOTS]; atomic_uint head, tail; atomic_bool closed; } queue;

static void q_reset(queue *q) {
    memset(q->slot, 0, sizeof q->slot);
    atomic_init(&q->head, 0);
    atomic_init(&q->tail, 0);
    atomic_init(&q->closed, false);
}

/* Stores as many of the n items as there is room for. */
static unsigned q_put_all(queue *q, const uint64_t *items, unsigned n) {
    const unsigned tail = LOAD(q->tail), head = ACQUIRE(q->head);
    /* in two parts, up to the last slot and from the first one on; if head is slot 0, the last slot is the free one */
    const unsigned parts = tail < head ? head - tail - 1 : SLOTS - tail + (head > 0 ? head - 1 : 0);
    const unsigned room = BUG == 10 ? parts : (head + SLOTS - tail - 1) % SLOTS;
    if (n > room) n = room;
    for (unsigned i = 0; i < n; i++) q->slot[(tail + i) % SLOTS] = items[i];
    if (n > 0) RELEASE(q->tail, (tail + n) % SLOTS);
    return n;
}

static bool q_look(queue *q, uint64_t *item) {
    const unsigned head = LOAD(q->head);
    if (head == ACQUIRE(q->tail)) return false;
    *item = q->slot[head];
    RELEASE(q->head, (head + 1) % SLOTS);
    return true;
}
#endif

#if FORM == NODES
/* A list of nodes from a pool that both sides use, by compare-and-swap of its top, which has a count of changes beside it. A take
 * copies the item into two nodes of its own (an answer, say), so a put may find up to two nodes fewer than are free. Bug 9. */
enum { POOL = 6 };
#define HEAD_LINE "queue 2 4"
typedef struct { uint64_t item; atomic_uint next, below; } node;
typedef struct { node nodes[POOL]; _Atomic uint64_t top; unsigned first, last; atomic_bool closed; } queue;

/* The count of changes plus one, in its position in the top. */
static uint64_t next_count(uint64_t top) { return BUG == 9 ? 0 : ((top >> 32) + 1) << 32; }

static void pool_give(queue *q, unsigned n) {
    uint64_t top = LOAD(q->top);
    do atomic_store_explicit(&q->nodes[n].below, (unsigned)top, memory_order_relaxed);
    while (!atomic_compare_exchange_weak_explicit(&q->top, &top, next_count(top) | n, memory_order_release, memory_order_relaxed));
}

/* The node on top; 0 if there is none. */
static unsigned pool_take(queue *q) {
    uint64_t top = ACQUIRE(q->top), rest;
    do {
        if ((unsigned)top == 0) return 0;
        rest = LOAD(q->nodes[(unsigned)top].below);
    } while (!atomic_compare_exchange_weak_explicit(&q->top, &top, next_count(top) | rest, memory_order_acquire, memory_order_acquire));
    return (unsigned)top;
}

/* Node 1 is the one before the first item. */
static void q_reset(queue *q) {
    memset(q, 0, sizeof *q);
    q->first = q->last = 1;
    atomic_init(&q->top, 2);
    for (unsigned n = 2; n + 1 < POOL; n++) atomic_init(&q->nodes[n].below, n + 1);
}

static bool q_put(queue *q, uint64_t item) {
    const unsigned n = pool_take(q);
    if (n == 0) return false;
    q->nodes[n].item = item;
    atomic_store_explicit(&q->nodes[n].next, 0, memory_order_relaxed);
    RELEASE(q->nodes[q->last].next, n);
    q->last = n;
    return true;
}

static bool q_look(queue *q, uint64_t *item) {
    const unsigned before = q->first, n = ACQUIRE(q->nodes[before].next);
    if (n == 0) return false;
    const unsigned a = pool_take(q), b = pool_take(q);
    *item = q->nodes[n].item;
    if (a) q->nodes[a].item = *item;
    if (b) q->nodes[b].item = *item;
    q->first = n;
    pool_give(q, before);
    if (a) pool_give(q, a);
    if (b) pool_give(q, b);
    return true;
}
#endif

#if FORM == WIDE
/* Items of 128 bits, in two words. Bug 13. */
enum { CAPACITY = 2 };
#define HEAD_LINE "queue 2"
typedef struct { _Atomic uint64_t low[CAPACITY], high[CAPACITY], head, tail; atomic_bool closed; } queue;

static void q_reset(queue *q) {
    for (int i = 0; i < CAPACITY; i++) {
        atomic_init(&q->low[i], 0);
        atomic_init(&q->high[i], 0);
    }
    atomic_init(&q->head, 0);
    atomic_init(&q->tail, 0);
    atomic_init(&q->closed, false);
}

/* (The halves are equal, so that a recording can have the item as one number.) */
static bool q_put(queue *q, uint64_t item) {
    const uint64_t tail = LOAD(q->tail);
    if (tail - ACQUIRE(q->head) == CAPACITY) return false;
    atomic_store_explicit(&q->low[tail % CAPACITY], item, memory_order_relaxed);
    if (BUG == 13) RELEASE(q->tail, tail + 1);
    atomic_store_explicit(&q->high[tail % CAPACITY], item, memory_order_relaxed);
    if (BUG != 13) RELEASE(q->tail, tail + 1);
    return true;
}

static bool q_look(queue *q, uint64_t *item) {
    const uint64_t head = LOAD(q->head);
    if (head == ACQUIRE(q->tail)) return false;
    const uint64_t low = LOAD(q->low[head % CAPACITY]), high = LOAD(q->high[head % CAPACITY]);
    *item = low == high ? low : 1000000 * high + low;
    RELEASE(q->head, head + 1);
    return true;
}
#endif

#if FORM != BLOCKING
/* Nothing, then closed, then nothing once more: only this is the end. */
static int q_take(queue *q, uint64_t *item) {
    if (q_look(q, item)) return ITEM;
    if (!ACQUIRE(q->closed)) return NONE;
    return BUG != 7 && q_look(q, item) ? ITEM : CLOSED;
}

static void q_close(queue *q) { RELEASE(q->closed, true); }
#endif
