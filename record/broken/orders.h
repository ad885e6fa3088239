/* orders.h: small queues for one producer and one consumer in C11, of eleven common forms, each correct if BUG is 0; and 15 bugs in memory orders, or in
 * assumptions about an operation, like those found in such queues. No sequentially consistent execution shows 1 to 11: a side must see the other's stores
 * late. README.md has a table of them. -DBUG=n selects a bug, and the form that has it; -DBUG=0 -DFORM=n a form. Slots are atomic, so none is a data race,
 * except 10, whose slot is plain. */
#include <pthread.h>
#include <stdatomic.h>
#include <stdbool.h>
#include <stdint.h>

#ifndef BUG
#define BUG 0
#endif

#define RING 1
#define SEQUENCES 2
#define FENCES 3
#define CACHED 4
#define CLOSES 5
#define HANDSHAKE 6
#define BELL 7
#define CONDITION 8
#define STATES 9
#define NODES 10
#define SEQLOCK 11
#ifndef FORM
#if BUG == 1 || BUG == 2
#define FORM RING
#elif BUG == 3 || BUG == 4
#define FORM SEQUENCES
#elif BUG == 5 || BUG == 6
#define FORM FENCES
#elif BUG == 7
#define FORM CACHED
#elif BUG == 8 || BUG == 9
#define FORM CLOSES
#elif BUG == 10
#define FORM HANDSHAKE
#elif BUG == 11 || BUG == 12
#define FORM BELL
#elif BUG == 13
#define FORM CONDITION
#elif BUG == 14 || BUG == 15
#define FORM STATES
#else
#define FORM RING
#endif
#endif

enum { NONE, ITEM, CLOSED, CAPACITY = 2 };

#define LOAD(word, order) atomic_load_explicit(&(word), memory_order_##order)
#define STORE(word, value, order) atomic_store_explicit(&(word), value, memory_order_##order)
/* The right memory order, or `relaxed` with this bug. */
#define LOAD_BUT(bug, word, order) (BUG == (bug) ? LOAD(word, relaxed) : LOAD(word, order))
#define STORE_BUT(bug, word, value, order) do { if (BUG == (bug)) STORE(word, value, relaxed); else STORE(word, value, order); } while (0)

#if FORM == RING
/* Counts that only grow, over atomic slots. Bug 1: the tail is stored relaxed. Bug 2: it is loaded relaxed. */
#define HEAD_LINE "queue 2"
static _Atomic uint64_t slot[CAPACITY], head, tail;

static void q_reset(void) {
    STORE(head, 0, relaxed);
    STORE(tail, 0, relaxed);
    for (int i = 0; i < CAPACITY; i++) STORE(slot[i], 0, relaxed);
}

static bool q_put(uint64_t item) {
    const uint64_t t = LOAD(tail, relaxed);
    if (t - LOAD(head, acquire) == CAPACITY) return false;
    STORE(slot[t % CAPACITY], item, relaxed);
    STORE_BUT(1, tail, t + 1, release);
    return true;
}

static int q_take(uint64_t *item) {
    const uint64_t h = LOAD(head, relaxed);
    if (h == LOAD_BUT(2, tail, acquire)) return NONE;
    *item = LOAD(slot[h % CAPACITY], relaxed);
    STORE(head, h + 1, release);
    return ITEM;
}
#endif

#if FORM == SEQUENCES
/* Each slot has a number: that of the put that may use it next, or, one higher, of the take. Bug 3: the put stores it relaxed. Bug 4: the
 * take loads it relaxed. */
#define HEAD_LINE "queue 2"
static struct { _Atomic uint64_t number, item; } slot[CAPACITY];
static uint64_t put_number, take_number;

static void q_reset(void) {
    for (unsigned i = 0; i < CAPACITY; i++) {
        STORE(slot[i].number, i, relaxed);
        STORE(slot[i].item, 0, relaxed);
    }
    put_number = take_number = 0;
}

static bool q_put(uint64_t item) {
    if (LOAD(slot[put_number % CAPACITY].number, acquire) != put_number) return false;
    STORE(slot[put_number % CAPACITY].item, item, relaxed);
    STORE_BUT(3, slot[put_number % CAPACITY].number, put_number + 1, release);
    put_number++;
    return true;
}

static int q_take(uint64_t *item) {
    if (LOAD_BUT(4, slot[take_number % CAPACITY].number, acquire) != take_number + 1) return NONE;
    *item = LOAD(slot[take_number % CAPACITY].item, relaxed);
    STORE(slot[take_number % CAPACITY].number, take_number + CAPACITY, release);
    take_number++;
    return ITEM;
}
#endif

#if FORM == FENCES
/* Relaxed accesses, ordered by fences. Bug 5: the fence of the put is missing. Bug 6: the take's first fence is missing. */
#define HEAD_LINE "queue 2"
static _Atomic uint64_t slot[CAPACITY], head, tail;

static void q_reset(void) {
    STORE(head, 0, relaxed);
    STORE(tail, 0, relaxed);
    for (int i = 0; i < CAPACITY; i++) STORE(slot[i], 0, relaxed);
}

static bool q_put(uint64_t item) {
    const uint64_t t = LOAD(tail, relaxed);
    if (t - LOAD(head, relaxed) == CAPACITY) return false;
    atomic_thread_fence(memory_order_acquire);
    STORE(slot[t % CAPACITY], item, relaxed);
    if (BUG != 5) atomic_thread_fence(memory_order_release);
    STORE(tail, t + 1, relaxed);
    return true;
}

static int q_take(uint64_t *item) {
    const uint64_t h = LOAD(head, relaxed);
    if (h == LOAD(tail, relaxed)) return NONE;
    if (BUG != 6) atomic_thread_fence(memory_order_acquire);
    *item = LOAD(slot[h % CAPACITY], relaxed);
    atomic_thread_fence(memory_order_release);
    STORE(head, h + 1, relaxed);
    return ITEM;
}
#endif

#if FORM == CACHED
/* The consumer caches the tail, and loads it again only if the cached value says empty. Bug 7: it loads it again relaxed. */
#define HEAD_LINE "queue 2"
static _Atomic uint64_t slot[CAPACITY], head, tail;
static uint64_t cached;

static void q_reset(void) {
    STORE(head, 0, relaxed);
    STORE(tail, 0, relaxed);
    cached = 0;
    for (int i = 0; i < CAPACITY; i++) STORE(slot[i], 0, relaxed);
}

static bool q_put(uint64_t item) {
    const uint64_t t = LOAD(tail, relaxed);
    if (t - LOAD(head, acquire) == CAPACITY) return false;
    STORE(slot[t % CAPACITY], item, relaxed);
    STORE(tail, t + 1, release);
    return true;
}

static int q_take(uint64_t *item) {
    const uint64_t h = LOAD(head, relaxed);
    if (h == cached) cached = LOAD_BUT(7, tail, acquire);
    if (h == cached) return NONE;
    *item = LOAD(slot[h % CAPACITY], relaxed);
    STORE(head, h + 1, release);
    return ITEM;
}
#endif

#if FORM == CLOSES
/* A ring that can be closed: a take that finds nothing looks at the close, and then again for items. Bug 8: the close is stored relaxed. Bug 9: it is
 * loaded relaxed. */
#define HEAD_LINE "queue 2"
#define HAS_CLOSE
static _Atomic uint64_t slot[CAPACITY], head, tail;
static atomic_bool is_closed;

static void q_reset(void) {
    STORE(head, 0, relaxed);
    STORE(tail, 0, relaxed);
    STORE(is_closed, false, relaxed);
    for (int i = 0; i < CAPACITY; i++) STORE(slot[i], 0, relaxed);
}

static bool q_put(uint64_t item) {
    const uint64_t t = LOAD(tail, relaxed);
    if (t - LOAD(head, acquire) == CAPACITY) return false;
    STORE(slot[t % CAPACITY], item, relaxed);
    STORE(tail, t + 1, release);
    return true;
}

static void q_close(void) { STORE_BUT(8, is_closed, true, release); }

static int q_take(uint64_t *item) {
    const uint64_t h = LOAD(head, relaxed);
    if (h == LOAD(tail, acquire)) {
        if (!LOAD_BUT(9, is_closed, acquire)) return NONE;
        if (h == LOAD(tail, acquire)) return CLOSED;
    }
    *item = LOAD(slot[h % CAPACITY], relaxed);
    STORE(head, h + 1, release);
    return ITEM;
}
#endif

#if FORM == HANDSHAKE
/* One plain slot and two flags: a side that needs the slot raises its own flag and looks at the other's, as in Dekker's algorithm; if that is raised it
 * gives up. Bug 10: with release and acquire, not seq_cst: each may miss the other's. */
#define HEAD_LINE "queue 0 1"
static atomic_bool wants[2];
static uint64_t slot;
static bool full;

static void q_reset(void) {
    STORE(wants[0], false, relaxed);
    STORE(wants[1], false, relaxed);
    slot = 0;
    full = false;
}

static bool enter(int me) {
    if (BUG == 10) STORE(wants[me], true, release); else STORE(wants[me], true, seq_cst);
    const bool other = BUG == 10 ? LOAD(wants[!me], acquire) : LOAD(wants[!me], seq_cst);
    if (other) STORE(wants[me], false, release);
    return !other;
}

static bool q_put(uint64_t item) {
    if (!enter(0)) return false;
    const bool stores = !full;
    if (stores) slot = item;
    full = true;
    STORE(wants[0], false, release);
    return stores;
}

static int q_take(uint64_t *item) {
    if (!enter(1)) return CLOSED + 1;
    const bool takes = full;
    if (takes) *item = slot;
    full = false;
    STORE(wants[1], false, release);
    return takes ? ITEM : NONE;
}
#endif

#if FORM == BELL
/* A ring whose consumer sleeps while it is empty: it announces this, looks once more, and sleeps; the producer stores its item, and checks for a sleeper.
 * Each side has a fence between the two. Bug 11: the producer's fence is missing. Bug 12: the wake-up is lost, since the producer checks
 * before it stores. */
#define HEAD_LINE "queue 2"
static _Atomic uint64_t slot[CAPACITY], head, tail;
static atomic_bool sleeps;
static pthread_mutex_t lock = PTHREAD_MUTEX_INITIALIZER;
static pthread_cond_t bell = PTHREAD_COND_INITIALIZER;
static bool rung;

static void q_reset(void) {
    STORE(head, 0, relaxed);
    STORE(tail, 0, relaxed);
    STORE(sleeps, false, relaxed);
    rung = false;
    for (int i = 0; i < CAPACITY; i++) STORE(slot[i], 0, relaxed);
}

static bool q_put(uint64_t item) {
    const uint64_t t = LOAD(tail, relaxed);
    if (t - LOAD(head, acquire) == CAPACITY) return false;
    STORE(slot[t % CAPACITY], item, relaxed);
    bool asleep = BUG == 12 && LOAD(sleeps, relaxed);
    STORE(tail, t + 1, release);
    if (BUG != 11) atomic_thread_fence(memory_order_seq_cst);
    if (BUG != 12) asleep = LOAD(sleeps, relaxed);
    if (!asleep) return true;
    pthread_mutex_lock(&lock);
    rung = true;
    pthread_cond_signal(&bell);
    pthread_mutex_unlock(&lock);
    return true;
}

static int q_take(uint64_t *item) {
    const uint64_t h = LOAD(head, relaxed);
    while (h == LOAD(tail, acquire)) {
        STORE(sleeps, true, relaxed);
        atomic_thread_fence(memory_order_seq_cst);
        if (h == LOAD(tail, acquire)) {
            pthread_mutex_lock(&lock);
            while (!rung) pthread_cond_wait(&bell, &lock);
            rung = false;
            pthread_mutex_unlock(&lock);
        }
        STORE(sleeps, false, relaxed);
    }
    *item = LOAD(slot[h % CAPACITY], relaxed);
    STORE(head, h + 1, release);
    return ITEM;
}
#endif

#if FORM == CONDITION
/* One slot under a lock, with condition variables. Bug 13: the consumer does not look again after a wake-up, which may be spurious. */
#define HEAD_LINE "queue 1"
static pthread_mutex_t lock = PTHREAD_MUTEX_INITIALIZER;
static pthread_cond_t changes = PTHREAD_COND_INITIALIZER;
static uint64_t slot;
static bool full;

static void q_reset(void) {
    slot = 0;
    full = false;
}

static bool q_put(uint64_t item) {
    pthread_mutex_lock(&lock);
    while (full) pthread_cond_wait(&changes, &lock);
    slot = item;
    full = true;
    pthread_cond_signal(&changes);
    pthread_mutex_unlock(&lock);
    return true;
}

static int q_take(uint64_t *item) {
    pthread_mutex_lock(&lock);
    if (BUG == 13) { if (!full) pthread_cond_wait(&changes, &lock); } else while (!full) pthread_cond_wait(&changes, &lock);
    *item = slot;
    full = false;
    pthread_cond_signal(&changes);
    pthread_mutex_unlock(&lock);
    return ITEM;
}
#endif

#if FORM == STATES
/* One slot with a state, which a side changes by a weak compare-and-swap; that may fail although the state is the expected one. Bug 14: a put takes such
 * a failure for full. Bug 15: a take takes it for empty. */
#define HEAD_LINE "queue 1"
enum { FREE, BUSY, FULL };
static atomic_int state;
static _Atomic uint64_t slot;

static void q_reset(void) {
    STORE(state, FREE, relaxed);
    STORE(slot, 0, relaxed);
}

/* Changes the state if it is the expected one; with a bug it tries only once. */
static bool change(int expected, int wanted, bool once) {
    int seen = expected;
    while (!atomic_compare_exchange_weak_explicit(&state, &seen, wanted, memory_order_acquire, memory_order_relaxed)) {
        if (once || seen != expected) return false;
    }
    return true;
}

static bool q_put(uint64_t item) {
    if (!change(FREE, BUSY, BUG == 14)) return false;
    STORE(slot, item, relaxed);
    STORE(state, FULL, release);
    return true;
}

static int q_take(uint64_t *item) {
    if (!change(FULL, BUSY, BUG == 15)) return NONE;
    *item = LOAD(slot, relaxed);
    STORE(state, FREE, release);
    return ITEM;
}
#endif

#if FORM == NODES
/* Nodes from a pool, each used once, with plain items: a put links its node to the last one, a take advances to the next. */
#define HEAD_LINE "queue"
enum { POOL = 8 };
static struct { _Atomic unsigned next; uint64_t item; } node[POOL];
static unsigned last, first, used;

static void q_reset(void) {
    for (int i = 0; i < POOL; i++) {
        STORE(node[i].next, 0, relaxed);
        node[i].item = 0;
    }
    last = first = 0;
    used = 1;
}

static bool q_put(uint64_t item) {
    const unsigned mine = used++;
    node[mine].item = item;
    STORE(node[last].next, mine, release);
    last = mine;
    return true;
}

static int q_take(uint64_t *item) {
    const unsigned next = LOAD(node[first].next, acquire);
    if (next == 0) return NONE;
    *item = node[next].item;
    first = next;
    return ITEM;
}
#endif

#if FORM == SEQLOCK
/* One slot of two words and a number, odd while the slot is written: a take reads the number, the words, and the number again, and takes nothing if it
 * has changed. The producer writes only after the last item was taken. */
#define HEAD_LINE "queue 1"
static _Atomic uint64_t number, taken, half[2];

static void q_reset(void) {
    STORE(number, 0, relaxed);
    STORE(taken, 0, relaxed);
    STORE(half[0], 0, relaxed);
    STORE(half[1], 0, relaxed);
}

static bool q_put(uint64_t item) {
    const uint64_t n = LOAD(number, relaxed);
    if (LOAD(taken, acquire) != n) return false;
    STORE(number, n + 1, relaxed);
    atomic_thread_fence(memory_order_release);
    STORE(half[0], item, relaxed);
    STORE(half[1], item, relaxed);
    STORE(number, n + 2, release);
    return true;
}

static int q_take(uint64_t *item) {
    const uint64_t n = LOAD(number, acquire);
    if (n % 2 == 1 || n == LOAD(taken, relaxed)) return NONE;
    const uint64_t one = LOAD(half[0], relaxed), other = LOAD(half[1], relaxed);
    atomic_thread_fence(memory_order_acquire);
    if (LOAD(number, relaxed) != n) return NONE;
    *item = one == other ? one : UINT64_MAX;
    STORE(taken, n, release);
    return ITEM;
}
#endif
