/* explore_test.c: explore_test WAY: for record/test, small tests for explore.h: queues that wait by all that it models, and tests that are
 * hard for it. Build it as explore.h says. */
#include "explore.h"
#include <assert.h>
#include <errno.h>
#include <linux/futex.h>
#include <pthread.h>
#include <sched.h>
#include <semaphore.h>
#include <stdatomic.h>
#include <stdbool.h>
#include <sys/syscall.h>
#include <threads.h>
#include <time.h>
#include <unistd.h>

enum { CAPACITY = 2, ITEMS = 3 };
static ring_calls rec;

/* A plain ring, to be used under some lock, or with its counts atomic. */
static uint64_t slot[CAPACITY];
static uint64_t head, tail;
static bool over;
static atomic_uint word, bell, spins;
static _Atomic uint64_t shared_head, shared_tail;
static pthread_mutex_t mutex = PTHREAD_MUTEX_INITIALIZER;
static pthread_cond_t changed = PTHREAD_COND_INITIALIZER;
static mtx_t c11_mutex;
static cnd_t c11_changed;
static sem_t room, there;
static bool has_lost, breaks_order;

static void reset(void) {
    head = tail = 0;
    over = false;
    for (int i = 0; i < CAPACITY; i++) slot[i] = 0;
    atomic_init(&word, 0);
    atomic_init(&bell, 0);
    atomic_init(&spins, 0);
    atomic_init(&shared_head, 0);
    atomic_init(&shared_tail, 0);
    sem_init(&room, 0, CAPACITY);
    sem_init(&there, 0, 0);
}

static bool plain_put(uint64_t item) {
    if (tail - head == CAPACITY) return false;
    slot[tail++ % CAPACITY] = item;
    return true;
}

static bool plain_take(uint64_t *item) {
    if (head == tail) return false;
    *item = slot[head++ % CAPACITY];
    return true;
}

/* Locks, and what is done under them, each of the same form. */
static void lock_posix(void) { pthread_mutex_lock(&mutex); }
static void unlock_posix(void) { pthread_mutex_unlock(&mutex); }
static void wait_posix(void) { pthread_cond_wait(&changed, &mutex); }
static void wake_posix(void) { pthread_cond_signal(&changed); }
static void lock_c11(void) { mtx_lock(&c11_mutex); }
static void unlock_c11(void) { mtx_unlock(&c11_mutex); }
static void wait_c11(void) { cnd_wait(&c11_changed, &c11_mutex); }
static void wake_c11(void) { cnd_broadcast(&c11_changed); }
static void lock_by_spin(void) { while (atomic_exchange_explicit(&word, 1, memory_order_acquire)) {} }
static void unlock_spin(void) { atomic_store_explicit(&word, 0, memory_order_release); }
static void lock_by_yield(void) { while (atomic_exchange_explicit(&word, 1, memory_order_acquire)) sched_yield(); }
static void lock_by_sleep(void) { while (atomic_exchange_explicit(&word, 1, memory_order_acquire)) usleep(100); }
static void nothing(void) {}
static struct { void (*lock)(void), (*unlock)(void), (*wait)(void), (*wake)(void); } by = { nothing, nothing, nothing, nothing };

static void locked_produce(void) {
    for (uint64_t item = 1; item <= ITEMS; item++) {
        ring_calls_put(&rec, item);
        by.lock();
        const bool stored = plain_put(item);
        by.unlock();
        if (stored) ring_calls_stored(&rec); else ring_calls_full(&rec);
    }
}

static void locked_consume(void) {
    for (int i = 0; i < ITEMS; i++) {
        uint64_t item;
        ring_calls_take(&rec);
        by.lock();
        const bool taken = plain_take(&item);
        by.unlock();
        if (taken) ring_calls_item(&rec, item); else ring_calls_empty(&rec);
    }
}

/* The same, waiting if it is full or empty; with a close without its wake-up the other side waits forever. */
static void waiting_produce(void) {
    for (uint64_t item = 1; item <= ITEMS; item++) {
        ring_calls_put(&rec, item);
        by.lock();
        while (!plain_put(item)) by.wait();
        by.wake();
        by.unlock();
        ring_calls_stored(&rec);
    }
    ring_calls_close(&rec);
    by.lock();
    over = true;
    if (!has_lost) by.wake();
    by.unlock();
    ring_calls_closed(&rec);
}

static void waiting_consume(void) {
    for (;;) {
        uint64_t item = 0;
        bool taken;
        ring_calls_take(&rec);
        by.lock();
        while (!(taken = plain_take(&item)) && !over) by.wait();
        by.wake();
        by.unlock();
        if (!taken) break;
        ring_calls_item(&rec, item);
    }
    ring_calls_told(&rec);
}

/* Slots counted by semaphores. */
static void semaphore_produce(void) {
    for (uint64_t item = 1; item <= ITEMS; item++) {
        ring_calls_put(&rec, item);
        if (item == 2 ? sem_trywait(&room) == 0 : sem_wait(&room) == 0) {
            slot[tail++ % CAPACITY] = item;
            sem_post(&there);
            ring_calls_stored(&rec);
        } else {
            ring_calls_full(&rec);
        }
    }
}

static void semaphore_consume(void) {
    const struct timespec at = { 1, 0 };
    for (int i = 0; i < ITEMS; i++) {
        ring_calls_take(&rec);
        if (i < ITEMS - 1 ? sem_wait(&there) == 0 : sem_timedwait(&there, &at) == 0) {
            const uint64_t item = slot[head++ % CAPACITY];
            sem_post(&room);
            ring_calls_item(&rec, item);
        } else {
            assert(errno == ETIMEDOUT);
            ring_calls_take_nothing(&rec);
        }
    }
}

/* A list of nodes from malloc; the consumer frees them. The bug: before it looks for the next one, and again with that. */
static bool frees_early;
typedef struct node { uint64_t item; _Atomic(struct node *) next; } node;
static node *first, *last;
static void list_reset(void) {
    reset();
    first = last = calloc(1, sizeof *first);
}
static void list_produce(void) {
    for (uint64_t item = 1; item <= ITEMS; item++) {
        ring_calls_put(&rec, item);
        node *n = malloc(sizeof *n);
        n->item = item;
        atomic_init(&n->next, NULL);
        atomic_store_explicit(&last->next, n, memory_order_release);
        last = n;
        ring_calls_stored(&rec);
    }
}
static void list_consume(void) {
    for (int i = 0; i < ITEMS; i++) {
        ring_calls_take(&rec);
        if (frees_early) free(first);
        node *n = atomic_load_explicit(&first->next, memory_order_acquire);
        if (!n) { ring_calls_empty(&rec); continue; }
        const uint64_t item = n->item;
        free(first);
        first = n;
        ring_calls_item(&rec, item);
    }
}

/* Fences in place of orders; without the producer's there is a race. */
static void fence_produce(void) {
    for (uint64_t item = 1; item <= ITEMS; item++) {
        const uint64_t t = atomic_load_explicit(&shared_tail, memory_order_relaxed);
        ring_calls_put(&rec, item);
        const bool is_full = t - atomic_load_explicit(&shared_head, memory_order_relaxed) == CAPACITY;
        atomic_thread_fence(memory_order_acquire);
        if (is_full) { ring_calls_full(&rec); continue; }
        slot[t % CAPACITY] = item;
        if (!breaks_order) atomic_thread_fence(memory_order_release);
        atomic_store_explicit(&shared_tail, t + 1, memory_order_relaxed);
        ring_calls_stored(&rec);
    }
}
static void fence_consume(void) {
    for (int i = 0; i < ITEMS; i++) {
        const uint64_t h = atomic_load_explicit(&shared_head, memory_order_relaxed);
        ring_calls_take(&rec);
        const bool is_empty = h == atomic_load_explicit(&shared_tail, memory_order_relaxed);
        atomic_thread_fence(memory_order_acquire);
        if (is_empty) { ring_calls_empty(&rec); continue; }
        const uint64_t item = slot[h % CAPACITY];
        atomic_thread_fence(memory_order_release);
        atomic_store_explicit(&shared_head, h + 1, memory_order_relaxed);
        ring_calls_item(&rec, item);
    }
}

/* An item of 32 bytes copied by memcpy, with a flag that is seen too soon: a torn one. */
typedef struct { uint64_t part[4]; } wide;
static wide wide_slot;
static void wide_reset(void) {
    reset();
    memset(&wide_slot, 0, sizeof wide_slot);
}
static void wide_produce(void) {
    const wide item = { { 1, 1, 1, 1 } };
    ring_calls_put(&rec, 1111);
    if (has_lost) atomic_store(&word, 1);
    memcpy(&wide_slot, &item, sizeof item);
    atomic_store(&word, 1);
    ring_calls_stored(&rec);
}
static void wide_consume(void) {
    wide item;
    ring_calls_take(&rec);
    if (!atomic_load(&word)) { ring_calls_empty(&rec); return; }
    memcpy(&item, &wide_slot, sizeof item);
    ring_calls_item(&rec, 1000 * item.part[0] + 100 * item.part[1] + 10 * item.part[2] + item.part[3]);
}

/* A box of one item, in an atomic structure of a size that goes through libatomic's calls, or of 16 bytes. */
typedef struct { uint64_t item, again, more; } large;
typedef struct { uint64_t item, again; } pair;
static _Atomic large large_box;
static _Atomic pair pair_box;
static void box_reset(void) {
    reset();
    atomic_init(&large_box, ((large) { 0, 0, 0 }));
    atomic_init(&pair_box, ((pair) { 0, 0 }));
}
static void large_produce(void) {
    for (uint64_t item = 1; item <= ITEMS; item++) {
        large none = { 0, 0, 0 };
        ring_calls_put(&rec, item);
        if (atomic_compare_exchange_strong(&large_box, &none, ((large) { item, item, item }))) ring_calls_stored(&rec);
        else ring_calls_full(&rec);
    }
}
static void large_consume(void) {
    for (int i = 0; i < ITEMS; i++) {
        ring_calls_take(&rec);
        large got = atomic_load(&large_box);
        if (got.item) got = atomic_exchange(&large_box, ((large) { 0, 0, 0 }));
        if (got.item) ring_calls_item(&rec, got.item + 10 * (got.item != got.again || got.item != got.more)); else ring_calls_empty(&rec);
    }
}
static void pair_produce(void) {
    for (uint64_t item = 1; item <= ITEMS; item++) {
        ring_calls_put(&rec, item);
        const pair there_is = atomic_load(&pair_box);
        if (there_is.item) { ring_calls_full(&rec); continue; }
        atomic_store(&pair_box, ((pair) { item, item }));
        ring_calls_stored(&rec);
    }
}
static void pair_consume(void) {
    for (int i = 0; i < ITEMS; i++) {
        ring_calls_take(&rec);
        const pair got = atomic_exchange(&pair_box, ((pair) { 0, 0 }));
        if (got.item) ring_calls_item(&rec, got.item + 10 * (got.item != got.again)); else ring_calls_empty(&rec);
    }
}

/* A wait that ends when the other side moves, by a futex with a time limit. */
static void timed_consume(void) {
    const struct timespec moment = { 0, 1000 };
    ring_calls_take(&rec);
    const long woken = syscall(SYS_futex, &bell, FUTEX_WAIT_PRIVATE, 0, &moment, NULL, 0);
    if (woken != 0 && errno == ETIMEDOUT) ring_calls_take_nothing(&rec);
    else ring_calls_empty(&rec);
}
static void timed_produce(void) {
    atomic_store(&bell, has_lost ? 0 : 1);
    if (!has_lost) syscall(SYS_futex, &bell, FUTEX_WAKE_PRIVATE, 1);
}

/* Two locks, taken in two orders. */
static pthread_mutex_t other_mutex = PTHREAD_MUTEX_INITIALIZER;
static void one_then_other(void) {
    ring_calls_put(&rec, 1);
    pthread_mutex_lock(&mutex);
    pthread_mutex_lock(&other_mutex);
    pthread_mutex_unlock(&other_mutex);
    pthread_mutex_unlock(&mutex);
    ring_calls_put_nothing(&rec);
}
static void other_then_one(void) {
    ring_calls_take(&rec);
    pthread_mutex_lock(&other_mutex);
    pthread_mutex_lock(&mutex);
    pthread_mutex_unlock(&mutex);
    pthread_mutex_unlock(&other_mutex);
    ring_calls_empty(&rec);
}

/* Sides that never end, or not well. */
static void spin_for_ever(void) { while (atomic_load(&word) == 0) {} }
static void yield_for_ever(void) { while (atomic_load(&word) == 0) sched_yield(); }
static void count_long(void) { for (int i = 0; i < 20000; i++) atomic_fetch_add(&spins, 1); }
static volatile bool ever = true;
static void loop_for_ever(void) { while (ever) {} }
static void crash(void) { if (atomic_load(&word) == 1) *(volatile int *)(uintptr_t)64 = 1; }
static void set_word(void) { atomic_store(&word, 1); atomic_store(&word, 2); }
static void look_twice(void) { assert(atomic_load(&word) != 1); }
static void take_wrongly(void) { ring_calls_take(&rec); ring_calls_take_nothing(&rec); }
static uint64_t never_set_back;
static void do_another(void) {
    for (uint64_t i = never_set_back++ % 2; i < 2; i++) atomic_fetch_add(&word, 1);
    atomic_fetch_add(&spins, 1);
}
static void add_two(void) { atomic_fetch_add(&word, 1); atomic_fetch_add(&spins, 1); }

/* Waits until the other side has begun: many looks before it goes to sleep. */
static void spin_then_sleep(void) {
    ring_calls_take(&rec);
    for (int i = 0; i < 100 && !atomic_load(&bell); i++) {}
    while (!atomic_load(&bell)) syscall(SYS_futex, &bell, FUTEX_WAIT_PRIVATE, 0, NULL, NULL, 0);
    ring_calls_empty(&rec);
}
static void ring_the_bell(void) {
    atomic_store(&word, 1);
    atomic_store(&bell, 1);
    syscall(SYS_futex, &bell, FUTEX_WAKE_PRIVATE, 1, NULL, NULL, 0);
}
static void look_at_word(void) { (void)atomic_load(&word); spin_then_sleep(); }

static int with_locks(void (*lock)(void), void (*unlock)(void), void (*wait)(void), void (*wake)(void)) {
    by.lock = lock;
    by.unlock = unlock;
    by.wait = wait;
    by.wake = wake;
    if (wait != nothing) return explore(reset, waiting_produce, waiting_consume, "queue 2");
    return explore(reset, locked_produce, locked_consume, "queue 2");
}

int main(int argc, char **argv) {
    const char *way = argc > 1 ? argv[1] : "";
#define WAY(name) if (strcmp(way, name) == 0) return
    has_lost = strncmp(way, "lost_", 5) == 0;
    if (has_lost) way += 5;
    WAY("mutex") with_locks(lock_posix, unlock_posix, nothing, nothing);
    WAY("c11_mutex") with_locks(lock_c11, unlock_c11, nothing, nothing);
    WAY("condition") with_locks(lock_posix, unlock_posix, wait_posix, wake_posix);
    WAY("c11_condition") with_locks(lock_c11, unlock_c11, wait_c11, wake_c11);
    WAY("spinlock") with_locks(lock_by_spin, unlock_spin, nothing, nothing);
    WAY("yieldlock") with_locks(lock_by_yield, unlock_spin, nothing, nothing);
    WAY("sleeplock") with_locks(lock_by_sleep, unlock_spin, nothing, nothing);
    WAY("no_lock") with_locks(nothing, nothing, nothing, nothing);
    WAY("semaphore") explore(reset, semaphore_produce, semaphore_consume, "queue 2");
    WAY("list") explore(list_reset, list_produce, list_consume, "queue");
    frees_early = strcmp(way, "early_free") == 0;
    WAY("early_free") explore(list_reset, list_produce, list_consume, "queue");
    WAY("fences") explore(reset, fence_produce, fence_consume, "queue 2");
    breaks_order = strcmp(way, "no_fence") == 0;
    WAY("no_fence") explore(reset, fence_produce, fence_consume, "queue 2");
    WAY("wide") explore(wide_reset, wide_produce, wide_consume, "queue 2");
    WAY("large") explore(box_reset, large_produce, large_consume, "queue 1");
    WAY("pair") explore(box_reset, pair_produce, pair_consume, "queue 1");
    WAY("twice") explore(reset, fence_produce, fence_consume, "queue 2") + explore(list_reset, list_produce, list_consume, "queue");
    WAY("timed") explore(reset, timed_produce, timed_consume, "queue 2");
    WAY("bell") explore(reset, ring_the_bell, look_at_word, "queue 2");
    WAY("two_locks") explore(reset, one_then_other, other_then_one, "queue 2");
    WAY("spins") explore(reset, nothing, spin_for_ever, "queue 2");
    WAY("yields") explore(reset, yield_for_ever, yield_for_ever, "queue 2");
    WAY("counts") explore(reset, count_long, add_two, "queue 2");
    WAY("loops") explore(reset, loop_for_ever, nothing, "queue 2");
    WAY("crashes") explore(reset, set_word, crash, "queue 2");
    WAY("asserts") explore(reset, set_word, look_twice, "queue 2");
    WAY("apart") explore(reset, nothing, take_wrongly, "queue 2");
    WAY("wrong_side") explore(reset, take_wrongly, nothing, "queue 2");
    WAY("not_the_same") explore(reset, do_another, add_two, "queue 2");
    WAY("no_head") explore(reset, nothing, nothing, "queue 02");
    fputs("explore_test WAY\n", stderr);
    return 2;
}
