/* explore_rings.c: explore_rings WAY: for record/test and tests/record, a ring and a box for explore.h whose sides spin, correct boxes whose
 * guards gcc's pass `reassoc` breaks up, a reset that does not restore everything, a call without its end, a put of nothing, no recorded
 * call, a thread, and no call of explore. Build it as explore.h says. */
#include "explore.h"
#include <pthread.h>
#include <stdatomic.h>
#include <stdbool.h>
#include <threads.h>

enum { CAPACITY = 2, ITEMS = 3 };
static ring_calls rec;
static uint64_t slot[CAPACITY];
static _Atomic uint64_t head, tail;
static _Atomic uint64_t box;
static _Atomic(uint64_t *) place;
static volatile uint64_t apart;
static bool has_bug;

/* What a side that spins does between two checks. */
static void pause_a_little(void) {
#if defined __x86_64__
    __builtin_ia32_pause();
#else
    __asm__ volatile("yield");
#endif
}

static bool my_put(uint64_t item) {
    const uint64_t t = atomic_load_explicit(&tail, memory_order_relaxed);
    if (t - atomic_load_explicit(&head, memory_order_acquire) == CAPACITY) return false;
    if (has_bug) atomic_store_explicit(&tail, t + 1, memory_order_release);
    slot[t % CAPACITY] = item;
    if (!has_bug) atomic_store_explicit(&tail, t + 1, memory_order_release);
    return true;
}

static bool my_take(uint64_t *item) {
    const uint64_t h = atomic_load_explicit(&head, memory_order_relaxed);
    if (h == atomic_load_explicit(&tail, memory_order_acquire)) return false;
    *item = slot[h % CAPACITY];
    atomic_store_explicit(&head, h + 1, memory_order_release);
    return true;
}

static _Atomic int turn;         /* whose the guarded box is: 0 the producer's, 1 the consumer's */
static unsigned has_item;        /* plain: read and written by the one whose turn it is */

static void reset(void) {
    head = tail = box = 0;
    turn = 0;
    has_item = 0;
    slot[0] = slot[1] = 0;
    place = NULL;
}

static void spin_put(void) {
    for (uint64_t item = 1; item <= ITEMS; item++) {
        ring_calls_put(&rec, item);
        while (!my_put(item)) {}
        ring_calls_stored(&rec);
    }
}
static void spin_take(void) {
    for (int i = 0; i < ITEMS; i++) {
        uint64_t item;
        ring_calls_take(&rec);
        while (!my_take(&item)) {}
        ring_calls_item(&rec, item);
    }
}
static void try_put(void) {
    for (uint64_t item = 1; item <= ITEMS; item++) {
        ring_calls_put(&rec, item);
        if (my_put(item)) ring_calls_stored(&rec); else ring_calls_full(&rec);
    }
}
static void try_take(void) {
    for (int i = 0; i < ITEMS; i++) {
        uint64_t item;
        ring_calls_take(&rec);
        if (my_take(&item)) ring_calls_item(&rec, item); else ring_calls_empty(&rec);
    }
}
/* Begins with what nobody shares for long. */
static void work_then_take(void) {
    for (int i = 0; i < 300000; i++) apart++;
    spin_take();
}
static void take_one(void) {
    uint64_t item;
    ring_calls_take(&rec);
    if (my_take(&item)) ring_calls_item(&rec, item); else ring_calls_empty(&rec);
}

static void box_put(void) {
    for (uint64_t item = 1; item <= ITEMS; item++) {
        ring_calls_put(&rec, item);
        while (atomic_load(&box)) pause_a_little();
        atomic_store(&box, item);
        ring_calls_stored(&rec);
    }
}
static void box_take(void) {
    for (int i = 0; i < ITEMS; i++) {
        uint64_t item;
        ring_calls_take(&rec);
        while ((item = atomic_exchange(&box, 0)) == 0) pause_a_little();
        ring_calls_item(&rec, item);
    }
}

/* A box that is announced by a pointer, and taken by a compare-and-swap. */
static void place_put(void) {
    ring_calls_put(&rec, 1);
    slot[1] = 1;
    atomic_store_explicit(&place, &slot[1], memory_order_release);
    atomic_fetch_add_explicit(&box, 3, memory_order_relaxed);
    ring_calls_stored(&rec);
}
static void place_take(void) {
    uint64_t *got = &slot[1], *none = &slot[0], three = 3;
    ring_calls_take(&rec);
    atomic_compare_exchange_strong_explicit(&place, &none, NULL, memory_order_acq_rel, memory_order_relaxed);
    if (atomic_compare_exchange_strong_explicit(&place, &got, NULL, memory_order_acquire, memory_order_relaxed)) ring_calls_item(&rec, slot[1]);
    else ring_calls_empty(&rec);
    atomic_compare_exchange_strong(&box, &three, 4);
    atomic_exchange_explicit(&box, 7, memory_order_acquire);
}

/* A box that belongs to one side at a time. The conditions read has_item only after turn has said that it is theirs. */
#define TURN atomic_load_explicit(&turn, memory_order_acquire)
#define GUARDED(name, may_put, may_take)                                    \
    static bool name##_put_one(uint64_t item) {                             \
        bool done = false;                                                  \
        if (may_put) {                                                      \
            slot[0] = item;                                                 \
            has_item = 1;                                                   \
            atomic_store_explicit(&turn, 1, memory_order_release);          \
            done = true;                                                    \
        }                                                                   \
        return done;                                                        \
    }                                                                       \
    static bool name##_take_one(uint64_t *item) {                           \
        bool done = false;                                                  \
        if (may_take) {                                                     \
            *item = slot[0];                                                \
            has_item = 0;                                                   \
            atomic_store_explicit(&turn, 0, memory_order_release);          \
            done = true;                                                    \
        }                                                                   \
        return done;                                                        \
    }                                                                       \
    static void name##_put(void) {                                          \
        for (uint64_t item = 1; item <= ITEMS; item++) {                    \
            ring_calls_put(&rec, item);                                     \
            if (name##_put_one(item)) ring_calls_stored(&rec); else ring_calls_full(&rec); \
        }                                                                   \
    }                                                                       \
    static void name##_take(void) {                                         \
        for (int i = 0; i < ITEMS; i++) {                                   \
            uint64_t item;                                                  \
            ring_calls_take(&rec);                                          \
            if (name##_take_one(&item)) ring_calls_item(&rec, item); else ring_calls_empty(&rec); \
        }                                                                   \
    }
GUARDED(and, !TURN && !has_item, TURN && has_item)
GUARDED(or, !(TURN || has_item), !(!TURN || !has_item))
GUARDED(choice, TURN ? 0 : !has_item, TURN ? has_item : 0)

/* Those that do not reset everything: nothing; everything, but only once; all but one count. */
static void reset_nothing(void) {}
static void reset_once(void) {
    static bool is_done;
    if (!is_done) reset();
    is_done = true;
}
static void reset_but_head(void) { tail = 0; slot[0] = slot[1] = 0; }
static void reset_but_tail(void) { head = 0; slot[0] = slot[1] = 0; }
static uint64_t runs;
static void reset_at_first(void) { reset(); runs++; }
/* Is at fault, races or hangs in later runs only. */
static void wrong_later(void) {
    ring_calls_take(&rec);
    const bool is_empty = atomic_load(&tail) == 0;
    if (is_empty || runs < 6) ring_calls_take_nothing(&rec); else ring_calls_item(&rec, 9);
}
static void race_later(void) { if (atomic_load(&tail) == 1 && runs >= 6) slot[1] = 7; }
static void crash_later(void) { if (atomic_load(&tail) == 1 && runs >= 12) *(volatile int *)(uintptr_t)64 = 1; }
static void hang_later(void) { while (atomic_load(&tail) == 0 || runs >= 6) {} }

static void no_full_put(void) {
    for (uint64_t item = 1; item <= 4; item++) {
        ring_calls_put(&rec, item);
        if (my_put(item)) ring_calls_stored(&rec);
    }
}
static void put_none(void) {
    try_put();
    ring_calls_put_all(&rec, NULL, 0);
    ring_calls_full(&rec);
}
static void no_begin_take(void) {
    ring_calls_take(&rec);
    for (int i = 0; i < 2; i++) {
        uint64_t item;
        if (my_take(&item)) ring_calls_item(&rec, item); else ring_calls_empty(&rec);
    }
}

static void put_silently(void) { for (uint64_t item = 1; item <= ITEMS; item++) my_put(item); }
static void take_silently(void) { for (uint64_t item, i = 0; i < ITEMS; i++) my_take(&item); }

static void *thread_of_posix(void *unused) { try_put(); return unused; }
static int thread_of_c11(void *unused) { try_put(); return unused != NULL; }
static void start_posix(void) { pthread_t it; if (pthread_create(&it, NULL, thread_of_posix, NULL) == 0) pthread_join(it, NULL); }
static void start_c11(void) { thrd_t it; if (thrd_create(&it, thread_of_c11, NULL) == thrd_success) thrd_join(it, NULL); }
/* Two races, of which a run has the one or the other. */
static volatile uint64_t plain[2];
static void write_two(void) {
    plain[0] = plain[1] = 1;
    atomic_store_explicit(&tail, 1, memory_order_relaxed);
}
static void write_one(void) { plain[atomic_load_explicit(&tail, memory_order_relaxed) == 0] = 2; }
static void leave(void) { if (atomic_load(&tail) == 1) exit(0); }

int main(int argc, char **argv) {
    const char *way = argc > 1 ? argv[1] : "";
#define WAY(name) if (strcmp(way, name) == 0) return
    WAY("spin_put") explore(reset, spin_put, try_take, "queue 2");
    WAY("spin_both") explore(reset, spin_put, spin_take, "queue 2");
    WAY("spin_box") explore(reset, box_put, box_take, "queue 1");
    WAY("spin_long") explore(reset, spin_put, work_then_take, "queue 2");
    WAY("spin_full") explore(reset, spin_put, take_one, "queue 2");
    WAY("place") explore(reset, place_put, place_take, "queue 2");
    WAY("guard_and") explore(reset, and_put, and_take, "queue 1");
    WAY("guard_or") explore(reset, or_put, or_take, "queue 1");
    WAY("guard_choice") explore(reset, choice_put, choice_take, "queue 1");
    WAY("later_fault") explore(reset_at_first, try_put, wrong_later, "queue 2");
    WAY("later_hang") explore(reset_at_first, try_put, hang_later, "queue 2");
    WAY("later_race") explore(reset_at_first, try_put, race_later, "queue 2");
    WAY("later_crash") explore(reset_at_first, try_put, crash_later, "queue 2");
    WAY("head") explore(reset, try_put, try_take, "queu 2");
    WAY("no_end") explore(reset, no_full_put, try_take, "queue 2");
    WAY("put_none") explore(reset, put_none, try_take, "queue 2");
    WAY("no_begin") explore(reset, try_put, no_begin_take, "queue 2");
    WAY("silent") explore(reset, put_silently, take_silently, "queue 2");
    WAY("races") explore(reset, write_two, write_one, "queue 2");
    WAY("leaves") explore(reset, try_put, leave, "queue 2");
    WAY("runs_thread") explore(reset, start_posix, try_take, "queue 2");
    if (strcmp(way, "posix_thread") == 0) start_posix();
    if (strcmp(way, "c11_thread") == 0) start_c11();
    has_bug = strncmp(way, "bug_", 4) == 0;
    if (has_bug) way += 4;
    WAY("ring") explore(reset, try_put, try_take, "queue 2");
    WAY("reset_nothing") explore(reset_nothing, try_put, try_take, "queue 2");
    WAY("reset_once") explore(reset_once, try_put, try_take, "queue 2");
    WAY("reset_but_head") explore(reset_but_head, try_put, try_take, "queue 2");
    WAY("reset_but_tail") explore(reset_but_tail, try_put, try_take, "queue 2");
    return 0;
}
