/* counter_ring.h: a ring with one producer and one consumer, of up to 64 numbers, whose code is proved (libcounter_ring.a, .so.1).
 * C11, and C++ from C++11; Linux on x86-64 and ARM64.
 *
 *     ring_putter p = RING_NO_END;  ring_taker t = RING_NO_END;
 *     if (ring_open(&p, &t, 64, 97, 64, 16, 16) != RING_OPENED) ..      capacity, modulus, width, batch, take batch
 *     one thread:      while (ring_put(&p, item) == RING_NOT_NOW) ..;   ring_close(&p);   ring_free_putter(&p);
 *     another thread:  switch (ring_take(&t, &item)) { case RING_DONE: .. case RING_NOT_NOW: .. case RING_OVER: .. }   ring_free_taker(&t);
 *
 * The capacity is from 1 to 64; the batches, from 1 to the capacity, are the most items of ring_put_all and ring_take_all; the modulus is
 * at least the capacity + the larger batch + 1, and at most 256; the width, from 1 to 64, is the number of binary digits of an item.
 *
 * What is proved of each call, whatever the other thread does meanwhile: the end's list of accesses grows by exactly those of this call;
 * that list is one side of a lawful history of the ring; the return value is the result of these accesses. For both ends, once both threads are
 * done (ring_finish): there is one lawful history with both lists; its calls are linearizable; the items taken are a prefix of the items
 * put. docs/GUARANTEES.md lists each promise, with the contract that states it.
 *
 * What the caller must ensure, and nothing checks:
 * - A handle is all 0 before ring_open, and after that only the library writes to it. No copy of it is used
 *   (ring_move_putter, ring_move_taker move one). What it points to is neither read nor written.
 * - One call at a time on one handle; the two handles of a ring may be used at the same time. A handle is passed to another thread by
 *   that thread's start or join, by a lock, or by a sequentially consistent atomic.
 * - A pointer points to as many values as the length after it says, and is not null, even if that length is 0. The memory that two arguments of a
 *   call point to does not overlap.
 * - ring_finish is given the two ends of one ring_open, or a handle that has no end.
 * - malloc, realloc and free are those of one allocator, with blocks aligned to 16. No call is made in a signal handler, nor in the forked
 *   child of a process with several threads.
 *
 * With RING_CHECKED defined before this header, each call also checks whether its handle was copied, is in a call of another thread, or
 * was freed, and ends the process if so. Either all files that share a handle define it, or none does. */
#ifndef COUNTER_RING_H
#define COUNTER_RING_H
#include <stdbool.h>
#include <stddef.h>
#include <stdint.h>

#ifdef RING_CHECKED
/* (the library reads and writes only the first two fields) */
typedef struct { bool is_open; void *at; const void *home; unsigned char is_freed, is_in_call; } ring_putter;
typedef struct { bool is_open; void *at; const void *home; unsigned char is_freed, is_in_call; } ring_taker;
#else
typedef struct { bool is_open; void *at; } ring_putter;
typedef struct { bool is_open; void *at; } ring_taker;
#endif

/* What a call on an end returns. RING_NOT_NOW: the ring is full, or empty. RING_OVER: a put finds it closed; a take finds it closed, and
 * all that was put has been taken. RING_REFUSED: the handle has no end, an item does not fit the width, or there are none or too many; then
 * nothing is done. */
enum { RING_DONE = 0, RING_NOT_NOW = 1, RING_OVER = 2, RING_REFUSED = 3 };
/* What ring_open returns. Unless it is RING_OPENED, nothing is changed. RING_WRONG_..: the number is out of its range. */
enum { RING_OPENED = 0, RING_WRONG_CAPACITY, RING_WRONG_BATCH, RING_WRONG_TAKE_BATCH, RING_WRONG_MODULUS, RING_WRONG_WIDTH, RING_OUT_OF_MEMORY, RING_HAS_END };

#ifdef __cplusplus
#define RING_NO_END {}
extern "C" {
#else
#define RING_NO_END { 0 }
#endif

/* Makes an empty ring; the two handles, which have no end yet, get its ends. */
uint32_t ring_open(ring_putter *, ring_taker *, uint64_t capacity, uint64_t modulus, uint64_t width, uint64_t batch, uint64_t take_batch);
/* Puts the item. */
uint32_t ring_put(ring_putter *, uint64_t item);
/* Puts the items in order, as many as there is room for; *stored is set to their number. */
uint32_t ring_put_all(ring_putter *, const uint64_t *items, size_t count, size_t *stored);
/* Closes the ring. A second close does nothing. Returns whether the handle has an end. */
bool ring_close(ring_putter *);
/* Whether the handle has an end that has closed the ring. */
bool ring_is_closed(ring_putter *);
/* Takes the next item into *item, which is otherwise unchanged. */
uint32_t ring_take(ring_taker *, uint64_t *item);
/* Takes the next items, at most `room`, into the first elements; *taken is set to their number. */
uint32_t ring_take_all(ring_taker *, uint64_t *into, size_t room, size_t *taken);
/* Whether the handle has an end on which a take returned RING_OVER. */
bool ring_is_told(ring_taker *);
/* Ends the run of a ring, given its two ends: frees both, and its memory. Returns whether both handles had an end; if not,
 * nothing is done. */
bool ring_finish(ring_putter *, ring_taker *);
/* Frees the end, if there is one. The ring's memory is freed with the second end. */
void ring_free_putter(ring_putter *);
void ring_free_taker(ring_taker *);
#ifdef __cplusplus
}
#endif

#ifdef RING_CHECKED
#include <stdio.h>
#include <stdlib.h>

/* Called when a handle is misused. It does not return. */
#ifndef RING_MISUSED
#define RING_MISUSED(what) (fprintf(stderr, "counter_ring.h: %s\n", what), abort())
#endif

static inline void ring_checked_begin(const void *handle, const void *home, unsigned char is_freed, unsigned char *is_in_call) {
    if (__atomic_exchange_n(is_in_call, 1, __ATOMIC_SEQ_CST)) RING_MISUSED("two threads are in a call of one handle");
    if (home && home != handle) RING_MISUSED("a handle was copied");
    if (is_freed) RING_MISUSED("a handle is used after it was freed");
}

static inline void ring_checked_end(unsigned char *is_in_call) { __atomic_store_n(is_in_call, 0, __ATOMIC_SEQ_CST); }

#define RING_CHECKED_BEGIN(handle) ring_checked_begin(handle, (handle)->home, (handle)->is_freed, &(handle)->is_in_call)
#define RING_CHECKED_END(handle) ring_checked_end(&(handle)->is_in_call)

static inline uint32_t ring_checked_open(ring_putter *p, ring_taker *t, uint64_t capacity, uint64_t modulus, uint64_t width, uint64_t batch, uint64_t take_batch) {
    uint32_t answer;
    /* (a handle that was freed may be opened again) */
    p->is_freed = t->is_freed = 0;
    RING_CHECKED_BEGIN(p);
    RING_CHECKED_BEGIN(t);
    answer = ring_open(p, t, capacity, modulus, width, batch, take_batch);
    if (answer == RING_OPENED) { p->home = p; t->home = t; }
    RING_CHECKED_END(t);
    RING_CHECKED_END(p);
    return answer;
}
static inline uint32_t ring_checked_put(ring_putter *p, uint64_t item) {
    uint32_t answer;
    RING_CHECKED_BEGIN(p);
    answer = ring_put(p, item);
    RING_CHECKED_END(p);
    return answer;
}
static inline uint32_t ring_checked_put_all(ring_putter *p, const uint64_t *items, size_t count, size_t *stored) {
    uint32_t answer;
    RING_CHECKED_BEGIN(p);
    answer = ring_put_all(p, items, count, stored);
    RING_CHECKED_END(p);
    return answer;
}
static inline bool ring_checked_close(ring_putter *p) {
    bool answer;
    RING_CHECKED_BEGIN(p);
    answer = ring_close(p);
    RING_CHECKED_END(p);
    return answer;
}
static inline bool ring_checked_is_closed(ring_putter *p) {
    bool answer;
    RING_CHECKED_BEGIN(p);
    answer = ring_is_closed(p);
    RING_CHECKED_END(p);
    return answer;
}
static inline uint32_t ring_checked_take(ring_taker *t, uint64_t *item) {
    uint32_t answer;
    RING_CHECKED_BEGIN(t);
    answer = ring_take(t, item);
    RING_CHECKED_END(t);
    return answer;
}
static inline uint32_t ring_checked_take_all(ring_taker *t, uint64_t *into, size_t room, size_t *taken) {
    uint32_t answer;
    RING_CHECKED_BEGIN(t);
    answer = ring_take_all(t, into, room, taken);
    RING_CHECKED_END(t);
    return answer;
}
static inline bool ring_checked_is_told(ring_taker *t) {
    bool answer;
    RING_CHECKED_BEGIN(t);
    answer = ring_is_told(t);
    RING_CHECKED_END(t);
    return answer;
}
static inline bool ring_checked_finish(ring_putter *p, ring_taker *t) {
    bool answer;
    RING_CHECKED_BEGIN(p);
    RING_CHECKED_BEGIN(t);
    answer = ring_finish(p, t);
    if (answer) {
        p->is_freed = t->is_freed = 1;
        p->home = t->home = NULL;
    }
    RING_CHECKED_END(t);
    RING_CHECKED_END(p);
    return answer;
}
/* (a handle may be freed twice, and one that never had an end) */
static inline void ring_checked_free_putter(ring_putter *p) {
    unsigned char had_end = p->is_open || p->is_freed;
    p->is_freed = 0;
    RING_CHECKED_BEGIN(p);
    ring_free_putter(p);
    p->is_freed = had_end;
    p->home = NULL;
    RING_CHECKED_END(p);
}
static inline void ring_checked_free_taker(ring_taker *t) {
    unsigned char had_end = t->is_open || t->is_freed;
    t->is_freed = 0;
    RING_CHECKED_BEGIN(t);
    ring_free_taker(t);
    t->is_freed = had_end;
    t->home = NULL;
    RING_CHECKED_END(t);
}

#define ring_open ring_checked_open
#define ring_put ring_checked_put
#define ring_put_all ring_checked_put_all
#define ring_close ring_checked_close
#define ring_is_closed ring_checked_is_closed
#define ring_take ring_checked_take
#define ring_take_all ring_checked_take_all
#define ring_is_told ring_checked_is_told
#define ring_finish ring_checked_finish
#define ring_free_putter ring_checked_free_putter
#define ring_free_taker ring_checked_free_taker
#endif

/* Moves an end, if there is one, from a handle to one that has none. Afterwards `from` has none. */
static inline void ring_move_putter(ring_putter *to, ring_putter *from) {
    const ring_putter none = RING_NO_END;
#ifdef RING_CHECKED
    RING_CHECKED_BEGIN(from);
    RING_CHECKED_END(from);
#endif
    *to = *from;
    *from = none;
#ifdef RING_CHECKED
    if (to->home) to->home = to;
#endif
}
static inline void ring_move_taker(ring_taker *to, ring_taker *from) {
    const ring_taker none = RING_NO_END;
#ifdef RING_CHECKED
    RING_CHECKED_BEGIN(from);
    RING_CHECKED_END(from);
#endif
    *to = *from;
    *from = none;
#ifdef RING_CHECKED
    if (to->home) to->home = to;
#endif
}
#endif
