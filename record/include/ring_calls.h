/* ring_calls.h: records the calls of a queue with one producer and one consumer, for `lamport_ring audit --calls`.
 * C11, and C++ from C++11; only this file is needed.
 *
 *     ring_calls rec;
 *     if (!ring_calls_init(&rec, 1 << 20)) ..      room for this many words of 8 bytes on each side: a put with its end takes 5
 *     producer:  ring_calls_put(&rec, item);   int ok = my_put(item);
 *                if (ok) ring_calls_stored(&rec); else ring_calls_full(&rec);
 *                ring_calls_close(&rec);       my_close();                  ring_calls_closed(&rec);
 *     consumer:  ring_calls_take(&rec);        int ok = my_take(&item);
 *                if (ok) ring_calls_item(&rec, item); else ring_calls_empty(&rec);         (ring_calls_told: it found the queue closed)
 *     after both threads were joined:  ring_calls_write(&rec, "queue 8", file);  ring_calls_free(&rec);
 *                or ring_calls_restart(&rec), and the next round begins.
 *
 * Why there are no false alarms. Each start takes the next ticket of one counter before the call, each end after it, so an
 * interval can only get wider. The threads write the counter only by fetch_add. If the ticket of an end is smaller than that of a start, the
 * start's fetch_add (acquire) reads from the release sequence headed by the end's fetch_add (release): the one call happens before
 * the other in the sense of C11, and a correct queue must respect that. All other calls overlap in the recording, and for these
 * the audit permits either order. The price: a ticket orders calls that the queue itself may not order, so a missing fence
 * between calls that do not overlap can go unnoticed.
 *
 * This argument is about C11, so it holds on every processor. For ARM, tests/tickets.py tries it in the axiomatic model of ARMv8: in every
 * execution of small programs of two threads, these two orders give no false alarm, and if either is weaker there is one. A start and an
 * end are not full fences there: within a call the accesses of the queue have only their own orders, so a put whose index is visible
 * before its cell shows up only in the takes that overlap it.
 *
* While recording, nothing is allocated and nothing is locked. If the log of a side is full, the history is cut, for both sides, at the
 * ticket of the first event that was not kept: it is a prefix of what happened, and a prefix of a lawful history is lawful. The first
 * line then begins with `cut`, and ring_calls_write prints to stderr whose log was full. It also prints if no call was recorded.
 *
 * RING_CALLS_TSC (x86, with an invariant cycle counter that all cores share) uses time stamps as tickets, without a shared counter. The
 * fences are needed: without mfence a store of the call may still be in the store buffer at the stamp of its end, without lfence a load of
 * the call may come before the stamp of its start; without both there were false alarms. */
#ifndef RING_CALLS_H
#define RING_CALLS_H
#ifdef RING_CALLS_TSC
#if defined __x86_64__ || defined __i386__
#include <x86intrin.h>
#elif defined _M_X64 || defined _M_IX86
#include <intrin.h>
#else
#error "RING_CALLS_TSC needs x86, whose counter of cycles it reads; without it the recorder takes tickets, on any processor"
#endif
#endif
#include <stdint.h>
#include <stdio.h>
#include <stdlib.h>
#include <string.h>
#ifdef __cplusplus
#include <atomic>
#define RING_CALLS_STD(name) std::name
typedef std::atomic<uint64_t> ring_calls_counter;
#else
#include <stdatomic.h>
#define RING_CALLS_STD(name) name
typedef _Atomic uint64_t ring_calls_counter;
#endif
#ifdef _WIN32
#include <fcntl.h>
#include <io.h>
#endif

enum {
    RING_PUT, RING_CLOSE, RING_TAKE, RING_ENDS,
    RING_STORED = RING_ENDS, RING_PUT_SOME, RING_FULL, RING_PUT_SHORT, RING_PUT_NOTHING, RING_CLOSED,
    RING_ITEM, RING_TAKE_SOME, RING_EMPTY, RING_TAKE_SHORT, RING_TAKE_NOTHING, RING_TOLD
};

/* The log of a side: for each event its kind and the number of its numbers, its ticket, the numbers. */
typedef struct { uint64_t *words; size_t used, room; uint64_t cut; char apart[96]; } ring_calls_log;
typedef struct { ring_calls_log p, c; ring_calls_counter next; char apart[120]; } ring_calls;

/* Discards what was recorded, between two rounds of a test: while no thread records. */
static inline void ring_calls_restart(ring_calls *r) {
    r->p.used = r->c.used = 0;
    r->p.cut = r->c.cut = UINT64_MAX;
    RING_CALLS_STD(atomic_store_explicit)(&r->next, (uint64_t)0, RING_CALLS_STD(memory_order_relaxed));
}

/* Returns 0 if out of memory. */
static inline int ring_calls_init(ring_calls *r, size_t words) {
    ring_calls_log *sides[2] = { &r->p, &r->c };
    for (int i = 0; i < 2; i++) {
        ring_calls_log *s = sides[i];
        s->words = (uint64_t *)malloc(words * sizeof(uint64_t));
        s->room = words;
        if (s->words) memset(s->words, 1, words * sizeof(uint64_t));    /* so that the pages are present before the recording starts */
    }
    RING_CALLS_STD(atomic_init)(&r->next, (uint64_t)0);
    ring_calls_restart(r);
    return r->p.words && r->c.words;
}

static inline void ring_calls_free(ring_calls *r) { free(r->p.words); free(r->c.words); }

static inline uint64_t ring_calls_ticket(ring_calls *r, int kind) {
#ifdef RING_CALLS_TSC
    uint64_t t;
    (void)r;
    if (kind >= RING_ENDS) { _mm_mfence(); _mm_lfence(); }
    t = __rdtsc();
    _mm_lfence();
    return t;
#else
    if (kind < RING_ENDS) return RING_CALLS_STD(atomic_fetch_add_explicit)(&r->next, (uint64_t)1, RING_CALLS_STD(memory_order_acquire));
    return RING_CALLS_STD(atomic_fetch_add_explicit)(&r->next, (uint64_t)1, RING_CALLS_STD(memory_order_release));
#endif
}

#ifdef RING_CALLS_EXPLORE
/* (explore.h: the explorer keeps the recording) */
#ifdef __cplusplus
extern "C"
#endif
void explore_event(int kind, const uint64_t *numbers, size_t n);
static inline void ring_calls_event(ring_calls *r, ring_calls_log *s, int kind, const uint64_t *numbers, size_t n) {
    (void)r;
    (void)s;
    explore_event(kind, numbers, n);
}
#else
static inline void ring_calls_event(ring_calls *r, ring_calls_log *s, int kind, const uint64_t *numbers, size_t n) {
    if (s->cut != UINT64_MAX) return;
    uint64_t t = ring_calls_ticket(r, kind), *w = s->words + s->used;
    if (s->room - s->used < n + 2) { s->cut = t; return; }
    w[0] = (uint64_t)kind | (uint64_t)n << 8;
    w[1] = t;
    for (size_t i = 0; i < n; i++) w[2 + i] = numbers[i];
    s->used += n + 2;
}
#endif

/* The producer's: each before the call, or after it. */
static inline void ring_calls_put_all(ring_calls *r, const uint64_t *items, size_t n) { ring_calls_event(r, &r->p, RING_PUT, items, n); }
static inline void ring_calls_put(ring_calls *r, uint64_t item) { ring_calls_put_all(r, &item, 1); }
static inline void ring_calls_stored(ring_calls *r) { ring_calls_event(r, &r->p, RING_STORED, NULL, 0); }
static inline void ring_calls_full(ring_calls *r) { ring_calls_event(r, &r->p, RING_FULL, NULL, 0); }
/* the first m of n items were stored, since there was no room for more */
static inline void ring_calls_stored_of(ring_calls *r, uint64_t m, uint64_t n) {
    if (m == 0) ring_calls_full(r); else ring_calls_event(r, &r->p, RING_STORED, &m, m < n);
}
/* the first m were stored, with no reason given why no more */
static inline void ring_calls_some(ring_calls *r, uint64_t m) { ring_calls_event(r, &r->p, m ? RING_PUT_SOME : RING_PUT_NOTHING, &m, m > 0); }
/* an all-or-nothing put of two items or more: none was stored, since there was not room for all */
static inline void ring_calls_put_short(ring_calls *r) { ring_calls_event(r, &r->p, RING_PUT_SHORT, NULL, 0); }
/* none was stored, with no reason given */
static inline void ring_calls_put_nothing(ring_calls *r) { ring_calls_event(r, &r->p, RING_PUT_NOTHING, NULL, 0); }
static inline void ring_calls_close(ring_calls *r) { ring_calls_event(r, &r->p, RING_CLOSE, NULL, 0); }
/* the end of a close, or of a put that found the queue closed */
static inline void ring_calls_closed(ring_calls *r) { ring_calls_event(r, &r->p, RING_CLOSED, NULL, 0); }

/* The consumer's: a take of at most n items, n at least 1; then its items, or that it found none. */
static inline void ring_calls_take_all(ring_calls *r, uint64_t n) { ring_calls_event(r, &r->c, RING_TAKE, &n, n > 1); }
static inline void ring_calls_take(ring_calls *r) { ring_calls_take_all(r, 1); }
static inline void ring_calls_items(ring_calls *r, const uint64_t *items, size_t n) { ring_calls_event(r, &r->c, n ? RING_ITEM : RING_EMPTY, items, n); }
static inline void ring_calls_item(ring_calls *r, uint64_t item) { ring_calls_items(r, &item, 1); }
static inline void ring_calls_empty(ring_calls *r) { ring_calls_event(r, &r->c, RING_EMPTY, NULL, 0); }
/* n items, with no reason given why no more */
static inline void ring_calls_some_items(ring_calls *r, const uint64_t *items, size_t n) { ring_calls_event(r, &r->c, n ? RING_TAKE_SOME : RING_TAKE_NOTHING, items, n); }
/* an all-or-nothing take of two items or more: there were not enough */
static inline void ring_calls_take_short(ring_calls *r) { ring_calls_event(r, &r->c, RING_TAKE_SHORT, NULL, 0); }
static inline void ring_calls_take_nothing(ring_calls *r) { ring_calls_event(r, &r->c, RING_TAKE_NOTHING, NULL, 0); }
/* empty, and closed */
static inline void ring_calls_told(ring_calls *r) { ring_calls_event(r, &r->c, RING_TOLD, NULL, 0); }

/* Walks through the events of both sides, in the order of their tickets, up to the one at which the history is cut (UINT64_MAX: it is not cut). */
typedef struct { const ring_calls_log *p, *c; size_t at_p, at_c; uint64_t cut; } ring_calls_walk;

static inline ring_calls_walk ring_calls_begin(const ring_calls *r) {
    ring_calls_walk w = { &r->p, &r->c, 0, 0, r->p.cut < r->c.cut ? r->p.cut : r->c.cut };
    return w;
}

/* The next event, as it is in its log; NULL after the last one. */
static inline const uint64_t *ring_calls_next(ring_calls_walk *w) {
    const uint64_t *p = w->at_p < w->p->used && w->p->words[w->at_p + 1] < w->cut ? w->p->words + w->at_p : NULL;
    const uint64_t *c = w->at_c < w->c->used && w->c->words[w->at_c + 1] < w->cut ? w->c->words + w->at_c : NULL;
    /* with equal time stamps the start comes first: the calls overlap */
    if (p && (!c || p[1] < c[1] || (p[1] == c[1] && (p[0] & 255) < RING_ENDS))) {
        w->at_p += (size_t)(p[0] >> 8) + 2;
        return p;
    }
    if (c) w->at_c += (size_t)(c[0] >> 8) + 2;
    return c;
}

static inline void ring_calls_line(const uint64_t *event, FILE *out) {
    static const char *const words[] = { "P put", "P close", "C take", "P stored", "P some", "P full", "P short", "P nothing", "P closed",
                                         "C item", "C some", "C empty", "C short", "C nothing", "C closed" };
    fputs(words[event[0] & 255], out);
    for (size_t i = 0; i < (size_t)(event[0] >> 8); i++) fprintf(out, " %llu", (unsigned long long)event[2 + i]);
    fputc('\n', out);
}

/* Prints to stderr if the history is cut, or has no call. */
static inline void ring_calls_tell(const ring_calls *r) {
    const uint64_t cut = ring_calls_begin(r).cut;
    if (!r->p.words || (cut == UINT64_MAX && r->p.used + r->c.used == 0)) {
        fputs("ring_calls: no call was recorded: was ring_calls_init called, and were both threads joined?\n", stderr);
    } else if (cut != UINT64_MAX) {
        const ring_calls_log *full = r->p.cut == cut ? &r->p : &r->c;
        fprintf(stderr, "ring_calls: the %s's log was full after %zu words: the recording is a prefix of what happened\n",
                full == &r->p ? "producer" : "consumer", full->room);
    }
}

/* Writes the recording; head is its first line: "queue 8", "queue 1 512" or "queue". Returns 0 if not everything was written. If the history
 * is cut or has no call, prints this to stderr. */
static inline int ring_calls_write(const ring_calls *r, const char *head, FILE *out) {
    ring_calls_walk w = ring_calls_begin(r);
    int written;
#ifdef _WIN32
    /* a text stream would end each line in CR LF, which the audit refuses */
    int mode = fflush(out) == 0 ? _setmode(_fileno(out), _O_BINARY) : -1;
#endif
    ring_calls_tell(r);
    fprintf(out, "%s%s\n", w.cut == UINT64_MAX ? "" : "cut ", head);
    for (const uint64_t *event; (event = ring_calls_next(&w)) != NULL;) ring_calls_line(event, out);
    written = fflush(out) == 0 && !ferror(out);
#ifdef _WIN32
    if (mode != -1) _setmode(_fileno(out), mode);
#endif
    return written;
}
#endif
