/* ring_live.h: records the calls of a queue with one producer and one consumer and audits them as they happen, in a thread of
 * its own and in constant memory: for runs lasting hours. The verdict is that of the proved audit, `lamport_ring audit
 * --calls`, in the same words. C11 with POSIX threads (-std=gnu11), and C++ from C++11; it needs ring_calls.h and ring_audit.h
 * beside it, and the library of the latter.
 *
 *     ring_live live;
 *     if (!ring_live_begin(&live, "queue 8")) ..              before the threads; if it fails stderr says why
 *     producer:  if (!ring_live_put(&live, item)) return;     0: there was a fault; nothing more is recorded, and all calls return 0
 *                if (my_put(item)) ring_live_stored(&live); else ring_live_full(&live);
 *     consumer:  if (!ring_live_take(&live)) return;
 *                if (my_take(&item)) ring_live_item(&live, item); else ring_live_empty(&live);
 *     after both threads were joined:
 *         int lawful = ring_live_end(&live);
 *         ring_live_print(&live, stdout);                     `lawful` and the report, or the words of the fault
 *         ring_live_free(&live);
 *
 * At the first fault stderr has its words and the lines around it, and each side is stopped at its next event: the queue stays
 * in that state, some calls after the line at fault. A side that is blocked in a call stays there, unless the other
 * one wakes it; a third thread can check ring_live_at_fault, and may then call ring_live_end, but not ring_live_free. In the
 * environment RING_LIVE_TRAP=1 raises SIGTRAP at a fault, for a debugger (on Windows a breakpoint); RING_LIVE_TELL=1 prints
 * the progress to stderr each second, 60 each minute: `behind` is the number of events that the monitor has not processed.
 *
 * Why there are no false alarms: the tickets are those of ring_calls.h, whose argument applies. Each ticket belongs to one event, so the
 * monitor, which knows the next one, finds its event on one side or the other, and never waits for a side that has no events.
 * An event becomes visible to it before the recorder's call ends: the start of a blocking call is visible. What a side learns from
 * the monitor orders no more than tickets do, since a later start has a greater ticket than all events that the monitor has
 * seen.
 *
 * If the log of a side is full, both sides wait until the monitor has processed everything. A side waits before a start draws its
 * ticket, until there is room for the end too: nothing waits between a start and its end, and a blocking queue can always
 * continue. Both sides continue at the same time, so that calls overlap as before. The lines of RING_LIVE_TELL show how often this happened as
 * `waits`. */
#ifndef RING_LIVE_H
#define RING_LIVE_H
#include <pthread.h>
#include <sched.h>
#include <signal.h>
#include <time.h>
#ifdef _WIN32
#include <intrin.h>
#endif
#include "ring_audit.h"
#ifndef CLOCK_MONOTONIC
#error "ring_live.h needs POSIX: -std=gnu11, or -D_POSIX_C_SOURCE=200809L"
#endif

/* The most items that a call offers or asks for. */
#ifndef RING_LIVE_MOST
#define RING_LIVE_MOST 64
#endif
/* The number of words of a side's log, of 8 bytes each; a power of two. An event takes one word, and one more for each of its numbers. */
#ifndef RING_LIVE_WORDS
#define RING_LIVE_WORDS 65536
#endif
/* The most items inside that can be audited, for a queue with no bound or a larger one. */
#ifndef RING_LIVE_INSIDE
#define RING_LIVE_INSIDE 65536
#endif

enum {
    RING_LIVE_MASK = RING_LIVE_WORDS - 1,
    RING_LIVE_CALL = 2 * (RING_LIVE_MOST + 1),          /* the most words of a start and its end */
    RING_LIVE_LINES = 256,                              /* the most lines that are processed together */
    RING_LIVE_BITS = 16                                 /* an event's first word: its kind in 4 bits, its numbers, its ticket */
};
static_assert(RING_LIVE_MOST >= 1 && RING_LIVE_MOST < 4096, "from 1 to 4095");
static_assert((RING_LIVE_WORDS & RING_LIVE_MASK) == 0 && RING_LIVE_WORDS >= 16 * RING_LIVE_CALL, "a power of two, not small");

/* What the recorder's calls do. A side may make both wait or stop; only the monitor ends a wait. */
enum { RING_LIVE_GO, RING_LIVE_WAIT, RING_LIVE_STOP };

/* A side's log. Each line here is written by one thread; `apart` keeps it off the next one's cache line. */
typedef struct {
    ring_calls_counter shown; char apart1[120];                         /* the side's: words written */
    ring_calls_counter done; char apart2[120];                          /* the monitor's: words read */
    uint64_t *words, at, seen; char apart3[104];                        /* the side's own: words written; done, as it last was */
    const uint64_t *log; uint64_t read, known; char apart4[104];        /* the monitor's own: words read; shown, as it last was */
} ring_live_side;

/* Lines, some already processed and the others next, and their numbers. */
typedef struct {
    uint64_t first;                                                     /* the number of its first line */
    size_t used, heard, numbers_used, numbers_heard;
    ring_audit_line lines[RING_LIVE_LINES];
    uint64_t numbers[RING_LIVE_LINES * RING_LIVE_MOST];
} ring_live_page;

typedef struct {
    ring_live_side p, c;
    ring_calls_counter next; char apart1[120];                          /* the next ticket */
    ring_calls_counter state, over, refused; char apart2[104];          /* refused: the number of items of a call that has too many */
    /* the monitor's own while it runs */
    uint64_t ticket, waits, told_calls;                                 /* ticket: that of the next event */
    double began, told;                                                 /* seconds of the clock */
    unsigned long each;                                                 /* seconds between lines of RING_LIVE_TELL; 0: no lines */
    int traps, has_begun;
    ring_live_page *page, *page_before;                                 /* the one that is being filled, and the one before it */
    ring_audit audit;
    char head[64];
    pthread_t monitor;
} ring_live;

static inline uint64_t ring_live_load(const ring_calls_counter *word) {
    return RING_CALLS_STD(atomic_load_explicit)(word, RING_CALLS_STD(memory_order_acquire));
}

static inline void ring_live_store(ring_calls_counter *word, uint64_t value) {
    RING_CALLS_STD(atomic_store_explicit)(word, value, RING_CALLS_STD(memory_order_release));
}

/* Changes the state if it is still the given one. */
static inline int ring_live_change(ring_live *r, uint64_t from, uint64_t to) {
    return RING_CALLS_STD(atomic_compare_exchange_strong_explicit)(&r->state, &from, to, RING_CALLS_STD(memory_order_acq_rel),
                                                                   RING_CALLS_STD(memory_order_acquire));
}

static inline void ring_live_rest(long microseconds) {
    struct timespec t = { 0, microseconds * 1000 };
    nanosleep(&t, NULL);
}

static inline double ring_live_seconds(void) {
    struct timespec t;
    clock_gettime(CLOCK_MONOTONIC, &t);
    return (double)t.tv_sec + (double)t.tv_nsec * 1e-9;
}

/* Whether there was a fault. */
static inline int ring_live_at_fault(const ring_live *r) { return ring_live_load(&r->state) == RING_LIVE_STOP; }

/* "lawful", or the words of the fault: after ring_live_end. */
static inline const char *ring_live_words(const ring_live *r) { return ring_audit_words(&r->audit); }

/* The recorder. */

/* Waits until there is room for a call. Returns 0 if both sides are stopped. */
static inline int ring_live_room(ring_live *r, ring_live_side *s) {
    for (unsigned round = 0;; round++) {
        uint64_t state = ring_live_load(&r->state);
        if (state == RING_LIVE_STOP) return 0;
        s->seen = ring_live_load(&s->done);
        if (state == RING_LIVE_GO) {
            if (s->at - s->seen <= RING_LIVE_WORDS - RING_LIVE_CALL) return 1;
            ring_live_change(r, RING_LIVE_GO, RING_LIVE_WAIT);
        }
        if (round < 4096) sched_yield(); else ring_live_rest(50);
    }
}

/* Stops both sides because of a call with too many items; the monitor reports it. Returns 0. */
static inline int ring_live_refuse(ring_live *r, uint64_t items) {
    uint64_t state;
    ring_live_store(&r->refused, items);
    while ((state = ring_live_load(&r->state)) != RING_LIVE_STOP && !ring_live_change(r, state, RING_LIVE_STOP)) {}
    return 0;
}

static inline int ring_live_event(ring_live *r, ring_live_side *s, int kind, const uint64_t *numbers, size_t n) {
    uint64_t ticket, at = s->at, state = RING_CALLS_STD(atomic_load_explicit)(&r->state, RING_CALLS_STD(memory_order_relaxed));
    if (n > RING_LIVE_MOST) return ring_live_refuse(r, n);
    if (kind < RING_ENDS) {
        if ((state != RING_LIVE_GO || at - s->seen > RING_LIVE_WORDS - RING_LIVE_CALL) && !ring_live_room(r, s)) return 0;
        ticket = RING_CALLS_STD(atomic_fetch_add_explicit)(&r->next, (uint64_t)1, RING_CALLS_STD(memory_order_acquire));
    } else {
        if (state == RING_LIVE_STOP) return 0;
        ticket = RING_CALLS_STD(atomic_fetch_add_explicit)(&r->next, (uint64_t)1, RING_CALLS_STD(memory_order_release));
    }
    s->words[at++ & RING_LIVE_MASK] = ticket << RING_LIVE_BITS | (uint64_t)n << 4 | (uint64_t)kind;
    for (size_t i = 0; i < n; i++) s->words[at++ & RING_LIVE_MASK] = numbers[i];
    s->at = at;
    ring_live_store(&s->shown, at);
    return 1;
}

/* The producer's: each before the call, or after it, as in ring_calls.h. They return 1, or 0 if both sides are stopped. */
static inline int ring_live_put_all(ring_live *r, const uint64_t *items, size_t n) {
    return ring_live_event(r, &r->p, RING_PUT, items, n);
}
static inline int ring_live_put(ring_live *r, uint64_t item) { return ring_live_put_all(r, &item, 1); }
static inline int ring_live_stored(ring_live *r) { return ring_live_event(r, &r->p, RING_STORED, NULL, 0); }
static inline int ring_live_full(ring_live *r) { return ring_live_event(r, &r->p, RING_FULL, NULL, 0); }
static inline int ring_live_stored_of(ring_live *r, uint64_t m, uint64_t n) {
    return m == 0 ? ring_live_full(r) : ring_live_event(r, &r->p, RING_STORED, &m, m < n);
}
static inline int ring_live_some(ring_live *r, uint64_t m) {
    return ring_live_event(r, &r->p, m ? RING_PUT_SOME : RING_PUT_NOTHING, &m, m > 0);
}
static inline int ring_live_put_short(ring_live *r) { return ring_live_event(r, &r->p, RING_PUT_SHORT, NULL, 0); }
static inline int ring_live_put_nothing(ring_live *r) { return ring_live_event(r, &r->p, RING_PUT_NOTHING, NULL, 0); }
static inline int ring_live_close(ring_live *r) { return ring_live_event(r, &r->p, RING_CLOSE, NULL, 0); }
static inline int ring_live_closed(ring_live *r) { return ring_live_event(r, &r->p, RING_CLOSED, NULL, 0); }

/* The consumer's. */
static inline int ring_live_take_all(ring_live *r, uint64_t n) {
    return n > RING_LIVE_MOST ? ring_live_refuse(r, n) : ring_live_event(r, &r->c, RING_TAKE, &n, n > 1);
}
static inline int ring_live_take(ring_live *r) { return ring_live_take_all(r, 1); }
static inline int ring_live_items(ring_live *r, const uint64_t *items, size_t n) {
    return ring_live_event(r, &r->c, n ? RING_ITEM : RING_EMPTY, items, n);
}
static inline int ring_live_item(ring_live *r, uint64_t item) { return ring_live_items(r, &item, 1); }
static inline int ring_live_empty(ring_live *r) { return ring_live_event(r, &r->c, RING_EMPTY, NULL, 0); }
static inline int ring_live_some_items(ring_live *r, const uint64_t *items, size_t n) {
    return ring_live_event(r, &r->c, n ? RING_TAKE_SOME : RING_TAKE_NOTHING, items, n);
}
static inline int ring_live_take_short(ring_live *r) { return ring_live_event(r, &r->c, RING_TAKE_SHORT, NULL, 0); }
static inline int ring_live_take_nothing(ring_live *r) { return ring_live_event(r, &r->c, RING_TAKE_NOTHING, NULL, 0); }
static inline int ring_live_told(ring_live *r) { return ring_live_event(r, &r->c, RING_TOLD, NULL, 0); }

/* The monitor. */

/* Moves known events from the logs to a page that has room, in the order of their tickets. Returns how many. */
static inline size_t ring_live_merge(ring_live *r) {
    if (r->page->used == RING_LIVE_LINES) {
        ring_live_page *before = r->page_before;
        r->page_before = r->page;
        r->page = before;
        before->used = before->heard = before->numbers_used = before->numbers_heard = 0;
        before->first = r->ticket + 2;
    }
    ring_live_page *page = r->page;
    const uint64_t *const logs[2] = { r->p.log, r->c.log }, known[2] = { r->p.known, r->c.known };
    uint64_t reads[2] = { r->p.read, r->c.read }, next = r->ticket << RING_LIVE_BITS;
    size_t used = page->used, numbers = page->numbers_used;
    for (; used < RING_LIVE_LINES; used++, next += (uint64_t)1 << RING_LIVE_BITS) {
        uint64_t word = ~next;
        int side = 0;
        if (reads[0] != known[0]) word = logs[0][reads[0] & RING_LIVE_MASK];
        if ((word ^ next) >> RING_LIVE_BITS != 0 && reads[1] != known[1]) word = logs[side = 1][reads[1] & RING_LIVE_MASK];
        word ^= next;
        if (word >> RING_LIVE_BITS != 0) break;
        const size_t n = (size_t)(word >> 4);
        page->lines[used].word = (uint32_t)(word & 15);
        page->lines[used].count = (uint32_t)n;
        for (size_t i = 1; i <= n; i++) page->numbers[numbers++] = logs[side][(reads[side] + i) & RING_LIVE_MASK];
        reads[side] += n + 1;
    }
    const size_t count = used - page->used;
    r->ticket += count;
    page->used = used;
    page->numbers_used = numbers;
    if (r->p.read != reads[0]) ring_live_store(&r->p.done, r->p.read = reads[0]);
    if (r->c.read != reads[1]) ring_live_store(&r->c.done, r->c.read = reads[1]);
    return count;
}

/* Processes the new lines of the page. Returns 0 if one of them is not lawful. */
static inline int ring_live_hear(ring_live *r) {
    ring_live_page *page = r->page;
    const ring_audit_line *lines = page->lines + page->heard;
    const uint64_t *numbers = page->numbers + page->numbers_heard;
    const size_t count = page->used - page->heard, n = page->numbers_used - page->numbers_heard;
    page->heard = page->used;
    page->numbers_heard = page->numbers_used;
    return ring_audit_lines(&r->audit, lines, count, numbers, n);
}

/* Writes the lines around the one at fault, and the one that contradicts it, as far as the two pages have them. */
static inline void ring_live_show(const ring_live *r, FILE *out) {
    enum { BEFORE = 6, BEHIND = 2 };
    const ring_live_page *const pages[2] = { r->page_before, r->page };
    const ring_audit_found found = r->audit.found;
    uint64_t event[2 + RING_LIVE_MOST], last = 0;
    if (found.line <= BEFORE + 1) fprintf(out, "  %6llu  %s\n", (unsigned long long)(last = 1), r->head);
    for (int i = 0; i < 2; i++) {
        const uint64_t *numbers = pages[i]->numbers;
        for (size_t j = 0; j < pages[i]->used; j++) {
            const uint64_t line = pages[i]->first + j, n = pages[i]->lines[j].count;
            const bool is_told = line == found.line || line == found.against;
            event[0] = n << 8 | pages[i]->lines[j].word;
            for (uint64_t k = 0; k < n; k++) event[2 + k] = *numbers++;
            if (!is_told && (line + BEFORE < found.line || line > found.line + BEHIND)) continue;
            if (line > last + 1) fputs("        ..\n", out);
            fprintf(out, "%s %6llu  ", is_told ? ">" : " ", (unsigned long long)line);
            ring_calls_line(event, out);
            last = line;
        }
    }
}

/* Stops for a debugger. */
static inline void ring_live_trap(void) {
#ifdef _WIN32
    __debugbreak();         /* there is no SIGTRAP */
#else
    raise(SIGTRAP);
#endif
}

/* Stops both sides, and prints why. */
static inline void ring_live_stop(ring_live *r) {
    ring_live_store(&r->state, RING_LIVE_STOP);
    fprintf(stderr, "%s\n", ring_live_words(r));
    if (r->audit.found.line) ring_live_show(r, stderr);
    if (r->traps) ring_live_trap();
}

/* The same, if the words are not the audit's. */
static inline void ring_live_stop_for(ring_live *r, uint32_t verdict, const char *before, uint64_t number, const char *behind) {
    r->audit.found.verdict = verdict;
    snprintf(r->audit.words, sizeof r->audit.words, "refused: %s %llu %s", before, (unsigned long long)number, behind);
    ring_live_stop(r);
}

/* Prints the progress if it is time to. */
static inline void ring_live_tell(ring_live *r) {
    const double now = r->each ? ring_live_seconds() : 0, since = now - r->told;
    ring_audit_counts seen;
    if (!r->each || since < (double)r->each || !ring_audit_report(&r->audit.state, &seen)) return;
    const unsigned long long behind = ring_live_load(&r->next) - r->ticket, waits = r->waits;
    fprintf(stderr, "%.0f s: calls %zu, %.0f a second, overlapped %zu, inside %zu %zu, open %zu, behind %llu, waits %llu\n",
            now - r->began, seen.calls, (double)(seen.calls - r->told_calls) / since, seen.overlapped,
            seen.surely_inside, seen.perhaps_inside, seen.under_way, behind, waits);
    r->told = now;
    r->told_calls = seen.calls;
}

/* Processes what is visible now. Returns 0 if it is not lawful, or if nothing more will come. */
static inline int ring_live_round(ring_live *r, size_t *count) {
    /* (read before the visible events: at the end, and if both sides wait or are stopped, those are all) */
    const uint64_t over = ring_live_load(&r->over), state = ring_live_load(&r->state);
    r->p.known = ring_live_load(&r->p.shown);
    r->c.known = ring_live_load(&r->c.shown);
    for (size_t n; (n = ring_live_merge(r)) > 0; *count += n) {
        if (ring_live_hear(r)) continue;
        const uint32_t verdict = r->audit.found.verdict;
        if (verdict != RING_AUDIT_NO_ROOM) ring_live_stop(r);
        else ring_live_stop_for(r, verdict, "at line", r->audit.found.line, "more items are inside than RING_LIVE_INSIDE");
        return 0;
    }
    ring_live_tell(r);
    if (state == RING_LIVE_STOP) {
        ring_live_stop_for(r, RING_AUDIT_NO_ROOM, "a call of", ring_live_load(&r->refused), "items has more than RING_LIVE_MOST");
    } else if (over && ring_live_load(&r->next) != r->ticket) {
        ring_live_stop_for(r, RING_AUDIT_BAD_LINE, "line", r->ticket + 2, "is missing: a side has not ended");
    }
    if (state == RING_LIVE_WAIT && ring_live_change(r, RING_LIVE_WAIT, RING_LIVE_GO)) r->waits++;
    return state != RING_LIVE_STOP && !over;
}

/* The monitor's thread. It pauses after each round unless it is far behind, longer if fewer events come: so it processes many together, and
 * rarely reads the sides' counters. */
static inline void *ring_live_monitor(void *passed) {
    ring_live *r = (ring_live *)passed;
    long rest = 50;
    for (size_t count = 0; ring_live_round(r, &count); count = 0) {
        if (count < RING_LIVE_WORDS / 64 && rest < 1000) rest *= 2;
        if (count > RING_LIVE_WORDS / 16 && rest > 50) rest /= 2;
        if (count < RING_LIVE_WORDS / 4) ring_live_rest(rest);
    }
    return NULL;
}

/* Begins. Returns 0, and prints why to stderr, if there is no memory or no thread, the head is not a first line, or the library is of
 * another version. */
static inline int ring_live_begin(ring_live *r, const char *head) {
    uint64_t numbers[2] = { 0, 0 };
    const size_t count = ring_audit_numbers(head, numbers);
    const char *each = getenv("RING_LIVE_TELL"), *traps = getenv("RING_LIVE_TRAP");
    ring_live_side *const sides[2] = { &r->p, &r->c };
    size_t inside = RING_LIVE_INSIDE;
    if ((count == 1 || count == 2) && numbers[count - 1] < inside) inside = (size_t)numbers[count - 1];
    for (int i = 0; i < 2; i++) {
        ring_live_side *s = sides[i];
        RING_CALLS_STD(atomic_init)(&s->shown, (uint64_t)0);
        RING_CALLS_STD(atomic_init)(&s->done, (uint64_t)0);
        s->log = s->words = (uint64_t *)malloc(RING_LIVE_WORDS * sizeof(uint64_t));
        s->at = s->seen = s->read = s->known = 0;
        /* so that the pages are present before the recording starts */
        if (s->words) memset(s->words, 1, RING_LIVE_WORDS * sizeof(uint64_t));
    }
    RING_CALLS_STD(atomic_init)(&r->next, (uint64_t)0);
    RING_CALLS_STD(atomic_init)(&r->state, (uint64_t)RING_LIVE_STOP);
    RING_CALLS_STD(atomic_init)(&r->over, (uint64_t)0);
    RING_CALLS_STD(atomic_init)(&r->refused, (uint64_t)0);
    r->ticket = r->waits = r->told_calls = 0;
    r->began = r->told = ring_live_seconds();
    r->each = each ? strtoul(each, NULL, 10) : 0;
    r->traps = traps && *traps && strcmp(traps, "0") != 0;
    r->has_begun = 0;
    r->page = (ring_live_page *)calloc(1, sizeof *r->page);
    r->page_before = (ring_live_page *)calloc(1, sizeof *r->page);
    snprintf(r->head, sizeof r->head, "%s", head);
    /* (the most inside, plus what a take under way asks for and a put offers) */
    if (!ring_audit_init(&r->audit, head, inside + 2 * RING_LIVE_MOST)) return 0;
    if (r->p.words && r->c.words && r->page && r->page_before) {
        r->page->first = 2;
        ring_live_store(&r->state, RING_LIVE_GO);
        r->has_begun = pthread_create(&r->monitor, NULL, ring_live_monitor, r) == 0;
    }
    if (!r->has_begun) {
        ring_live_store(&r->state, RING_LIVE_STOP);
        ring_audit_say(&r->audit, RING_AUDIT_NO_MEMORY, 0);
        fprintf(stderr, "%s\n", ring_live_words(r));
    }
    return r->has_begun;
}

/* Ends, after both sides were joined, or at a fault. Returns whether all was lawful. If so, and no call was recorded, prints this to stderr. */
static inline int ring_live_end(ring_live *r) {
    ring_live_store(&r->over, 1);
    if (r->has_begun) pthread_join(r->monitor, NULL);
    r->has_begun = 0;
    if (r->audit.found.verdict != RING_AUDIT_HEARD) return 0;
    if (r->ticket == 0) fputs("ring_live: no call was recorded: was ring_live_begin called, and were both threads joined?\n", stderr);
    return 1;
}

/* Prints what audit --calls prints: the report, or the words of the fault. Returns 0 if not everything was written. */
static inline int ring_live_print(ring_live *r, FILE *out) { return ring_audit_print(&r->audit, out); }

/* Frees the memory, even if it did not begin. */
static inline void ring_live_free(ring_live *r) {
    free(r->p.words);
    free(r->c.words);
    free(r->page);
    free(r->page_before);
    ring_audit_free(&r->audit);
}
#endif
