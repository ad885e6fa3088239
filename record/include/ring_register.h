/* ring_register.h: records the reads and writes of a register with one writer and up to 64 readers, for `lamport_ring audit --register`.
 * C11, and C++ from C++11; only this file is needed. To judge in the same process: ring_register_audit.h.
 *
 *     ring_register rec;
 *     if (!ring_register_init(&rec, 2, 1 << 20)) ..     2 readers; words of 8 bytes for each thread: an operation takes 5
 *     writer:    ring_register_write(&rec, v);   my_write(v);           ring_register_wrote(&rec);
 *     reader 1:  ring_register_read(&rec, 1);    v = my_read();         ring_register_got(&rec, 1, v);        (readers are counted from 1)
 *     after all threads were joined:  ring_register_print(&rec, "register 0 4", file);  ring_register_free(&rec);
 *                or ring_register_restart(&rec), and the next round begins.
 *
 * Each number belongs to one thread; a writer that also reads needs a number of its own. A write of the value that the register already holds is
 * a write: record it. A read that finds no value is recorded with a number that is not a value: 4 if the first line is "register 0 4".
 *
 * Why there are no false alarms. Each start takes the next ticket of one counter before the operation, each end after it, so an
 * interval can only get wider. The threads write the counter only by fetch_add. If the ticket of an end is smaller than that of a start, the
 * start's fetch_add (acquire) reads from the release sequence that the end's fetch_add (release) heads: the one operation happens before
 * the other in the sense of C11. All other operations overlap in the recording. With wider intervals each read may be of the same writes
 * and perhaps of more, no read is overlapped by fewer of them, and fewer reads must agree with one another. So the recording has each
 * class that the register has in this run, and the register lacks each class that the recording lacks. The price: a ticket orders
 * operations that the register itself may not order, so a missing fence between operations that do not overlap can go unnoticed.
 *
* While recording, nothing is allocated and nothing is locked. If the log of a thread is full, the history is cut, for all threads, at the
 * ticket of the first event that was not kept: it is a prefix of what happened, and a prefix has each class that the whole has. The
 * first line then begins with `cut`, and ring_register_print prints to stderr whose log was full. It also prints if nothing was
 * recorded. */
#ifndef RING_REGISTER_H
#define RING_REGISTER_H
#include <stdint.h>
#include <stdio.h>
#include <stdlib.h>
#include <string.h>
#ifdef __cplusplus
#include <atomic>
#define RING_REGISTER_STD(name) std::name
typedef std::atomic<uint64_t> ring_register_counter;
#else
#include <stdatomic.h>
#define RING_REGISTER_STD(name) name
typedef _Atomic uint64_t ring_register_counter;
#endif
#ifdef _WIN32
#include <fcntl.h>
#include <io.h>
#endif

enum { RING_REGISTER_READERS = 64 };
enum { RING_WRITE, RING_READ, RING_REGISTER_ENDS, RING_WROTE = RING_REGISTER_ENDS, RING_GOT };

/* The log of a thread: for each event its kind and the number of its numbers, its ticket, the number. */
typedef struct { uint64_t *words; size_t used, room; uint64_t cut; char apart[96]; } ring_register_log;
/* The log of the writer, then those of the readers. */
typedef struct { ring_register_log logs[RING_REGISTER_READERS + 1]; int readers; char between[124]; ring_register_counter next; char apart[120]; } ring_register;

/* Discards what was recorded, between two rounds of a test: while no thread records. */
static inline void ring_register_restart(ring_register *r) {
    for (int i = 0; i <= r->readers; i++) {
        r->logs[i].used = 0;
        r->logs[i].cut = UINT64_MAX;
    }
    RING_REGISTER_STD(atomic_store_explicit)(&r->next, (uint64_t)0, RING_REGISTER_STD(memory_order_relaxed));
}

static inline void ring_register_free(ring_register *r) {
    for (int i = 0; i <= r->readers; i++) free(r->logs[i].words);
}

/* Returns 0 if there is no memory, or if the readers are not from 1 to 64. */
static inline int ring_register_init(ring_register *r, int readers, size_t words) {
    int there = readers >= 1 && readers <= RING_REGISTER_READERS;
    r->readers = there ? readers : 0;
    for (int i = 0; i <= r->readers; i++) {
        ring_register_log *log = &r->logs[i];
        log->words = there ? (uint64_t *)malloc(words * sizeof(uint64_t)) : NULL;
        log->room = words;
        if (log->words) memset(log->words, 1, words * sizeof(uint64_t));    /* so that the pages are present before the recording starts */
        there = log->words != NULL;
    }
    RING_REGISTER_STD(atomic_init)(&r->next, (uint64_t)0);
    ring_register_restart(r);
    return there;
}

static inline void ring_register_event(ring_register *r, int thread, int kind, const uint64_t *value) {
    ring_register_log *log = &r->logs[thread];
    const size_t n = value != NULL;
    uint64_t t, *w;
    if (log->cut != UINT64_MAX) return;
    if (kind < RING_REGISTER_ENDS) t = RING_REGISTER_STD(atomic_fetch_add_explicit)(&r->next, (uint64_t)1, RING_REGISTER_STD(memory_order_acquire));
    else t = RING_REGISTER_STD(atomic_fetch_add_explicit)(&r->next, (uint64_t)1, RING_REGISTER_STD(memory_order_release));
    if (log->room - log->used < n + 2) { log->cut = t; return; }
    w = log->words + log->used;
    w[0] = (uint64_t)kind | (uint64_t)n << 8;
    w[1] = t;
    if (value) w[2] = *value;
    log->used += n + 2;
}

/* The writer's, before a write and after it. */
static inline void ring_register_write(ring_register *r, uint64_t value) { ring_register_event(r, 0, RING_WRITE, &value); }
static inline void ring_register_wrote(ring_register *r) { ring_register_event(r, 0, RING_WROTE, NULL); }

/* Those of a reader, numbered from 1, before a read and after it. */
static inline void ring_register_read(ring_register *r, int reader) { ring_register_event(r, reader, RING_READ, NULL); }
static inline void ring_register_got(ring_register *r, int reader, uint64_t value) { ring_register_event(r, reader, RING_GOT, &value); }

/* Whose log was full first; -1 if none was. */
static inline int ring_register_full(const ring_register *r) {
    int full = -1;
    for (int i = 0; i <= r->readers; i++) {
        if (r->logs[i].cut != UINT64_MAX && (full < 0 || r->logs[i].cut < r->logs[full].cut)) full = i;
    }
    return full;
}

/* Reports on stderr that the history is cut, or that nothing was recorded. */
static inline void ring_register_tell(const ring_register *r) {
    const int full = ring_register_full(r);
    size_t used = 0;
    for (int i = 0; i <= r->readers; i++) used += r->logs[i].used;
    if (!r->logs[0].words || (full < 0 && used == 0)) {
        fputs("ring_register: nothing was recorded: was ring_register_init called, and were all threads joined?\n", stderr);
    } else if (full >= 0) {
        char name[16] = "W";
        if (full > 0) snprintf(name, sizeof name, "R%d", full);
        fprintf(stderr, "ring_register: the log of %s was full after %lu words: the recording is a prefix of what happened\n", name, (unsigned long)r->logs[full].room);
    }
}

/* What was recorded, in the order of the tickets, up to the cut. ring_register_next returns the next event: its kind and the number of its numbers,
 * its ticket, the number; `thread` is set to its thread, 0 for the writer; NULL if there is none. No thread may record meanwhile. */
typedef struct { const ring_register *rec; uint64_t cut; size_t at[RING_REGISTER_READERS + 1]; int thread; } ring_register_walk;

static inline ring_register_walk ring_register_begin(const ring_register *r) {
    const int full = ring_register_full(r);
    ring_register_walk walk;
    memset(&walk, 0, sizeof walk);
    walk.rec = r;
    walk.cut = full < 0 ? UINT64_MAX : r->logs[full].cut;
    return walk;
}

static inline const uint64_t *ring_register_next(ring_register_walk *walk) {
    const uint64_t *event = NULL;
    for (int i = 0; i <= walk->rec->readers; i++) {
        const ring_register_log *log = &walk->rec->logs[i];
        const uint64_t *w = walk->at[i] < log->used ? log->words + walk->at[i] : NULL;
        if (w && w[1] < walk->cut && (!event || w[1] < event[1])) {
            event = w;
            walk->thread = i;
        }
    }
    if (event) walk->at[walk->thread] += (size_t)(event[0] >> 8) + 2;
    return event;
}

/* Writes an event of a thread as a line. */
static inline void ring_register_line(const uint64_t *event, int thread, FILE *out) {
    static const char *const words[] = { " write", " read", " wrote", " got" };
    if (thread == 0) fputc('W', out);
    else fprintf(out, "R%d", thread);
    fputs(words[event[0] & 255], out);
    if (event[0] >> 8) fprintf(out, " %llu", (unsigned long long)event[2]);
    fputc('\n', out);
}

/* Prints the recording; head is its first line: "register 0 4" (the first value, and that the values are below 4) or "register 0". Returns
 * 0 if not all was written. That the history is cut, or that nothing was recorded, is reported on stderr. */
static inline int ring_register_print(const ring_register *r, const char *head, FILE *out) {
    ring_register_walk walk = ring_register_begin(r);
    int written;
#ifdef _WIN32
    /* a text stream would end each line in CR LF, which the audit refuses */
    int mode = fflush(out) == 0 ? _setmode(_fileno(out), _O_BINARY) : -1;
#endif
    ring_register_tell(r);
    fprintf(out, "%s%s\n", walk.cut == UINT64_MAX ? "" : "cut ", head);
    for (const uint64_t *event; (event = ring_register_next(&walk)) != NULL;) ring_register_line(event, walk.thread, out);
    written = fflush(out) == 0 && !ferror(out);
#ifdef _WIN32
    if (mode != -1) _setmode(_fileno(out), mode);
#endif
    return written;
}
#endif
