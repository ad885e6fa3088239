/* ring_audit.h: judges the calls of a queue with one producer and one consumer in the process that makes them, for example in a unit test.
 * The verdict is that of the proved audit, `lamport_ring audit --calls`, in the same words, with no text and no other process.
 * C11, and C++ from C++11; it needs ring_calls.h beside it, and the library: libring_audit.a or .so in dist/ (Linux on x86-64)
 * or dist/aarch64-linux/ (on ARM64).
 *
 *     two threads record their calls in a ring_calls, as ring_calls.h describes; after both were joined:
 *         assert(ring_audit_lawful(&rec, "queue 8"));
 *     If they are not lawful, stderr has `fault: line 5: empty, but item 12 was inside since line 3`, and those lines. If
 *     RING_AUDIT_KEEP names a file in the environment, the recording is written there, for record/shrink and for the page.
 *     If none of the first 1000 calls that a program judges in this way overlapped one of the other side, stderr says so, once.
 *
 *     many rounds, in the same memory:
 *         ring_audit a = RING_AUDIT_NONE;
 *         each:  ring_calls_restart(&rec);  ..threads..  if (!ring_audit_judge(&a, &rec, "queue 8")) puts(ring_audit_words(&a));
 *         ring_audit_free(&a);
 *
 *     without a recorder, line by line, with room for 20 items, those inside and those that a put offers:
 *         if (!ring_audit_init(&a, "queue 8", 20)) ..
 *         ring_audit_put(&a, 7);  ring_audit_stored(&a);  ring_audit_take(&a);  ring_audit_item(&a, 7);      1 while all is lawful
 *         ring_audit_print(&a, stdout);                            `lawful` and the report, or the words of the first fault
 *
 * The library is proved. This file is not; record/test tests it. What C code must ensure for the library, and nothing checks:
 * - The state is all 0, except its two lists, before ring_audit_begin; after that only the library changes it.
 * - Each list has as many slots as stated, and nothing else touches them. No pointer is null, even if it points to no numbers.
 *   (This file ensures these two.)
 * - One call at a time on one state: threads that share a ring_audit need a lock.
 * - Of a state and its copy only one may be used, since both have the same slots. */
#ifndef RING_AUDIT_H
#define RING_AUDIT_H
#include <assert.h>
#include <stdbool.h>
#include "ring_calls.h"

/* An item that comes again is reported as such if it is among this many taken last. */
#ifndef RING_AUDIT_TAKEN
#define RING_AUDIT_TAKEN 65536
#endif

/* The library's types. A line: its kind, as in ring_calls.h, and the number of its numbers. A finding: the line at fault, the one that
 * contradicts it (0 if none does), the number of bytes of its words, and the verdict. */
typedef struct { uint64_t item, offered_at, stored_at; } ring_audit_offered;
typedef struct { uint64_t item, taken_at; } ring_audit_taken;
typedef struct { uint32_t word, count; } ring_audit_line;
typedef struct {
    size_t full, most, offered, before_put, wanted, before_take, begun_items;
    uint32_t put, begun;
    bool bounded, again, take, ended, shut;
} ring_audit_calls;
typedef struct {
    size_t calls, stored, taken, full, empty, nothing;
    bool told;
    size_t surely_inside, perhaps_inside, overlapped, under_way;
} ring_audit_counts;
typedef struct { uint64_t line, against, words; uint32_t verdict; } ring_audit_found;
typedef struct {
    ring_audit_offered *offered; size_t offered_room;
    ring_audit_taken *taken; size_t taken_room;
    size_t offered_first, offered_used, taken_first, taken_used, limit;
    ring_audit_taken last_taken;
    uint64_t line, ended_at, told_at, put_at, stored_at;
    ring_audit_calls calls;
    ring_audit_counts report;
    bool has_ended, has_told, put_overlaps, take_overlaps;
} ring_audit_state;

static_assert(sizeof(bool) == 1 && sizeof(size_t) == 8, "as on x86-64 and ARM64");
static_assert(sizeof(ring_audit_offered) == 24 && sizeof(ring_audit_taken) == 16, "as in the library");
static_assert(sizeof(ring_audit_line) == 8 && sizeof(ring_audit_calls) == 72, "as in the library");
static_assert(sizeof(ring_audit_counts) == 88 && sizeof(ring_audit_found) == 32, "as in the library");
static_assert(sizeof(ring_audit_state) == 296, "as in the library");

#ifdef __cplusplus
extern "C" {
#endif
bool ring_audit_begin(ring_audit_state *, const uint64_t *numbers, size_t count);
size_t ring_audit_hear(ring_audit_state *, const ring_audit_line *lines, size_t lines_count,
                       const uint64_t *numbers, size_t numbers_count, uint8_t *words, size_t words_room, ring_audit_found *found);
bool ring_audit_report(ring_audit_state *, ring_audit_counts *report);
void ring_audit_layout(uint64_t *sizes, size_t count);
#ifdef __cplusplus
}
#define RING_AUDIT_NONE {}
#else
#define RING_AUDIT_NONE { 0 }
#endif

/* The verdicts; the last two are this file's. */
enum {
    RING_AUDIT_HEARD, RING_AUDIT_OUT_OF_TURN, RING_AUDIT_NOT_LINEARIZABLE, RING_AUDIT_BAD_LINE, RING_AUDIT_NO_ROOM,
    RING_AUDIT_TOO_LONG, RING_AUDIT_NO_STATE, RING_AUDIT_NO_MEMORY, RING_AUDIT_OTHER_LIBRARY
};

/* The state after the accepted lines; the finding for the first line that was not accepted; whether calls are missing after the last line; the words. */
typedef struct { ring_audit_state state; ring_audit_found found; bool cut; char words[320]; } ring_audit;

/* "lawful", or the words of the first line that is not. */
static inline const char *ring_audit_words(const ring_audit *a) { return a->words; }

/* Records the finding and its words; those of a cause come from the library. Returns whether all lines were accepted. */
static inline int ring_audit_find(ring_audit *a, ring_audit_found found, const uint8_t *cause) {
    const unsigned long long line = (unsigned long long)found.line;
    const size_t room = sizeof a->words;
    char *words = a->words;
    a->found = found;
    switch (found.verdict) {
    case RING_AUDIT_HEARD: snprintf(words, room, "lawful"); break;
    case RING_AUDIT_OUT_OF_TURN: snprintf(words, room, "fault: line %llu: out of turn", line); break;
    case RING_AUDIT_NOT_LINEARIZABLE:
        snprintf(words, room, "fault: line %llu: %.*s", line, (int)found.words, (const char *)cause);
        break;
    case RING_AUDIT_BAD_LINE: snprintf(words, room, "refused: calls line %llu is not a line of the format", line); break;
    case RING_AUDIT_NO_ROOM: snprintf(words, room, "refused: no room for the items of line %llu", line); break;
    case RING_AUDIT_TOO_LONG: snprintf(words, room, "refused: calls have too many lines"); break;
    case RING_AUDIT_NO_STATE: snprintf(words, room, "refused: the state is none that libring_audit left"); break;
    case RING_AUDIT_NO_MEMORY: snprintf(words, room, "refused: out of memory"); break;
    default: snprintf(words, room, "refused: libring_audit is of another version than ring_audit.h");
    }
    return found.verdict == RING_AUDIT_HEARD;
}

/* Records a verdict that has no cause. */
static inline int ring_audit_say(ring_audit *a, uint32_t verdict, uint64_t line) {
    ring_audit_found found = { line, 0, 0, verdict };
    return ring_audit_find(a, found, (const uint8_t *)"");
}

static inline void ring_audit_free(ring_audit *a) {
    free(a->state.offered);
    free(a->state.taken);
    memset(&a->state, 0, sizeof a->state);
}

/* The numbers of a first line, "queue 8", "queue 1 512" or "queue"; returns how many, or 3 if it is not a first line. */
static inline size_t ring_audit_numbers(const char *head, uint64_t numbers[2]) {
    size_t count = 0;
    if (strncmp(head, "queue", 5) != 0) return 3;
    for (head += 5; *head == ' ' && count < 2; count++) {
        const char *first = ++head;
        for (numbers[count] = 0; *head >= '0' && *head <= '9'; head++) {
            uint64_t digit = (uint64_t)(*head - '0');
            if ((head > first && *first == '0') || numbers[count] > (UINT64_MAX - digit) / 10) return 3;
            numbers[count] = numbers[count] * 10 + digit;
        }
        if (head == first) return 3;
    }
    return *head ? 3 : count;
}

/* Discards everything, and begins again in the same memory. Returns 0 if the head is not a first line. */
static inline int ring_audit_restart(ring_audit *a, const char *head) {
    uint64_t numbers[2] = { 0, 0 };
    size_t count = ring_audit_numbers(head, numbers);
    ring_audit_state fresh;
    memset(&fresh, 0, sizeof fresh);
    fresh.offered = a->state.offered;
    fresh.offered_room = a->state.offered_room;
    fresh.taken = a->state.taken;
    fresh.taken_room = a->state.taken_room;
    a->state = fresh;
    a->cut = false;
    if (!fresh.offered) return ring_audit_say(a, RING_AUDIT_NO_MEMORY, 0);
    if (count > 2 || !ring_audit_begin(&a->state, numbers, count)) return ring_audit_say(a, RING_AUDIT_BAD_LINE, 1);
    return ring_audit_say(a, RING_AUDIT_HEARD, 0);
}

/* Allocates memory for this many items offered and taken, if there is less; then the earlier lines are discarded. Returns 0 if out of
 * memory, or if the library is of another version. */
static inline int ring_audit_grow(ring_audit *a, size_t offered, size_t taken) {
    static const uint64_t sizes[6] = { sizeof(ring_audit_state), sizeof(ring_audit_offered), sizeof(ring_audit_taken),
                                       sizeof(ring_audit_line), sizeof(ring_audit_counts), sizeof(ring_audit_found) };
    uint64_t those[6] = { 0, 0, 0, 0, 0, 0 };
    ring_audit_state *s = &a->state;
    ring_audit_layout(those, 6);
    if (memcmp(those, sizes, sizeof sizes) != 0) return ring_audit_say(a, RING_AUDIT_OTHER_LIBRARY, 0);
    if (s->offered && s->offered_room >= offered && s->taken_room >= taken) return 1;
    ring_audit_free(a);
    s->offered = (ring_audit_offered *)calloc(offered + !offered, sizeof *s->offered);
    s->taken = (ring_audit_taken *)calloc(taken + !taken, sizeof *s->taken);
    s->offered_room = offered;
    s->taken_room = taken;
    if (s->offered && s->taken) return 1;
    ring_audit_free(a);
    return ring_audit_say(a, RING_AUDIT_NO_MEMORY, 0);
}

/* Begins; room: the most items inside, plus those that a put offers. Returns 0, and prints why to stderr, if there is
 * no memory, the head is not a first line, or the library is of another version. */
static inline int ring_audit_init(ring_audit *a, const char *head, size_t room) {
    memset(a, 0, sizeof *a);
    if (ring_audit_grow(a, room, RING_AUDIT_TAKEN) && ring_audit_restart(a, head)) return 1;
    fprintf(stderr, "%s\n", ring_audit_words(a));
    ring_audit_free(a);
    return 0;
}

/* Takes the next lines, with all their numbers in a row. Returns 1 as long as everything is lawful; the first fault stays. */
static inline int ring_audit_lines(ring_audit *a, const ring_audit_line *lines, size_t count, const uint64_t *numbers, size_t n) {
    ring_audit_found found;
    uint8_t cause[256];
    if (a->found.verdict != RING_AUDIT_HEARD) return 0;
    ring_audit_hear(&a->state, lines, count, numbers, n, cause, sizeof cause, &found);
    if (found.verdict == RING_AUDIT_HEARD) return 1;
    if (found.verdict == RING_AUDIT_NO_ROOM) found.line = a->state.line + 1;
    return ring_audit_find(a, found, cause);
}

/* Takes the next line: its kind, as in ring_calls.h, and its numbers. */
static inline int ring_audit_event(ring_audit *a, int kind, const uint64_t *numbers, size_t n) {
    static const uint64_t none = 0;
    ring_audit_line line = { (uint32_t)kind, (uint32_t)n };
    if (n <= UINT32_MAX) return ring_audit_lines(a, &line, 1, n ? numbers : &none, n);
    return a->found.verdict == RING_AUDIT_HEARD && ring_audit_say(a, RING_AUDIT_NO_ROOM, a->state.line + 1);
}

/* The producer's, named as in the recorder. */
static inline int ring_audit_put_all(ring_audit *a, const uint64_t *items, size_t n) { return ring_audit_event(a, RING_PUT, items, n); }
static inline int ring_audit_put(ring_audit *a, uint64_t item) { return ring_audit_put_all(a, &item, 1); }
static inline int ring_audit_stored(ring_audit *a) { return ring_audit_event(a, RING_STORED, NULL, 0); }
static inline int ring_audit_full(ring_audit *a) { return ring_audit_event(a, RING_FULL, NULL, 0); }
static inline int ring_audit_stored_of(ring_audit *a, uint64_t m, uint64_t n) {
    return m == 0 ? ring_audit_full(a) : ring_audit_event(a, RING_STORED, &m, m < n);
}
static inline int ring_audit_some(ring_audit *a, uint64_t m) {
    return ring_audit_event(a, m ? RING_PUT_SOME : RING_PUT_NOTHING, &m, m > 0);
}
static inline int ring_audit_put_short(ring_audit *a) { return ring_audit_event(a, RING_PUT_SHORT, NULL, 0); }
static inline int ring_audit_put_nothing(ring_audit *a) { return ring_audit_event(a, RING_PUT_NOTHING, NULL, 0); }
static inline int ring_audit_close(ring_audit *a) { return ring_audit_event(a, RING_CLOSE, NULL, 0); }
static inline int ring_audit_closed(ring_audit *a) { return ring_audit_event(a, RING_CLOSED, NULL, 0); }

/* The consumer's. */
static inline int ring_audit_take_all(ring_audit *a, uint64_t n) { return ring_audit_event(a, RING_TAKE, &n, n > 1); }
static inline int ring_audit_take(ring_audit *a) { return ring_audit_take_all(a, 1); }
static inline int ring_audit_items(ring_audit *a, const uint64_t *items, size_t n) {
    return ring_audit_event(a, n ? RING_ITEM : RING_EMPTY, items, n);
}
static inline int ring_audit_item(ring_audit *a, uint64_t item) { return ring_audit_items(a, &item, 1); }
static inline int ring_audit_empty(ring_audit *a) { return ring_audit_event(a, RING_EMPTY, NULL, 0); }
static inline int ring_audit_some_items(ring_audit *a, const uint64_t *items, size_t n) {
    return ring_audit_event(a, n ? RING_TAKE_SOME : RING_TAKE_NOTHING, items, n);
}
static inline int ring_audit_take_short(ring_audit *a) { return ring_audit_event(a, RING_TAKE_SHORT, NULL, 0); }
static inline int ring_audit_take_nothing(ring_audit *a) { return ring_audit_event(a, RING_TAKE_NOTHING, NULL, 0); }
static inline int ring_audit_told(ring_audit *a) { return ring_audit_event(a, RING_TOLD, NULL, 0); }

/* Takes what a recorder has, in the order in which ring_calls_write writes it. No thread may record meanwhile. */
static inline int ring_audit_logs(ring_audit *a, const ring_calls *rec) {
    enum { LINES = 256, NUMBERS = 1024 };
    ring_audit_line lines[LINES];
    uint64_t numbers[NUMBERS];
    size_t count = 0, used = 0;
    ring_calls_walk walk = ring_calls_begin(rec);
    a->cut = walk.cut != UINT64_MAX;
    for (const uint64_t *event; (event = ring_calls_next(&walk)) != NULL;) {
        size_t n = (size_t)(event[0] >> 8);
        if (count == LINES || n > NUMBERS - used) {
            if (!ring_audit_lines(a, lines, count, numbers, used)) return 0;
            count = used = 0;
        }
        if (n > NUMBERS) {
            if (!ring_audit_event(a, (int)(event[0] & 255), event + 2, n)) return 0;
            continue;
        }
        lines[count].word = (uint32_t)(event[0] & 255);
        lines[count++].count = (uint32_t)n;
        for (size_t i = 0; i < n; i++) numbers[used++] = event[2 + i];
    }
    return ring_audit_lines(a, lines, count, numbers, used);
}

/* Judges what a recorder has, from its first line on, in the memory of a, which grows as needed; before the first time a is
 * RING_AUDIT_NONE. */
static inline int ring_audit_judge(ring_audit *a, const ring_calls *rec, const char *head) {
    uint64_t numbers[2] = { 0, 0 }, offered = 0, taken = 0, put = 0, take = 1;
    size_t count = ring_audit_numbers(head, numbers);
    for (size_t i = 0; i < rec->p.used; i += (size_t)(rec->p.words[i] >> 8) + 2) {
        uint64_t n = (rec->p.words[i] & 255) == RING_PUT ? rec->p.words[i] >> 8 : 0;
        offered += n;
        if (n > put) put = n;
    }
    for (size_t i = 0; i < rec->c.used; i += (size_t)(rec->c.words[i] >> 8) + 2) {
        uint64_t kind = rec->c.words[i] & 255, n = rec->c.words[i] >> 8;
        if (kind == RING_TAKE && n > 0 && rec->c.words[i + 2] > take) take = rec->c.words[i + 2];
        if (kind == RING_ITEM || kind == RING_TAKE_SOME) taken += n;
    }
    /* a queue with a bound has no more inside than that, plus what a take under way asks for */
    if (count == 1 || count == 2) {
        uint64_t most = numbers[count - 1];
        if (most < offered && take < offered && most + take + put < offered) offered = most + take + put;
    }
    if (taken > RING_AUDIT_TAKEN) taken = RING_AUDIT_TAKEN;
    return ring_audit_grow(a, (size_t)offered, (size_t)taken) && ring_audit_restart(a, head) && ring_audit_logs(a, rec);
}

/* Writes the lines around the one at fault, and the one that contradicts it, as they are in the recording. */
static inline void ring_audit_show(const ring_audit *a, const ring_calls *rec, const char *head, FILE *out) {
    enum { BEFORE = 6, BEHIND = 2 };
    ring_calls_walk walk = ring_calls_begin(rec);
    const uint64_t *event = NULL;
    uint64_t last = 0;
    for (uint64_t line = 1; line <= a->found.line + BEHIND && (line == 1 || (event = ring_calls_next(&walk)) != NULL); line++) {
        bool is_told = line == a->found.line || line == a->found.against;
        if (!is_told && line + BEFORE < a->found.line) continue;
        if (line > last + 1) fputs("        ..\n", out);
        fprintf(out, "%s %6llu  ", is_told ? ">" : " ", (unsigned long long)line);
        if (event) ring_calls_line(event, out);
        else fprintf(out, "%s%s\n", walk.cut == UINT64_MAX ? "" : "cut ", head);
        last = line;
    }
}

/* Writes the recording to the file that RING_AUDIT_KEEP names in the environment, replacing it. */
static inline void ring_audit_keep(const ring_calls *rec, const char *head) {
    const char *name = getenv("RING_AUDIT_KEEP");
    FILE *file = name && *name ? fopen(name, "wb") : NULL;
    bool written = file && ring_calls_write(rec, head, file);
    if (file && fclose(file) != 0) written = false;
    if (name && *name && !written) fprintf(stderr, "%s: the recording cannot be written\n", name);
}

/* Counts the calls of lawful recordings, over all rounds of a program. If the first RING_AUDIT_ALONE of them came one after the other, none
 * overlapping one of the other side, prints this to stderr, once: in a single round it may be chance. */
static inline void ring_audit_count(ring_audit *a) {
    enum { RING_AUDIT_ALONE = 1000 };
    static ring_calls_counter calls, overlapped;
    ring_audit_counts r;
    uint64_t before;
    if (!ring_audit_report(&a->state, &r)) return;
    before = RING_CALLS_STD(atomic_fetch_add_explicit)(&overlapped, (uint64_t)r.overlapped, RING_CALLS_STD(memory_order_relaxed));
    if (before + r.overlapped > 0) return;
    before = RING_CALLS_STD(atomic_fetch_add_explicit)(&calls, (uint64_t)r.calls, RING_CALLS_STD(memory_order_relaxed));
    if (before < RING_AUDIT_ALONE && before + r.calls >= RING_AUDIT_ALONE) {
        fprintf(stderr, "ring_audit: of %llu calls none overlapped one of the other side, so they show what one thread shows: let both threads wait for "
                "each other first, make more calls, leave two processors free\n", (unsigned long long)(before + r.calls));
    }
}

/* Whether what a recorder has is lawful. If not, stderr has the words and the lines, and the recording is kept. If it is, but has no
 * call, is cut, or no calls overlap, this is printed to stderr. */
static inline int ring_audit_lawful(const ring_calls *rec, const char *head) {
    ring_audit a = RING_AUDIT_NONE;
    int lawful = ring_audit_judge(&a, rec, head);
    if (lawful) {
        ring_calls_tell(rec);
        ring_audit_count(&a);
    } else {
        fprintf(stderr, "%s\n", ring_audit_words(&a));
        if (a.found.line) ring_audit_show(&a, rec, head, stderr);
        ring_audit_keep(rec, head);
    }
    ring_audit_free(&a);
    return lawful;
}

/* Prints what audit --calls prints: the report, or the words of a fault. Returns 0 if not everything was written. */
static inline int ring_audit_print(ring_audit *a, FILE *out) {
    ring_audit_counts r;
    fprintf(out, "%s\n", ring_audit_words(a));
    if (a->found.verdict == RING_AUDIT_HEARD && ring_audit_report(&a->state, &r)) {
        fprintf(out, "calls %zu\nstored %zu\ntaken %zu\n", r.calls, r.stored, r.taken);
        fprintf(out, "full %zu\nempty %zu\nnothing %zu\n", r.full, r.empty, r.nothing);
        fprintf(out, "told %s\ninside %zu %zu\n", r.told ? "yes" : "no", r.surely_inside, r.perhaps_inside);
        fprintf(out, "overlapped %zu\nopen %zu\n%s", r.overlapped, r.under_way, a->cut ? "cut yes\n" : "");
    }
    return fflush(out) == 0 && !ferror(out);
}
#endif
