/* ring_register_audit.h: judges a recorded register in the process that reads and writes it, for example in a unit test. The judge is the proved
 * one of `lamport_ring audit --register`, with no text and no other process; only the program prints the reason in words.
 * C11, and C++ from C++11; it needs ring_register.h beside it, and the library: libring_audit.a or .so in dist/ (Linux on x86-64)
 * or dist/aarch64-linux/ (on ARM64).
 *
 *     the threads record in a ring_register, as ring_register.h says; after all were joined:
 *         assert(ring_register_lawful(&rec, "register 0 4", RING_REGULAR));
 *     If the history lacks the class, stderr has the class that it has, and the first line that shows the lack with those around it:
 *         safe
 *         not regular: line 7
 *     If RING_AUDIT_KEEP names a file in the environment, the recording is written there: `lamport_ring audit --register < FILE` says why.
 *
 *     the finding without printing, for example for many rounds in the same logs:
 *         each:  ring_register_restart(&rec);  ..threads..  ring_register_found found = ring_register_judged(&rec, "register 0 4");
 *                if (!ring_register_has(&found, RING_REGULAR)) ring_register_report(&found, RING_REGULAR, stdout);
 *
 * The library is proved, and allocates no memory. This file is not proved; record/test tests it. It allocates 16 bytes for each event and 8 for each write,
 * and frees them. This file ensures what the library requires: no pointer is null, and each points to as many values as stated. */
#ifndef RING_REGISTER_AUDIT_H
#define RING_REGISTER_AUDIT_H
#include <assert.h>
#include "ring_register.h"

/* The classes of Lamport (1986), and between them atomic by reader: no single reader goes back to an older write. */
enum { RING_SAFE = 1, RING_REGULAR, RING_ATOMIC_BY_READER, RING_ATOMIC };

/* The library's types. An event: 0 a write of the value begins, 1 it ends, 2 a read of the reader begins, 3 it ends with the value. Found:
 * the line that is refused; the first lines with which the history is not safe, not regular, not atomic by reader, not atomic, 0 if it is;
 * its strongest class, 0 if it is not safe; and the verdict. Lines are counted from 1, starting with the one that gives the register. */
typedef struct { uint32_t kind, reader; uint64_t value; } ring_register_event_line;
typedef struct {
    uint64_t line, not_safe, not_regular, not_by_reader, not_atomic;
    uint32_t strongest, verdict;
} ring_register_found;

static_assert(sizeof(size_t) == 8, "as on x86-64 and ARM64");
static_assert(sizeof(ring_register_event_line) == 16 && sizeof(ring_register_found) == 48, "as in the library");

#ifdef __cplusplus
extern "C" {
#endif
void ring_register_judge(const uint64_t *numbers, size_t count, const ring_register_event_line *lines, size_t lines_count, uint64_t *window, size_t room,
                         ring_register_found *found);
void ring_audit_layout(uint64_t *sizes, size_t count);
#ifdef __cplusplus
}
#endif

/* The verdicts; the last two are this file's. Enough slots are always given, so the fourth does not occur. */
enum {
    RING_REGISTER_JUDGED, RING_REGISTER_OUT_OF_TURN, RING_REGISTER_BAD_LINE, RING_REGISTER_NO_SLOTS, RING_REGISTER_NO_MEMORY, RING_REGISTER_OTHER_LIBRARY
};

/* Whether the history was judged, and has the class, one of RING_SAFE to RING_ATOMIC. */
static inline int ring_register_has(const ring_register_found *found, int least) {
    return found->verdict == RING_REGISTER_JUDGED && (int)found->strongest >= least;
}

/* The first line with which the history lacks the class; 0 if it has it. For a history that is refused, the line. */
static inline uint64_t ring_register_lacks(const ring_register_found *found, int least) {
    if (found->verdict != RING_REGISTER_JUDGED) return found->line;
    return least <= RING_SAFE ? found->not_safe : least == RING_REGULAR ? found->not_regular : least == RING_ATOMIC_BY_READER ? found->not_by_reader : found->not_atomic;
}

/* Writes the class that was found, and the first line at which the history lacks the requested one; or why none was found. The words
 * are those of audit --register, without the reason. */
static inline void ring_register_report(const ring_register_found *found, int least, FILE *out) {
    static const char *const classes[] = { "safe", "regular", "atomic by reader", "atomic" };
    const unsigned long long line = (unsigned long long)ring_register_lacks(found, least);
    switch (found->verdict) {
    case RING_REGISTER_JUDGED:
        fprintf(out, "%s\n", found->strongest == 0 ? "not safe" : classes[found->strongest - 1]);
        if (line) fprintf(out, "not %s: line %llu\n", classes[least < RING_SAFE ? 0 : least > RING_ATOMIC ? 3 : least - 1], line);
        break;
    case RING_REGISTER_OUT_OF_TURN: fprintf(out, "fault: line %llu: out of turn\n", line); break;
    case RING_REGISTER_BAD_LINE: fprintf(out, "refused: register line %llu is not a line of the format\n", line); break;
    case RING_REGISTER_NO_SLOTS: fprintf(out, "refused: no slot for the write of line %llu\n", line); break;
    case RING_REGISTER_NO_MEMORY: fputs("refused: out of memory\n", out); break;
    default: fputs("refused: libring_audit is of another version than ring_register_audit.h\n", out);
    }
}

/* The numbers of a first line, "register 0 4" or "register 0": how many; 3 if it is none. */
static inline size_t ring_register_numbers(const char *head, uint64_t numbers[2]) {
    size_t count = 0;
    if (strncmp(head, "register", 8) != 0) return 3;
    for (head += 8; *head == ' ' && count < 2; count++) {
        const char *first = ++head;
        for (numbers[count] = 0; *head >= '0' && *head <= '9'; head++) {
            uint64_t digit = (uint64_t)(*head - '0');
            if ((head > first && *first == '0') || numbers[count] > (UINT64_MAX - digit) / 10) return 3;
            numbers[count] = numbers[count] * 10 + digit;
        }
        if (head == first) return 3;
    }
    return *head ? 3 : count;
}

/* The verdict of a history that was not judged. */
static inline ring_register_found ring_register_say(uint32_t verdict, uint64_t line) {
    ring_register_found found;
    memset(&found, 0, sizeof found);
    found.line = line;
    found.verdict = verdict;
    return found;
}

/* Judges what a recorder has, up to its cut; head is the first line: "register 0 4" or "register 0". No thread may record meanwhile. */
static inline ring_register_found ring_register_judged(const ring_register *rec, const char *head) {
    static const uint32_t kinds[] = { 0, 2, 1, 3 };    /* of RING_WRITE, RING_READ, RING_WROTE, RING_GOT */
    uint64_t numbers[2] = { 0, 0 }, sizes[8] = { 0, 0, 0, 0, 0, 0, 0, 0 };
    const size_t given = ring_register_numbers(head, numbers);
    size_t events = 0, writes = 0, count = 0;
    ring_register_walk walk = ring_register_begin(rec);
    ring_register_found found = ring_register_say(RING_REGISTER_NO_MEMORY, 0);
    ring_register_event_line *lines;
    uint64_t *slots;
    ring_audit_layout(sizes, 8);
    if (sizes[6] != sizeof(ring_register_event_line) || sizes[7] != sizeof(ring_register_found)) return ring_register_say(RING_REGISTER_OTHER_LIBRARY, 0);
    if (given > 2) return ring_register_say(RING_REGISTER_BAD_LINE, 1);
    for (int i = 0; i <= rec->readers; i++) {
        const ring_register_log *log = &rec->logs[i];
        for (size_t at = 0; at < log->used; at += (size_t)(log->words[at] >> 8) + 2) {
            events++;
            writes += (log->words[at] & 255) == RING_WRITE;
        }
    }
    lines = (ring_register_event_line *)calloc(events + 1, sizeof *lines);
    slots = (uint64_t *)calloc(writes + 2, sizeof *slots);
    if (lines && slots) {
        for (const uint64_t *event; (event = ring_register_next(&walk)) != NULL; count++) {
            lines[count].kind = kinds[event[0] & 255];
            lines[count].reader = (uint32_t)walk.thread;
            lines[count].value = event[0] >> 8 ? event[2] : 0;
        }
        ring_register_judge(numbers, given, lines, count, slots, writes + 2, &found);
    }
    free(lines);
    free(slots);
    return found;
}

/* Writes the lines around this one, as they are in the recording. */
static inline void ring_register_show(const ring_register *rec, const char *head, uint64_t marked, FILE *out) {
    enum { BEFORE = 6, AFTER = 2 };
    ring_register_walk walk = ring_register_begin(rec);
    const uint64_t *event = NULL;
    uint64_t last = 0;
    for (uint64_t line = 1; line <= marked + AFTER && (line == 1 || (event = ring_register_next(&walk)) != NULL); line++) {
        if (line > 1 && line + BEFORE < marked) continue;
        if (line > last + 1) fputs("        ..\n", out);
        fprintf(out, "%s %6llu  ", line == marked ? ">" : " ", (unsigned long long)line);
        if (event) ring_register_line(event, walk.thread, out);
        else fprintf(out, "%s%s\n", walk.cut == UINT64_MAX ? "" : "cut ", head);
        last = line;
    }
}

/* Writes the recording to the file that RING_AUDIT_KEEP names in the environment, replacing it; and prints this to stderr. */
static inline void ring_register_keep(const ring_register *rec, const char *head) {
    const char *name = getenv("RING_AUDIT_KEEP");
    FILE *file = name && *name ? fopen(name, "wb") : NULL;
    int written = file && ring_register_print(rec, head, file);
    if (file && fclose(file) != 0) written = 0;
    if (!name || !*name) fputs("RING_AUDIT_KEEP=FILE keeps the recording; lamport_ring audit --register < FILE says why\n", stderr);
    else if (written) fprintf(stderr, "lamport_ring audit --register < %s says why\n", name);
    else fprintf(stderr, "%s: the recording cannot be written\n", name);
}

/* Whether what a recorder has is in the class, one of RING_SAFE to RING_ATOMIC, or of a stronger one. If not, stderr has what was found,
 * and the recording is kept. If it is, and the history is cut or nothing was recorded, that is reported on stderr. */
static inline int ring_register_lawful(const ring_register *rec, const char *head, int least) {
    const ring_register_found found = ring_register_judged(rec, head);
    const uint64_t line = ring_register_lacks(&found, least);
    if (ring_register_has(&found, least)) {
        ring_register_tell(rec);
        return 1;
    }
    ring_register_report(&found, least, stderr);
    if (line) {
        ring_register_show(rec, head, line, stderr);
        ring_register_keep(rec, head);
    }
    return 0;
}
#endif
