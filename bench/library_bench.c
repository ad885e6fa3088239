/* The cost of an event in the library for C, depending on how many lines one call passes to it: single puts and takes of a queue of 8, each
 * of which succeeds. For each number of lines, nanoseconds of processor time per event, the least of seven rounds of 400,000 events.
 *
 *     gcc -O2 -I record bench/library_bench.c dist/libring_audit.a -o library_bench && ./library_bench */
#include <time.h>
#include "ring_audit.h"

enum { LINES = 4096, ROUNDS = 7, EVENTS = 400000 };
static ring_audit_line lines[LINES];
static uint64_t numbers[LINES];

static double seconds(void) {
    struct timespec t;
    clock_gettime(CLOCK_PROCESS_CPUTIME_ID, &t);
    return (double)t.tv_sec + (double)t.tv_nsec * 1e-9;
}

/* The next lines: puts of the items from this one on, and takes of them. */
static size_t fill(size_t count, uint64_t *item, size_t *used) {
    static const ring_audit_line call[4] = { { RING_PUT, 1 }, { RING_STORED, 0 }, { RING_TAKE, 0 }, { RING_ITEM, 1 } };
    *used = 0;
    for (size_t i = 0; i < count; i++) {
        lines[i] = call[i % 4];
        if (lines[i].count) numbers[(*used)++] = *item;
        if (i % 4 == 3) ++*item;
    }
    return count;
}

int main(void) {
    static const size_t counts[] = { 1, 4, 16, 64, 256, LINES };
    for (size_t k = 0; k < sizeof counts / sizeof *counts; k++) {
        double least = 1e9;
        for (int round = 0; round < ROUNDS; round++) {
            ring_audit a;
            uint64_t item = 0;
            double took = 0;
            if (!ring_audit_init(&a, "queue 8", 16)) return 2;
            for (int events = 0; events < EVENTS; events += LINES) {
                size_t used;
                fill(LINES, &item, &used);
                size_t given = 0;
                double began = seconds();
                for (size_t at = 0; at < LINES; at += counts[k]) {
                    size_t own = 0;
                    for (size_t i = at; i < at + counts[k]; i++) own += lines[i].count;
                    if (!ring_audit_lines(&a, lines + at, counts[k], numbers + given, own)) return 1;
                    given += own;
                }
                took += seconds() - began;
            }
            took = took / (double)((EVENTS + LINES - 1) / LINES * LINES) * 1e9;
            if (took < least) least = took;
            ring_audit_free(&a);
        }
        printf("%zu lines per call: %.1f ns per event\n", counts[k], least);
    }
    return 0;
}
