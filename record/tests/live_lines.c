/* live_lines.c: stands in for libring_audit, in tests of ring_live.h and ring_audit.hpp on systems for which there may be no library. It
 * judges nothing: it accepts each line and writes it to the file that LIVE_LINES names, so that this becomes a recording of what the
 * monitor saw, in its order; but the line whose number is in LIVE_FAULT is at fault. */
#include "ring_audit.h"

static FILE *file;
static uint64_t line;

bool ring_audit_begin(ring_audit_state *state, const uint64_t *numbers, size_t count) {
    (void)state;
    file = fopen(getenv("LIVE_LINES"), "wb");
    if (!file) return false;
    fputs("queue", file);
    for (size_t i = 0; i < count; i++) fprintf(file, " %llu", (unsigned long long)numbers[i]);
    fputs("\n", file);
    line = 1;
    return true;
}

size_t ring_audit_hear(ring_audit_state *state, const ring_audit_line *lines, size_t lines_count,
                       const uint64_t *numbers, size_t numbers_count, uint8_t *words, size_t words_room, ring_audit_found *found) {
    const char *fault = getenv("LIVE_FAULT");
    const uint64_t at_fault = fault ? strtoull(fault, NULL, 10) : 0;
    (void)numbers_count;
    memset(found, 0, sizeof *found);
    for (size_t i = 0; i < lines_count; i++) {
        uint64_t event[2 + 64] = { lines[i].word | (uint64_t)lines[i].count << 8 };
        if (++line == at_fault) {
            found->verdict = RING_AUDIT_NOT_LINEARIZABLE;
            found->line = line;
            found->words = (uint64_t)snprintf((char *)words, words_room, "as it was asked to");
            fflush(file);
            return i;
        }
        for (size_t j = 0; j < lines[i].count && j < 64; j++) event[2 + j] = *numbers++;
        ring_calls_line(event, file);
        state->line = line;
    }
    fflush(file);
    return lines_count;
}

bool ring_audit_report(ring_audit_state *state, ring_audit_counts *report) {
    (void)state;
    memset(report, 0, sizeof *report);
    return true;
}

void ring_audit_layout(uint64_t *sizes, size_t count) {
    const uint64_t all[6] = { sizeof(ring_audit_state), sizeof(ring_audit_offered), sizeof(ring_audit_taken),
                              sizeof(ring_audit_line), sizeof(ring_audit_counts), sizeof(ring_audit_found) };
    for (size_t i = 0; i < count && i < 6; i++) sizes[i] = all[i];
}
