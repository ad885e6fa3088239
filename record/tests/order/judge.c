/* judge.c: judges cases by explorer/order.inc, without the explorer; compare.py makes them. A case is read from standard input:
 *
 *     queue 2
 *     1 0 P put 5             each event, in the order of the run: its side's clock, and up to which clock it comes after the other side
 *     ..
 *                             an empty line ends it
 *
 * and answered in one line, with tabs between: whether it is fresh, strict, and handed over, or the words of what is not; then fresh and strict
 * as by EXPLORE_CLIENT=1, whatever the clocks are; and whether it was too long. */
#include <stdarg.h>
#include <stdbool.h>
#include "../../include/ring_calls.h"

enum { PRODUCER, CONSUMER };
static int now;
static uint64_t clock_of[2], known[2];
static void join(uint64_t *into, uint64_t from) { if (*into < from) *into = from; }

#include "../../explorer/order.inc"

static const char *const kinds[] = { "P put", "P close", "C take", "P stored", "P some", "P full", "P short", "P nothing", "P closed",
                                     "C item", "C some", "C empty", "C short", "C nothing", "C closed" };
enum { KINDS = sizeof kinds / sizeof *kinds };

/* The lines of a case. */
static char text[1 << 20];
static size_t used;

static void begin_case(const char *line, bool by_client) {
    char *end;
    order.is_bounded = line[5] == ' ';
    order.full = order.most = order.is_bounded ? strtoull(line + 5, &end, 10) : 0;
    if (order.is_bounded && *end == ' ') order.most = strtoull(end, NULL, 10);
    order.by_client = by_client;
    for (int s = 0; s < 2; s++) known[s] = 0, clock_of[s] = 1;
    begin_order();
}

/* An event; by client the clocks are those that order.inc makes. */
static void hear(char *line) {
    static uint64_t numbers[1 << 15];
    size_t n = 0;
    int kind = 0;
    const uint64_t own = strtoull(line, &line, 10), other = strtoull(line, &line, 10);
    line++;
    while (kind < KINDS && (strncmp(line, kinds[kind], strlen(kinds[kind])) != 0 || !strchr(" \n", line[strlen(kinds[kind])]))) kind++;
    if (kind == KINDS) { fprintf(stderr, "judge: no such line: %s", line); exit(2); }
    now = *line == 'P' ? PRODUCER : CONSUMER;
    if (!order.by_client) clock_of[now] = own, known[now] = other;
    for (line += strlen(kinds[kind]); *line == ' ' && n < sizeof numbers / sizeof *numbers;) numbers[n++] = strtoull(line, &line, 10);
    order_event(kind, numbers, n);
}

static void hear_all(bool by_client) {
    begin_case(text, by_client);
    for (char *line = strchr(text, '\n') + 1; *line; line = strchr(line, '\n') + 1) hear(line);
}

static void print_verdict(bool strict, const char *right) {
    order.is_strict = strict;
    printf("%s\t", order_is_right() ? right : order_found.words);
}

static void end_case(void) {
    hear_all(false);
    print_verdict(false, "fresh");
    print_verdict(true, "strict");
    order.is_strict = false;
    printf("%s\t", !order_is_right() ? "" : all_are_handed() ? "handed" : order_found.words);
    hear_all(true);
    print_verdict(false, "fresh");
    print_verdict(true, "strict");
    printf("%s\n", order.is_full ? "too long" : "");
    used = 0;
}

int main(void) {
    while (fgets(text + used, (int)(sizeof text - used), stdin)) {
        if (text[used] != '\n') {
            used += strlen(text + used);
            continue;
        }
        text[used] = 0;
        end_case();
    }
    return 0;
}
