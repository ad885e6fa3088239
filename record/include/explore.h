/* explore.h: makes every execution of a small test of a queue with one producer and one consumer that C11 permits, up to a bound on
 * preemptions, older values and the like, and judges the calls of each. Include it instead of ring_calls.h, or before it; the names are the same.
 * C11, and C++ from C++11; gcc or clang, Linux on x86-64 or ARM64. README.md, "Every execution of a small test", has the rest.
 *
 *     static ring_calls rec;
 *     static void reset(void)    { my_init(); }                             restores everything that the two sides change
 *     static void produce(void)  { ring_calls_put(&rec, 1); if (my_put(1)) ring_calls_stored(&rec); else ring_calls_full(&rec); .. }
 *     static void consume(void)  { ring_calls_take(&rec); if (my_take(&v)) ring_calls_item(&rec, v); else ring_calls_empty(&rec); .. }
 *     int main(void) { return explore(reset, produce, consume, "queue 2"); }
 *
 *     gcc -fsanitize=thread -fno-builtin -O1 -gdwarf-4 -Wno-tsan -fno-tree-reassoc -c my_explore.c        (so that explore.c sees
 *     gcc -O2 my_explore.o explorer/explore.c libring_audit.a -o my_explore && ./my_explore each access; clang has no -Wno-tsan and
 *                                                                                           no -fno-tree-reassoc, and needs neither)
 *
 * The explorer keeps the recording: rec is empty, and ring_calls_init, ring_calls_write and the walking functions are not needed here. */
#ifndef EXPLORE_H
#define EXPLORE_H
#if defined RING_CALLS_H && !defined RING_CALLS_EXPLORE
#error "explore.h has to be included before ring_calls.h: else the calls go to a recorder that nobody reads"
#endif
#define RING_CALLS_EXPLORE
#include "ring_calls.h"

#ifdef __cplusplus
extern "C" {
#endif
/* Explores and prints the findings. reset is called before each execution, then produce and consume run as the two sides; head
 * is the first line of a recording, "queue 2". Limits come from the environment (EXPLORE_HELP=1 lists them).
 * Returns the exit status: 0 everything that was tried is lawful; 2 it cannot explore (stderr says why); 3 a fault, a data race or a
 * use after free; 4 both sides wait forever, a side runs forever, or it crashed. */
int explore(void (*reset)(void), void (*produce)(void), void (*consume)(void), const char *head);
/* For a side: a number from 0 to n - 1, n at most 256. Every number is tried: 0 first; each other one is a choice, like a preemption. In reset it
 * is 0. So a test with random choices needs no seed. */
unsigned explore_choose(unsigned n);
/* For litmus tests: a value of this execution, such as that of a load; or a word whose final value counts. Each outcome is printed once. */
void explore_outcome(uint64_t value);
void explore_outcome_at_end(const uint64_t *word);
#if defined __cplusplus && __cplusplus > 201703L
/* From C++20 on, stores of the same side do not continue a release sequence: this informs the explorer. EXPLORE_SEQUENCES overrides it. */
extern int explore_release_sequences;
__attribute__((weak)) int explore_release_sequences = 20;
#endif
#ifdef __cplusplus
}
#endif
#endif
