/* explore.c: makes the executions of a small test that C11 permits, up to a bound; explore.h says how to use it. C11 with extensions of gcc and clang;
 * Linux on x86-64 and on ARM64.
 *
 * The test is compiled with -fsanitize=thread and linked with this file instead of the sanitizer's library: hooks.inc has the functions that
 * such code calls at each access of memory, so each plain and each atomic access in the test's own text is seen, with its memory order. The two
 * sides run as coroutines in one thread (steps.inc), one access after the other. An atomic access may find an older store than the newest, or come
 * before newer ones, as C++20 permits (stores.inc). A run is determined by which side begins and by its choices: who continues at a step, which store an access
 * finds, and the other kinds in steps.inc. If a side waits, yields or finishes, the other continues, and that is not a choice. All runs
 * without a choice are made, then all with one, and so on. reset() is called before each. The calls of a run in which each access found the
* newest store, and which is therefore sequentially consistent, are judged by the proved audit, libring_audit; those of other runs by
 * happens-before (order.inc).
 *
 * The parts are one program. Each part begins with a description; besides its own state it changes only `run` (steps.inc), and for a side's access the
 * cells of memory.inc. */
/* Why the steps suffice. Take any execution of the test, one access after the other, with no more choices than are tried. Among those tried there is
 * one whose recording is at least as strict, so a fault of the former is a fault of the latter.
 *  1. There is a step before each access of shared memory: a read of a byte that the other side writes, a write of one that it touches, a
 *     call of a lock, a semaphore or a futex, and malloc and free.
 *     Any other access commutes with everything that the other side does, so a preemption before it may as well come later, before the side's
 *     next step. What is shared is learned: if a run reveals more of it, all runs are repeated. That misses none: take the first
 *     access of the execution that conflicts with an earlier one of the other side and is not known to. Everything before it, with preemptions
 *     moved as described, is a prefix of a run that was tried, and in that run both sides touch that byte; so it is known.
 *  2. There is a step before each start of a call, and none between it and the call's first access. A side that is preempted between
 *     the two may as well be preempted before the start: the call then starts later, its interval is narrower, and calls
 *     of the two sides are ordered no less.
 *  3. There is no step before the end of a call. A side that is preempted between its last access and the end may as well be preempted
 *     after the end, and the call ends sooner. The audit permits a history with wider intervals if it permits the one with narrower ones.
 *  4. A preempted side makes at least one step before the other is preempted in turn; otherwise the two preemptions have no effect.
 * 2 and 3 do not affect happens-before: a side learns of the other only by its own accesses. A fence is part of the step before it.
 * What is left out (see README.md): values older than the last KEPT_STORES of a place. A side that yields, sleeps or waits with a time limit
 * lets the other make a step first, and its time passes only if the other waits or has finished; a side that looks a third time at the same
 * place, which nobody has changed, within one call, is not preempted there, and after limit_spins such looks it is treated as if it
 * yielded; so is one that makes TURN accesses of nothing shared between two steps.
 * What is not seen: assembly, libraries that are not instrumented, copies that the compiler expands itself (-fno-builtin leaves them to
 * memcpy, which is seen here word by word). A plain access of 16 bytes and a copy of a structure are one step each; if another side
 * sees half of it, this is reported as a data race.
 *
 * Data races: memory.inc tracks which accesses come before which by the memory orders in the text, as in C11. Each run is an execution that C11
 * permits, so a race in it is one of the program as the compiler instrumented it. That program may have an access that the text does not make: gcc's pass
 * reassoc loads a plain variable of a condition before the condition says that it may be read, so it is turned off (-fno-tree-reassoc). If C11
 * orders less than is tracked here (futexes), a race may go unnoticed. A free counts as a write of the block, up to MOST_WATCHED bytes, so that there is a
 * step before each access of it by the other side; an access of freed memory is reported as such. */
#define _GNU_SOURCE
#include <fcntl.h>
#include <signal.h>
#include <stdarg.h>
#include <sys/time.h>
#include "../include/ring_audit.h"
#define RING_CALLS_EXPLORE      /* (a test must include explore.h first) */
#include "../include/explore.h"

void explore_event(int kind, const uint64_t *numbers, size_t n);        /* for ring_calls.h, included by explore.h */

__extension__ typedef unsigned __int128 u128;

#include "machine.inc"
#include "threads.inc"
#include "steps.inc"
#include "memory.inc"
#include "sites.inc"
#include "stores.inc"
#include "late.inc"
#include "order.inc"
#include "hooks.inc"
#include "waits.inc"
#include "heap.inc"
#include "where.inc"
#include "trace.inc"
#include "outcomes.inc"
#include "rust.inc"

enum { GO_ON, ANEW, STOP };
enum { LOG_WORDS = 1 << 18, SHOWN = 60 };
static const char *const name_of_side[2] = { "producer", "consumer" };

/* bound: the most choices of a run; most: the most of each sort. Part k of n: the runs that are judged. */
static struct {
    uint64_t bound, most[SORTS], part, parts;
    double seconds;
    const char *schedule, *keep, *dump, *report, *known;
} option = { .bound = 3, .part = 1, .parts = 1, .seconds = 60 };
static struct { void (*reset)(void), (*body[2])(void); const char *head; } test;
static ring_calls rec;
static ring_audit audit;

/* The result of the runs: the current number of choices, the number of runs, how many of them were cut, and how many found older values; the sums
 * of their reports; the most items that a run stored and took. */
static struct {
    uint64_t level, all, cut, weak;
    uint64_t full, empty, nothing, told, overlapped, inside[2], stored, taken;
    uint64_t executed;              /* all runs, also repeated ones */
    double began;
    int status;
    plan_kept shown;                /* the plan of the run that is reported */
    bool calls, closes;             /* a call was recorded; a close was */
    bool time_is_over, is_another;  /* is_another: the test is not deterministic */
    FILE *dump;
} result;

static double seconds(void) {
    struct timespec t;
    clock_gettime(CLOCK_MONOTONIC, &t);
    return (double)t.tv_sec + (double)t.tv_nsec / 1e9;
}

static const char *grouped(uint64_t n) {
    static char texts[8][32];
    static int next;
    char digits[24], *text = texts[next++ % 8];
    const int count = snprintf(digits, sizeof digits, "%llu", (unsigned long long)n);
    int used = 0;
    for (int i = 0; i < count; i++) {
        if (i > 0 && (count - i) % 3 == 0) text[used++] = ',';
        text[used++] = digits[i];
    }
    text[used] = 0;
    return text;
}

/* ---- the recording ---- */

/* A call of the test begins or ends: called by ring_calls.h. */
void explore_event(int kind, const uint64_t *numbers, size_t n) {
    if (!run.on) return;
    const int s = kind < RING_TAKE || (kind >= RING_STORED && kind <= RING_CLOSED) ? PRODUCER : CONSUMER;
    side *me = &sides[now];
    if (s != now) {
        fprintf(stderr, "explore: the %s's function records a call of the %s\n", name_of_side[now], name_of_side[s]);
        _exit(2);
    }
    if (kind < RING_ENDS) {
        step(PC, NULL);
        me->accesses++;
    }
    ring_calls_log *log = s == PRODUCER ? &rec.p : &rec.c;
    const size_t at = log->used;
    ring_calls_event(&rec, log, kind, numbers, n);
    if (replay.on && log->used > at) trace_event(s, at);
    result.calls = true;
    if (kind == RING_CLOSE) result.closes = true;
    order_event(kind, numbers, n);
    me->events++;
    me->fresh = kind < RING_ENDS;
}

/* What the test draws: a number below n, 0 unless a choice says otherwise; outside the two sides always 0. */
unsigned explore_choose(unsigned n) {
    if (n == 0 || n > 256) {
        fprintf(stderr, "explore: explore_choose(%u) needs a number from 1 to 256\n", n);
        _exit(2);
    }
    if (!run.on) return 0;
    sides[now].accesses++;
    const int drawn = take_option(DRAWS, (int)n - 1, LOADS, PC);
    if (replay.on) trace_draw(drawn, PC);
    return (unsigned)drawn;
}

/* ---- a run ---- */

static void side_begins(void) {
    sides[now].body();
    sides[now].state = OVER;
    sides[now].waits_at = NULL;
    leave();
}

static void set_side(int s) {
    side *it = &sides[s];
    char *stack = it->stack;
    *it = (side) { .stack = stack, .body = test.body[s], .state = READY };
    it->stack_pointer = fresh_stack(stack + STACK, side_begins);
}

static void make_run(void) {
    const int races_before = races_used;
    result.executed++;
    run.learned = false;
    run.end = RUNS;
    run.steps = run.changed_at = run.preempted_at = run.points_used = 0;
    run.changes = 0;
    plan_used = 0;
    locks_used = trace_used = 0;
    ring_calls_restart(&rec);
    begin_clocks();
    begin_old();
    begin_late();
    begin_order();
    begin_outcome();
    begin_arena();
    begin_tls();
    arena.on = true;
    test.reset();
    for (int s = 0; s < 2; s++) set_side(s);
    run.starting = run.on = true;
    for (int s = 0; s < 2 && run.end == RUNS; s++) {
        now = s;
        switch_to(&explorer_stack, s);
    }
    run.starting = false;
    if (run.end == RUNS) now = PRODUCER;
    const int first = run.end == RUNS ? choose() : -1;
    if (first >= 0) {
        now = first;
        switch_to(&explorer_stack, first);
    }
    run.on = arena.on = false;
    if (replay.on) settle_trace();
    /* (accesses not yet known as shared, perhaps a release, were ignored: such a run is repeated) */
    if (run.learned && !replay.on) races_used = races_before;
    if (run.end == DONE && (rec.p.cut != UINT64_MAX || rec.c.cut != UINT64_MAX)) run.end = CUT_LOG;
}

/* The number of choices of a sort in a plan. */
static uint64_t made_of(const plan_kept *it, int sort) {
    uint64_t n = 0;
    for (int i = 0; i < it->count; i++) n += it->made[i].sort == sort;
    return n;
}

#include "report.inc"
#include "tell.inc"
#include "witness.inc"

static int print_not_deterministic(void) {
    fputs("explore: the test is not deterministic: the same schedule gave another run; reset must restore everything that the sides change\n", stderr);
    result.status = 2;
    result.is_another = true;
    return STOP;
}

/* ---- a run that crashes or hangs ---- */

/* Stops when the test crashes, or a run does not end: a wait that is not modelled, a loop without any access. */
static void on_signal(int number, siginfo_t *info, void *context) {
    static char words[128];
    (void)info;
    if (number == SIGALRM && goes_on()) return;
    const bool was_on = run.on;
    if (number != SIGALRM && number != SIGABRT) crashed_at = (const char *)code_at(context) + 1;
    run.on = arena.on = false;
    if (number == SIGALRM) snprintf(words, sizeof words, "hangs: the %s does not reach its next step", name_of_side[now]);
    else snprintf(words, sizeof words, "crash: %s, in the %s", strsignal(number), was_on ? name_of_side[now] : "reset");
    if (was_on) {
        /* (steps learned in this run are not part of its plan) */
        if (replay.on && !crashed_at) settle_trace();
        if (replay.on) print_trace(&rec);
        else if (number != SIGALRM && !run.learned && !comes_again(sign_of_run(number))) { print_not_deterministic(); _exit(2); }
        ring_audit_judge(&audit, &rec, test.head);
        audit.found.line = 0;
        print_finding(words);
    } else {
        printf("%s\n", words);
    }
    fflush(stdout);
    _exit(4);
}

static void watch_signals(void) {
    static char stack[1 << 16];
    stack_t there = { .ss_sp = stack, .ss_size = sizeof stack };
    struct sigaction action = { .sa_sigaction = on_signal, .sa_flags = SA_SIGINFO | SA_ONSTACK | SA_RESTART };
    const int numbers[] = { SIGSEGV, SIGBUS, SIGFPE, SIGILL, SIGABRT, SIGALRM };
    sigaltstack(&there, NULL);
    for (size_t i = 0; i < sizeof numbers / sizeof *numbers; i++) sigaction(numbers[i], &action, NULL);
}

static void watch(void) {
    watch_signals();
    const struct itimerval often = { { 5, 0 }, { 5, 0 } };
    setitimer(ITIMER_REAL, &often, NULL);
}

/* Outside of explore() the test has no time limit. */
static void end_watch(void) {
    static const struct itimerval never;
    setitimer(ITIMER_REAL, &never, NULL);
}

/* ---- all runs ---- */

/* The number of items that a side has passed in the run just made. */
static uint64_t passed_by(int s) {
    const call *last = rows[s].used ? &rows[s].calls[rows[s].used - 1] : NULL;
    return last ? last->before + last->passed : 0;
}

/* The first run in which an item was not handed over: the words, and what shows it. */
static struct { bool found; char words[200], schedule[MOST_STEPS]; uint64_t line, against; plan_kept plan; sign made; } not_handed;

static void note_handing_over(void) {
    if (!races_on || not_handed.found || all_are_handed()) return;
    not_handed.found = true;
    not_handed.line = order_found.line;
    not_handed.against = order_found.against;
    not_handed.plan = plan;
    not_handed.made = sign_of_run(0);
    copy_text(not_handed.words, order_found.words, sizeof not_handed.words);
    write_schedule_with_choices(not_handed.schedule, sizeof not_handed.schedule);
}

/* Judges the calls of the run just made by time; if some access did not find the newest store, by happens-before, unless they are
 * lawful by time, which is stricter. */
static bool judge_calls(void) {
    const bool lawful = ring_audit_judge(&audit, &rec, test.head), by_order = choices.is_weak && !order.by_client;
    if (audit.found.verdict != RING_AUDIT_HEARD && audit.found.verdict != RING_AUDIT_NOT_LINEARIZABLE && audit.found.verdict != RING_AUDIT_OUT_OF_TURN) return false;
    if (lawful || (by_order && order_is_right())) {
        note_handing_over();
        return true;
    }
    if (!by_order) return false;
    audit.found.verdict = order.out_of_turn ? RING_AUDIT_OUT_OF_TURN : RING_AUDIT_NOT_LINEARIZABLE;
    audit.found.line = order_found.line;
    audit.found.against = order_found.against;
    copy_text(audit.words, order_found.words, sizeof audit.words);
    return false;
}

/* Judges the run just made, and prints a finding. */
static int judge_run(void) {
    ring_audit_counts r;
    const bool lawful = judge_calls();
    note_outcome();
    note_new_lates();
    if (result.dump) {
        ring_calls_write(&rec, test.head, result.dump);
        ring_audit_print(&audit, result.dump);
        fputc('\n', result.dump);
    }
    result.all++;
    result.weak += choices.is_weak;
    result.shown = plan;
    for (int s = 0; s < 2; s++) {
        uint64_t *most = s == PRODUCER ? &result.stored : &result.taken, passed = passed_by(s);
        if (*most < passed) *most = passed;
    }
    if (!lawful) {
        result.status = 3;
        if (result.dump) return GO_ON;
        if (!comes_again(sign_of_run(0))) return print_not_deterministic();
        if (audit.found.verdict != RING_AUDIT_OUT_OF_TURN && audit.found.verdict != RING_AUDIT_NOT_LINEARIZABLE) result.status = 2;
        print_finding(ring_audit_words(&audit));
        return STOP;
    }
    if (run.end == DEADLOCK || run.end == HANGS) {
        const bool both = run.end == DEADLOCK && sides[0].state == WAITS && sides[1].state == WAITS;
        if (!comes_again(sign_of_run(0))) return print_not_deterministic();
        result.status = 4;
        print_where_they_wait(run.end == HANGS ? "hangs" : both ? "both wait forever" : "waits forever");
        return STOP;
    }
    if (run.end != DONE || order.is_full) result.cut++;
    if (!ring_audit_report(&audit.state, &r)) return GO_ON;
    result.full += r.full;
    result.empty += r.empty;
    result.nothing += r.nothing;
    result.told += r.told;
    result.overlapped += r.overlapped;
    if (result.inside[0] < r.surely_inside) result.inside[0] = r.surely_inside;
    if (result.inside[1] < r.perhaps_inside) result.inside[1] = r.perhaps_inside;
    return GO_ON;
}

/* A checksum of the run without choices, which is made for this purpose. */
static uint64_t sum_of_first_run(void) {
    plan.count = plan.first = 0;
    make_run();
    note_new_races();
    return run.sum[run.steps] + run.steps + 3 * sides[0].accesses + 5 * sides[1].accesses;
}

/* Whether the run with this number among those with `level` choices, or the runs that extend it, belong to the requested part. */
static bool is_of_part(uint64_t number) { return number % option.parts == option.part - 1; }

/* Makes the run of the plan, and then those with `left` further choices, at points after its last one. Runs with fewer choices were
 * judged before: they show which points there are. A repeated run must do the same again: the first `same` steps, with this checksum. */
static int try_from(uint64_t left, uint32_t from, uint32_t same, uint64_t sum, bool is_mine) {
    static point points[MOST_CHOICES + 1][MOST_POINTS];
    static uint64_t sums[MOST_CHOICES + 1][MOST_STEPS + 1], number;
    make_run();
    if (run.learned) return ANEW;
    note_new_races();
    if (same && (run.steps < same || run.sum[same] != sum)) return print_not_deterministic();
    if (left == 0 && is_mine && judge_run() == STOP) return STOP;
    if (result.executed % 16 == 0 && seconds() - result.began > option.seconds) { result.time_is_over = true; return STOP; }
    if (left == 0) return GO_ON;
    const uint32_t count = run.points_used;
    copy_plainly(points[left], run.points, count * sizeof *run.points);
    copy_plainly(sums[left], run.sum, (run.steps + 1) * sizeof *run.sum);
    if (plan.count == 0) number = 0;
    for (uint32_t at = from; at < count; at++) {
        const point *it = &points[left][at];
        if (made_of(&plan, it->sort) >= option.most[it->sort]) continue;
        for (int which = 1; which <= it->options; which++) {
            if (plan.count == 0) is_mine = is_of_part(number++);
            /* (all parts make the runs with one choice, so that each part learns what is shared) */
            if (!is_mine && result.level > 1) continue;
            plan.made[plan.count++] = (choice) { at, it->sort, (uint8_t)which };
            const int then = try_from(left - 1, at + 1, it->step, sums[left][it->step], is_mine);
            plan.count--;
            if (then != GO_ON) return then;
        }
    }
    return GO_ON;
}

static int try_all(void) {
    const uint64_t sum = sum_of_first_run();
    if (run.learned) return ANEW;
    if (sum_of_first_run() != sum) return run.learned ? ANEW : print_not_deterministic();
    for (uint64_t left = 0; left <= option.bound; left++) {
        result.level = left;
        for (int first = 0; first < 2; first++) {
            plan.count = 0;
            plan.first = first;
            const int then = try_from(left, 0, 0, 0, is_of_part((uint64_t)first));
            if (then != GO_ON) return then;
        }
    }
    return sum_of_first_run() == sum ? STOP : print_not_deterministic();
}

/* Forgets the counts and the races when the runs are repeated: with more steps the plans differ. */
static void forget_counts(void) {
    outcomes.used = 0;
    not_handed.found = false;
    lates_used = 0;
    result.all = result.weak = result.cut = result.full = result.empty = result.nothing = result.told = result.overlapped = 0;
    result.inside[0] = result.inside[1] = result.stored = result.taken = 0;
    mixed.used = 0;
    races_used = 0;
}

/* Prints what was tried, or where the finding is. */
static void print_how_many(bool stopped) {
    const double took = seconds() - result.began;
    if (stopped) {
        printf("found in execution %s, with ", grouped(result.all));
        print_counts(&result.shown);
        printf(", after %.2f s\n", took);
    } else {
        printf("%s executions within a bound of %llu, %.2f s: %s\n", grouped(result.all), (unsigned long long)result.level, took,
               result.status ? "not all lawful" : "all lawful");
        if (option.parts > 1) {
            printf("part %llu of %llu; the shared memory must have the checksum %08x in each part, else repeat all parts with what EXPLORE_KNOWN kept\n",
                   (unsigned long long)option.part, (unsigned long long)option.parts, sum_of_known());
        }
        if (result.time_is_over) {
            printf("not all: the time ran out at those with %llu choice%s (EXPLORE_SECONDS)\n", (unsigned long long)result.level, result.level == 1 ? "" : "s");
        }
    }
    if (result.cut) printf("%s of them were cut, after %s steps or where the log was full\n", grouped(result.cut), grouped(limit_steps));
}

/* Printed if nothing was found. */
static void print_what_it_means(void) {
    const char *what = result.time_is_over ? "the executions that were made" : option.parts > 1 ? "this part of the executions" : "this test";
    printf("This holds of %s, and %s, within this bound; ", what, may_be_older ? "of what C11 lets a load find" : "only of sequentially consistent executions");
    printf("%s\n", races_on ? "no data race was seen." : "data races were not checked.");
}

/* An item that was not handed over. A data race has the same cause, and says more. */
static void print_handing_over(void) {
    if (!not_handed.found || races_used) return;
    if (!replay.on && !plan_comes_again(not_handed.plan, not_handed.made)) { print_not_deterministic(); return; }
    printf("%s (EXPLORE_HANDED=0, if items are plain numbers)\n", not_handed.words);
    if (!replay.on) print_schedule(not_handed.schedule);
    note_finding(&first_finding, not_handed.words, not_handed.schedule);
}

static void print_all(void) {
    if (!result.is_another && !races_come_again()) print_not_deterministic();
    if (result.is_another) return;
    const bool stopped = result.status != 0 && !result.dump;
    print_how_many(stopped);
    if (!stopped) print_sums();
    print_left_out();
    print_outcomes();
    print_lates();
    if (!result.calls && !outcomes.used) fputs("explore: no call was recorded: do the two functions record their calls, with the functions of ring_calls.h?\n", stderr);
    if (result.status == 0 && (races_used || not_handed.found)) result.status = 3;
    if (!stopped) print_handing_over();
    print_races();
    if (result.status) return;
    if (!shares_memory) {
        fputs("explore: no memory that both sides touch was seen: is the queue also compiled with -fsanitize=thread?\n", stderr);
        result.status = 2;
        return;
    }
    print_what_it_means();
}

static int play_again(void) {
    limit_steps = MOST_STEPS;
    replay.until = replay.accesses[0];
    watch_signals();                                /* (no timer: a debugger may stop the run for any time) */
    make_run();
    print_trace(&rec);
    if (run.end == MISFIT) {
        fprintf(stderr, "explore: the schedule does not fit this test\n");
        return 2;
    }
    print_choices_not_made();
    result.status = 0;
    if (judge_run() == GO_ON) printf("lawful\n");
    print_handing_over();
    print_races();
    return result.status || (!races_used && !not_handed.found) ? result.status : 3;
}

/* ---- the options ---- */

static int usage(const char *why) {
    const char *called = getenv("EXPLORE_CALLED");
    fprintf(why ? stderr : stdout,
            "%s%s%s: tries the executions of a test; in the environment:\n"
            "  EXPLORE_BOUND=3           at most 3 choices in an execution (up to %d): preemptions, older values, and the others below\n"
            "  EXPLORE_PREEMPTIONS=3     of these at most 3 preemptions (default: the bound), and in the same way at most 3\n"
            "  EXPLORE_OLDER=3           loads that find a value older than the newest; with 0, executions are sequentially consistent\n"
            "  EXPLORE_FAILS=3           weak compare-and-swaps that fail although they find the expected value\n"
            "  EXPLORE_WAKES=3           waits for a condition that end although nobody woke them\n"
            "  EXPLORE_DRAWS=3           calls of explore_choose that return a number other than 0\n"
            "  EXPLORE_SECONDS=60        ends after 60 seconds\n"
            "  EXPLORE_STEPS=10000       cuts an execution after 10000 steps (up to %d)\n"
            "  EXPLORE_SPINS=500         a side that looked 500 times at unchanged memory lets the other continue\n"
            "  EXPLORE_RACES=0           does not check for data races\n"
            "  EXPLORE_STRICT=1          requires one order of all calls also in executions with older values\n"
            "  EXPLORE_CLIENT=1          treats each call as happening after the calls that ended before it, as with a recorder\n"
            "  EXPLORE_HANDED=0          does not check whether what came before an item's put is visible after its take\n"
            "  EXPLORE_SEQUENCES=20      uses the release sequences of C++20; with 11, stores of the same side continue them too, as in C11 to C++17\n"
            "  EXPLORE_LATE=1            reports loads that may be delayed\n"
            "  EXPLORE_SITES=1           lists the memory orders; EXPLORE_ORDERS='1a2b=acquire' replaces them\n"
            "  EXPLORE_PART=1/4          judges only the first of four parts of all executions\n"
            "  EXPLORE_PATHS=1           prints files with their folders\n"
            "  EXPLORE_KEEP=my.calls     writes the recording of a fault there\n"
            "  EXPLORE_DUMP=all.txt      writes all recordings there, each with its verdict, and does not stop at a fault\n"
            "  EXPLORE_REPORT=my.json    writes the findings there, as JSON\n"
            "  EXPLORE_SCHEDULE='P7 C'   plays one schedule, and prints its steps\n",
            why ? why : "", why ? "\n" : "", called ? called : program_invocation_name, MOST_CHOICES, MOST_STEPS);
    return why ? 2 : 0;
}

/* A number in the environment; false if it is not a number, or too large. */
static bool take_number(const char *name, uint64_t most, uint64_t *value) {
    const char *text = getenv(name);
    char *end;
    if (!text || !*text) return true;
    if (*text < '0' || *text > '9') return false;
    errno = 0;
    const unsigned long long n = strtoull(text, &end, 10);
    if (*end || errno || n > most) return false;
    *value = n;
    return true;
}

/* A choice in a schedule, after its colon: `old2`, `fail`, `wake`, `draw1`. */
static bool take_choice(const char **text, chosen *it) {
    for (int sort = OLDER; sort < SORTS; sort++) {
        const size_t n = strlen(sort_in_schedule[sort]);
        if (strncmp(*text, sort_in_schedule[sort], n) != 0) continue;
        const bool has_number = sort == OLDER || sort == DRAWS;
        const uint64_t option = has_number ? strtoull(*text + n, (char **)(uintptr_t)text, 10) : 1;
        if (!has_number) *text += n;
        it->sort = (uint8_t)sort;
        it->option = (uint8_t)option;
        return option > 0 && option < 256;
    }
    return false;
}

/* `P7 C4 P`: the number of accesses of each stretch; after them `C9:old1`: the choice at the consumer's access 9. */
static bool take_schedule(const char *text) {
    for (replay.on = true; *text; text += *text == ' ') {
        if (replay.count == MOST_STEPS || (*text != 'P' && *text != 'C')) return false;
        const uint8_t who = replay.who[replay.count] = *text++ == 'P' ? PRODUCER : CONSUMER;
        uint64_t n = UINT64_MAX;
        if (*text >= '0' && *text <= '9') n = strtoull(text, (char **)(uintptr_t)&text, 10);
        if (*text == ':') {
            if (replay.chosen == MOST_CHOICES) return false;
            chosen *it = &replay.choices[replay.chosen++];
            *it = (chosen) { .who = who, .access = n };
            text++;
            if (!take_choice(&text, it) || (*text && *text != ' ')) return false;
            continue;
        }
        replay.accesses[replay.count++] = n;
        if (*text && *text != ' ') return false;
    }
    return replay.count > 0;
}

/* Bounds: for all choices together, and for each sort. */
static const char *take_bounds(void) {
    static const char *const names[SORTS] = { "EXPLORE_PREEMPTIONS", "EXPLORE_OLDER", "EXPLORE_FAILS", "EXPLORE_WAKES", "EXPLORE_DRAWS" };
    static char why[64];
    uint64_t most[SORTS], greatest = option.bound;
    for (int sort = 0; sort < SORTS; sort++) {
        most[sort] = UINT64_MAX;
        snprintf(why, sizeof why, "%s is not a number up to %d", names[sort], MOST_CHOICES);
        if (!take_number(names[sort], MOST_CHOICES, &most[sort])) return why;
        if (most[sort] != UINT64_MAX && greatest < most[sort]) greatest = most[sort];
    }
    /* (a limit above the default bound raises the bound, since it would have no effect otherwise) */
    option.bound = greatest;
    snprintf(why, sizeof why, "EXPLORE_BOUND is not a number up to %d", MOST_CHOICES);
    if (!take_number("EXPLORE_BOUND", MOST_CHOICES, &option.bound)) return why;
    for (int sort = 0; sort < SORTS; sort++) option.most[sort] = most[sort] < option.bound ? most[sort] : option.bound;
    may_be_older = most[OLDER] > 0;
    return NULL;
}

/* `2/4`: the second of four parts. */
static bool take_part(const char *text) {
    char *end;
    if (!text || !*text) return true;
    option.part = strtoull(text, &end, 10);
    if (*end != '/') return false;
    option.parts = strtoull(end + 1, &end, 10);
    return !*end && option.part >= 1 && option.part <= option.parts && option.parts <= 1 << 20;
}

static const char *take_switches(void) {
    const struct { const char *name; bool *value; } yes_or_no[] = { { "EXPLORE_RACES", &races_on }, { "EXPLORE_STRICT", &order.is_strict },
        { "EXPLORE_CLIENT", &order.by_client }, { "EXPLORE_HANDED", &order.is_handed }, { "EXPLORE_LATE", &late_wanted }, { "EXPLORE_SITES", &site_orders.on },
        { "EXPLORE_PATHS", &whole_paths } };
    static char why[64];
    for (size_t i = 0; i < sizeof yes_or_no / sizeof *yes_or_no; i++) {
        uint64_t wanted = *yes_or_no[i].value;
        snprintf(why, sizeof why, "%s must be 0 or 1", yes_or_no[i].name);
        if (!take_number(yes_or_no[i].name, 1, &wanted)) return why;
        *yes_or_no[i].value = wanted;
    }
    return NULL;
}

/* Set by explore.h in a test in C++20 or later. */
extern int explore_release_sequences __attribute__((weak));

static const char *take_options(void) {
    uint64_t whole_seconds = 60, sequences = &explore_release_sequences ? (uint64_t)explore_release_sequences : 11;
    const char *why = take_bounds();
    if (!why) why = take_switches();
    if (why) return why;
    if (!take_number("EXPLORE_SECONDS", 1000000000, &whole_seconds)) return "EXPLORE_SECONDS is not a valid number";
    if (!take_number("EXPLORE_STEPS", MOST_STEPS, &limit_steps) || limit_steps == 0) return "EXPLORE_STEPS is not a valid number";
    if (!take_number("EXPLORE_SPINS", UINT64_MAX, &limit_spins)) return "EXPLORE_SPINS is not a valid number";
    if (!take_number("EXPLORE_SEQUENCES", 20, &sequences) || (sequences != 11 && sequences != 20)) return "EXPLORE_SEQUENCES must be 11 or 20";
    if (!take_part(getenv("EXPLORE_PART"))) return "EXPLORE_PART must look like `1/4`";
    sequences_20 = sequences == 20;
    const char *orders = getenv("EXPLORE_ORDERS");
    if (orders && *orders && !(site_orders.on = take_orders(orders))) return "EXPLORE_ORDERS must look like `1a2b=acquire 1c3d!=relaxed`";
    dl_iterate_phdr(take_bias, NULL);
    option.seconds = (double)whole_seconds;
    option.schedule = getenv("EXPLORE_SCHEDULE");
    option.keep = getenv("EXPLORE_KEEP");
    option.dump = getenv("EXPLORE_DUMP");
    option.report = getenv("EXPLORE_REPORT");
    option.known = getenv("EXPLORE_KNOWN");
    if (option.schedule && *option.schedule && !take_schedule(option.schedule)) return "EXPLORE_SCHEDULE must look like `P7 C4 P` or `P7 C4 P C9:old1`";
    if (option.dump && *option.dump && !(result.dump = fopen(option.dump, "w"))) return "EXPLORE_DUMP: the file cannot be written";
    return NULL;
}

/* At the end of the program: a test that was not explored to its end must not count as lawful. */
static enum { NOT_CALLED, IN_EXPLORE, CAME_BACK } progress = NOT_CALLED;

static void at_the_end(void) {
    if (progress == CAME_BACK || witness.is_me) return;
    run.on = arena.on = false;
    fflush(NULL);
    fputs(progress == NOT_CALLED ? "explore: the test does not call explore()\n" : "explore: the test ended the program within explore()\n", stderr);
    _exit(2);
}

__attribute__((constructor)) static void watch_the_end(void) { atexit(at_the_end); }

/* Allocates all memory once, with nothing known about any test; returns whether this was possible. */
static bool take_memory(void) {
    static bool is_taken;
    if (!is_taken) {
        void *shared = mmap(NULL, MOST_CELLS * sizeof *cells, PROT_READ | PROT_WRITE, MAP_SHARED | MAP_ANONYMOUS, -1, 0);
        if (shared == MAP_FAILED) return false;
        cells = shared;
        begin_arena();
        for (int s = 0; s < 2; s++) {
            char *memory = mmap(NULL, STACK + 4096, PROT_READ | PROT_WRITE, MAP_PRIVATE | MAP_ANONYMOUS, -1, 0);
            if (memory == MAP_FAILED || mprotect(memory, 4096, PROT_NONE) != 0) return false;
            sides[s].stack = memory + 4096;
        }
        take_threads();
        is_taken = ring_calls_init(&rec, LOG_WORDS);
    }
    /* (the touched pages are returned, so that the next test finds zeros) */
    if (cells_used && madvise(cells, MOST_CELLS * sizeof *cells, MADV_REMOVE) != 0) memset(cells, 0, MOST_CELLS * sizeof *cells);
    cells_used = 0;
    races_used = outcomes.used = 0;
    shares_memory = false;
    return is_taken;
}

static int explore_all(void (*reset)(void), void (*producer)(void), void (*consumer)(void), const char *head) {
    static char out[BUFSIZ];
    uint64_t numbers[2] = { 0, 0 };
    memset(&result, 0, sizeof result);
    replay.count = replay.at = replay.chosen = 0;
    first_finding.words[0] = first_late.words[0] = 0;
    const char *help = getenv("EXPLORE_HELP"), *why = take_options();
    if (help && *help) return usage(NULL);
    if (why) return usage(why);
    if (ring_audit_numbers(head, numbers) > 2) {
        fprintf(stderr, "explore: \"%s\" is not a first line of a recording, such as \"queue 2\"\n", head);
        return 2;
    }
    if (!is_instrumented) { fputs("explore: the test was not compiled with -fsanitize=thread\n", stderr); return 2; }
    if (!take_memory()) { fputs("explore: out of memory\n", stderr); return 2; }
    if (!read_known(option.known)) { fprintf(stderr, "explore: %s: not a file that EXPLORE_KNOWN wrote\n", option.known); return 2; }
    test.reset = reset;
    test.body[PRODUCER] = producer;
    test.body[CONSUMER] = consumer;
    test.head = head;
    order.is_bounded = ring_audit_numbers(head, numbers) > 0;
    order.full = numbers[0];
    order.most = ring_audit_numbers(head, numbers) == 2 ? numbers[1] : numbers[0];
    setvbuf(stdout, out, _IOLBF, sizeof out);       /* so that no run allocates the buffer */
    if (replay.on) return play_again();
    fork_witness();
    watch();
    result.began = seconds();
    while (try_all() == ANEW) forget_counts();
    print_all();
    if (site_orders.on) print_sites();
    end_watch();
    end_witness();
    if (result.dump) fclose(result.dump);
    fflush(stdout);
    if (!keep_known(option.known) || !write_report(option.report)) {
        fputs("explore: the file of EXPLORE_KNOWN or EXPLORE_REPORT cannot be written\n", stderr);
        return 2;
    }
    return result.status;
}

int explore(void (*reset)(void), void (*producer)(void), void (*consumer)(void), const char *head) {
    progress = IN_EXPLORE;
    const int status = explore_all(reset, producer, consumer, head);
    progress = CAME_BACK;
    return status;
}
