/* hunt_test.c: hunt_test WAY: for record/test, recorders that are hard for record/hunt and rests.c. Those that must succeed write a
 * recording of one call; one that fails prints why to standard error. */
#define _GNU_SOURCE
#include <errno.h>
#include <pthread.h>
#include <signal.h>
#include <stdio.h>
#include <stdlib.h>
#include <string.h>
#include <sys/wait.h>
#include <threads.h>
#include <time.h>
#include <unistd.h>

/* More than any table of rests.c has room for. */
enum { MANY = 500 };

static volatile sig_atomic_t signals;
static void on_signal(int number) { (void)number; signals++; }

static void fail(const char *why) { fprintf(stderr, "hunt_test: %s\n", why); exit(1); }

static double seconds(void) {
    struct timespec now;
    clock_gettime(CLOCK_MONOTONIC, &now);
    return (double)now.tv_sec + (double)now.tv_nsec / 1e9;
}

/* Runs for some milliseconds. */
static void *run(void *passed) {
    double end = seconds() + *(double *)passed / 1000;
    errno = 12345;
    while (seconds() < end) {
        if (errno != 12345) fail("errno is not what it was");
    }
    return passed;
}

static int run_c11(void *passed) { return run(passed) == passed; }

static void run_two(double milliseconds) {
    pthread_t threads[2];
    for (int i = 0; i < 2; i++) if (pthread_create(&threads[i], NULL, run, &milliseconds)) fail("no thread");
    for (int i = 0; i < 2; i++) if (pthread_join(threads[i], NULL)) fail("no join");
}

static void many(void) {
    static double none, moment = 1;
    pthread_t threads[MANY];
    for (int round = 0; round < 2; round++) {
        for (int i = 0; i < MANY; i++) if (pthread_create(&threads[i], NULL, run, i % 100 ? &none : &moment)) fail("no thread");
        for (int i = 0; i < MANY; i++) if (pthread_join(threads[i], NULL)) fail("no join");
    }
}

static void c11(void) {
    static double moment = 10;
    thrd_t thread;
    int result = 0;
    if (thrd_create(&thread, run_c11, &moment) != thrd_success || thrd_join(thread, &result) != thrd_success || result != 1) fail("C11");
}

static void forks(void) {
    int status = -1;
    run_two(2);
    pid_t child = fork();
    if (child == 0) { run_two(2); _exit(0); }
    while (waitpid(child, &status, 0) < 0 && errno == EINTR) {}
    if (status != 0) fail("the child");
    run_two(2);
}

/* The signal that rests.c uses first has a handler before the first thread exists; or after. */
static void signal_before(void) {
    signal(SIGRTMIN + 7, on_signal);
    run_two(10);
    if (signals) fail("a signal that is not its own");
}

static void signal_after(void) {
    run_two(1);
    signal(SIGRTMIN + 7, on_signal);
    run_two(10);
    /* (this thread and the two have a timer each) */
    if (signals > 3) fail("more signals than timers");
}

static void *runs_blocked(void *passed) {
    sigset_t all;
    sigfillset(&all);
    pthread_sigmask(SIG_BLOCK, &all, NULL);
    return run(passed);
}

static void blocked(void) {
    static double moment = 10;
    pthread_t thread;
    if (pthread_create(&thread, NULL, runs_blocked, &moment) || pthread_join(thread, NULL)) fail("no thread");
}

/* It may be cancelled only where it tests for cancellation. */
static volatile int is_inside;
static void *runs_inside(void *unused) {
    for (int i = 0; i < 10000; i++) {
        double end = seconds() + 0.001;
        is_inside = 1;
        while (seconds() < end) {}
        is_inside = 0;
        pthread_testcancel();
    }
    return unused;
}

static void cancelled(void) {
    for (int i = 0; i < 10; i++) {
        pthread_t thread;
        if (pthread_create(&thread, NULL, runs_inside, NULL)) fail("no thread");
        while (!is_inside) {}
        pthread_cancel(thread);
        pthread_join(thread, NULL);
        if (is_inside) fail("cancelled where it may not be");
    }
}

/* A thread that waits is not woken again and again. */
static void *sleeps(void *passed) {
    int *early = passed;
    double end = seconds() + 0.2;
    while (seconds() < end) {
        struct timespec left = {0, 1000000000 / 5};
        while (nanosleep(&left, &left)) (*early)++;
    }
    return NULL;
}

static void waits(void) {
    int early = 0;
    pthread_t thread;
    if (pthread_create(&thread, NULL, sleeps, &early) || pthread_join(thread, NULL)) fail("no thread");
    /* (2,000 times if it were not left alone; a busy machine, on which a wake-up takes long, makes it some 300) */
    if (early > 600) fail("a thread that waits is woken too often");
}

static void write_what_there_is(int number) {
    static const char text[] = "queue 8\nP put 1\nP stored\nC take\nC empty\nC ta";
    (void)number;
    _exit(write(STDOUT_FILENO, text, sizeof text - 1) < 0);
}

static void hangs_and_writes(void) {
    signal(SIGQUIT, write_what_there_is);
    for (;;) pause();
}

static void begins_to_write(void) {
    fputs("queue 8\nP put 1\nP sto", stdout);
    fflush(stdout);
}

static void crashes(void) { begins_to_write(); raise(SIGSEGV); }
static void fails(void) { begins_to_write(); fail("as it was asked to"); }
/* As a test that judges in process does. */
static void judges(void) {
    fputs("a round\nfault: line 6: item 0 was not inside; item 1 of line 4 is next\n", stderr);
    for (int line = 1; line < 9; line++) fprintf(stderr, "  %d\n", line);
    abort();
}

static void hangs(void) { begins_to_write(); for (;;) pause(); }
/* One thread waits for nobody, one spins. */
static pthread_mutex_t lock_of_nobody = PTHREAD_MUTEX_INITIALIZER;
static pthread_cond_t rung_by_nobody = PTHREAD_COND_INITIALIZER;
static volatile int goes_on = 1;
static __attribute__((noinline)) void *wait_for_nobody(void *unused) {
    pthread_mutex_lock(&lock_of_nobody);
    while (goes_on) pthread_cond_wait(&rung_by_nobody, &lock_of_nobody);
    return unused;
}
static __attribute__((noinline)) void *spin_for_ever(void *unused) {
    while (goes_on) continue;
    return unused;
}
static void hangs_in_threads(void) {
    pthread_t waits, spins;
    begins_to_write();
    pthread_create(&waits, NULL, wait_for_nobody, NULL);
    pthread_create(&spins, NULL, spin_for_ever, NULL);
    pthread_join(waits, NULL);
    pthread_join(spins, NULL);
}
static void hangs_for_good(void) { signal(SIGQUIT, SIG_IGN); for (;;) pause(); }

int main(int argc, char **argv) {
    static const struct { const char *name; void (*do_it)(void); } ways[] = {
        {"many", many}, {"c11", c11}, {"forks", forks}, {"signal_before", signal_before}, {"signal_after", signal_after},
        {"blocked", blocked}, {"cancelled", cancelled}, {"waits", waits}, {"crashes", crashes}, {"fails", fails}, {"judges", judges},
        {"hangs", hangs}, {"hangs_in_threads", hangs_in_threads}, {"hangs_and_writes", hangs_and_writes}, {"hangs_for_good", hangs_for_good}};
    for (size_t i = 0; argc == 2 && i < sizeof ways / sizeof *ways; i++) {
        if (strcmp(argv[1], ways[i].name) != 0) continue;
        ways[i].do_it();
        puts("queue 1\nP put 1\nP stored");
        return 0;
    }
    fputs("hunt_test WAY\n", stderr);
    return 2;
}
