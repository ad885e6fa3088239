/* rests.c: loaded before a recorder by record/hunt, with LD_PRELOAD, on Linux with glibc: it sometimes pauses each thread at an
 * arbitrary instruction, as preemption does, and pins the threads to processors. The program is unchanged. By hand:
 *
 *     cc -O2 -shared -fPIC -pthread rests.c -o rests.so -ldl -lrt
 *     RESTS=20 RESTS_SEED=1 RESTS_PIN=2,3 LD_PRELOAD=$PWD/rests.so ./my > my.calls
 *
 * RESTS        average microseconds between two rests (pauses) of a thread; 0, or not set: no rests
 * RESTS_SEED   a number: another number gives other rests. (The same rests do not give the same run.)
 * RESTS_PIN    processors, to which the threads are pinned in turn: the thread that creates the first other one to the first processor
 * RESTS_TOLD   a file of 16 bytes with two counters: the threads seen, and their rests
 *
 * Nothing happens before a program creates its first thread. Each thread has a timer of its own, whose signal reaches only that thread;
 * the handler rests, and only then sets the timer again, so that a thread makes progress between two rests. It calls only what a
 * handler may call, keeps errno, and is not a cancellation point. A thread that waits in the kernel is disturbed less and less often.
 *
 * The signal is the first one from SIGRTMIN+7 on for which the program has no handler. A program that installs one later gets at most one signal
 * per thread, and no rests from then on: nothing sets the timers again. With SA_RESTART most system calls continue after a
 * signal; nanosleep, poll, select, epoll_wait and a few more end with EINTR. A child that a fork makes has no rests before it makes a
 * thread.
 *
 * At SIGQUIT each thread prints to standard error where it is, a line `rests: thread 7 is at /path/my +0x1234` for each call that it is in, the
 * innermost first; then the process ends as it would without this. A program that has a handler of its own for SIGQUIT when it creates its first thread
 * keeps it, and prints none of this. */
#define _GNU_SOURCE
#include <dlfcn.h>
#include <errno.h>
#include <execinfo.h>
#include <fcntl.h>
#include <pthread.h>
#include <sched.h>
#include <signal.h>
#include <stdatomic.h>
#include <stdint.h>
#include <stdio.h>
#include <stdlib.h>
#include <string.h>
#include <sys/mman.h>
#include <sys/resource.h>
#include <sys/syscall.h>
#include <threads.h>
#include <time.h>
#include <unistd.h>
#ifndef sigev_notify_thread_id
#define sigev_notify_thread_id _sigev_un._tid
#endif

/* In nanoseconds: the maximum time until a thread that waits in the kernel is checked again, and how little it must have run since then;
 * the average extra delay of every eighth rest, so that a thread makes progress even if signals are slow. */
enum { MOST_CALLS = 32, LONGEST_WAIT = 10000000, LEAST_RUN = 30000, FURTHER = 50000, MOST_PROCESSORS = 64 };

typedef struct { _Atomic uint64_t threads, rests; } counts;
/* How long a thread has run, and how often it has waited in the kernel. */
typedef struct { int64_t ran; long waits; } past;
typedef struct {
    int is_met, has_timer;
    timer_t timer;
    uint64_t random;
    int64_t wait;
    past seen;
} side;
/* What a new thread runs. */
typedef struct { void *(*run)(void *); thrd_start_t run_c11; void *argument; } start;

static int (*make_thread)(pthread_t *, const pthread_attr_t *, void *(*)(void *), void *);
static int (*make_thread_c11)(thrd_t *, thrd_start_t, void *);
static int64_t every;
static uint64_t seed;
static int signal_of_rests, processors[MOST_PROCESSORS];
static unsigned processor_count;
static _Atomic unsigned threads_met;
static counts here, *told = &here;
static pthread_once_t once = PTHREAD_ONCE_INIT;
static pthread_key_t at_end_of_thread;
/* (allocated with its thread: a handler must not be the first to access it) */
static __thread side mine __attribute__((tls_model("initial-exec")));

static uint64_t drawn(void) {
    uint64_t *g = &mine.random;
    *g ^= *g << 13;
    *g ^= *g >> 7;
    *g ^= *g << 17;
    return *g;
}

static past look(void) {
    struct timespec ran = {0, 0};
    struct rusage use = {.ru_nvcsw = 0};
    clock_gettime(CLOCK_THREAD_CPUTIME_ID, &ran);
    getrusage(RUSAGE_THREAD, &use);
    return (past){(int64_t)ran.tv_sec * 1000000000 + ran.tv_nsec, use.ru_nvcsw};
}

static void set_timer(void) {
    int64_t wait = 1 + (int64_t)(drawn() % (2 * (uint64_t)mine.wait)) + (drawn() % 8 ? 0 : FURTHER);
    struct itimerspec next = {{0, 0}, {wait / 1000000000, wait % 1000000000}};
    timer_settime(mine.timer, 0, &next, NULL);
}

static void spin(uint64_t most) {
    for (volatile uint64_t n = drawn() % most; n > 0;) n = n - 1;
}

/* For at least 50 us if it sleeps, otherwise up to 30 us or 2 us. */
static void rest(void) {
    struct timespec moment = {0, 1000};
    switch (drawn() % 8) {
    case 0: syscall(SYS_nanosleep, &moment, NULL); break;
    case 1:
    case 2: syscall(SYS_sched_yield); break;
    case 3: spin(20000); break;
    default: spin(1000);
    }
    atomic_fetch_add_explicit(&told->rests, 1, memory_order_relaxed);
}

/* ---- where each thread is ---- */

/* Whether this is requested; how many threads have printed it. */
static _Atomic int stand_is_asked, have_stood;

/* Prints the calls that this thread is in, without those of the handlers, which come first. */
static void print_stand(int handlers) {
    void *calls[MOST_CALLS];
    const int count = backtrace(calls, MOST_CALLS);
    char text[4096];
    size_t used = 0;
    for (int i = handlers; i < count; i++) {
        Dl_info it;
        if (!dladdr(calls[i], &it) || !it.dli_fname) continue;
        const int n = snprintf(text + used, sizeof text - used, "rests: thread %ld is at %s +0x%lx\n", syscall(SYS_gettid), it.dli_fname,
                               (unsigned long)((char *)calls[i] - (char *)it.dli_fbase));
        if (n > 0 && used + (size_t)n < sizeof text) used += (size_t)n;
    }
    if (write(2, text, used) < 0) return;
    atomic_fetch_add(&have_stood, 1);
}

/* Asks each other thread, and waits a moment for it. */
static void ask_others(void) {
    struct { uint64_t inode; int64_t offset; unsigned short length; char type, name[]; } *it;
    char room[4096];
    const int folder = open("/proc/self/task", O_RDONLY | O_DIRECTORY | O_CLOEXEC);
    const long me = syscall(SYS_gettid);
    long n;
    while (folder >= 0 && (n = syscall(SYS_getdents64, folder, room, sizeof room)) > 0) {
        for (long at = 0; at < n; at += it->length) {
            it = (void *)(room + at);
            const long thread = strtol(it->name, NULL, 10);
            const int before = have_stood;
            if (thread <= 0 || thread == me || syscall(SYS_tgkill, getpid(), thread, signal_of_rests) != 0) continue;
            for (int tries = 0; have_stood == before && tries < 200; tries++) {
                const struct timespec moment = {0, 1000000};
                syscall(SYS_nanosleep, &moment, NULL);
            }
        }
    }
}

static void on_quit(int number) {
    stand_is_asked = 1;
    print_stand(2);
    if (signal_of_rests) ask_others();
    signal(number, SIG_DFL);
    raise(number);
}

/* (the first call of backtrace loads a library, which a handler must not do) */
static void watch_quit(void) {
    void *call[1];
    struct sigaction now, ours = {.sa_handler = on_quit, .sa_flags = SA_ONSTACK};
    backtrace(call, 1);
    if (sigaction(SIGQUIT, NULL, &now) == 0 && !(now.sa_flags & SA_SIGINFO) && now.sa_handler == SIG_DFL) sigaction(SIGQUIT, &ours, NULL);
}

static void on_signal(int number) {
    int kept = errno;
    (void)number;
    if (stand_is_asked) {
        print_stand(2);
    } else if (mine.has_timer) {
        past now = look();
        if (now.waits == mine.seen.waits || now.ran - mine.seen.ran > LEAST_RUN) {
            mine.wait = every;
            rest();
        } else if (mine.wait < LONGEST_WAIT) {
            mine.wait *= 2;
        }
        mine.seen = look();
        set_timer();
    }
    errno = kept;
}

/* 0 if the program has handlers for all of them. */
static int free_signal(void) {
    for (int number = SIGRTMIN + 7; number <= SIGRTMAX; number++) {
        struct sigaction now;
        if (sigaction(number, NULL, &now) == 0 && !(now.sa_flags & SA_SIGINFO) && now.sa_handler == SIG_DFL) return number;
    }
    return 0;
}

static void end_of_thread(void *unused) {
    (void)unused;
    mine.has_timer = 0;
    timer_delete(mine.timer);
}

/* (a timer belongs to the process that made it) */
static void in_child(void) { mine.is_met = mine.has_timer = 0; }

static void read_environment(void) {
    const char *rests = getenv("RESTS"), *number = getenv("RESTS_SEED"), *file = getenv("RESTS_TOLD");
    char *pins = getenv("RESTS_PIN");
    long microseconds = rests ? atol(rests) : 0;
    every = microseconds < 0 ? 0 : microseconds > 1000000 ? 1000000000 : microseconds * 1000;
    seed = number ? strtoull(number, NULL, 10) : 0;
    while (pins && *pins && processor_count < MOST_PROCESSORS) {
        processors[processor_count++] = (int)strtol(pins, &pins, 10);
        pins += *pins != 0;
    }
    int opened = file ? open(file, O_RDWR | O_CLOEXEC) : -1;
    if (opened >= 0) {
        void *shared = mmap(NULL, sizeof *told, PROT_READ | PROT_WRITE, MAP_SHARED, opened, 0);
        if (shared != MAP_FAILED) told = (counts *)shared;
        close(opened);
    }
}

static void prepare(void) {
    int kept = errno;
    *(void **)&make_thread = dlsym(RTLD_NEXT, "pthread_create");
    *(void **)&make_thread_c11 = dlsym(RTLD_NEXT, "thrd_create");
    read_environment();
    signal_of_rests = free_signal();
    if (signal_of_rests && pthread_key_create(&at_end_of_thread, end_of_thread) == 0) {
        struct sigaction action = {.sa_handler = on_signal, .sa_flags = SA_RESTART | SA_ONSTACK};
        sigaction(signal_of_rests, &action, NULL);
    } else {
        signal_of_rests = 0;
    }
    pthread_atfork(NULL, NULL, in_child);
    watch_quit();
    errno = kept;
}

/* Pins this thread, and starts its rests. */
static void meet(void) {
    if (mine.is_met) return;
    int kept = errno;
    unsigned place = atomic_fetch_add(&threads_met, 1);
    mine.is_met = 1;
    atomic_fetch_add(&told->threads, 1);
    if (processor_count) {
        int processor = processors[place % processor_count];
        cpu_set_t one;
        CPU_ZERO(&one);
        if (processor >= 0 && processor < CPU_SETSIZE) CPU_SET(processor, &one);
        sched_setaffinity(0, sizeof one, &one);
    }
    struct sigevent event = {.sigev_notify = SIGEV_THREAD_ID, .sigev_signo = signal_of_rests};
    event.sigev_notify_thread_id = (pid_t)syscall(SYS_gettid);
    if (signal_of_rests && every && timer_create(CLOCK_MONOTONIC, &event, &mine.timer) == 0) {
        sigset_t ours;
        mine.random = (seed * 64 + place + 1) * UINT64_C(0x9e3779b97f4a7c15);
        mine.wait = every;
        mine.seen = look();
        mine.has_timer = 1;
        pthread_setspecific(at_end_of_thread, &mine);
        sigemptyset(&ours);
        sigaddset(&ours, signal_of_rests);
        pthread_sigmask(SIG_UNBLOCK, &ours, NULL);
        set_timer();
    }
    errno = kept;
}

static void *begin(void *passed) {
    start that = *(start *)passed;
    free(passed);
    meet();
    return that.run(that.argument);
}

static int begin_c11(void *passed) {
    start that = *(start *)passed;
    free(passed);
    meet();
    return that.run_c11(that.argument);
}

/* NULL if there is no memory: the thread then runs without rests. */
static start *start_of(void *(*run)(void *), thrd_start_t run_c11, void *argument) {
    start *that = malloc(sizeof *that);
    if (that) *that = (start){run, run_c11, argument};
    return that;
}

int pthread_create(pthread_t *thread, const pthread_attr_t *attributes, void *(*run)(void *), void *argument) {
    pthread_once(&once, prepare);
    meet();
    start *that = start_of(run, NULL, argument);
    int failed = that ? make_thread(thread, attributes, begin, that) : make_thread(thread, attributes, run, argument);
    if (failed) free(that);
    return failed;
}

int thrd_create(thrd_t *thread, thrd_start_t run, void *argument) {
    pthread_once(&once, prepare);
    meet();
    start *that = start_of(NULL, run, argument);
    int status = that ? make_thread_c11(thread, begin_c11, that) : make_thread_c11(thread, run, argument);
    if (status != thrd_success) free(that);
    return status;
}
