/* Loaded before the program by tests/faults, with LD_PRELOAD: it makes one system call fail, given by kind and number.

   FAULTS is `KIND NUMBER ERRNO`. For alloc, read (of standard input), write (to standard output), say (a write to standard error),
   thread and clock that call fails, with ERRNO. For short-read, short-write and short-say it moves one byte; nothing-write and
   nothing-say report that none was written; kill-write writes half and then kills the process. At its end it writes to descriptor 3
   the number of calls of each of the first six kinds. */
#define _GNU_SOURCE
#include <dlfcn.h>
#include <errno.h>
#include <pthread.h>
#include <signal.h>
#include <stdatomic.h>
#include <stdlib.h>
#include <string.h>
#include <sys/syscall.h>
#include <time.h>
#include <unistd.h>

enum { ALLOC, READ, WRITE, SAY, THREAD, CLOCK, KINDS };
static const char *const names[KINDS] = {"alloc", "read", "write", "say", "thread", "clock"};

enum how { FAILS, SHORT, NOTHING, KILL };
static const struct { const char *front; size_t length; enum how how; } hows[] = {
    {"short-", 6, SHORT}, {"nothing-", 8, NOTHING}, {"kill-", 5, KILL}, {"", 0, FAILS}};

static atomic_long made[KINDS];
static int kind_at = -1;
static enum how how_at;
static long number_at;
static int error_at;

void *__libc_malloc(size_t);
void *__libc_realloc(void *, size_t);

__attribute__((constructor)) static void begin(void) {
    const char *words = getenv("FAULTS");
    if (!words || !*words) return;
    for (size_t i = 0; i < sizeof hows / sizeof *hows; i++) {
        if (strncmp(words, hows[i].front, hows[i].length) == 0) {
            how_at = hows[i].how;
            words += hows[i].length;
            break;
        }
    }
    for (int kind = 0; kind < KINDS; kind++) {
        size_t length = strlen(names[kind]);
        if (strncmp(words, names[kind], length) == 0 && words[length] == ' ') {
            char *rest;
            number_at = strtol(words + length, &rest, 10);
            error_at = (int)strtol(rest, 0, 10);
            kind_at = kind;
            return;
        }
    }
    abort();
}

/* (the program ends with this call, which runs no destructor) */
void _exit(int status) {
    long counts[KINDS];
    for (int kind = 0; kind < KINDS; kind++) counts[kind] = made[kind];
    syscall(SYS_pwrite64, 3, counts, sizeof counts, 0);
    for (;;) syscall(SYS_exit_group, status);
}

/* Whether this call is the one that must fail. */
static int is_due(int kind) {
    return atomic_fetch_add(&made[kind], 1) + 1 == number_at && kind == kind_at;
}

void *malloc(size_t size) {
    if (is_due(ALLOC)) {
        errno = ENOMEM;
        return NULL;
    }
    return __libc_malloc(size);
}

void *realloc(void *old, size_t size) {
    if (is_due(ALLOC)) {
        errno = ENOMEM;
        return NULL;
    }
    return __libc_realloc(old, size);
}

ssize_t read(int fd, void *to, size_t size) {
    if (fd == 0 && is_due(READ)) {
        if (how_at == FAILS) {
            errno = error_at;
            return -1;
        }
        size = size < 1 ? size : 1;
    }
    return syscall(SYS_read, fd, to, size);
}

ssize_t write(int fd, const void *from, size_t size) {
    if ((fd == 1 || fd == 2) && is_due(fd == 1 ? WRITE : SAY)) {
        switch (how_at) {
        case FAILS:
            errno = error_at;
            return -1;
        case SHORT:
            size = size < 1 ? size : 1;
            break;
        case NOTHING:
            return 0;
        case KILL:
            syscall(SYS_write, fd, from, size / 2);
            raise(SIGKILL);
        }
    }
    return syscall(SYS_write, fd, from, size);
}

ssize_t __write(int fd, const void *from, size_t size) {
    return write(fd, from, size);
}

int pthread_create(pthread_t *thread, const pthread_attr_t *how, void *(*body)(void *), void *with) {
    static int (*there)(pthread_t *, const pthread_attr_t *, void *(*)(void *), void *);
    if (is_due(THREAD)) return error_at;
    if (!there) *(void **)&there = dlsym(RTLD_NEXT, "pthread_create");
    return there(thread, how, body, with);
}

int clock_gettime(clockid_t clock, struct timespec *time) {
    if (is_due(CLOCK)) {
        errno = error_at;
        return -1;
    }
    return (int)syscall(SYS_clock_gettime, clock, time);
}
