/* misuse.c: the misuses for which the debug form of the header (RING_CHECKED) aborts the process, each in a child of its own: the child aborts
 * with the right message on stderr; and allowed uses are allowed. */
#define RING_CHECKED
#include <pthread.h>
#include <signal.h>
#include <stdio.h>
#include <stdlib.h>
#include <string.h>
#include <sys/wait.h>
#include <unistd.h>
#include "counter_ring.h"

static ring_putter p = RING_NO_END;
static ring_taker t = RING_NO_END;

static void copied(void) {
    ring_putter copy = p;
    ring_put(&p, 1);
    ring_put(&copy, 2);
}

static void copied_taker(void) {
    ring_taker copy = t;
    uint64_t item;
    ring_take(&copy, &item);
}

static void freed(void) {
    ring_free_putter(&p);
    ring_put(&p, 1);
}

static void freed_taker(void) {
    uint64_t item;
    ring_free_taker(&t);
    ring_take(&t, &item);
}

static void finished(void) {
    ring_finish(&p, &t);
    ring_close(&p);
}

static void *puts_on(void *handle) {
    for (long i = 0; i < 20000000; i++) ring_put(handle, 1);
    return NULL;
}

static void two_threads(void) {
    pthread_t other;
    pthread_create(&other, NULL, puts_on, &p);
    puts_on(&p);
    pthread_join(other, NULL);
}

static void allowed(void) {
    ring_putter there = RING_NO_END, never = RING_NO_END;
    ring_move_putter(&there, &p);
    ring_put(&there, 1);
    ring_put(&never, 1);
    ring_free_putter(&never);
    ring_free_putter(&never);
    ring_free_putter(&there);
    ring_free_putter(&there);
    ring_free_taker(&t);
    ring_open(&there, &t, 2, 4, 8, 1, 1);
    ring_put(&there, 1);
    ring_finish(&there, &t);
    exit(7);
}

static const struct { const char *name; void (*does)(void); const char *words; } cases[] = {
    { "a copy of a putter", copied, "counter_ring.h: a handle was copied\n" },
    { "a copy of a taker", copied_taker, "counter_ring.h: a handle was copied\n" },
    { "a put after the free", freed, "counter_ring.h: a handle is used after it was freed\n" },
    { "a take after the free", freed_taker, "counter_ring.h: a handle is used after it was freed\n" },
    { "a close after the finish", finished, "counter_ring.h: a handle is used after it was freed\n" },
    { "two threads at once", two_threads, "counter_ring.h: two threads are in a call of one handle\n" },
    { "what is allowed", allowed, "" },
};

int main(void) {
    int failed = 0;
    for (size_t i = 0; i < sizeof cases / sizeof *cases; i++) {
        int ends[2], status;
        char said[400] = "";
        ssize_t more;
        size_t length = 0;
        pid_t child;
        if (pipe(ends) || (child = fork()) < 0) return 2;
        if (child == 0) {
            dup2(ends[1], 2);
            if (ring_open(&p, &t, 4, 8, 8, 2, 2) != RING_OPENED) _exit(3);
            cases[i].does();
            _exit(0);
        }
        close(ends[1]);
        while (length < sizeof said - 1 && (more = read(ends[0], said + length, sizeof said - 1 - length)) > 0) length += (size_t)more;
        close(ends[0]);
        waitpid(child, &status, 0);
        /* (if two threads meet, both may print it) */
        if (strncmp(said, cases[i].words, strlen(cases[i].words)) != 0 || (*cases[i].words ? !WIFSIGNALED(status) || WTERMSIG(status) != SIGABRT : !WIFEXITED(status) || WEXITSTATUS(status) != 7)) {
            printf("misuse.c: %s: status %d, \"%s\"\n", cases[i].name, status, said);
            failed++;
        }
    }
    if (!failed) printf("misuse.c: each of %zu misuses is reported, and allowed uses are allowed\n", sizeof cases / sizeof *cases - 1);
    return failed != 0;
}
