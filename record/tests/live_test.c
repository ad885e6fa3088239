/* live_test.c: for record/test: two threads over a small queue, correct or with a bug, recorded in one of three ways. C11, C++11.
 *
 *     live_test WAY QUEUE CAPACITY ITEMS [BUG]    prints the report; status 1 if it was not lawful
 *         WAY     plain, not recorded; logged, by ring_calls.h, and audited at the end; live, by ring_live.h
 *         QUEUE   ring, two indices as in Boost's spsc_queue; blocking, under a mutex: its calls wait if it is full or empty
 *         ITEMS   this many are put, and then the queue is closed
 *         BUG     early, an index is visible before its item; lost, item ITEMS/2 is lost; closed, reported with items inside
 *     live_test feed FILE..                       prints what is found about recordings, whose events one thread records live
 *
 * On Linux LIVE_TEST_PIN in the environment has each side run on a processor of its own. */
#ifndef _GNU_SOURCE
#define _GNU_SOURCE
#endif
#ifndef _WIN32
#include <sys/resource.h>
#endif
#include "ring_live.h"

enum got { NOTHING, ITEM, TOLD };

static bool is_logged, is_live, blocks, shows_early, loses_one, closes_early;
static ring_calls rec;
static ring_live live;
static uint64_t items_wanted;
/* How many sides have begun. */
static ring_calls_counter here;
/* What a side came to: its calls, and those that found the queue full or empty; when it ended, and its processor time. */
static struct { uint64_t calls, nothing; double began, ended, busy; char apart[128]; } sides[2];

/* The queue: the items lie from head up to tail, one cell is kept free. */
static size_t cells_count;
static uint64_t *cells;
static struct { ring_calls_counter now; char apart[120]; } tail, head, closed;
static pthread_mutex_t lock = PTHREAD_MUTEX_INITIALIZER;
static pthread_cond_t has_room = PTHREAD_COND_INITIALIZER, has_items = PTHREAD_COND_INITIALIZER;

static uint64_t own(const ring_calls_counter *word) {
    return RING_CALLS_STD(atomic_load_explicit)(word, RING_CALLS_STD(memory_order_relaxed));
}

static uint64_t after(uint64_t cell) { return cell + 1 == cells_count ? 0 : cell + 1; }

static bool ring_put(uint64_t item) {
    const uint64_t cell = own(&tail.now);
    if (after(cell) == ring_live_load(&head.now)) return false;
    if (!shows_early) cells[cell] = item;
    ring_live_store(&tail.now, after(cell));
    if (shows_early) cells[cell] = item;
    return true;
}

static bool ring_look(uint64_t *item) {
    do {
        const uint64_t cell = own(&head.now);
        if (cell == ring_live_load(&tail.now)) return false;
        *item = cells[cell];
        ring_live_store(&head.now, after(cell));
    } while (loses_one && *item == items_wanted / 2);
    return true;
}

/* Nothing, then closed, then nothing once more: only then is it the end. */
static enum got ring_take(uint64_t *item) {
    if (closes_early && ring_live_load(&closed.now)) return TOLD;
    if (ring_look(item)) return ITEM;
    if (!ring_live_load(&closed.now)) return NOTHING;
    return ring_look(item) ? ITEM : TOLD;
}

static bool blocking_put(uint64_t item) {
    pthread_mutex_lock(&lock);
    while (after(own(&tail.now)) == own(&head.now) && !own(&closed.now)) pthread_cond_wait(&has_room, &lock);
    const uint64_t cell = own(&tail.now);
    const bool stored = !own(&closed.now);
    if (stored && !shows_early) cells[cell] = item;
    if (stored) ring_live_store(&tail.now, after(cell));
    pthread_cond_signal(&has_items);
    pthread_mutex_unlock(&lock);
    if (stored && shows_early) cells[cell] = item;
    return stored;
}

static enum got blocking_take(uint64_t *item) {
    enum got got = NOTHING;
    pthread_mutex_lock(&lock);
    while (got == NOTHING) {
        while (own(&head.now) == own(&tail.now) && !own(&closed.now)) pthread_cond_wait(&has_items, &lock);
        if (closes_early && own(&closed.now)) got = TOLD;
        else if (ring_look(item)) got = ITEM;
        else if (own(&closed.now)) got = TOLD;
        pthread_cond_signal(&has_room);
    }
    pthread_mutex_unlock(&lock);
    return got;
}

static void close_queue(void) {
    pthread_mutex_lock(&lock);
    ring_live_store(&closed.now, 1);
    pthread_cond_signal(&has_items);
    pthread_cond_signal(&has_room);
    pthread_mutex_unlock(&lock);
}

static double seconds_of(clockid_t clock) {
    struct timespec t;
    clock_gettime(clock, &t);
    return (double)t.tv_sec + (double)t.tv_nsec * 1e-9;
}

/* The most memory that the process took, in KB; 0 if the system does not tell. */
static long memory_taken(void) {
#ifdef _WIN32
    return 0;
#else
    struct rusage used;
    return getrusage(RUSAGE_SELF, &used) == 0 ? used.ru_maxrss : 0;
#endif
}

/* On request, runs on a processor of its own: the first or the second of those available. Then waits for the other side. */
static void begin_side(size_t side) {
#ifdef __linux__
    cpu_set_t all, one;
    CPU_ZERO(&one);
    if (getenv("LIVE_TEST_PIN") && sched_getaffinity(0, sizeof all, &all) == 0) {
        for (size_t i = 0, n = 0; i < CPU_SETSIZE; i++) if (CPU_ISSET(i, &all) && n++ == side) CPU_SET(i, &one);
        sched_setaffinity(0, sizeof one, &one);
    }
#endif
    RING_CALLS_STD(atomic_fetch_add)(&here, (uint64_t)1);
    while (ring_live_load(&here) < 2) sched_yield();
    sides[side].began = ring_live_seconds();
}

static void end_side(size_t side) {
    sides[side].ended = ring_live_seconds();
    sides[side].busy = seconds_of(CLOCK_THREAD_CPUTIME_ID);
}

/* Records each event in the chosen way; returns whether to continue. */
#define RECORD(logged, lives) (is_logged ? (logged, 1) : is_live ? (lives) : 1)

static void *produce(void *unused) {
    uint64_t item = 0, calls = 0, full = 0;
    bool stored = true;
    begin_side(0);
    for (; item < items_wanted && RECORD(ring_calls_put(&rec, item), ring_live_put(&live, item)); calls++) {
        stored = blocks ? blocking_put(item) : ring_put(item);
        if (stored) { RECORD(ring_calls_stored(&rec), ring_live_stored(&live)); item++; continue; }
        if (blocks) { RECORD(ring_calls_closed(&rec), ring_live_closed(&live)); break; }
        RECORD(ring_calls_full(&rec), ring_live_full(&live));
        full++;
        sched_yield();
    }
    /* (also after a fault, so that the other side does not wait) */
    RECORD(ring_calls_close(&rec), ring_live_close(&live));
    close_queue();
    RECORD(ring_calls_closed(&rec), ring_live_closed(&live));
    sides[0].calls = calls;
    sides[0].nothing = full;
    end_side(0);
    return unused;
}

static void *consume(void *unused) {
    uint64_t item = 0, calls = 0, empty = 0;
    enum got got = NOTHING;
    begin_side(1);
    for (; got != TOLD && RECORD(ring_calls_take(&rec), ring_live_take(&live)); calls++) {
        got = blocks ? blocking_take(&item) : ring_take(&item);
        if (got == ITEM) { RECORD(ring_calls_item(&rec, item), ring_live_item(&live, item)); continue; }
        if (got == TOLD) { RECORD(ring_calls_told(&rec), ring_live_told(&live)); continue; }
        RECORD(ring_calls_empty(&rec), ring_live_empty(&live));
        empty++;
        sched_yield();
    }
    close_queue();
    sides[1].calls = calls;
    sides[1].nothing = empty;
    end_side(1);
    return unused;
}

static int try_queue(const char *way, size_t capacity) {
    char first_line[40];
    pthread_t threads[2];
    ring_audit judged = RING_AUDIT_NONE;
    ring_audit_counts seen;
    double monitor;
    int lawful = 1;
    snprintf(first_line, sizeof first_line, "queue %zu", capacity);
    cells_count = capacity + 1;
    cells = (uint64_t *)calloc(cells_count, sizeof *cells);
    if (!cells || (is_logged && !ring_calls_init(&rec, items_wanted * 16 + 4096))) return 2;
    if (is_live && !ring_live_begin(&live, first_line)) return 2;
    if (pthread_create(&threads[0], NULL, produce, NULL) || pthread_create(&threads[1], NULL, consume, NULL)) return 2;
    for (int i = 0; i < 2; i++) pthread_join(threads[i], NULL);
    if (is_live) lawful = ring_live_end(&live);
    monitor = seconds_of(CLOCK_PROCESS_CPUTIME_ID) - seconds_of(CLOCK_THREAD_CPUTIME_ID) - sides[0].busy - sides[1].busy;
    if (is_logged) lawful = ring_audit_judge(&judged, &rec, first_line);

    const double calls = (double)(sides[0].calls + sides[1].calls);
    const double began = sides[0].began < sides[1].began ? sides[0].began : sides[1].began;
    const double seconds = (sides[0].ended > sides[1].ended ? sides[0].ended : sides[1].ended) - began;
    printf("%s: %.0f calls, full %.2f%%, empty %.2f%%, %.2f s, %.1f ns a call, of processor time %.1f, %ld KB\n", way, calls,
           (double)sides[0].nothing / calls * 100, (double)sides[1].nothing / calls * 100, seconds, seconds / calls * 1e9,
           (sides[0].busy + sides[1].busy) / calls * 1e9, memory_taken());
    if (is_live) {
        const unsigned long long waits = live.waits, lawful_lines = live.audit.state.line, events = ring_live_load(&live.next);
        printf("monitor: %.1f ns an event, waits %llu, lawful %llu of %llu events\n", monitor / (double)live.ticket * 1e9, waits,
               lawful_lines - 1, events);
    }
    ring_audit *audit = is_live ? &live.audit : &judged;
    if ((is_logged || is_live) && lawful && ring_audit_report(&audit->state, &seen)) {
        printf("overlapped: %.2f%%\n", (double)seen.overlapped / (double)seen.calls * 100);
    }
    if (is_logged || is_live) ring_audit_print(audit, stdout);
    if (is_live) ring_live_free(&live);
    if (is_logged) { ring_audit_free(&judged); ring_calls_free(&rec); }
    free(cells);
    return !lawful;
}

/* Records an event by the name that the recorder has for it. */
static int record(int kind, const uint64_t *numbers, size_t n) {
    switch (kind) {
    case RING_PUT: return n == 1 ? ring_live_put(&live, *numbers) : ring_live_put_all(&live, numbers, n);
    case RING_CLOSE: return ring_live_close(&live);
    case RING_TAKE: return n ? ring_live_take_all(&live, *numbers) : ring_live_take(&live);
    case RING_STORED: return n ? ring_live_stored_of(&live, *numbers, *numbers + 1) : ring_live_stored(&live);
    case RING_PUT_SOME: return ring_live_some(&live, *numbers);
    case RING_FULL: return ring_live_full(&live);
    case RING_PUT_SHORT: return ring_live_put_short(&live);
    case RING_PUT_NOTHING: return ring_live_put_nothing(&live);
    case RING_CLOSED: return ring_live_closed(&live);
    case RING_ITEM: return n == 1 ? ring_live_item(&live, *numbers) : ring_live_items(&live, numbers, n);
    case RING_TAKE_SOME: return ring_live_some_items(&live, numbers, n);
    case RING_EMPTY: return ring_live_empty(&live);
    case RING_TAKE_SHORT: return ring_live_take_short(&live);
    case RING_TAKE_NOTHING: return ring_live_take_nothing(&live);
    default: return ring_live_told(&live);
    }
}

/* The events of a recording, up to its end or its first fault. Returns 0 if it cannot be read, or does not begin. */
static int feed(const char *name) {
    static const char *const words[] = { "P put", "P close", "C take",
                                         "P stored", "P some", "P full", "P short", "P nothing", "P closed",
                                         "C item", "C some", "C empty", "C short", "C nothing", "C closed" };
    static char line[1 << 16];
    static uint64_t numbers[1 << 14];
    FILE *file = fopen(name, "r");
    int goes_on = file && fgets(line, sizeof line, file);
    line[strcspn(line, "\n")] = 0;
    goes_on = goes_on && ring_live_begin(&live, line + (strncmp(line, "cut ", 4) == 0 ? 4 : 0));
    if (!goes_on) return 0;
    while (goes_on && fgets(line, sizeof line, file)) {
        const size_t length = 2 + strcspn(line + 2, " \n");
        int kind = 0;
        size_t n = 0;
        while (kind < RING_TOLD && (strlen(words[kind]) != length || strncmp(line, words[kind], length) != 0)) kind++;
        for (char *at = line + length; *at == ' ' && n < sizeof numbers / sizeof *numbers;) numbers[n++] = strtoull(at, &at, 10);
        goes_on = record(kind, numbers, n);
    }
    fclose(file);
    ring_live_end(&live);
    ring_live_print(&live, stdout);
    puts("");
    ring_live_free(&live);
    return 1;
}

int main(int argc, char **argv) {
    const char *bug = argc == 6 ? argv[5] : "";
    if (argc > 1 && strcmp(argv[1], "feed") == 0) {
        for (int i = 2; i < argc; i++) if (!feed(argv[i])) return 2;
        return 0;
    }
    if (argc == 5 || argc == 6) {
        is_logged = strcmp(argv[1], "logged") == 0;
        is_live = strcmp(argv[1], "live") == 0;
        blocks = strcmp(argv[2], "blocking") == 0;
        items_wanted = strtoull(argv[4], NULL, 10);
        shows_early = strcmp(bug, "early") == 0;
        loses_one = strcmp(bug, "lost") == 0;
        closes_early = strcmp(bug, "closed") == 0;
        return try_queue(argv[1], strtoull(argv[3], NULL, 10));
    }
    fputs("live_test plain|logged|live ring|blocking CAPACITY ITEMS [early|lost|closed], or live_test feed FILE..\n", stderr);
    return 2;
}
