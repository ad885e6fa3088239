/* relay.h: a producer's and a consumer's thread over a queue, recorded. Each program of this folder has a table of its queues and
 * ends in relay_main: with no argument it lists their names, each with the expected verdict of the audit; NAME CALLS writes a recording.
 *
 * The producer puts 0, 1, 2, .., in CALLS calls, and closes: by a flag beside the queue, since these queues have no close. The consumer takes
 * until it finds nothing, then the flag set, then nothing once more: this is recorded as closed. Both sometimes pause for a moment. */
#include <pthread.h>
#include <sched.h>
#include "ring_calls.h"

typedef struct {
    const char *name, *head;
    const char *verdict;                                /* NULL: lawful; else the beginning of its fault's words, without numbers */
    void (*make)(void);
    int (*put)(uint64_t item);                          /* whether it was stored */
    int (*take)(uint64_t *item);                        /* 1: an item; 0: empty; 2: no reason given */
    size_t (*put_all)(const uint64_t *items, size_t n); /* the number stored; NULL: one by one */
    size_t (*take_all)(uint64_t *items, size_t n);
    int ends;                                           /* how its calls for several items end: one of those below */
} relay_queue;

/* As many as there is room for, or are inside; all or none; possibly fewer, with no reason given. */
enum { RELAY_AS_MANY, RELAY_ALL_OR_NONE, RELAY_SOME };

enum { RELAY_BATCH = 5 };
static ring_calls relay_rec;
static ring_calls_counter relay_here, relay_done;
static const relay_queue *relay_q;
static uint64_t relay_calls;

static inline uint64_t relay_random(uint64_t *g) { *g ^= *g << 13; *g ^= *g >> 7; *g ^= *g << 17; return *g; }

static inline void relay_rest(uint64_t *g, int longer) {
    for (volatile uint64_t n = relay_random(g) % (longer ? 200 : 8); n > 0;) { n = n - 1; }
    if (longer && relay_random(g) % 64 == 0) sched_yield();
}

static inline void relay_meet(void) {
    RING_CALLS_STD(atomic_fetch_add)(&relay_here, (uint64_t)1);
    while (RING_CALLS_STD(atomic_load)(&relay_here) < 2) sched_yield();
}

static inline void *relay_producer(void *unused) {
    uint64_t g = 88172645463325252u, v = 0;
    relay_meet();
    for (uint64_t i = 0; i < relay_calls; i++) {
        uint64_t items[RELAY_BATCH];
        size_t n = relay_q->put_all ? 1 + relay_random(&g) % RELAY_BATCH : 1, m;
        for (size_t k = 0; k < n; k++) items[k] = v + k;
        ring_calls_put_all(&relay_rec, items, n);
        m = relay_q->put_all ? relay_q->put_all(items, n) : relay_q->put(v) ? 1 : 0;
        if (m == 0 && n > 1 && relay_q->ends == RELAY_ALL_OR_NONE) ring_calls_put_short(&relay_rec);
        else if (m > 0 && relay_q->ends == RELAY_SOME) ring_calls_some(&relay_rec, m);
        else ring_calls_stored_of(&relay_rec, m, n);
        v += m;
        relay_rest(&g, m < n || relay_random(&g) % 4096 < 64);
    }
    ring_calls_close(&relay_rec);
    RING_CALLS_STD(atomic_store)(&relay_done, (uint64_t)1);
    ring_calls_closed(&relay_rec);
    return unused;
}

/* A look: the number of items that came, or -1 if no reason is given. */
static inline long relay_look(uint64_t *items, size_t n) {
    int one;
    if (relay_q->take_all) return (long)relay_q->take_all(items, n);
    one = relay_q->take(items);
    return one == 2 ? -1 : one;
}

static inline void *relay_consumer(void *unused) {
    uint64_t g = 362436069u;
    relay_meet();
    for (;;) {
        uint64_t items[RELAY_BATCH];
        int all_or_none = relay_q->ends == RELAY_ALL_OR_NONE, is_done = (int)RING_CALLS_STD(atomic_load)(&relay_done);
        /* (an all-or-nothing take that may be recorded as closed has to ask for one) */
        size_t n = relay_q->take_all && !(is_done && all_or_none) ? 1 + relay_random(&g) % RELAY_BATCH : 1;
        long m;
        all_or_none = all_or_none && n > 1;
        ring_calls_take_all(&relay_rec, n);
        m = relay_look(items, n);
        is_done = m == 0 && RING_CALLS_STD(atomic_load)(&relay_done);
        if (is_done && !all_or_none) {
            m = relay_look(items, n);
            if (m == 0) { ring_calls_told(&relay_rec); return unused; }
        }
        /* (an all-or-nothing take must not be recorded as short if the queue is closed meanwhile and nothing is inside) */
        if (m < 0 || (is_done && all_or_none)) ring_calls_take_nothing(&relay_rec);
        else if (m == 0 && all_or_none) ring_calls_take_short(&relay_rec);
        else if (m > 0 && relay_q->ends == RELAY_SOME) ring_calls_some_items(&relay_rec, items, (size_t)m);
        else ring_calls_items(&relay_rec, items, (size_t)m);
        relay_rest(&g, m < (long)n || relay_random(&g) % 4096 < 64);
    }
}

static inline int relay_main(int argc, char **argv, const relay_queue *queues, size_t count) {
    for (size_t i = 0; i < count; i++) {
        if (argc < 3) printf("%s %s\n", queues[i].name, queues[i].verdict ? queues[i].verdict : "lawful");
        else if (strcmp(queues[i].name, argv[1]) == 0) relay_q = &queues[i];
    }
    if (argc < 3) return argc != 1;
    relay_calls = strtoull(argv[2], NULL, 10);
    if (!relay_q || !ring_calls_init(&relay_rec, (size_t)relay_calls * 24 + 4096)) {
        fprintf(stderr, "%s: no such queue, or out of memory\n", argv[1]);
        return 2;
    }
    relay_q->make();
    pthread_t p, c;
    if (pthread_create(&p, NULL, relay_producer, NULL) || pthread_create(&c, NULL, relay_consumer, NULL)) {
        fprintf(stderr, "%s: cannot create a thread\n", argv[1]);
        return 2;
    }
    pthread_join(p, NULL);
    pthread_join(c, NULL);
    return !ring_calls_write(&relay_rec, relay_q->head, stdout);
}
