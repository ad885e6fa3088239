/* unit.c: a unit test of a small ring. Two threads call it, 100 times in each round, and the calls of each round are judged. The ring is
 * lawful in 10,000 rounds; with its bug it is not, which the test checks too. */
#undef NDEBUG
#include <assert.h>
#include <pthread.h>
#include <sched.h>
#include "ring_audit.h"

enum { SLOTS = 9, ROUNDS = 10000, CALLS = 50 };

/* The items lie from head up to tail; one slot is kept free. The bug: the tail moves before the cell is written. */
typedef struct { _Atomic uint64_t cell[SLOTS]; _Atomic size_t head, tail; bool bug; } ring;

static bool ring_put(ring *q, uint64_t item) {
    size_t tail = q->tail, next = (tail + 1) % SLOTS;
    if (next == q->head) return false;
    if (q->bug) {
        q->tail = next;
        sched_yield();
    }
    q->cell[tail] = item;
    q->tail = next;
    return true;
}

static bool ring_take(ring *q, uint64_t *item) {
    size_t head = q->head;
    if (head == q->tail) return false;
    *item = q->cell[head];
    q->head = (head + 1) % SLOTS;
    return true;
}

static ring q;
static ring_calls rec;
static atomic_int here;

static void meet(void) {
    for (here++; here < 2;) sched_yield();
}

static void *consume(void *unused) {
    uint64_t item;
    meet();
    for (int i = 0; i < CALLS; i++) {
        ring_calls_take(&rec);
        if (ring_take(&q, &item)) ring_calls_item(&rec, item); else { ring_calls_empty(&rec); sched_yield(); }
    }
    return unused;
}

static void record_round(bool bug) {
    pthread_t consumer;
    uint64_t item = 1;
    q = (ring){ .bug = bug };
    here = 0;
    ring_calls_restart(&rec);
    assert(pthread_create(&consumer, NULL, consume, NULL) == 0);
    meet();
    for (int i = 0; i < CALLS; i++) {
        ring_calls_put(&rec, item);
        if (ring_put(&q, item)) { ring_calls_stored(&rec); item++; } else { ring_calls_full(&rec); sched_yield(); }
    }
    pthread_join(consumer, NULL);
}

int main(void) {
    ring_audit audit = RING_AUDIT_NONE;
    int with_bug = 0;
    assert(ring_calls_init(&rec, 5 * CALLS));
    for (int i = 0; i < ROUNDS; i++) {
        record_round(false);
        assert(ring_audit_lawful(&rec, "queue 8"));
    }
    do {
        record_round(true);
        with_bug++;
    } while (ring_audit_judge(&audit, &rec, "queue 8") && with_bug < ROUNDS);
    printf("%d rounds are lawful; with the bug, round %d: %s\n", ROUNDS, with_bug, ring_audit_words(&audit));
    assert(strncmp(ring_audit_words(&audit), "fault: ", 7) == 0);
    ring_audit_free(&audit);
    ring_calls_free(&rec);
    return 0;
}
