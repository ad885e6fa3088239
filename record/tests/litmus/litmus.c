/* litmus.c: for compare.py: litmus tests of two sides, explored. Reads tests, one to a line, as `Wx1rlx Ryacq | Wy1rel Rxsco`, and prints the outcomes of
 * each, then a line with a dot. Each word is an operation of a side: W (store) place value order; R (load) place order; X (exchange) and A (add) place
 * value order; C (compare-and-swap) place expected new order failure; F (fence) order. Places are x, y, z; values have one digit; orders are rlx, acq, rel,
 * arl, sco. An outcome has what each load found, and the last values of x, y and z. */
#include "explore.h"

extern uint64_t __tsan_atomic64_load(const volatile uint64_t *, int);
extern void __tsan_atomic64_store(volatile uint64_t *, uint64_t, int);
extern uint64_t __tsan_atomic64_exchange(volatile uint64_t *, uint64_t, int);
extern uint64_t __tsan_atomic64_fetch_add(volatile uint64_t *, uint64_t, int);
extern int __tsan_atomic64_compare_exchange_strong(volatile uint64_t *, uint64_t *, uint64_t, int, int);
extern void __tsan_atomic_thread_fence(int);

enum { PLACES = 3, MOST = 8 };
typedef struct { char kind; int at, a, b, order, failure; } operation;
static uint64_t word[PLACES];
static operation program[2][MOST];
static int count[2];

static void reset(void) { for (int i = 0; i < PLACES; i++) word[i] = 0; }

/* Each operation of a side is code of its own, as in a text. */
#define DO(k) static void __attribute__((noinline)) do_##k(const operation *it, uint64_t *got, int *n) { \
    volatile uint64_t *p = &word[it->at]; \
    uint64_t value = (uint64_t)it->a; \
    switch (it->kind) { \
    case 'W': __tsan_atomic64_store(p, value, it->order); break; \
    case 'R': got[(*n)++] = __tsan_atomic64_load(p, it->order); break; \
    case 'X': got[(*n)++] = __tsan_atomic64_exchange(p, value, it->order); break; \
    case 'A': got[(*n)++] = __tsan_atomic64_fetch_add(p, value, it->order); break; \
    case 'C': __tsan_atomic64_compare_exchange_strong(p, &value, (uint64_t)it->b, it->order, it->failure); got[(*n)++] = value; break; \
    default: __tsan_atomic_thread_fence(it->order); \
    } }
DO(0) DO(1) DO(2) DO(3) DO(4) DO(5) DO(6) DO(7)

static void side(int s) {
    static void (*const does[])(const operation *, uint64_t *, int *) = { do_0, do_1, do_2, do_3, do_4, do_5, do_6, do_7 };
    uint64_t got[MOST];
    int n = 0;
    for (int i = 0; i < count[s]; i++) does[i](&program[s][i], got, &n);
    for (int i = 0; i < n; i++) explore_outcome(got[i]);
}

static void produce(void) { side(0); }
static void consume(void) { side(1); }

static int order_named(const char *text) {
    static const char *const names[] = { "rlx", "con", "acq", "rel", "arl", "sco" };
    for (int i = 0; i < 6; i++) if (strncmp(text, names[i], 3) == 0) return i;
    fprintf(stderr, "litmus: %s is no order\n", text);
    exit(2);
}

static void read_test(char *line) {
    int s = 0;
    count[0] = count[1] = 0;
    for (char *at = strtok(line, " \n"); at; at = strtok(NULL, " \n")) {
        if (*at == '|') { s = 1; continue; }
        operation *it = &program[s][count[s]++];
        it->kind = *at++;
        it->at = it->kind == 'F' ? 0 : *at++ - 'x';
        it->a = it->kind == 'F' || it->kind == 'R' ? 0 : *at++ - '0';
        it->b = it->kind == 'C' ? *at++ - '0' : 0;
        it->order = order_named(at);
        it->failure = it->kind == 'C' ? order_named(at + 3) : 0;
    }
}

int main(void) {
    char line[256];
    for (int i = 0; i < PLACES; i++) explore_outcome_at_end(&word[i]);
    while (fgets(line, sizeof line, stdin)) {
        read_test(line);
        const int status = explore(reset, produce, consume, "queue 2");
        if (status != 0) printf("status %d\n", status);
        printf(".\n");
        fflush(stdout);
    }
    return 0;
}
