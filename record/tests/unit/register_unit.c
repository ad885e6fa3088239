/* register_unit.c: a unit test of registers. One thread writes and two read, in many rounds, and the history of each round is judged: a word
 * for each reader is regular, one word for both is atomic, and a value in two halves is not safe, which the test checks too.
 * register_unit FILE..: judges recordings, which it replays on a recorder: for each it prints what audit --register prints about it, except
 * the reasons, and an empty line. As C11 and as C++11. */
#undef NDEBUG
#include <assert.h>
#include <pthread.h>
#include <sched.h>
#include "ring_register_audit.h"

enum { READERS = 2, ROUNDS = 300, OPERATIONS = 30, VALUES = 4 };
typedef enum { ONE_WORD, A_WORD_FOR_EACH, HALVES } construction;

static ring_register rec;
static construction made;
static ring_register_counter words[READERS + 1], here;

static void my_write(uint64_t value) {
    if (made == ONE_WORD) words[0] = value;
    for (int i = 1; made == A_WORD_FOR_EACH && i <= READERS; i++) {
        words[i] = value;
        sched_yield();
    }
    if (made == HALVES) {
        words[1] = value / 2;
        sched_yield();
        words[2] = value % 2;
    }
}

static uint64_t my_read(int reader) {
    if (made == ONE_WORD) return words[0];
    if (made == A_WORD_FOR_EACH) return words[reader];
    uint64_t high = words[1];
    sched_yield();
    return 2 * high + words[2];
}

static void meet(void) {
    for (here++; here < READERS + 1;) sched_yield();
}

static void *reader(void *number) {
    const int i = *(const int *)number;
    meet();
    for (int k = 0; k < OPERATIONS; k++) {
        ring_register_read(&rec, i);
        uint64_t value = my_read(i);
        ring_register_got(&rec, i, value);
        if (k % 8 == 0) sched_yield();
    }
    return NULL;
}

static void record_round(construction which) {
    static const int numbers[READERS] = { 1, 2 };
    pthread_t threads[READERS];
    made = which;
    here = 0;
    for (int i = 0; i <= READERS; i++) words[i] = 0;
    ring_register_restart(&rec);
    for (int i = 0; i < READERS; i++) assert(pthread_create(&threads[i], NULL, reader, (void *)(uintptr_t)&numbers[i]) == 0);
    meet();
    for (uint64_t k = 0; k < OPERATIONS; k++) {
        uint64_t value = (3 * k + 3) % VALUES;
        ring_register_write(&rec, value);
        my_write(value);
        ring_register_wrote(&rec);
    }
    for (int i = 0; i < READERS; i++) pthread_join(threads[i], NULL);
}

/* Rounds of correct constructions, and of one with a bug, up to the first that shows it. */
static void try_rounds(void) {
    int with_bug = 0, inverted = 0;
    ring_register_found found;
    assert(ring_register_init(&rec, READERS, 5 * OPERATIONS));
    for (int i = 0; i < ROUNDS; i++) {
        record_round(ONE_WORD);
        assert(ring_register_lawful(&rec, "register 0 4", RING_ATOMIC));
        record_round(A_WORD_FOR_EACH);
        assert(ring_register_lawful(&rec, "register 0 4", RING_ATOMIC_BY_READER));
        found = ring_register_judged(&rec, "register 0 4");
        inverted += !ring_register_has(&found, RING_ATOMIC);
    }
    do {
        record_round(HALVES);
        found = ring_register_judged(&rec, "register 0 4");
        with_bug++;
    } while (ring_register_has(&found, RING_REGULAR) && with_bug < 100 * ROUNDS);
    printf("%d rounds are atomic, %d atomic by reader, of which %d no more; in halves, round %d is:\n", ROUNDS, ROUNDS, inverted, with_bug);
    ring_register_report(&found, RING_REGULAR, stdout);
    assert(!ring_register_has(&found, RING_REGULAR) && found.not_regular > 1);
    ring_register_free(&rec);
}

/* What is found about a history by hand, of each class; and that a line is reported, with those around it. */
static void try_found(void) {
    static const char *const heads[] = { "register 0", "register 0 4", "register 18446744073709551614 18446744073709551615", "", "register", "register ",
        "register 4 4", "register 0 4 4", "register 00", "register 0 ", "register  0", "register x", "register 18446744073709551616", "cut register 0", "registers 0" };
    ring_register_found found;
    assert(ring_register_init(&rec, 64, 16));
    for (size_t i = 0; i < sizeof heads / sizeof *heads; i++) {
        found = ring_register_judged(&rec, heads[i]);
        assert(found.verdict == (i < 3 ? RING_REGISTER_JUDGED : RING_REGISTER_BAD_LINE) && found.line == (i < 3 ? 0u : 1u));
    }
    /* a read that no write overlaps, and that returns no value */
    ring_register_read(&rec, 64);
    ring_register_got(&rec, 64, 4);
    found = ring_register_judged(&rec, "register 0 4");
    assert(found.verdict == RING_REGISTER_JUDGED && found.strongest == 0 && ring_register_lacks(&found, RING_SAFE) == 3 && found.not_atomic == 3);
    assert(!ring_register_lawful(&rec, "register 0 4", RING_SAFE));
    /* an end of no write, and a write of no value */
    ring_register_wrote(&rec);
    found = ring_register_judged(&rec, "register 0 4");
    assert(found.verdict == RING_REGISTER_OUT_OF_TURN && found.line == 4 && !ring_register_has(&found, RING_SAFE));
    assert(!ring_register_lawful(&rec, "register 0 4", RING_SAFE));
    ring_register_restart(&rec);
    ring_register_write(&rec, 4);
    found = ring_register_judged(&rec, "register 0 4");
    assert(found.verdict == RING_REGISTER_BAD_LINE && found.line == 2);
    assert(!ring_register_lawful(&rec, "register 0 4", RING_SAFE));
    /* one class after the other is lost: the later write, seen by one reader, and then by the other not; and back again */
    ring_register_restart(&rec);
    ring_register_write(&rec, 1);                               /* line 2 */
    ring_register_read(&rec, 1); ring_register_got(&rec, 1, 1); /* 4 */
    ring_register_read(&rec, 2); ring_register_got(&rec, 2, 0); /* 6: not atomic */
    ring_register_read(&rec, 1); ring_register_got(&rec, 1, 0); /* 8: not atomic by reader */
    ring_register_read(&rec, 2); ring_register_got(&rec, 2, 2); /* 10: not regular */
    found = ring_register_judged(&rec, "register 0 4");
    assert(found.verdict == RING_REGISTER_JUDGED && found.strongest == RING_SAFE && found.not_safe == 0 && found.not_regular == 10 &&
           found.not_by_reader == 8 && found.not_atomic == 6 && found.line == 0);
    assert(ring_register_lawful(&rec, "register 0 4", RING_SAFE) && !ring_register_lawful(&rec, "register 0 4", RING_REGULAR));
    ring_register_free(&rec);
    /* writes that one read may be of have a slot each */
    assert(ring_register_init(&rec, 1, 5000));
    ring_register_read(&rec, 1);
    for (uint64_t i = 1; i <= 999; i++) {
        ring_register_write(&rec, i);
        ring_register_wrote(&rec);
    }
    ring_register_got(&rec, 1, 0);
    assert(ring_register_lawful(&rec, "register 0", RING_ATOMIC));
    ring_register_free(&rec);
}

/* Replays a recording on a recorder, and prints what is found about it. */
static void judge_file(const char *name) {
    static const int by_audit[] = { RING_SAFE, RING_REGULAR, RING_ATOMIC_BY_READER, RING_ATOMIC };
    static const char *const classes[] = { "safe", "regular", "atomic by reader", "atomic" };
    char head[80], line[80];
    FILE *file = fopen(name, "rb");
    size_t words = 0;
    int cut;
    ring_register_found found;
    assert(file && fgets(head, sizeof head, file));
    head[strcspn(head, "\n")] = 0;
    cut = strncmp(head, "cut ", 4) == 0;
    while (fgets(line, sizeof line, file)) words += 3;
    assert(ring_register_init(&rec, RING_REGISTER_READERS, words));
    rewind(file);
    assert(fgets(line, sizeof line, file));
    while (fgets(line, sizeof line, file)) {
        int reader = line[0] == 'R' ? atoi(line + 1) : 0;
        const char *rest = strchr(line, ' ') + 1;
        if (strncmp(rest, "write ", 6) == 0) ring_register_write(&rec, strtoull(rest + 6, NULL, 10));
        else if (strncmp(rest, "wrote", 5) == 0) ring_register_wrote(&rec);
        else if (strncmp(rest, "read", 4) == 0) ring_register_read(&rec, reader);
        else ring_register_got(&rec, reader, strtoull(rest + 4, NULL, 10));
    }
    fclose(file);
    found = ring_register_judged(&rec, head + (cut ? 4 : 0));
    if (found.verdict != RING_REGISTER_JUDGED) ring_register_report(&found, RING_SAFE, stdout);
    else {
        uint64_t at[4];
        printf("%s\n", found.strongest == 0 ? "not safe" : classes[found.strongest - 1]);
        for (int i = 0; i < 4; i++) at[i] = ring_register_lacks(&found, by_audit[i]);
        /* (of classes that are lost with one line the audit names one) */
        if (at[1] == at[0]) at[1] = 0;
        if (at[2] == found.not_regular || at[2] == at[3]) at[2] = 0;
        if (at[3] == found.not_regular) at[3] = 0;
        for (int i = 0; i < 4; i++) {
            if (at[i]) printf("not %s: line %llu\n", classes[i], (unsigned long long)at[i]);
        }
    }
    printf("%s\n", cut && found.verdict == RING_REGISTER_JUDGED ? "cut yes\n" : "");
    ring_register_free(&rec);
}

int main(int argc, char **argv) {
    for (int i = 1; i < argc; i++) judge_file(argv[i]);
    if (argc == 1) {
        try_found();
        try_rounds();
    }
    return 0;
}
