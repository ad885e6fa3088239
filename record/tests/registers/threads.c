/* threads.c: threads KIND OPERATIONS: one thread writes the values 0 to 3 and two read, as registers of three kinds: `atomic`, one atomic
 * word; `copies`, a word for each reader, written one after the other; `unary`, a bit for each value, of which the lowest that is set counts:
 * a write sets its bit and clears the lower ones downwards. The recording is written; each has the class that Lamport (1986) proved. */
#include "ring_register.h"
#include <pthread.h>
#include <stdatomic.h>
#include <string.h>

enum { VALUES = 4, READERS = 2 };
static ring_register rec;
static _Atomic int bits[VALUES], copies[READERS + 1], here;
static int kind, operations;

static void my_write(int value) {
    if (kind == 'u') {
        atomic_store(&bits[value], 1);
        for (int i = value; i-- > 0;) atomic_store(&bits[i], 0);
        return;
    }
    for (int i = kind == 'a' ? READERS : 0; i < (kind == 'a' ? READERS + 1 : READERS); i++) atomic_store(&copies[i], value);
}

static int my_read(int reader) {
    if (kind != 'u') return atomic_load(&copies[kind == 'a' ? READERS : reader - 1]);
    for (int i = 0; i < VALUES; i++) {
        if (atomic_load(&bits[i])) return i;
    }
    return VALUES;
}

/* All begin together. */
static unsigned begin(unsigned seed) {
    atomic_fetch_add(&here, 1);
    while (atomic_load(&here) < READERS + 1) { }
    return seed;
}

static unsigned draw(unsigned *state) { return (*state = *state * 1664525u + 1013904223u) >> 16; }

static void *writer(void *none) {
    unsigned state = begin(1);
    (void)none;
    for (int i = 0; i < operations; i++) {
        int value = (int)(draw(&state) % VALUES);
        ring_register_write(&rec, (uint64_t)value);
        my_write(value);
        ring_register_wrote(&rec);
    }
    return NULL;
}

static void *reader(void *number) {
    const int i = *(int *)number;
    begin(0);
    for (int k = 0; k < operations; k++) {
        ring_register_read(&rec, i);
        int value = my_read(i);
        ring_register_got(&rec, i, (uint64_t)value);
    }
    return NULL;
}

int main(int argc, char **argv) {
    pthread_t threads[READERS + 1];
    int numbers[READERS] = { 1, 2 };
    if (argc != 3) return 2;
    kind = argv[1][0];
    operations = atoi(argv[2]);
    atomic_store(&bits[0], 1);
    if (!ring_register_init(&rec, READERS, 5 * (size_t)operations)) return 2;
    if (pthread_create(&threads[READERS], NULL, writer, NULL) != 0) return 2;
    for (int i = 0; i < READERS; i++) {
        if (pthread_create(&threads[i], NULL, reader, &numbers[i]) != 0) return 2;
    }
    for (int i = 0; i <= READERS; i++) pthread_join(threads[i], NULL);
    int written = ring_register_print(&rec, "register 0 4", stdout);
    ring_register_free(&rec);
    return !written;
}
