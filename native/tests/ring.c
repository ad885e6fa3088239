/* ring.c: the ring from C. Refused calls; one end freed before the other; and rounds with random shapes in two threads, whose calls are
 * recorded and judged by the proved audit. With RING_CHECKED it tests the debug form of the header too. */
#include <pthread.h>
#include <sched.h>
#include <stdio.h>
#include <stdlib.h>
#include "counter_ring.h"
#include "ring_audit.h"
#include "ring_calls.h"

#define EXPECT(x) do { if (!(x)) { printf("ring.c:%d: not so: %s\n", __LINE__, #x); exit(1); } } while (0)

static ring_putter putter = RING_NO_END;
static ring_taker taker = RING_NO_END;
static ring_calls recorded;
static size_t batch, take_batch;
static uint64_t count;

static void *put_each(void *nothing) {
    uint64_t row[64], next = 1;
    unsigned seed = 7;
    (void)nothing;
    while (next <= count) {
        size_t many = 1 + (size_t)rand_r(&seed) % batch, stored;
        uint32_t reply;
        if (many > count - next + 1) many = (size_t)(count - next + 1);
        for (size_t i = 0; i < many; i++) row[i] = next + i;
        if (many == 1) {
            ring_calls_put(&recorded, next);
            reply = ring_put(&putter, next);
            stored = reply == RING_DONE;
            if (stored) ring_calls_stored(&recorded); else ring_calls_full(&recorded);
        } else {
            ring_calls_put_all(&recorded, row, many);
            reply = ring_put_all(&putter, row, many, &stored);
            ring_calls_stored_of(&recorded, stored, many);
        }
        EXPECT(reply == (stored ? RING_DONE : RING_NOT_NOW));
        next += stored;
        if (!stored) sched_yield();
    }
    EXPECT(!ring_is_closed(&putter));
    ring_calls_close(&recorded);
    EXPECT(ring_close(&putter));
    ring_calls_closed(&recorded);
    EXPECT(ring_is_closed(&putter));
    ring_calls_put(&recorded, 5);
    EXPECT(ring_put(&putter, 5) == RING_OVER);
    ring_calls_closed(&recorded);
    return NULL;
}

static void *take_each(void *nothing) {
    uint64_t row[64], due = 1;
    unsigned seed = 3;
    (void)nothing;
    for (;;) {
        size_t room = 1 + (size_t)rand_r(&seed) % take_batch, taken = 0;
        uint32_t reply;
        EXPECT(!ring_is_told(&taker));
        if (room == 1) {
            ring_calls_take(&recorded);
            reply = ring_take(&taker, row);
            taken = reply == RING_DONE;
        } else {
            ring_calls_take_all(&recorded, room);
            reply = ring_take_all(&taker, row, room, &taken);
        }
        if (reply == RING_OVER) break;
        ring_calls_items(&recorded, row, taken);
        EXPECT(reply == (taken ? RING_DONE : RING_NOT_NOW));
        for (size_t i = 0; i < taken; i++) EXPECT(row[i] == due++);
        if (!taken) sched_yield();
    }
    ring_calls_told(&recorded);
    EXPECT(ring_is_told(&taker));
    EXPECT(due == count + 1);
    return NULL;
}

static void test_without_ends(void) {
    uint64_t item = 77, row[2] = { 8, 9 };
    size_t many = 5;
    EXPECT(ring_put(&putter, 1) == RING_REFUSED);
    EXPECT(ring_put_all(&putter, row, 2, &many) == RING_REFUSED && many == 0);
    EXPECT(!ring_close(&putter) && !ring_is_closed(&putter));
    EXPECT(ring_take(&taker, &item) == RING_REFUSED && item == 77);
    many = 5;
    EXPECT(ring_take_all(&taker, row, 2, &many) == RING_REFUSED && many == 0 && row[0] == 8 && row[1] == 9);
    EXPECT(!ring_is_told(&taker) && !ring_finish(&putter, &taker));
    ring_free_putter(&putter);
    ring_free_taker(&taker);
    EXPECT(!putter.is_open && !putter.at && !taker.is_open && !taker.at);
}

static void test_shapes(void) {
    static const struct { uint64_t capacity, modulus, width, batch, take_batch; uint32_t answer; } shapes[] = {
        { 0, 256, 64, 1, 1, RING_WRONG_CAPACITY }, { 65, 256, 64, 1, 1, RING_WRONG_CAPACITY },
        { 8, 256, 64, 0, 1, RING_WRONG_BATCH },    { 8, 256, 64, 9, 1, RING_WRONG_BATCH },
        { 8, 256, 64, 1, 0, RING_WRONG_TAKE_BATCH }, { 8, 256, 64, 1, 9, RING_WRONG_TAKE_BATCH },
        { 8, 9, 64, 1, 1, RING_WRONG_MODULUS },    { 8, 257, 64, 1, 1, RING_WRONG_MODULUS },
        { 8, 11, 64, 3, 2, RING_WRONG_MODULUS },   { 8, 11, 64, 2, 3, RING_WRONG_MODULUS },
        { 8, 256, 0, 1, 1, RING_WRONG_WIDTH },     { 8, 256, 65, 1, 1, RING_WRONG_WIDTH },
        { 8, 12, 64, 3, 3, RING_OPENED },          { 64, 256, 64, 64, 64, RING_OPENED },
        { 1, 3, 1, 1, 1, RING_OPENED },            { 64, 66, 1, 1, 1, RING_OPENED },
    };
    for (size_t i = 0; i < sizeof shapes / sizeof *shapes; i++) {
        uint32_t answer = ring_open(&putter, &taker, shapes[i].capacity, shapes[i].modulus, shapes[i].width, shapes[i].batch, shapes[i].take_batch);
        EXPECT(answer == shapes[i].answer);
        EXPECT(putter.is_open == (answer == RING_OPENED) && taker.is_open == putter.is_open);
        ring_free_putter(&putter);
        ring_free_taker(&taker);
    }
}

static void test_refusals(void) {
    uint64_t item = 77, row[4] = { 1, 2, 3, 4 };
    size_t many = 9;
    EXPECT(ring_open(&putter, &taker, 4, 256, 3, 2, 3) == RING_OPENED);
    EXPECT(ring_open(&putter, &taker, 4, 256, 3, 2, 3) == RING_HAS_END && putter.is_open && taker.is_open);
    EXPECT(ring_put(&putter, 8) == RING_REFUSED);
    EXPECT(ring_put_all(&putter, row, 0, &many) == RING_REFUSED && many == 0);
    EXPECT(ring_put_all(&putter, row, 3, &many) == RING_REFUSED && many == 0);
    row[1] = 8;
    EXPECT(ring_put_all(&putter, row, 2, &many) == RING_REFUSED && many == 0);
    EXPECT(ring_take_all(&taker, row, 4, &many) == RING_REFUSED && many == 0 && ring_take_all(&taker, row, 0, &many) == RING_REFUSED);
    EXPECT(ring_take(&taker, &item) == RING_NOT_NOW && item == 77);
    for (uint64_t i = 1; i <= 4; i++) EXPECT(ring_put(&putter, i) == RING_DONE);
    EXPECT(ring_put(&putter, 5) == RING_NOT_NOW);
    EXPECT(ring_take_all(&taker, row, 3, &many) == RING_DONE && many == 3 && row[0] == 1 && row[1] == 2 && row[2] == 3 && row[3] == 4);
    row[1] = row[2] = 9;
    EXPECT(ring_take_all(&taker, row, 3, &many) == RING_DONE && many == 1 && row[0] == 4 && row[1] == 9 && row[2] == 9);
    EXPECT(ring_close(&putter) && ring_close(&putter) && ring_put(&putter, 1) == RING_OVER);
    EXPECT(ring_take(&taker, &item) == RING_OVER && item == 77 && ring_take_all(&taker, row, 2, &many) == RING_OVER && many == 0);
    EXPECT(ring_finish(&putter, &taker) && !putter.is_open && !taker.is_open);
}

/* each end freed alone, in either order; and a freed handle used again */
static void test_ends_alone(void) {
    uint64_t item;
    EXPECT(ring_open(&putter, &taker, 2, 4, 8, 1, 1) == RING_OPENED);
    ring_free_taker(&taker);
    EXPECT(ring_put(&putter, 5) == RING_DONE);
#ifndef RING_CHECKED
    EXPECT(!ring_finish(&putter, &taker) && putter.is_open);
#endif
    ring_free_putter(&putter);
    ring_free_putter(&putter);
    EXPECT(ring_open(&putter, &taker, 1, 3, 1, 1, 1) == RING_OPENED);
    ring_free_putter(&putter);
    EXPECT(ring_take(&taker, &item) == RING_NOT_NOW);
    ring_free_taker(&taker);
}

static void test_moved(void) {
    ring_putter there = RING_NO_END;
    ring_taker here = RING_NO_END;
    uint64_t item = 0;
    EXPECT(ring_open(&putter, &taker, 2, 4, 8, 1, 1) == RING_OPENED);
    ring_move_putter(&there, &putter);
    ring_move_taker(&here, &taker);
    EXPECT(!putter.is_open && ring_put(&putter, 1) == RING_REFUSED && ring_put(&there, 6) == RING_DONE);
    EXPECT(ring_take(&taker, &item) == RING_REFUSED && ring_take(&here, &item) == RING_DONE && item == 6);
    EXPECT(ring_finish(&there, &here));
}

int main(int words, char **word) {
    int rounds = words > 1 ? atoi(word[1]) : 50;
    unsigned seed = 1;
    test_without_ends();
    test_shapes();
    test_refusals();
    test_ends_alone();
    test_moved();
    EXPECT(ring_calls_init(&recorded, 1 << 22));
    for (int round = 0; round < rounds; round++) {
        uint64_t capacity = 1 + (uint64_t)rand_r(&seed) % 64, least, modulus;
        pthread_t puts, takes;
        char head[32];
        batch = 1 + (size_t)rand_r(&seed) % capacity;
        take_batch = 1 + (size_t)rand_r(&seed) % capacity;
        count = 2000;
        least = capacity + (batch > take_batch ? batch : take_batch) + 1;
        modulus = least + (uint64_t)rand_r(&seed) % (257 - least);
        EXPECT(ring_open(&putter, &taker, capacity, modulus, 64, batch, take_batch) == RING_OPENED);
        ring_calls_restart(&recorded);
        pthread_create(&puts, NULL, put_each, NULL);
        pthread_create(&takes, NULL, take_each, NULL);
        pthread_join(puts, NULL);
        pthread_join(takes, NULL);
        snprintf(head, sizeof head, "queue %llu", (unsigned long long)capacity);
        EXPECT(ring_audit_lawful(&recorded, head));
        if (round % 2) {
            EXPECT(ring_finish(&putter, &taker));
        } else {
            ring_free_putter(&putter);
            ring_free_taker(&taker);
        }
        EXPECT(!putter.is_open && !taker.is_open);
    }
    ring_calls_free(&recorded);
    printf("ring.c: %d rounds lawful, each item in order; refused calls change nothing\n", rounds);
    return 0;
}
