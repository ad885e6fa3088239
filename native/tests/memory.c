/* memory.c: each allocation of ring_open is refused in turn. It reports that, frees what it had, and leaves the handles unchanged;
 * and no other call allocates. Linked with -Wl,--wrap=malloc,--wrap=realloc,--wrap=free. */
#include <stdio.h>
#include <stdlib.h>
#include "counter_ring.h"

static long live, made, refused_at = -1;
static size_t bytes;

void *__real_malloc(size_t);
void *__real_realloc(void *, size_t);
void __real_free(void *);

static int is_refused(void) {
    if (refused_at < 0) return 0;
    return refused_at-- == 0;
}

void *__wrap_malloc(size_t size) {
    if (is_refused()) return NULL;
    live++;
    made++;
    bytes += size;
    return __real_malloc(size);
}

void *__wrap_realloc(void *block, size_t size) {
    if (is_refused()) return NULL;
    made++;
    return __real_realloc(block, size);
}

void __wrap_free(void *block) {
    if (block) live--;
    __real_free(block);
}

static int test(uint64_t capacity, int is_finished) {
    ring_putter p = RING_NO_END;
    ring_taker t = RING_NO_END;
    uint64_t item, row[64] = { 0 };
    size_t many;
    long allocations = 0, held;
    for (;; allocations++) {
        uint32_t answer;
        refused_at = allocations;
        live = made = 0;
        bytes = 0;
        answer = ring_open(&p, &t, capacity, 256, 64, capacity, capacity);
        if (answer == RING_OPENED) break;
        if (answer != RING_OUT_OF_MEMORY || live != 0 || p.is_open || p.at || t.is_open || t.at) {
            printf("memory.c: allocation %ld refused: it returned %u, and %ld blocks are not freed\n", allocations, answer, live);
            return 0;
        }
    }
    refused_at = -1;
    held = live;
    made = 0;
    ring_put(&p, 1);
    ring_put_all(&p, row, (size_t)capacity, &many);
    ring_take(&t, &item);
    ring_take_all(&t, row, (size_t)capacity, &many);
    ring_close(&p);
    ring_take(&t, &item);
    ring_is_closed(&p);
    ring_is_told(&t);
    if (made != 0 || live != held) {
        printf("memory.c: the calls on an end made %ld allocations\n", made);
        return 0;
    }
    if (is_finished) {
        ring_finish(&p, &t);
    } else {
        ring_free_taker(&t);
        ring_free_putter(&p);
    }
    if (live != 0 || made != 0) {
        printf("memory.c: %ld blocks are not freed\n", live);
        return 0;
    }
    printf("memory.c: capacity %llu: each of %ld allocations refused in turn, %zu bytes in all; all freed\n", (unsigned long long)capacity, allocations, bytes);
    return allocations >= 4;
}

int main(void) { return !(test(1, 0) && test(64, 1) && test(7, 0)); }
