/* kinds.c: kinds WORDS: records each kind of event, in logs of WORDS words; without WORDS no event, and a ring_calls that was never initialized. As C11 and
 * as C++11. */
#include "ring_calls.h"

int main(int argc, char **argv) {
    static ring_calls r;
    const uint64_t a[3] = { 1, 2, 3 }, b[2] = { 4, 5 }, c[2] = { 7, UINT64_MAX };
    if (argc == 1) return !ring_calls_write(&r, "queue 2", stdout);
    if (argc != 2 || !ring_calls_init(&r, strtoul(argv[1], NULL, 10))) return 2;
    ring_calls_put(&r, 5);
    ring_calls_take(&r);
    ring_calls_stored(&r);
    ring_calls_item(&r, 5);
    ring_calls_put_all(&r, a, 3);
    ring_calls_stored_of(&r, 2, 3);
    ring_calls_put(&r, 4);
    ring_calls_full(&r);
    ring_calls_put_all(&r, b, 2);
    ring_calls_put_short(&r);
    ring_calls_put(&r, 6);
    ring_calls_put_nothing(&r);
    ring_calls_take_all(&r, 3);
    ring_calls_take_short(&r);
    ring_calls_take_all(&r, 3);
    ring_calls_items(&r, a, 2);
    ring_calls_take(&r);
    ring_calls_empty(&r);
    ring_calls_take(&r);
    ring_calls_take_nothing(&r);
    ring_calls_put_all(&r, a, 3);
    ring_calls_some(&r, 2);
    ring_calls_put(&r, 6);
    ring_calls_some(&r, 0);
    ring_calls_take_all(&r, 3);
    ring_calls_some_items(&r, a, 2);
    ring_calls_take(&r);
    ring_calls_some_items(&r, a, 0);
    ring_calls_close(&r);
    ring_calls_closed(&r);
    ring_calls_put_all(&r, c, 2);
    ring_calls_closed(&r);
    ring_calls_take(&r);
    ring_calls_told(&r);
    int written = ring_calls_write(&r, "queue 2", stdout);
    ring_calls_free(&r);
    return !written;
}
