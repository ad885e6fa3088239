/* registers.c: registers WORDS: each kind of event, logs of this many words; with no WORDS no event, and a ring_register that was never begun.
 * As C11 and as C++11. */
#include "ring_register.h"

int main(int argc, char **argv) {
    static ring_register r;
    if (argc == 1) return !ring_register_print(&r, "register 0", stdout);
    if (argc != 2 || ring_register_init(&r, 0, 10) || ring_register_init(&r, 65, 10)) return 2;
    if (!ring_register_init(&r, 3, strtoul(argv[1], NULL, 10))) return 2;
    /* (a round before, which is forgotten) */
    ring_register_read(&r, 3);
    ring_register_restart(&r);
    ring_register_write(&r, 1);
    ring_register_read(&r, 1);
    ring_register_got(&r, 1, 1);
    ring_register_read(&r, 2);
    ring_register_got(&r, 2, 0);
    ring_register_wrote(&r);
    ring_register_read(&r, 3);
    ring_register_write(&r, UINT64_MAX);
    ring_register_wrote(&r);
    ring_register_got(&r, 3, UINT64_MAX);
    ring_register_read(&r, 1);
    ring_register_got(&r, 1, UINT64_MAX);
    int written = ring_register_print(&r, "register 0", stdout);
    ring_register_free(&r);
    return !written;
}
