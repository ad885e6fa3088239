/* qb.c: libqb's ring of chunks in shared memory, with and without a semaphore that counts them. Debian: libqb-dev. The smallest one has a page, in
 * which a chunk of 8 bytes takes 16, and the last one is not used: it holds 255. */
#include <qb/qbrb.h>
#include <unistd.h>
#include "relay.h"

static qb_ringbuffer_t *ring;
static void end(void) { qb_rb_close(ring); }
static void make_of(uint32_t flags) {
    char name[64];
    snprintf(name, sizeof name, "ring_calls_%ld", (long)getpid());
    ring = qb_rb_open(name, 8, QB_RB_FLAG_CREATE | flags, 0);
    if (!ring || atexit(end)) { perror("qb_rb_open"); exit(2); }
}
static void make(void) { make_of(QB_RB_FLAG_SHARED_THREAD); }
static void make_no_semaphore(void) { make_of(QB_RB_FLAG_NO_SEMAPHORE); }
static int put(uint64_t v) { return qb_rb_chunk_write(ring, &v, sizeof v) == sizeof v; }
static int take(uint64_t *v) { return qb_rb_chunk_read(ring, v, sizeof *v, 0) == sizeof *v; }

int main(int argc, char **argv) {
    const relay_queue queues[] = {
        { "qb", "queue 255", NULL, make, put, take, NULL, NULL, 0 },
        { "qb_no_semaphore", "queue 255", NULL, make_no_semaphore, put, take, NULL, NULL, 0 },
    };
    return relay_main(argc, argv, queues, 2);
}
