/* csound.c: Csound's circular buffer. Debian: libcsound64-dev. One of 8 holds 7: recorded as `queue 8`, it reports full with room. */
#include <csound/csound.h>
#include "relay.h"

static CSOUND *cs;
static void *ring;
static void make(void) {
    int bare = csoundInitialize(CSOUNDINIT_NO_SIGNAL_HANDLER | CSOUNDINIT_NO_ATEXIT);
    cs = bare < 0 ? NULL : csoundCreate(NULL);
    ring = cs ? csoundCreateCircularBuffer(cs, 8, sizeof(uint64_t)) : NULL;
    if (!ring) exit(2);
}
static size_t put_all(const uint64_t *v, size_t n) { return (size_t)csoundWriteCircularBuffer(cs, ring, v, (int)n); }
static size_t take_all(uint64_t *v, size_t n) { return (size_t)csoundReadCircularBuffer(cs, ring, v, (int)n); }
static int put(uint64_t v) { return put_all(&v, 1) == 1; }
static int take(uint64_t *v) { return take_all(v, 1) == 1; }

int main(int argc, char **argv) {
    const relay_queue queues[] = {
        { "csound", "queue 7", NULL, make, put, take, NULL, NULL, 0 },
        { "csound_named_8", "queue 8", "full, but at most", make, put, take, NULL, NULL, 0 },
        { "csound_batch", "queue 7", NULL, make, put, take, put_all, take_all, 0 },
    };
    return relay_main(argc, argv, queues, 3);
}
