/* gst.c: GStreamer's GstAtomicQueue. Debian: libgstreamer1.0-dev. It is never full. If it grows while a take
 * is paused in it, it may lose what is inside: record/hunt finds that (docs/MEASURED.md). */
#include <gst/gst.h>
#include "relay.h"

static GstAtomicQueue *q;
static void make(void) { q = gst_atomic_queue_new(8); }
static int put(uint64_t v) {
    gst_atomic_queue_push(q, (void *)(uintptr_t)(v + 1));
    return 1;
}
static int take(uint64_t *v) {
    void *p = gst_atomic_queue_pop(q);
    if (p) *v = (uint64_t)(uintptr_t)p - 1;
    return p != NULL;
}

int main(int argc, char **argv) {
    const relay_queue queues[] = { { "gst", "queue", NULL, make, put, take, NULL, NULL, 0 } };
    return relay_main(argc, argv, queues, 1);
}
