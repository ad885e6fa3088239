/* glib.c: GLib's GAsyncQueue. Debian: libglib2.0-dev. It is never full. */
#include <glib.h>
#include "relay.h"

static GAsyncQueue *q;
static void make(void) { q = g_async_queue_new(); }
static int put(uint64_t v) {
    g_async_queue_push(q, (void *)(uintptr_t)(v + 1));
    return 1;
}
static int take(uint64_t *v) {
    void *p = g_async_queue_try_pop(q);
    if (p) *v = (uint64_t)(uintptr_t)p - 1;
    return p != NULL;
}

int main(int argc, char **argv) {
    const relay_queue queues[] = { { "glib", "queue", NULL, make, put, take, NULL, NULL, 0 } };
    return relay_main(argc, argv, queues, 1);
}
