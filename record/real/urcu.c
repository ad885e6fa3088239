/* urcu.c: the wait-free queue of Userspace RCU, wfcqueue. Debian: liburcu-dev. It is never full. Its nonblocking take may end without
 * an item and without saying that there is none: a put is half done. */
#define _LGPL_SOURCE
#include <urcu/wfcqueue.h>
#include "relay.h"

struct node {
    struct cds_wfcq_node link;
    uint64_t value;
};
static struct cds_wfcq_head head;
static char apart[128];
static struct cds_wfcq_tail tail;

static void make(void) {
    apart[0] = 0;
    cds_wfcq_init(&head, &tail);
}
static int put(uint64_t v) {
    struct node *n = malloc(sizeof *n);
    if (!n) exit(2);
    cds_wfcq_node_init(&n->link);
    n->value = v;
    cds_wfcq_enqueue(&head, &tail, &n->link);
    return 1;
}
static int taken(struct cds_wfcq_node *link, uint64_t *v) {
    struct node *n = (struct node *)link;
    if (link == CDS_WFCQ_WOULDBLOCK) return 2;
    if (!link) return 0;
    *v = n->value;
    free(n);
    return 1;
}
static int take(uint64_t *v) { return taken(__cds_wfcq_dequeue_blocking(&head, &tail), v); }
static int try_take(uint64_t *v) { return taken(__cds_wfcq_dequeue_nonblocking(&head, &tail), v); }

int main(int argc, char **argv) {
    const relay_queue queues[] = {
        { "urcu", "queue", NULL, make, put, take, NULL, NULL, 0 },
        { "urcu_nonblocking", "queue", NULL, make, put, try_take, NULL, NULL, 0 },
    };
    return relay_main(argc, argv, queues, 2);
}
