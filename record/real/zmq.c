/* zmq.c: a pair of ZeroMQ sockets in one process. Debian: libzmq3-dev. Two high-water marks of 4 make 8. A sender that does not wait learns late of
 * what was received, and may report full with nothing inside: `queue 0 8`; described otherwise, it reports full with room. */
#include <errno.h>
#include <zmq.h>
#include "relay.h"

static void *sender, *receiver;
/* (a call that a signal interrupted did nothing) */
static void *socket_of(void *context, int (*join)(void *, const char *)) {
    void *s = zmq_socket(context, ZMQ_PAIR);
    int mark = 4, good = s && !zmq_setsockopt(s, ZMQ_SNDHWM, &mark, sizeof mark) && !zmq_setsockopt(s, ZMQ_RCVHWM, &mark, sizeof mark);
    while (good && join(s, "inproc://relay")) good = zmq_errno() == EINTR;
    if (good) return s;
    fprintf(stderr, "%s\n", zmq_strerror(zmq_errno()));
    exit(2);
}
static void make(void) {
    void *context = zmq_ctx_new();
    receiver = socket_of(context, zmq_bind);
    sender = socket_of(context, zmq_connect);
}
static int put_by(uint64_t v, int flags) {
    int sent;
    do sent = zmq_send(sender, &v, sizeof v, flags); while (sent < 0 && zmq_errno() == EINTR);
    return sent == sizeof v;
}
static int put(uint64_t v) { return put_by(v, ZMQ_DONTWAIT); }
static int put_waiting(uint64_t v) { return put_by(v, 0); }
static int take(uint64_t *v) {
    int received;
    do received = zmq_recv(receiver, v, sizeof *v, ZMQ_DONTWAIT); while (received < 0 && zmq_errno() == EINTR);
    return received == sizeof *v;
}

int main(int argc, char **argv) {
    const relay_queue queues[] = {
        { "zmq", "queue 0 8", NULL, make, put, take, NULL, NULL, 0 },
        { "zmq_named_8", "queue 8", "full, but at most", make, put, take, NULL, NULL, 0 },
        { "zmq_named_1_8", "queue 1 8", "full, but at most 0 inside", make, put, take, NULL, NULL, 0 },
        { "zmq_waiting", "queue 8", NULL, make, put_waiting, take, NULL, NULL, 0 },
    };
    return relay_main(argc, argv, queues, 4);
}
