/* posix.c: a message queue and a pipe of the kernel. Nothing needs to be installed. The pipe has one page, 512 items of 8 bytes; it is full
 * from when the page is written to its end until all of it is read, so with as few as one item inside: `queue 1 512`. */
#define _GNU_SOURCE
#include <fcntl.h>
#include <mqueue.h>
#include <unistd.h>
#include "relay.h"

static mqd_t q;
static int ends[2];
static void make(void) {
    struct mq_attr a = { .mq_maxmsg = 8, .mq_msgsize = 8 };
    char name[64];
    snprintf(name, sizeof name, "/ring_calls_%ld", (long)getpid());
    q = mq_open(name, O_CREAT | O_EXCL | O_RDWR | O_NONBLOCK, 0600, &a);
    if (q < 0) { perror("mq_open"); exit(2); }
    mq_unlink(name);
}
static int put(uint64_t v) { return mq_send(q, (char *)&v, sizeof v, 0) == 0; }
static int take(uint64_t *v) { return mq_receive(q, (char *)v, sizeof *v, NULL) == sizeof *v; }
static void make_pipe(void) {
    if (pipe2(ends, O_NONBLOCK) || fcntl(ends[0], F_SETPIPE_SZ, 4096) < 0) { perror("pipe2"); exit(2); }
}
static int put_pipe(uint64_t v) { return write(ends[1], &v, sizeof v) == sizeof v; }
static int take_pipe(uint64_t *v) { return read(ends[0], v, sizeof *v) == sizeof *v; }

int main(int argc, char **argv) {
    const relay_queue queues[] = {
        { "message_queue", "queue 8", NULL, make, put, take, NULL, NULL, 0 },
        { "pipe", "queue 1 512", NULL, make_pipe, put_pipe, take_pipe, NULL, NULL, 0 },
        { "pipe_named_512", "queue 512", "full, but at most", make_pipe, put_pipe, take_pipe, NULL, NULL, 0 },
    };
    return relay_main(argc, argv, queues, 3);
}
