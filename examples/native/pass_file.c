/* pass_file.c: moves a file from one thread to another through the proved ring, in C.
 *     cc -O2 -I native/include examples/native/pass_file.c dist/libcounter_ring.a -pthread -o pass_file && ./pass_file FROM TO */
#include <pthread.h>
#include <sched.h>
#include <stdio.h>
#include "counter_ring.h"

enum { BATCH = 16, BYTES = 7 };

/* An item has up to 7 bytes of the file, and their number in its highest byte. */
static uint64_t pack(const unsigned char *bytes, size_t count) {
    uint64_t item = count;
    for (size_t i = 0; i < BYTES; i++) item = item << 8 | (i < count ? bytes[i] : 0);
    return item;
}

static size_t unpack(uint64_t item, unsigned char *bytes) {
    for (size_t i = BYTES; i-- > 0; item >>= 8) bytes[i] = (unsigned char)item;
    return (size_t)item;
}

struct side { ring_putter putter; ring_taker taker; FILE *file; int failed; };

static void *read_file(void *its) {
    struct side *side = its;
    unsigned char bytes[BYTES * BATCH];
    uint64_t items[BATCH];
    size_t length;
    while ((length = fread(bytes, 1, sizeof bytes, side->file)) > 0) {
        size_t count = 0, done = 0, stored;
        for (size_t at = 0; at < length; at += BYTES) items[count++] = pack(bytes + at, length - at < BYTES ? length - at : BYTES);
        while (done < count) {
            if (ring_put_all(&side->putter, items + done, count - done, &stored) != RING_DONE) sched_yield();
            done += stored;
        }
    }
    side->failed = ferror(side->file) != 0;
    ring_close(&side->putter);
    return NULL;
}

static void *write_file(void *its) {
    struct side *side = its;
    unsigned char bytes[BYTES];
    uint64_t items[BATCH];
    size_t taken;
    uint32_t reply;
    while ((reply = ring_take_all(&side->taker, items, BATCH, &taken)) != RING_OVER) {
        for (size_t i = 0; i < taken; i++) {
            size_t count = unpack(items[i], bytes);
            if (fwrite(bytes, 1, count, side->file) != count) side->failed = 1;
        }
        if (reply == RING_NOT_NOW) sched_yield();
    }
    return NULL;
}

int main(int words, char **word) {
    struct side from = { RING_NO_END, RING_NO_END, NULL, 0 }, to = { RING_NO_END, RING_NO_END, NULL, 0 };
    pthread_t reader, writer;
    if (words != 3) return fprintf(stderr, "usage: pass_file FROM TO\n"), 2;
    if (!(from.file = fopen(word[1], "rb")) || !(to.file = fopen(word[2], "wb"))) return perror("pass_file"), 1;
    if (ring_open(&from.putter, &to.taker, 64, 256, 64, BATCH, BATCH) != RING_OPENED) return fprintf(stderr, "pass_file: no ring\n"), 1;
    if (pthread_create(&reader, NULL, read_file, &from) || pthread_create(&writer, NULL, write_file, &to)) return fprintf(stderr, "pass_file: no thread\n"), 1;
    pthread_join(reader, NULL);
    pthread_join(writer, NULL);
    ring_finish(&from.putter, &to.taker);
    fclose(from.file);
    if (fclose(to.file)) to.failed = 1;
    if (from.failed || to.failed) return fprintf(stderr, "pass_file: %s failed\n", from.failed ? "reading" : "writing"), 1;
    return 0;
}
