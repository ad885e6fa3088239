// moodycamel.cpp: moodycamel's ReaderWriterQueue and its circular buffer. Debian: libreaderwriterqueue-dev. A ReaderWriterQueue made to
// hold 8 holds 15 if it may not grow.
#include <readerwriterqueue/readerwritercircularbuffer.h>
#include <readerwriterqueue/readerwriterqueue.h>
#include "relay.h"

static moodycamel::ReaderWriterQueue<uint64_t>* q;
static moodycamel::BlockingReaderWriterCircularBuffer<uint64_t>* circle;
static void make() { q = new moodycamel::ReaderWriterQueue<uint64_t>(8); }
static void make_circle() { circle = new moodycamel::BlockingReaderWriterCircularBuffer<uint64_t>(8); }
static int put(uint64_t v) { return q->try_enqueue(v); }
static int put_growing(uint64_t v) { return q->enqueue(v); }
static int take(uint64_t* v) { return q->try_dequeue(*v); }
static int put_circle(uint64_t v) { return circle->try_enqueue(v); }
static int take_circle(uint64_t* v) { return circle->try_dequeue(*v); }

int main(int argc, char** argv) {
    const relay_queue queues[] = {
        { "moodycamel", "queue 15", nullptr, make, put, take, nullptr, nullptr, 0 },
        { "moodycamel_named_8", "queue 8", "stored, but at least", make, put, take, nullptr, nullptr, 0 },
        { "moodycamel_growing", "queue", nullptr, make, put_growing, take, nullptr, nullptr, 0 },
        { "moodycamel_circular", "queue 8", nullptr, make_circle, put_circle, take_circle, nullptr, nullptr, 0 },
    };
    return relay_main(argc, argv, queues, 4);
}
