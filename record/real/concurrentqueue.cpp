// concurrentqueue.cpp: moodycamel's ConcurrentQueue, for many producers and consumers, here with one of each. Debian: libconcurrentqueue-dev. If it
// may not grow it has one block of 32, and is full from when the block is written to its end until all of it is read: `queue 1 32`.
#include <concurrentqueue/concurrentqueue.h>
#include "relay.h"

static moodycamel::ConcurrentQueue<uint64_t>* q;
static moodycamel::ProducerToken* producer;
static moodycamel::ConsumerToken* consumer;
static void make() {
    q = new moodycamel::ConcurrentQueue<uint64_t>(8);
    producer = new moodycamel::ProducerToken(*q);
    consumer = new moodycamel::ConsumerToken(*q);
}
static int put_growing(uint64_t v) { return q->enqueue(v); }
static int take(uint64_t* v) { return q->try_dequeue(*v); }
static int try_put_by_token(uint64_t v) { return q->try_enqueue(*producer, v); }
static int take_by_token(uint64_t* v) { return q->try_dequeue(*consumer, *v); }
static size_t put_all(const uint64_t* v, size_t n) { return q->enqueue_bulk(*producer, v, n) ? n : 0; }
static size_t take_all(uint64_t* v, size_t n) { return q->try_dequeue_bulk(*consumer, v, n); }

int main(int argc, char** argv) {
    const relay_queue queues[] = {
        { "concurrentqueue", "queue", nullptr, make, put_growing, take, nullptr, nullptr, 0 },
        { "concurrentqueue_try", "queue 1 32", nullptr, make, try_put_by_token, take_by_token, nullptr, nullptr, 0 },
        { "concurrentqueue_try_named_32", "queue 32", "full, but at most", make, try_put_by_token, take_by_token, nullptr, nullptr, 0 },
        { "concurrentqueue_batch", "queue", nullptr, make, nullptr, nullptr, put_all, take_all, 0 },
    };
    return relay_main(argc, argv, queues, 4);
}
