// boost.cpp: Boost.Lockfree spsc_queue, and queue, which is for many producers and consumers, here with one of each. Debian: libboost-dev
#include <boost/lockfree/queue.hpp>
#include <boost/lockfree/spsc_queue.hpp>
#include "relay.h"

static boost::lockfree::spsc_queue<uint64_t>* q;
static void make_8() { q = new boost::lockfree::spsc_queue<uint64_t>(8); }
static void make_1000() { q = new boost::lockfree::spsc_queue<uint64_t>(1000); }
static int put(uint64_t v) { return q->push(v); }
static int take(uint64_t* v) { return q->pop(*v); }
static size_t put_all(const uint64_t* v, size_t n) { return q->push(v, n); }
static size_t take_all(uint64_t* v, size_t n) { return q->pop(v, n); }

static boost::lockfree::queue<uint64_t, boost::lockfree::capacity<8>>* bounded;
static void make_bounded() { bounded = new boost::lockfree::queue<uint64_t, boost::lockfree::capacity<8>>; }
static int put_bounded(uint64_t v) { return bounded->push(v); }
static int take_bounded(uint64_t* v) { return bounded->pop(*v); }

static boost::lockfree::queue<uint64_t>* growing;
static void make_growing() { growing = new boost::lockfree::queue<uint64_t>(8); }
static int put_growing(uint64_t v) { return growing->push(v); }
static int put_not_growing(uint64_t v) { return growing->bounded_push(v); }
static int take_growing(uint64_t* v) { return growing->pop(*v); }

int main(int argc, char** argv) {
    const relay_queue queues[] = {
        { "boost", "queue 8", nullptr, make_8, put, take, nullptr, nullptr, 0 },
        { "boost_1000", "queue 1000", nullptr, make_1000, put, take, nullptr, nullptr, 0 },
        { "boost_batch", "queue 8", nullptr, make_8, put, take, put_all, take_all, 0 },
        { "boost_queue", "queue 8", nullptr, make_bounded, put_bounded, take_bounded, nullptr, nullptr, 0 },
        { "boost_queue_bounded_push", "queue 8", nullptr, make_growing, put_not_growing, take_growing, nullptr, nullptr, 0 },
        { "boost_queue_growing", "queue", nullptr, make_growing, put_growing, take_growing, nullptr, nullptr, 0 },
    };
    return relay_main(argc, argv, queues, 6);
}
