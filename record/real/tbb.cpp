// tbb.cpp: oneTBB's concurrent_bounded_queue, for many producers and consumers, here with one of each. Debian: libtbb-dev
#include <tbb/concurrent_queue.h>
#include "relay.h"

static tbb::concurrent_bounded_queue<uint64_t>* q;
static void make() {
    q = new tbb::concurrent_bounded_queue<uint64_t>;
    q->set_capacity(8);
}
static int put(uint64_t v) { return q->try_push(v); }
static int take(uint64_t* v) { return q->try_pop(*v); }

int main(int argc, char** argv) {
    const relay_queue queues[] = { { "tbb", "queue 8", nullptr, make, put, take, nullptr, nullptr, 0 } };
    return relay_main(argc, argv, queues, 1);
}
