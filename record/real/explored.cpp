// explored.cpp: explored QUEUE: tests for explore.h of queues of Boost.Lockfree and moodycamel, as they are: boost, boost_several,
// moodycamel, moodycamel_enqueue, moodycamel_blocking.
#include "../include/explore.h"
#include <boost/lockfree/spsc_queue.hpp>
#include <cstdio>
#include <cstring>
#include <readerwriterqueue/readerwritercircularbuffer.h>
#include <readerwriterqueue/readerwriterqueue.h>

static constexpr int CALLS = 4;
static ring_calls rec;

// A queue, constructed anew for each execution.
template <class Q> struct One {
    static inline Q* queue = nullptr;
    static void reset() {
        delete queue;
        queue = new Q(2);
    }

    template <bool PUT(Q&, uint64_t)> static void produce() {
        for (uint64_t item = 1; item <= CALLS; item++) {
            ring_calls_put(&rec, item);
            if (PUT(*queue, item)) ring_calls_stored(&rec); else ring_calls_full(&rec);
        }
    }

    template <bool TAKE(Q&, uint64_t&)> static void consume() {
        for (int i = 0; i < CALLS; i++) {
            uint64_t item = 0;
            ring_calls_take(&rec);
            if (TAKE(*queue, item)) ring_calls_item(&rec, item); else ring_calls_empty(&rec);
        }
    }
};

typedef boost::lockfree::spsc_queue<uint64_t> Boost;
typedef moodycamel::ReaderWriterQueue<uint64_t, 4> Moodycamel;
typedef moodycamel::BlockingReaderWriterCircularBuffer<uint64_t> Blocking;

static bool push(Boost& q, uint64_t item) { return q.push(item); }
static bool pop(Boost& q, uint64_t& item) { return q.pop(item); }
static bool try_enqueue(Moodycamel& q, uint64_t item) { return q.try_enqueue(item); }
static bool enqueue(Moodycamel& q, uint64_t item) { return q.enqueue(item); }
static bool try_dequeue(Moodycamel& q, uint64_t& item) { return q.try_dequeue(item); }
static bool wait_enqueue(Blocking& q, uint64_t item) { q.wait_enqueue(item); return true; }
static bool wait_dequeue(Blocking& q, uint64_t& item) { q.wait_dequeue(item); return true; }

static void push_several() {
    const uint64_t items[4] = { 1, 2, 3, 4 };
    for (size_t stored = 0, tries = 0; stored < 4 && tries < CALLS; tries++) {
        ring_calls_put_all(&rec, items + stored, 4 - stored);
        const size_t more = One<Boost>::queue->push(items + stored, 4 - stored);
        ring_calls_stored_of(&rec, more, 4 - stored);
        stored += more;
    }
}

static void pop_several() {
    for (int i = 0; i < CALLS; i++) {
        uint64_t items[3];
        ring_calls_take_all(&rec, 3);
        const size_t taken = One<Boost>::queue->pop(items, 3);
        ring_calls_items(&rec, items, taken);
    }
}

int main(int argc, char** argv) {
    const char* queue = argc == 2 ? argv[1] : "";
    if (!strcmp(queue, "boost")) return explore(One<Boost>::reset, One<Boost>::produce<push>, One<Boost>::consume<pop>, "queue 2");
    if (!strcmp(queue, "boost_several")) return explore(One<Boost>::reset, push_several, pop_several, "queue 2");
    typedef One<Moodycamel> M;
    if (!strcmp(queue, "moodycamel")) return explore(M::reset, M::produce<try_enqueue>, M::consume<try_dequeue>, "queue 3");
    if (!strcmp(queue, "moodycamel_enqueue")) return explore(M::reset, M::produce<enqueue>, M::consume<try_dequeue>, "queue");
    typedef One<Blocking> B;
    if (!strcmp(queue, "moodycamel_blocking")) return explore(B::reset, B::produce<wait_enqueue>, B::consume<wait_dequeue>, "queue 2");
    fputs("explored QUEUE\n", stderr);
    return 2;
}
