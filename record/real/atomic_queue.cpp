// atomic_queue.cpp: atomic_queue's queues for one producer and one consumer, and for many, here with one of each. Debian: libatomic-queue-dev
#include <atomic_queue/atomic_queue.h>
#include "relay.h"

static constexpr uint64_t NIL = ~uint64_t{0};
static atomic_queue::AtomicQueue<uint64_t, 8, NIL, true, true, false, true> spsc;
static atomic_queue::AtomicQueue2<uint64_t, 8, true, true, false, true> spsc2;
static atomic_queue::AtomicQueue<uint64_t, 8, NIL> many;
static atomic_queue::AtomicQueueB<uint64_t, std::allocator<uint64_t>, NIL>* asked_for_8;

static void nothing() {}
static void make() { asked_for_8 = new std::remove_pointer_t<decltype(asked_for_8)>(8); }
static int put_spsc(uint64_t v) { return spsc.try_push(v); }
static int take_spsc(uint64_t* v) { return spsc.try_pop(*v); }
static int put_spsc2(uint64_t v) { return spsc2.try_push(v); }
static int take_spsc2(uint64_t* v) { return spsc2.try_pop(*v); }
static int put_many(uint64_t v) { return many.try_push(v); }
static int take_many(uint64_t* v) { return many.try_pop(*v); }
static int put(uint64_t v) { return asked_for_8->try_push(v); }
static int take(uint64_t* v) { return asked_for_8->try_pop(*v); }

int main(int argc, char** argv) {
    const relay_queue queues[] = {
        { "atomic_queue_spsc", "queue 8", nullptr, nothing, put_spsc, take_spsc, nullptr, nullptr, 0 },
        { "atomic_queue2_spsc", "queue 8", nullptr, nothing, put_spsc2, take_spsc2, nullptr, nullptr, 0 },
        { "atomic_queue", "queue 8", nullptr, nothing, put_many, take_many, nullptr, nullptr, 0 },
        { "atomic_queue_b", "queue 64", nullptr, make, put, take, nullptr, nullptr, 0 },
        { "atomic_queue_b_named_8", "queue 8", "stored, but at least", make, put, take, nullptr, nullptr, 0 },
    };
    return relay_main(argc, argv, queues, 5);
}
