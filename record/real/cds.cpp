// cds.cpp: libcds's WeakRingBuffer, for one producer and one consumer, and some of its queues for many, here with one of each. Debian: libcds-dev.
// A SegmentedQueue promises no order within a segment, here of 4 items: this shows up as a fault.
#include <cds/container/msqueue.h>
#include <cds/container/segmented_queue.h>
#include <cds/container/vyukov_mpmc_cycle_queue.h>
#include <cds/container/weak_ringbuffer.h>
#include <cds/gc/hp.h>
#include <cds/init.h>
#include "relay.h"

static cds::container::WeakRingBuffer<uint64_t> ring(8);
static cds::container::VyukovMPMCCycleQueue<uint64_t> cycle(8);
static cds::container::MSQueue<cds::gc::HP, uint64_t>* links;
static cds::container::SegmentedQueue<cds::gc::HP, uint64_t>* segments;

static void nothing() {}
static void make() {
    cds::Initialize();
    new cds::gc::HP(cds::container::SegmentedQueue<cds::gc::HP, uint64_t>::c_nHazardPtrCount + 2);
    cds::threading::Manager::attachThread();
    links = new std::remove_pointer_t<decltype(links)>;
    segments = new std::remove_pointer_t<decltype(segments)>(4);
}
// A thread that uses hazard pointers has to be registered with the library.
static void attach() {
    static thread_local bool is_attached;
    if (!is_attached) cds::threading::Manager::attachThread();
    is_attached = true;
}
static int put_ring(uint64_t v) { return ring.push(v); }
static int take_ring(uint64_t* v) { return ring.pop(*v); }
static size_t put_all(const uint64_t* v, size_t n) { return ring.push(v, n) ? n : 0; }
static size_t take_all(uint64_t* v, size_t n) { return ring.pop(v, n) ? n : 0; }
static int put_cycle(uint64_t v) { return cycle.enqueue(v); }
static int take_cycle(uint64_t* v) { return cycle.dequeue(*v); }
static int put_links(uint64_t v) { attach(); return links->enqueue(v); }
static int take_links(uint64_t* v) { attach(); return links->dequeue(*v); }
static int put_segments(uint64_t v) { attach(); return segments->enqueue(v); }
static int take_segments(uint64_t* v) { attach(); return segments->dequeue(*v); }

int main(int argc, char** argv) {
    const relay_queue queues[] = {
        { "cds_weak_ring", "queue 8", nullptr, nothing, put_ring, take_ring, nullptr, nullptr, 0 },
        { "cds_weak_ring_batch", "queue 8", nullptr, nothing, put_ring, take_ring, put_all, take_all, RELAY_ALL_OR_NONE },
        { "cds_vyukov", "queue 8", nullptr, nothing, put_cycle, take_cycle, nullptr, nullptr, 0 },
        { "cds_michael_scott", "queue", nullptr, make, put_links, take_links, nullptr, nullptr, 0 },
        { "cds_segmented", "queue", "item ", make, put_segments, take_segments, nullptr, nullptr, 0 },
    };
    return relay_main(argc, argv, queues, 5);
}
