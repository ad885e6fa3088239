// boost.cpp: Boost's spsc_queue, for rings.c.
#include <boost/lockfree/spsc_queue.hpp>
#include <cstddef>
#include <cstdint>
#include <memory>

static std::unique_ptr<boost::lockfree::spsc_queue<uint64_t>> ring;

extern "C" int boost_open(size_t capacity) {
    ring.reset(new boost::lockfree::spsc_queue<uint64_t>(capacity));
    return 1;
}

extern "C" size_t boost_put(const uint64_t *row, size_t many) { return ring->push(row, many); }

extern "C" size_t boost_take(uint64_t *row, size_t most) { return ring->pop(row, most); }
