// sequences.cpp: a test for record/explore. A relaxed store after a release store of the same side continues its release sequence up to C++17, so the
// item is not raced for; from C++20 it does not.
#include <atomic>
#include "explore.h"

static std::atomic<int> state;
static uint64_t slot;
static ring_calls rec;

static void reset() { state = 0; slot = 0; }

static void produce() {
    ring_calls_put(&rec, 1);
    slot = 1;
    state.store(1, std::memory_order_release);
    state.store(2, std::memory_order_relaxed);
    ring_calls_stored(&rec);
}

static void consume() {
    ring_calls_take(&rec);
    if (state.load(std::memory_order_acquire) == 2) ring_calls_item(&rec, slot); else ring_calls_empty(&rec);
}

int main() { return explore(reset, produce, consume, "queue 1"); }
