// rounds.hpp: a small ring, and rounds of 100 calls of two threads over it: what unit.cpp and unit_catch2.cpp test.
#pragma once
#include "ring_audit.hpp"
#include <atomic>
#include <thread>

// The items lie from head up to tail; one slot is kept free. The bug: the tail moves before the cell is written.
class small_ring {
    static constexpr std::size_t slots = 9;
    std::atomic<uint64_t> cell[slots] = {};
    std::atomic<std::size_t> head{0}, tail{0};
    const bool bug;

public:
    explicit small_ring(bool with_bug) : bug(with_bug) {}

    bool push(uint64_t item) {
        std::size_t t = tail, next = (t + 1) % slots;
        if (next == head) return false;
        if (bug) {
            tail = next;
            std::this_thread::yield();
        }
        cell[t] = item;
        tail = next;
        return true;
    }

    bool pop(uint64_t& item) {
        std::size_t h = head;
        if (h == tail) return false;
        item = cell[h];
        head = (h + 1) % slots;
        return true;
    }
};

constexpr int rounds = 10000, calls_of_a_side = 50;

inline void record_round(ring_calls_recorder& rec, bool bug) {
    small_ring q(bug);
    std::atomic<int> here{0};
    auto meet = [&] { for (here++; here < 2;) std::this_thread::yield(); };
    rec.restart();
    std::thread consumer([&] {
        meet();
        for (int i = 0; i < calls_of_a_side; i++) {
            bool found = rec.take([&](auto tell) {
                uint64_t item;
                bool popped = q.pop(item);
                if (popped) tell.item(item); else tell.empty();
                return popped;
            });
            if (!found) std::this_thread::yield();
        }
    });
    meet();
    uint64_t item = 1;
    for (int i = 0; i < calls_of_a_side; i++) {
        if (rec.put(item, [&] { return q.push(item); })) item++; else std::this_thread::yield();
    }
    consumer.join();
}
