// ring_explored.cpp: ring_explored BUG PUTS SEED: a test for explore.h of the ring of ring.hpp with this bug (0: none).
#include <cstdlib>
#include <thread>
#include "../include/explore.h"
#include "../include/ring_calls.hpp"
#include "ring.hpp"

static u64 puts_wanted, seed;
static ring_calls_recorder rec(1);

template <int BUG, class R> struct Test {
    static inline R* ring = nullptr;

    static void reset() {
        delete ring;
        ring = new R(seed);
    }

    static void produce() {
        for (u64 i = 0, v = 1; i < puts_wanted; i++) {
            bool all;
            if constexpr (BUG == 20) {
                u64 items[3] = { v, v + 1, v + 2 };
                size_t m = rec.put_all(items, 3, [&] { return ring->put_all(items, 3); });
                v += m;
                all = m == 3;
            } else {
                all = rec.put(BUG == 14 ? v << 32 | v : v, [&] { return ring->put(BUG == 14 ? v << 32 | v : v); });
                v += all || BUG == 15;
            }
            if (!all) std::this_thread::yield();
        }
        rec.close([&] { ring->close(); });
    }

    // (if the close is lost, the consumer never learns of the end)
    static void consume() {
        for (u64 takes = 0, got = NONE; got != CLOSED && takes < 2 * puts_wanted + 20; takes++) {
            rec.take([&](auto tell) {
                u64 v = 0;
                got = ring->take(v);
                if (got == ITEM) tell.item(v); else if (got == NONE) tell.empty(); else tell.closed();
            });
            if (got == NONE) std::this_thread::yield();
        }
    }

    static int explored(const char* head) { return explore(reset, produce, consume, head); }
};

template <int BUG = 0> int pick(int bug) {
    if constexpr (BUG > 20) return 2;
    else if (bug != BUG) return pick<BUG + 1>(bug);
    else if constexpr (BUG == 2) return Test<BUG, CountRing<BUG>>::explored("queue 8");
    else if constexpr (BUG == 6) return Test<BUG, CountRing<BUG>>::explored("queue 6");
    else if constexpr (BUG == 19) return Test<BUG, SharedCountRing>::explored("queue 8");
    else return Test<BUG, Ring<BUG>>::explored("queue 8");
}

int main(int argc, char** argv) {
    if (argc != 4) {
        fputs("usage: ring_explored BUG PUTS SEED, with BUG from 0 (none) to 20\n", stderr);
        return 2;
    }
    puts_wanted = strtoull(argv[2], nullptr, 10);
    seed = strtoull(argv[3], nullptr, 10);
    return pick(atoi(argv[1]));
}
