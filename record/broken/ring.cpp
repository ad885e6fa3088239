// ring.cpp: ring BUG CALLS SEED: records a producer's and a consumer's thread over the ring of ring.hpp with this bug (0: none).
#include <cstdlib>
#include <thread>
#include "../include/ring_calls.hpp"
#include "ring.hpp"

static void rest(Random& g, bool longer) {
    for (volatile u64 n = g() % (longer ? 200 : 8); n > 0;) { n = n - 1; }
    if (longer && g.once_in(64)) std::this_thread::yield();
}

template <int BUG, class R> int record(u64 calls, u64 seed, const char* head) {
    R* ring = new R(seed);
    ring_calls_recorder rec(calls * 24 + (1 << 17));
    std::atomic<int> here{0}, over{0};
    auto meet = [&] { for (here++; here < 2;) std::this_thread::yield(); };
    std::thread producer([&] {
        Random g{seed * 11 + 5};
        meet();
        for (u64 i = 0, v = 0; i < calls; i++) {
            bool all;
            if constexpr (BUG == 20) {
                u64 items[3] = { v, v + 1, v + 2 };
                size_t n = 1 + g() % 3, m = rec.put_all(items, n, [&] { return ring->put_all(items, n); });
                v += m;
                all = m == n;
            } else {
                all = rec.put(BUG == 14 ? v << 32 | v : v, [&] { return ring->put(BUG == 14 ? v << 32 | v : v); });
                v += all || BUG == 15;
            }
            rest(g, !all || g.once_in(64));
        }
        rec.close([&] { ring->close(); });
        over = 1;
    });
    std::thread consumer([&] {
        Random g{seed * 13 + 7};
        meet();
        // (if the close is lost, the consumer never learns of the end)
        for (int late = 0, got = NONE; got != CLOSED && late < 100; late += over) {
            rec.take([&](auto tell) {
                u64 v = 0;
                got = ring->take(v);
                if (got == ITEM) tell.item(v); else if (got == NONE) tell.empty(); else tell.closed();
            });
            rest(g, got != ITEM || g.once_in(64));
        }
    });
    producer.join();
    consumer.join();
    return !rec.write(head, stdout);
}

template <int BUG = 0> int pick(int bug, u64 calls, u64 seed) {
    if constexpr (BUG > 20) return 2;
    else if (bug != BUG) return pick<BUG + 1>(bug, calls, seed);
    else if constexpr (BUG == 2) return record<BUG, CountRing<BUG>>(calls, seed, "queue 8");
    else if constexpr (BUG == 6) return record<BUG, CountRing<BUG>>(calls, seed, "queue 6");
    else if constexpr (BUG == 19) return record<BUG, SharedCountRing>(calls, seed, "queue 8");
    else return record<BUG, Ring<BUG>>(calls, seed, "queue 8");
}

int main(int argc, char** argv) {
    if (argc == 4) return pick(atoi(argv[1]), strtoull(argv[2], nullptr, 10), strtoull(argv[3], nullptr, 10));
    fputs("usage: ring BUG CALLS SEED, with BUG from 0 (none) to 20\n", stderr);
    return 2;
}
