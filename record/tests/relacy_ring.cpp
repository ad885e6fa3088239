// relacy_ring.cpp: a ring of 2 under Relacy (Debian: relacy-dev), which tries each order of its loads and stores, and each old value that C++11
// lets a load find. -DRELAXED stores its indexes relaxed: a data race. Nothing is recorded: in there all calls are tried, and the items are
// compared at once. Status 0: no order is wrong.
#include <relacy/relacy.hpp>

#ifdef RELAXED
#define SHOWN rl::mo_relaxed
#else
#define SHOWN rl::mo_release
#endif

// Atomics are rl::atomic, other variables rl::var, and ($) follows each one that is accessed.
struct ring_test : rl::test_suite<ring_test, 2> {
    rl::atomic<unsigned> head, tail;
    rl::var<unsigned> cells[2];

    void before() { head($).store(0, rl::mo_relaxed); tail($).store(0, rl::mo_relaxed); }

    bool put(unsigned item) {
        unsigned t = tail($).load(rl::mo_relaxed);
        if (t - head($).load(rl::mo_acquire) == 2) return false;
        cells[t % 2]($) = item;
        tail($).store(t + 1, SHOWN);
        return true;
    }

    bool take(unsigned& item) {
        unsigned h = head($).load(rl::mo_relaxed);
        if (h == tail($).load(rl::mo_acquire)) return false;
        item = cells[h % 2]($);
        head($).store(h + 1, SHOWN);
        return true;
    }

    // Three puts by the one thread, three takes by the other.
    void thread(unsigned side) {
        unsigned item = 0, next = 0;
        for (int i = 0; i < 3; i++) {
            if (side == 0) next += put(next);
            else if (take(item)) RL_ASSERT(item == next++);
        }
    }
};

int main() {
    rl::test_params all;
    all.search_type = rl::fair_full_search_scheduler_type;
    return !rl::simulate<ring_test>(all);
}
