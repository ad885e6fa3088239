// relacy.cpp: for record/test: three litmus tests under Relacy's full search (Debian: relacy-dev), to compare with explore: -DTEST=1 to 3, store
// buffering by release and acquire, with one fence of seq_cst, and with two. (Relacy tries no order of modification but that of the execution, so it
// misses outcomes of others in named.txt, such as 2+2W.) Prints the outcomes, in the words of litmus.c.
#include <relacy/relacy.hpp>
#include <cstdio>
#include <cstring>

#if TEST == 1
#define STORED rl::mo_release
#define FOUND rl::mo_acquire
#else
#define STORED rl::mo_relaxed
#define FOUND rl::mo_relaxed
#endif

/* (Relacy has an allocator of its own) */
static char outcomes[8][64];
static int used;

struct store_buffering : rl::test_suite<store_buffering, 2> {
    rl::atomic<int> place[2];
    int found[2];

    void before() { for (auto& it : place) it($).store(0, rl::mo_relaxed); }

    void thread(unsigned me) {
        place[me]($).store(1, STORED);
        if (TEST == 3 || (TEST == 2 && me == 0)) rl::atomic_thread_fence(rl::mo_seq_cst, $);
        found[me] = place[!me]($).load(FOUND);
    }

    void after() {
        char text[64];
        std::snprintf(text, sizeof text, "outcome: P %d C %d end 1 1 0", found[0], found[1]);
        for (int i = 0; i < used; i++) if (std::strcmp(outcomes[i], text) == 0) return;
        if (used < 8) std::strcpy(outcomes[used++], text);
    }
};

int main() {
    rl::test_params how;
    how.search_type = rl::fair_full_search_scheduler_type;
    const bool good = rl::simulate<store_buffering>(how);
    for (int i = 0; i < used; i++) std::puts(outcomes[i]);
    return !good;
}
