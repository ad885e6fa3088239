// ring.cpp: the ends from C++: moved, never copied, freed when they go out of scope; both ways to take; spans from C++20 on.
#include <cstdio>
#include <cstdlib>
#include <memory>
#include <thread>
#include <type_traits>
#include <vector>
#include "counter_ring.hpp"

#define EXPECT(x) do { if (!(x)) { std::printf("ring.cpp:%d: not so: %s\n", __LINE__, #x); std::exit(1); } } while (0)

using counter_ring::reply;

template <class T> constexpr bool moves_only =
    !std::is_copy_constructible_v<T> && !std::is_copy_assignable_v<T> && std::is_nothrow_move_constructible_v<T> && std::is_nothrow_move_assignable_v<T>;
static_assert(moves_only<counter_ring::putter> && moves_only<counter_ring::taker>);

static void test_faults() {
    counter_ring::fault why = counter_ring::fault::none;
    EXPECT(!counter_ring::open({65}, &why) && why == counter_ring::fault::capacity);
    EXPECT(!counter_ring::open({8, 9}, &why) && why == counter_ring::fault::batch);
    EXPECT(!counter_ring::open({8, 1, 9}, &why) && why == counter_ring::fault::take_batch);
    EXPECT(!counter_ring::open({8, 1, 1, 65}, &why) && why == counter_ring::fault::width);
    EXPECT(!counter_ring::open({8, 1, 1, 64, 9}, &why) && why == counter_ring::fault::modulus);
    EXPECT(counter_ring::open({8}, &why) && why == counter_ring::fault::none);
}

static void test_moves() {
    auto ends = counter_ring::open({4, 2, 2, 8});
    EXPECT(ends);
    counter_ring::putter p = std::move(ends->first), none;
    EXPECT(p && !ends->first && !none);
    EXPECT(ends->first.put(1) == reply::refused && none.put(1) == reply::refused);
    EXPECT(p.put(1) == reply::done && p.put(256) == reply::refused);
    none = std::move(p);
    EXPECT(none && !p && none.put(2) == reply::done);
    auto other = counter_ring::open({1});
    none = std::move(other->first);         // (the end that `none` had is freed)
    EXPECT(none.put(9) == reply::done && other->second.take() == 9u);
    counter_ring::taker t = std::move(ends->second);
    std::uint64_t row[2] = {7, 7};
    const auto some = t.take_all(row, 2);
    EXPECT(some.answer == reply::done && some.count == 2 && row[0] == 1 && row[1] == 2);
    EXPECT(!t.take() && t.take_all(row, 0).answer == reply::refused && t.take_all(row, 3).answer == reply::refused);
    std::uint64_t item = 5;
    EXPECT(t.take(item) == reply::not_now && item == 5);
    auto held = std::make_unique<std::pair<counter_ring::putter, counter_ring::taker>>(std::move(none), std::move(t));
    held.reset();
}

static void test_threads() {
    auto ends = counter_ring::open({16, 4, 4});
    EXPECT(ends);
    std::thread producer([p = std::move(ends->first)]() mutable {
        std::vector<std::uint64_t> row(4);
        for (std::uint64_t next = 0; next < 200000;) {
            for (std::size_t i = 0; i < 4; i++) row[i] = next + i;
#if __cplusplus >= 202002L
            const auto some = p.put_all(row);
#else
            const auto some = p.put_all(row.data(), row.size());
#endif
            next += some.count;
            if (some.answer != reply::done) std::this_thread::yield();
        }
        p.close();
        EXPECT(p.is_closed() && p.put(1) == reply::over);
    });
    auto &t = ends->second;
    std::uint64_t due = 0;
    while (!t.is_told()) {
        if (const auto item = t.take()) EXPECT(*item == due++);
        else std::this_thread::yield();
    }
    EXPECT(due >= 200000);
    producer.join();
}

int main() {
    test_faults();
    test_moves();
    test_threads();
    std::printf("ring.cpp: C++%ld: in order, moved and freed\n", (__cplusplus / 100) % 100);
}
