// counter_ring.hpp: the ends of the proved ring as values that move and free themselves. C++17; it needs counter_ring.h beside it.
//
//     auto ends = counter_ring::open({64});                       a std::optional of both ends; a second argument receives the fault
//     std::thread producer([p = std::move(ends->first)]() mutable { while (p.put(7) == counter_ring::reply::not_now) {} p.close(); });
//     while (!ends->second.is_told()) if (auto item = ends->second.take()) use(*item);
//
// An end is passed to another thread by a std::thread, a join, a lock or a sequentially consistent atomic, and no two threads call one end at the same
// time. counter_ring.h says what is proved, and what a caller must ensure.
#ifndef COUNTER_RING_HPP
#define COUNTER_RING_HPP
#include <cstddef>
#include <cstdint>
#include <optional>
#include <utility>
#if __cplusplus >= 202002L
#include <span>
#endif
#include "counter_ring.h"

namespace counter_ring {

// What a call returns: `not_now` if the ring is full or empty; `over` if it is closed, and for a take all that was put has been taken; `refused`
// if there is no end, an item does not fit the width, or there are none or too many, and then nothing is done.
enum class reply : std::uint32_t { done = RING_DONE, not_now = RING_NOT_NOW, over = RING_OVER, refused = RING_REFUSED };

// Why there is no ring.
enum class fault : std::uint32_t {
    none = RING_OPENED, capacity = RING_WRONG_CAPACITY, batch = RING_WRONG_BATCH, take_batch = RING_WRONG_TAKE_BATCH,
    modulus = RING_WRONG_MODULUS, width = RING_WRONG_WIDTH, out_of_memory = RING_OUT_OF_MEMORY
};

// The parameters of a ring. Counts wrap at the modulus; any value in its range works.
struct shape {
    std::uint64_t capacity;
    std::uint64_t batch = 1;
    std::uint64_t take_batch = 1;
    std::uint64_t width = 64;
    std::uint64_t modulus = 256;
};

// The reply of a call for several items, and how many it stored or took.
struct several {
    reply answer;
    std::size_t count;
};

// The end that puts. One that was moved from has no end, nor has a default-constructed `putter()`.
class putter {
public:
    putter() noexcept = default;
    putter(putter &&from) noexcept { ring_move_putter(&handle_, &from.handle_); }
    putter &operator=(putter &&from) noexcept {
        if (this != &from) {
            ring_free_putter(&handle_);
            ring_move_putter(&handle_, &from.handle_);
        }
        return *this;
    }
    ~putter() { ring_free_putter(&handle_); }

    reply put(std::uint64_t item) { return static_cast<reply>(ring_put(&handle_, item)); }
    // Puts the items in order, as many as there is room for.
    several put_all(const std::uint64_t *items, std::size_t count) {
        const std::uint64_t none = 0;       // (a pointer must not be null, even if its length is 0)
        std::size_t stored = 0;
        const auto answer = static_cast<reply>(ring_put_all(&handle_, count ? items : &none, count, &stored));
        return {answer, stored};
    }
#if __cplusplus >= 202002L
    several put_all(std::span<const std::uint64_t> items) { return put_all(items.data(), items.size()); }
#endif
    void close() { ring_close(&handle_); }
    bool is_closed() { return ring_is_closed(&handle_); }
    explicit operator bool() const noexcept { return handle_.is_open; }

private:
    friend std::optional<std::pair<putter, class taker>> open(const shape &, fault *);
    ring_putter handle_ = RING_NO_END;
};

// The end that takes.
class taker {
public:
    taker() noexcept = default;
    taker(taker &&from) noexcept { ring_move_taker(&handle_, &from.handle_); }
    taker &operator=(taker &&from) noexcept {
        if (this != &from) {
            ring_free_taker(&handle_);
            ring_move_taker(&handle_, &from.handle_);
        }
        return *this;
    }
    ~taker() { ring_free_taker(&handle_); }

    // The next item, if there is one now. `is_told` returns whether there will be no more.
    std::optional<std::uint64_t> take() {
        std::uint64_t item = 0;
        if (ring_take(&handle_, &item) != RING_DONE) return std::nullopt;
        return item;
    }
    // The same with its reply. `item` changes only if the reply is `done`.
    reply take(std::uint64_t &item) { return static_cast<reply>(ring_take(&handle_, &item)); }
    // Takes the next items, at most `room`.
    several take_all(std::uint64_t *into, std::size_t room) {
        std::uint64_t none = 0;
        std::size_t taken = 0;
        const auto answer = static_cast<reply>(ring_take_all(&handle_, room ? into : &none, room, &taken));
        return {answer, taken};
    }
#if __cplusplus >= 202002L
    several take_all(std::span<std::uint64_t> into) { return take_all(into.data(), into.size()); }
#endif
    bool is_told() { return ring_is_told(&handle_); }
    explicit operator bool() const noexcept { return handle_.is_open; }

private:
    friend std::optional<std::pair<putter, taker>> open(const shape &, fault *);
    ring_taker handle_ = RING_NO_END;
};

// The two ends of a new ring, or nothing: then the fault says why.
inline std::optional<std::pair<putter, taker>> open(const shape &of, fault *why = nullptr) {
    std::optional<std::pair<putter, taker>> ends(std::in_place);
    const auto answer = ring_open(&ends->first.handle_, &ends->second.handle_, of.capacity, of.modulus, of.width, of.batch, of.take_batch);
    if (why) *why = static_cast<fault>(answer);
    if (answer != RING_OPENED) ends.reset();
    return ends;
}

}
#endif
