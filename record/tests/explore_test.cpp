// explore_test.cpp: explore_test WAY: for record/test, a queue of C++'s own: a deque under a mutex with a condition; `lost`, a close with
// no wake-up; `wait`, the same, but the consumer waits for an atomic object first (C++20); `throws`, calls that end with an exception.
#include "explore.h"
#include "ring_calls.hpp"
#include <atomic>
#include <condition_variable>
#include <cstring>
#include <deque>
#include <memory>
#include <mutex>
#include <stdexcept>

static std::mutex mutex;
static std::condition_variable changed;
static std::unique_ptr<std::deque<uint64_t>> items;
static std::atomic<int> begun;
static bool closed, loses, waits;
static ring_calls_recorder rec(1);

static void reset() {
    items = std::make_unique<std::deque<uint64_t>>();
    begun = 0;
    closed = false;
}

static void produce() {
    begun = 1;
    begun.notify_one();
    for (uint64_t item = 1; item <= 3; item++) {
        rec.put(item, [&] {
            std::unique_lock<std::mutex> lock(mutex);
            changed.wait(lock, [] { return items->size() < 2; });
            items->push_back(item);
            changed.notify_one();
            return true;
        });
    }
    rec.close([] {
        std::lock_guard<std::mutex> lock(mutex);
        closed = true;
        if (!loses) changed.notify_one();
    });
}

static void consume() {
    if (waits) begun.wait(0);
    for (bool over = false; !over;) {
        rec.take([&](auto tell) {
            std::unique_lock<std::mutex> lock(mutex);
            changed.wait(lock, [] { return !items->empty() || closed; });
            over = items->empty();
            if (over) { tell.closed(); return; }
            const uint64_t item = items->front();
            items->pop_front();
            changed.notify_one();
            lock.unlock();
            tell.item(item);
        });
    }
}

static void throw_unless(bool good) { if (!good) throw std::runtime_error("not now"); }
static void put_or_throw() {
    for (uint64_t item = 1; item <= 3; item++) {
        rec.put(item, [&] {
            try {
                throw_unless(begun == 0);
            } catch (const std::exception&) {
                return false;
            }
            begun = static_cast<int>(item);
            return true;
        });
    }
}
static void take_or_throw() {
    for (int i = 0; i < 3; i++) {
        rec.take([](auto tell) {
            try {
                const int item = begun.exchange(0);
                throw_unless(item != 0);
                tell.item(static_cast<uint64_t>(item));
            } catch (const std::exception&) {
                tell.empty();
            }
        });
    }
}

int main(int argc, char** argv) {
    const char* way = argc == 2 ? argv[1] : "";
    loses = !strcmp(way, "lost");
    waits = !strcmp(way, "wait");
    if (!strcmp(way, "throws")) return explore(reset, put_or_throw, take_or_throw, "queue 1");
    return explore(reset, produce, consume, "queue 2");
}
