// ring_calls.hpp: ring_calls.h for C++ from C++17: pass your call to a call of the recorder.
//
//     ring_calls_recorder rec(1 << 20);                                              words of 8 bytes for each side
//     producer:  rec.put(item, [&] { return q.push(item); });                        true: stored, false: full
//                rec.put_all(items, n, [&] { return q.push(items, n); });            returns how many were stored
//                rec.close([&] { q.close(); });
//     consumer:  rec.take([&](auto tell) { uint64_t v; if (q.pop(v)) tell.item(v); else tell.empty(); });
//     after both threads were joined:  rec.write("queue 8", file);
#pragma once
#include "ring_calls.h"
#include <cstddef>
#include <new>

class ring_calls_recorder {
    ring_calls rec;

public:
    // Throws bad_alloc if out of memory.
    explicit ring_calls_recorder(std::size_t words) {
        if (!ring_calls_init(&rec, words)) {
            ring_calls_free(&rec);
            throw std::bad_alloc();
        }
    }
    ~ring_calls_recorder() { ring_calls_free(&rec); }
    ring_calls_recorder(const ring_calls_recorder&) = delete;
    ring_calls_recorder& operator=(const ring_calls_recorder&) = delete;

    // The call returns whether the item was stored.
    template <class Call> bool put(uint64_t item, Call call) {
        ring_calls_put(&rec, item);
        bool stored = call();
        if (stored) ring_calls_stored(&rec); else ring_calls_full(&rec);
        return stored;
    }

    // The call returns how many of the items were stored: as many as there was room for.
    template <class Call> std::size_t put_all(const uint64_t* items, std::size_t n, Call call) {
        ring_calls_put_all(&rec, items, n);
        std::size_t stored = call();
        ring_calls_stored_of(&rec, stored, n);
        return stored;
    }

    // The call returns how many of the items were stored, with no reason given why no more.
    template <class Call> std::size_t put_some(const uint64_t* items, std::size_t n, Call call) {
        ring_calls_put_all(&rec, items, n);
        std::size_t stored = call();
        ring_calls_some(&rec, stored);
        return stored;
    }

    // The call returns whether all of the items were stored; otherwise none was.
    template <class Call> bool put_all_or_none(const uint64_t* items, std::size_t n, Call call) {
        ring_calls_put_all(&rec, items, n);
        bool stored = call();
        if (stored) ring_calls_stored(&rec);
        else if (n > 1) ring_calls_put_short(&rec);
        else ring_calls_full(&rec);
        return stored;
    }

    template <class Call> void close(Call call) {
        ring_calls_close(&rec);
        call();
        ring_calls_closed(&rec);
    }

    // How a take ended: call one of these, once, directly after your call.
    class Tell {
        ring_calls* rec;
        friend class ring_calls_recorder;
        explicit Tell(ring_calls* r) : rec(r) {}

    public:
        void item(uint64_t v) { ring_calls_item(rec, v); }
        void items(const uint64_t* v, std::size_t n) { ring_calls_items(rec, v, n); }
        // with no reason given why no more
        void some_items(const uint64_t* v, std::size_t n) { ring_calls_some_items(rec, v, n); }
        void empty() { ring_calls_empty(rec); }
        // an all-or-nothing take that asked for this many
        void too_few(std::size_t asked) { if (asked > 1) ring_calls_take_short(rec); else ring_calls_empty(rec); }
        void nothing() { ring_calls_take_nothing(rec); }
        void closed() { ring_calls_told(rec); }
    };
    template <class Call> auto take(Call call) {
        ring_calls_take(&rec);
        return call(Tell(&rec));
    }
    template <class Call> auto take_all(std::size_t n, Call call) {
        ring_calls_take_all(&rec, n);
        return call(Tell(&rec));
    }

    bool write(const char* head, FILE* out) const { return ring_calls_write(&rec, head, out) != 0; }

    // Discards what was recorded, between two rounds of a test: while no thread records.
    void restart() { ring_calls_restart(&rec); }

    // What was recorded, for ring_audit.hpp.
    const ring_calls& calls() const { return rec; }
};
