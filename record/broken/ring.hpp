// ring.hpp: a small ring for one producer and one consumer, correct if BUG is 0, and 20 ways to get it wrong; README.md lists them.
//
// Its words are sequentially consistent, so each bug is one of logic, and every processor shows it. hold() sometimes waits for a while,
// like a preempted thread: it widens the windows that a race needs. With -DNO_HOLD it does nothing.
#pragma once
#include <atomic>
#include <cstddef>
#include <cstdint>

typedef uint64_t u64;
typedef std::atomic<u64> word;

struct Random {
    u64 s;
    u64 operator()() { s ^= s << 13; s ^= s >> 7; s ^= s << 17; return s; }
    bool once_in(u64 n) { return (*this)() % n == 0; }
};

#ifdef NO_HOLD
inline void hold(Random&, u64 = 0) {}
#else
inline void hold(Random& g, u64 often = 16) {
    if (!g.once_in(often)) return;
    for (volatile u64 n = g.once_in(256) ? g() % 10000 : g() % 200; n > 0;) { n = n - 1; }
}
#endif

enum { NONE, ITEM, CLOSED };

// The slots from head up to tail hold the items; one slot stays free, so that a full ring differs from an empty one.
template <int BUG> struct Ring {
    static constexpr u64 SLOTS = BUG == 5 ? 10 : 9;
    static constexpr u64 NOTHING = ~(u64)0;
    word cell[10] = {}, half[10] = {}, head{0}, tail{0}, closed{0};
    u64 seen_head = 0, seen_tail = 0, kept_back = NOTHING;
    Random gp, gc;
    explicit Ring(u64 seed) : gp{seed * 2 + 1}, gc{seed * 7 + 3} {}
    static u64 after(u64 slot) { return (slot + 1) % SLOTS; }

    bool put(u64 v) {
        if (BUG == 18 && kept_back != NOTHING) tail = kept_back;
        u64 t = tail, n = after(t), h = head;
        if (BUG == 4 && (n == h || after(n) == h)) return false;
        if (BUG == 10 && n == seen_head) { seen_head = h; return false; }
        if (BUG == 15 && n != h) { cell[t] = v; tail = n; hold(gp); return after(n) != head || !gp.once_in(8); }
        if (BUG == 16 && n == h) return gp.once_in(64);
        if (BUG != 3 && BUG != 10 && n == h) return false;
        if (BUG == 1) { tail = n; hold(gp); cell[t] = v; return true; }
        if (BUG == 14) { cell[t] = v & 0xffffffff; tail = n; hold(gp); half[t] = v >> 32; return true; }
        cell[BUG == 7 && n == 0 && gp.once_in(8) ? t - 1 : t] = v;
        hold(gp);
        kept_back = BUG == 18 && gp.once_in(4) ? n : NOTHING;
        if (kept_back == NOTHING) tail = n;
        return true;
    }

    // Stores as many as there is room for, with one move of the tail. (Bug 20 is only here.)
    size_t put_all(const u64* v, size_t m) {
        u64 t = tail, room = (head + SLOTS - t - 1) % SLOTS;
        if (m > room) m = room;
        size_t early = BUG == 20 && m > 0 ? m - 1 : m;
        for (size_t i = 0; i < early; i++) cell[(t + i) % SLOTS] = v[i];
        hold(gp);
        tail = (t + m) % SLOTS;
        hold(gp);
        for (size_t i = early; i < m; i++) cell[(t + i) % SLOTS] = v[i];
        return m;
    }

    int look(u64& v) {
        u64 h = head, t = tail;
        if (BUG == 9 && h == seen_tail) { seen_tail = t; return NONE; }
        if (BUG != 9 && h == t) return NONE;
        if (BUG == 17 && gc.once_in(1000)) { head = after(h); return NONE; }
        v = BUG == 14 ? cell[h] | half[h] << 32 : cell[h].load();
        hold(gc);
        if (BUG != 8 || !gc.once_in(1000)) head = after(h);
        return ITEM;
    }

    // Nothing, then closed, then nothing once more: only this is the end.
    int take(u64& v) {
        if (BUG == 12 && closed && after(head) == tail) return CLOSED;
        if (look(v) == ITEM) return ITEM;
        if (BUG == 11) { hold(gc, 1); return closed ? CLOSED : NONE; }
        if (BUG == 13 || !closed) return NONE;
        return look(v) == ITEM ? ITEM : CLOSED;
    }

    void close() {
        closed = 1;
        hold(gp);
        if (BUG == 18 && kept_back != NOTHING) tail = kept_back;
    }
};

// The other common form: counts that only grow. (Bugs 2 and 6 are here.)
template <int BUG> struct CountRing {
    static constexpr u64 CAPACITY = BUG == 6 ? 6 : 8;
    word cell[8] = {}, head{0}, tail{0}, closed{0};
    Random gp, gc;
    explicit CountRing(u64 seed) : gp{seed * 2 + 1}, gc{seed * 7 + 3} {}
    static u64 count(u64 n) { return BUG == 6 ? n % 256 : n; }
    bool put(u64 v) {
        u64 t = tail;
        if (count(t - head) == CAPACITY) return false;
        cell[t % CAPACITY] = v;
        hold(gp);
        tail = count(t + 1);
        return true;
    }
    int look(u64& v) {
        u64 h = head;
        if (h == tail) return NONE;
        if (BUG == 2) { head = h + 1; hold(gc); }
        v = cell[h % CAPACITY];
        if (BUG == 2) return ITEM;
        hold(gc);
        head = count(h + 1);
        return ITEM;
    }
    int take(u64& v) {
        if (look(v) == ITEM) return ITEM;
        return !closed ? NONE : look(v) == ITEM ? ITEM : CLOSED;
    }
    void close() { closed = 1; }
};

// A count of the items inside that both sides change. (Bug 19: with a load and a store.)
struct SharedCountRing {
    word cell[8] = {}, count{0}, closed{0};
    u64 p = 0, c = 0;
    Random gp, gc;
    explicit SharedCountRing(u64 seed) : gp{seed * 2 + 1}, gc{seed * 7 + 3} {}
    void add(u64 by, Random& g) { u64 n = count; hold(g); count = n + by; }
    bool put(u64 v) { if (count == 8) return false; cell[p++ % 8] = v; add(1, gp); return true; }
    int look(u64& v) { if (count == 0) return NONE; v = cell[c++ % 8]; add(~(u64)0, gc); return ITEM; }
    int take(u64& v) { return look(v) == ITEM ? ITEM : !closed ? NONE : look(v) == ITEM ? ITEM : CLOSED; }
    void close() { closed = 1; }
};
