// ring_register.hpp: ring_register.h for C++ from C++17: pass your operation to a call of the recorder.
//
//     ring_register_recorder rec(2, 1 << 20);                                        2 readers; words of 8 bytes for each thread
//     writer:    rec.write(v, [&] { r.write(v); });
//     reader 1:  uint64_t v = rec.read(1, [&] { return r.read(); });
//     after all threads were joined:  rec.print("register 0 4", file);
#pragma once
#include "ring_register.h"
#include <cstddef>
#include <new>

class ring_register_recorder {
    ring_register rec;

public:
    // Throws bad_alloc if there is no memory, or if the readers are not from 1 to 64.
    ring_register_recorder(int readers, std::size_t words) {
        if (!ring_register_init(&rec, readers, words)) {
            ring_register_free(&rec);
            throw std::bad_alloc();
        }
    }
    ~ring_register_recorder() { ring_register_free(&rec); }
    ring_register_recorder(const ring_register_recorder&) = delete;
    ring_register_recorder& operator=(const ring_register_recorder&) = delete;

    // An operation that throws has not ended, and its thread can record no further ones.
    template <class Operation> void write(uint64_t value, Operation operation) {
        ring_register_write(&rec, value);
        operation();
        ring_register_wrote(&rec);
    }

    // The operation returns what it read, and so does this.
    template <class Operation> auto read(int reader, Operation operation) {
        ring_register_read(&rec, reader);
        auto value = operation();
        ring_register_got(&rec, reader, static_cast<uint64_t>(value));
        return value;
    }

    bool print(const char* head, FILE* out) const { return ring_register_print(&rec, head, out) != 0; }

    // For ring_register_audit.h: ring_register_lawful(&rec.recorded(), "register 0 4", RING_REGULAR).
    const ring_register& recorded() const { return rec; }

    // Discards what was recorded, between two rounds of a test: while no thread records.
    void restart() { ring_register_restart(&rec); }
};
