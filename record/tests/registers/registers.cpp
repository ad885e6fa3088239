// registers.cpp: like registers.c, with ring_register.hpp, in C++17: an operation is nested in those that overlap it.
#include "ring_register.hpp"
#include <cstdint>
#include <cstdlib>
#include <initializer_list>

int main(int argc, char** argv) {
    if (argc == 1) return !ring_register_recorder(3, 8).print("register 0", stdout);
    for (int readers : { 0, 65 }) {
        try {
            ring_register_recorder none(readers, 10);
            return 2;
        } catch (const std::bad_alloc&) {
        }
    }
    ring_register_recorder rec(3, std::strtoul(argv[1], nullptr, 10));
    rec.read(3, [] { return 0; });
    rec.restart();
    uint64_t seen = 0;
    rec.write(1, [&] {
        seen += rec.read(1, [] { return 1; });
        seen += rec.read(2, [] { return 0u; });
    });
    seen += rec.read(3, [&] {
        rec.write(UINT64_MAX, [] {});
        return UINT64_MAX;
    });
    seen += rec.read(1, [] { return UINT64_MAX; });
    return !rec.print("register 0", stdout) || seen != UINT64_MAX;
}
