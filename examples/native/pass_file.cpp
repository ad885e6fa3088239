// pass_file.cpp: moves a file from one thread to another through the proved ring, in C++17.
//     c++ -std=c++17 -O2 -I native/include examples/native/pass_file.cpp dist/libcounter_ring.a -pthread -o pass_file && ./pass_file FROM TO
#include <algorithm>
#include <array>
#include <fstream>
#include <functional>
#include <iostream>
#include <thread>
#include "counter_ring.hpp"

namespace {

constexpr std::size_t batch = 16, bytes_each = 7;

// An item has up to 7 bytes of the file, and their number in its highest byte.
std::uint64_t pack(const char *bytes, std::size_t count) {
    std::uint64_t item = count;
    for (std::size_t i = 0; i < bytes_each; i++) item = item << 8 | (i < count ? static_cast<unsigned char>(bytes[i]) : 0u);
    return item;
}

void read_file(counter_ring::putter putter, std::ifstream &from) {
    std::array<char, bytes_each * batch> bytes;
    std::array<std::uint64_t, batch> items;
    while (from.read(bytes.data(), bytes.size()), from.gcount() > 0) {
        const auto length = static_cast<std::size_t>(from.gcount());
        std::size_t count = 0;
        for (std::size_t at = 0; at < length; at += bytes_each) items[count++] = pack(&bytes[at], std::min(bytes_each, length - at));
        for (std::size_t done = 0; done < count;) {
            const auto some = putter.put_all(&items[done], count - done);
            done += some.count;
            if (some.answer != counter_ring::reply::done) std::this_thread::yield();
        }
    }
    putter.close();
}

void write_file(counter_ring::taker taker, std::ofstream &to) {
    std::array<std::uint64_t, batch> items;
    for (;;) {
        const auto some = taker.take_all(items.data(), items.size());
        if (some.answer == counter_ring::reply::over) return;
        for (std::size_t i = 0; i < some.count; i++) {
            std::array<char, bytes_each> bytes;
            for (std::size_t k = 0; k < bytes_each; k++) bytes[k] = static_cast<char>(items[i] >> 8 * (bytes_each - 1 - k));
            to.write(bytes.data(), static_cast<std::streamsize>(items[i] >> 8 * bytes_each));
        }
        if (some.count == 0) std::this_thread::yield();
    }
}

}

int main(int words, char **word) {
    if (words != 3) return std::cerr << "usage: pass_file FROM TO\n", 2;
    std::ifstream from(word[1], std::ios::binary);
    std::ofstream to(word[2], std::ios::binary);
    auto ends = counter_ring::open({64, batch, batch});
    if (!from || !to || !ends) return std::cerr << "pass_file: no file, or no ring\n", 1;
    std::thread reader(read_file, std::move(ends->first), std::ref(from));
    write_file(std::move(ends->second), to);
    reader.join();
    to.close();
    if (from.bad() || !to) return std::cerr << "pass_file: reading or writing failed\n", 1;
    return 0;
}
