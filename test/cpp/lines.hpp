// What the programs share: bytes in hexadecimal, and a count of allocations.
#ifndef LINES_HPP
#define LINES_HPP

#include "ndef.hpp"

#include <atomic>
#include <cstdio>
#include <cstdlib>
#include <iostream>
#include <new>
#include <string>
#include <vector>

inline std::atomic<unsigned long> allocations;

[[gnu::noinline]] void *operator new(std::size_t size) {
    ++allocations;
    if (void *memory = std::malloc(size ? size : 1)) return memory;
    std::abort();
}
[[gnu::noinline]] void operator delete(void *memory) noexcept { std::free(memory); }
[[gnu::noinline]] void operator delete(void *memory, std::size_t) noexcept { std::free(memory); }

/// The bytes of hexadecimal digits; none for `-`.
inline std::vector<std::uint8_t> from_hex(const std::string &text) {
    std::vector<std::uint8_t> bytes;
    std::string digits;
    for (char one : text)
        if (one != ' ' && one != '-') digits += one;
    for (std::size_t at = 0; at + 1 < digits.size(); at += 2)
        bytes.push_back(static_cast<std::uint8_t>(std::stoul(digits.substr(at, 2), nullptr, 16)));
    return bytes;
}

/// Bytes in hexadecimal; `-` for none.
inline std::string hex(ndef::bytes of) {
    std::string digits;
    char two[3];
    for (std::uint8_t one : of) {
        std::snprintf(two, sizeof two, "%02X", one);
        digits += two;
    }
    return digits.empty() ? "-" : digits;
}

#endif
