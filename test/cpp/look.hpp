// Counts comparisons, and prints where they don't hold.
#ifndef LOOK_HPP
#define LOOK_HPP

#include "lines.hpp"

inline unsigned long compared, differ;

/// Counts a comparison, and prints the line of the source where it doesn't hold.
inline void look(bool holds, const char *file, int line) {
    compared++;
    if (!holds && differ++ < 20) std::cout << file << ':' << line << '\n';
}
#define LOOK(...) look((__VA_ARGS__), __FILE__, __LINE__)

/// Whether bytes are a part of others, in place.
inline bool is_part(ndef::bytes found, ndef::bytes whole, ndef_size at, ndef_size length) {
    return found.size() == length && found.data() == whole.data() + at;
}
inline bool is_part(std::string_view found, ndef::bytes whole, ndef_size at, ndef_size length) {
    return is_part(ndef::bytes(found), whole, at, length);
}

#endif
