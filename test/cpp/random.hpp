// Random messages, the same in each run: records of every type that the standards define, with ids and in chunks; whole
// ones, and others with one change.
#ifndef RANDOM_HPP
#define RANDOM_HPP

#include "ndef.hpp"

#include <algorithm>
#include <initializer_list>
#include <string>
#include <vector>

using octets = std::vector<std::uint8_t>;

/// Random numbers (xorshift), and what is made of them.
class dice {
public:
    explicit dice(std::uint64_t seed) : state(seed) {}

    std::size_t below(std::size_t bound) {
        state ^= state << 13;
        state ^= state >> 7;
        state ^= state << 17;
        return static_cast<std::size_t>(state >> 11) % bound;
    }
    template <class T> T one_of(std::initializer_list<T> values) { return *(values.begin() + below(values.size())); }
    std::uint8_t octet(std::size_t bound = 256) { return static_cast<std::uint8_t>(below(bound)); }

    /// Bytes of any number up to this one.
    octets bytes(std::size_t most) {
        octets made(below(most + 1));
        for (auto &one : made) one = octet();
        return made;
    }
    octets digits(std::size_t most) {
        octets made(below(most + 1));
        for (auto &one : made) one = static_cast<std::uint8_t>('0' + below(4));
        return made;
    }
    /// A short text with characters of each length.
    std::string text() {
        std::string made;
        for (std::size_t left = below(12); left; left--)
            made +=
                one_of<std::string>({"a", "Z", " ", "\xc3\xa9", "\xe2\x82\xac", "\xf0\x9f\x98\x80", "\xef\xbb\xbf"});
        return made;
    }

private:
    std::uint64_t state;
};

/// A record before it is written: type name format, type and payload.
struct content {
    std::uint8_t tnf;
    std::string type;
    octets payload;
};

inline octets joined(octets front, const octets &rest) {
    front.insert(front.end(), rest.begin(), rest.end());
    return front;
}
inline octets of_text(const std::string &text) { return {text.begin(), text.end()}; }

/// Appends a record or a chunk, as NDEF 1.0, 3.2 lays it out: its flags, its type, its id if it has one, and its
/// payload.
inline void put(octets &out, std::size_t flags, const std::string &type, const octets *id, const octets &payload,
                bool is_short) {
    is_short = is_short && payload.size() < 256;
    out.push_back(static_cast<std::uint8_t>(flags | (is_short ? 0x10 : 0) | (id ? 8 : 0)));
    out.push_back(static_cast<std::uint8_t>(type.size()));
    for (int shift = is_short ? 0 : 24; shift >= 0; shift -= 8)
        out.push_back(static_cast<std::uint8_t>(payload.size() >> shift));
    if (id) out.push_back(static_cast<std::uint8_t>(id->size()));
    out = joined(joined(out, of_text(type)), id ? *id : octets());
    out = joined(out, payload);
}

/// A message of these records. Some have ids, which are digits, and some are in chunks.
inline octets message_of(const std::vector<content> &records, bool may_chunk, dice &dice) {
    octets out;
    for (std::size_t index = 0; index < records.size(); index++) {
        const content &one = records[index];
        const std::size_t begins = index ? 0 : 0x80, ends = index + 1 == records.size() ? 0x40 : 0;
        const octets id = dice.digits(2);
        const octets *given = one.tnf != 0 && dice.below(2) ? &id : nullptr;
        const bool is_short = dice.below(4) > 0;
        if (!may_chunk || one.tnf == 0 || dice.below(3)) {
            put(out, begins | ends | one.tnf, one.type, given, one.payload, is_short);
            continue;
        }
        auto at = one.payload.begin();
        const auto part = [&](std::size_t size) { return octets(at, at + static_cast<std::ptrdiff_t>(size)); };
        const auto left = [&] { return static_cast<std::size_t>(one.payload.end() - at); };
        for (std::size_t chunks = dice.below(4), first = 1; chunks + first; first ? first = 0 : chunks--) {
            const octets piece = part(dice.below(left() + 1));
            put(out, first ? begins | 0x20 | one.tnf : 0x26, first ? one.type : "", first ? given : nullptr, piece,
                is_short);
            at += static_cast<std::ptrdiff_t>(piece.size());
        }
        put(out, ends | 6, "", nullptr, part(left()), is_short);
    }
    return out;
}

inline octets random_text(dice &dice) {
    const std::string language = dice.one_of<std::string>({"", "en", "EN", "de-AT"});
    octets out{static_cast<std::uint8_t>(language.size())};
    if (dice.below(3)) return joined(joined(out, of_text(language)), of_text(dice.text()));
    out[0] |= 0x80;
    out = joined(out, of_text(language));
    const std::size_t order = dice.below(3);
    if (order) out = joined(out, order == 1 ? octets{0xfe, 0xff} : octets{0xff, 0xfe});
    for (std::size_t left = dice.below(5); left; left--)
        out = joined(out, order == 2 ? octets{0xac, 0x20} : octets{0x20, 0xac});
    return out;
}

inline octets random_uri(dice &dice) { return joined({dice.octet(0x28)}, of_text(dice.text())); }

inline octets random_carrier(dice &dice) {
    octets out{dice.octet()};
    const std::size_t count = dice.below(4);
    for (std::size_t index = 0; index <= count; index++) {
        const octets reference = dice.digits(3);
        out.push_back(static_cast<std::uint8_t>(reference.size()));
        out = joined(out, reference);
        if (index == 0) out.push_back(static_cast<std::uint8_t>(count));
    }
    return joined(out, dice.bytes(2));
}

/// A record that stands within a poster or a handover.
inline content inner(dice &dice) {
    switch (dice.below(11)) {
    case 0:
    case 1: return {1, "T", random_text(dice)};
    case 2: return {1, "act", {dice.octet(5)}};
    case 3: return {1, "s", {dice.octet(), dice.octet(), dice.octet(), dice.octet()}};
    case 4: return {1, "t", of_text(dice.text())};
    case 5:
    case 6: return {1, "ac", random_carrier(dice)};
    case 7: return {1, "err", dice.one_of<octets>({{1, 7}, {2, 0, 0, 1, 0}, {3, 9}, {4}, {200, 1, 2}, {1, 7, 7}})};
    case 8: return {1, "cr", dice.bytes(3)};
    case 9: return {2, "image/png", dice.bytes(5)};
    default: return {2, "video/mp4", dice.bytes(5)};
    }
}

inline octets nested(const content &first, dice &dice) {
    std::vector<content> records;
    for (std::size_t left = dice.below(6); left; left--) records.push_back(inner(dice));
    const std::size_t place = first.type == "U" ? dice.below(records.size() + 1) : 0;
    records.insert(records.begin() + static_cast<std::ptrdiff_t>(place), first);
    return message_of(records, false, dice);
}

/// A record of a message.
inline content outer(dice &dice) {
    switch (dice.below(11)) {
    case 0:
    case 1: return {1, "T", random_text(dice)};
    case 2: return {1, "U", random_uri(dice)};
    case 3:
    case 4: return {1, "Sp", nested({1, "U", random_uri(dice)}, dice)};
    case 5:
        return {1, "Hr",
                joined({static_cast<std::uint8_t>(0x10 + dice.below(16))},
                       nested({1, "cr", {dice.octet(), dice.octet()}}, dice))};
    case 6:
        return {1, "Hs", dice.below(4) ? joined({0x13}, nested({1, "ac", random_carrier(dice)}, dice)) : octets{0x13}};
    case 7: return {1, "Hc", joined({dice.octet(), 2}, dice.bytes(6))};
    case 8:
        return dice.one_of<content>(
            {{0, "", {}}, {5, "", {1, 2}}, {7, "", {3}}, {1, "x", {4}}, {3, "a:b", {}}, {4, "a:b", {5}}});
    default: return {2, "text/plain", dice.bytes(dice.below(9) ? 20 : 400)};
    }
}

#endif
