// A parser of messages as one writes it by hand in C++: it joins chunks, checks flags, type name formats and lengths, and reads texts and URIs where they
// are asked for. It checks no payload.
#include <array>
#include <cstddef>
#include <cstdint>
#include <cstring>
#include <stdexcept>
#include <string>
#include <string_view>
#include <vector>

namespace hand {

struct record {
    std::uint8_t format;
    std::string_view type, id, payload;
    std::string joined; // of a record in chunks

    std::string_view whole() const { return joined.empty() ? payload : std::string_view(joined); }
    std::string text() const {
        const std::string_view all = whole();
        return std::string(all.substr(1 + (all.front() & 63)));
    }
    std::string uri() const {
        static const std::string_view prefixes[] = {"", "http://www.", "https://www.", "http://", "https://", "tel:", "mailto:"};
        const std::string_view all = whole();
        return std::string(prefixes[static_cast<std::uint8_t>(all.front())]).append(all.substr(1));
    }
};

// The bytes of a message, of which parts are taken from the front.
struct reader {
    const std::uint8_t *at, *end;

    std::uint8_t octet() {
        if (at == end) throw std::invalid_argument("the end");
        return *at++;
    }
    std::uint32_t number() {
        std::uint32_t found = 0;
        for (int octets = 0; octets < 4; octets++) found = found << 8 | octet();
        return found;
    }
    std::string_view part(std::size_t size) {
        if (static_cast<std::size_t>(end - at) < size) throw std::invalid_argument("the end");
        const std::string_view found{reinterpret_cast<const char *>(at), size};
        at += size;
        return found;
    }
};

inline std::vector<record> parse(const std::uint8_t *bytes, std::size_t size) {
    std::vector<record> records;
    reader from{bytes, bytes + size};
    bool is_open = false;
    for (;;) {
        const bool is_first = from.at == bytes;
        const std::uint8_t head = from.octet(), format = head & 7;
        const std::size_t type_size = from.octet(), payload_size = head & 16 ? from.octet() : from.number();
        const std::size_t id_size = head & 8 ? from.octet() : 0;
        if (((head & 128) != 0) != is_first) throw std::invalid_argument("MB");
        if (is_open ? format != 6 || type_size || id_size : format > 5) throw std::invalid_argument("TNF");
        if (format == 0 && (type_size || id_size || payload_size)) throw std::invalid_argument("empty");
        if (format == 5 ? type_size != 0 : format > 0 && format < 5 && !type_size) throw std::invalid_argument("type");
        const std::string_view type = from.part(type_size), id = from.part(id_size), payload = from.part(payload_size);
        if (is_open) records.back().joined.append(payload);
        else records.push_back({format, type, id, payload, head & 32 ? std::string(payload) : std::string()});
        is_open = head & 32;
        if (!(head & 64)) continue;
        if (is_open || from.at != from.end) throw std::invalid_argument("ME");
        return records;
    }
}

} // namespace hand
