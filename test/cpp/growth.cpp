// How the time of each walk of ndef.hpp grows with the records: prints microseconds for 100, 1000 and 10000 of them. A walk
// that takes much more than ten times as long for ten times as many is printed again, and fails. The links of a handover
// are left out of that: each carrier is looked for among the records. So are fields that are asked for one by one, of 10,
// 100 and 1000 records: ndef_next_field begins at the front each time.
#include "ndef.hpp"

#include <cstdio>
#include <ctime>
#include <string>
#include <vector>

static std::vector<std::uint8_t> memory(1 << 24);
static bool is_steep;

/// A message of records with these payloads, written to the front of a buffer.
static ndef::message message_of(ndef::buffer &buffer, const std::vector<ndef::new_record> &records) {
    return *ndef::write_message(buffer, records, ndef::unchecked);
}

/// The microseconds of processor time of a walk: of five the fewest.
template <class Walk> static double time_of(Walk walk) {
    double fewest = 1e9;
    for (int round = 0; round < 5; round++) {
        const std::clock_t before = std::clock();
        walk();
        const double taken = 1e6 * static_cast<double>(std::clock() - before) / CLOCKS_PER_SEC;
        if (taken < fewest) fewest = taken;
        if (taken > 1e6) break;
    }
    return fewest;
}

static volatile std::size_t seen;
template <class Range> static void walk(const Range &range) {
    std::size_t count = 0;
    for (const auto &one : range) count += sizeof one;
    seen = count;
}

/// Prints a row: the times of a walk over what is made for a count, and for ten and a hundred times as many. Stops where the growth is steep.
template <class Make> static void row(const char *name, bool is_linear, Make walk_of, std::size_t least = 100) {
    double before = 0;
    std::printf("C++ | %s", name);
    for (std::size_t count : {least, 10 * least, 100 * least}) {
        const double now = time_of(walk_of(count));
        std::printf(" | %.1f", now);
        if (is_linear && before && now > 35 * before + 300) {
            std::printf(" | steep\n");
            is_steep = true;
            return;
        }
        before = now;
    }
    std::printf("\n");
}

/// All fields, asked for one by one.
static void step(ndef::bytes octets) {
    ndef::limits limits;
    limits.records = 65535;
    ndef_field field = {};
    ndef_checked why;
    std::size_t count = 0;
    while (ndef_next_field(octets.data(), octets.size(), &limits, &field, &why) == NDEF_OK) count++;
    seen = count;
}

static ndef::message texts(std::size_t count) {
    ndef::buffer buffer(memory);
    return message_of(buffer, std::vector<ndef::new_record>(count, ndef::well_known("T", std::string_view("\2enHello"))));
}

/// The payload of a poster with this number of titles, or icons.
static ndef::poster poster_with(std::size_t count, const ndef::new_record &one) {
    ndef::buffer buffer(memory);
    std::vector<ndef::new_record> records(count, one);
    records.push_back(ndef::well_known("U", std::string_view("\1x")));
    return *ndef::poster::read(message_of(buffer, records).octets());
}

/// A request with this number of carriers, and as many records to which they refer.
struct handover {
    explicit handover(std::size_t count) {
        ndef::buffer buffer(memory);
        std::vector<std::string> names(count);
        std::vector<ndef::new_record> carriers = {ndef::well_known("cr", std::string_view("\1\2"))};
        for (std::size_t at = 0; at < count; at++) {
            names[at] = std::to_string(at);
            const auto carrier = *ndef::write_alternative(buffer, ndef::power::active, names[at]);
            carriers.push_back(ndef::well_known("ac", carrier));
        }
        const auto inner = message_of(buffer, carriers).octets();
        const auto payload = *ndef::write_handover(buffer, ndef::handover::request, 1, 2, inner);
        std::vector<ndef::new_record> records = {ndef::well_known("Hr", payload)};
        for (const std::string &name : names) records.push_back(ndef::media("a/b", payload.part(0, 1), name));
        whole = message_of(buffer, records);
        request = *whole.begin()->as<ndef::request>();
    }

    ndef::message whole;
    ndef::request request;
};

int main() {
    const auto title = ndef::well_known("T", std::string_view("\2enHello"));
    const auto icon = ndef::media("image/png", std::string_view("x"));
    row("records", true, [](std::size_t count) { return [m = texts(count)] { walk(m); }; });
    row("fields", true, [](std::size_t count) { return [m = texts(count)] {
        ndef::limits limits;
        limits.records = 65535;
        walk(ndef::fields(m.octets(), limits));
    }; });
    row("fields by ndef_next_field, of a tenth of the records", false, [](std::size_t count) {
        return [m = texts(count)] { step(m.octets()); };
    }, 10);
    row("titles of a poster", true, [&](std::size_t count) { return [p = poster_with(count, title)] { walk(p.titles()); }; });
    row("a title by its language", true, [&](std::size_t count) {
        return [p = poster_with(count, title)] { seen = p.title("fr").has_value() + p.title("en").has_value(); };
    });
    row("icons of a poster", true, [&](std::size_t count) { return [p = poster_with(count, icon)] { walk(p.icons()); }; });
    row("a record by its id", true, [](std::size_t count) { return [m = texts(count)] { seen = m.find_id("x").has_value(); }; });
    row("records of a handover", true, [](std::size_t count) { return [h = handover(count)] { walk(h.request.records()); }; });
    row("links of a handover (carriers times records)", false, [](std::size_t count) {
        return [h = handover(count)] { walk(h.request.links(h.whole)); };
    });
    return is_steep;
}
