// face FOLDER MILLISECONDS: times the headers for C++ and the parser of hand.hpp: a message, whose records are walked, and the same with the value of each
// text and URI.
#include "hand.hpp"
#include "ndef.hpp"

#include <cstdio>
#include <cstdlib>
#include <ctime>
#include <fstream>
#include <iterator>

namespace {

double now() { return static_cast<double>(std::clock()) * 1e9 / CLOCKS_PER_SEC; }

// Prints the nanoseconds of a call: the least of batches of five milliseconds or of one call.
template <class Call> void time(const char *operation, const std::string &name, double milliseconds, Call call) {
    const double begun = now();
    double least = 0;
    volatile std::size_t kept = 0;
    for (std::size_t batch = 1; now() - begun < milliseconds * 1e6;) {
        const double from = now();
        for (std::size_t i = 0; i < batch; i++) kept = kept + call();
        const double took = now() - from;
        if (took < 5e6) batch *= 2;
        else if (least == 0 || took / batch < least) least = took / batch;
    }
    if (least > 0) std::printf("%s %s %.1f\n", operation, name.c_str(), least);
}

std::size_t read(const std::vector<std::uint8_t> &bytes) {
    const auto message = ndef::message::check(bytes);
    std::size_t sum = 0;
    for (const ndef::record record : *message) sum += record.payload_size() + record.type().size();
    return sum;
}

std::size_t values(const std::vector<std::uint8_t> &bytes) {
    const auto message = ndef::message::check(bytes);
    std::size_t sum = 0;
    for (const ndef::record record : *message) {
        if (const auto text = record.as<ndef::text>()) sum += text->str().size();
        else if (const auto uri = record.as<ndef::uri>()) sum += uri->str().size();
    }
    return sum;
}

std::size_t read_by_hand(const std::vector<std::uint8_t> &bytes) {
    std::size_t sum = 0;
    for (const hand::record &record : hand::parse(bytes.data(), bytes.size())) sum += record.payload.size() + record.type.size();
    return sum;
}

std::size_t values_by_hand(const std::vector<std::uint8_t> &bytes) {
    std::size_t sum = 0;
    for (const hand::record &record : hand::parse(bytes.data(), bytes.size())) sum += (record.type == "T" ? record.text() : record.uri()).size();
    return sum;
}

} // namespace

int main(int, char **words) {
    const double milliseconds = std::atof(words[2]);
    for (const std::string name : {"hello", "uri", "poster", "records-1000", "ascii-1M", "wide-1M"}) {
        std::ifstream file(words[1] + ("/" + name), std::ios::binary);
        const std::vector<std::uint8_t> bytes(std::istreambuf_iterator<char>(file), {});
        time("read", name, milliseconds, [&] { return read(bytes); });
        time("hand-read", name, milliseconds, [&] { return read_by_hand(bytes); });
        if (name == "poster") continue;
        time("value", name, milliseconds, [&] { return values(bytes); });
        time("hand-value", name, milliseconds, [&] { return values_by_hand(bytes); });
    }
}
