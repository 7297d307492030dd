// cpp SECONDS: reads all of each message on standard input (test/fuzz/messages.c writes them) by ndef.hpp, for so many seconds, and looks
// whether ndef_check says the same, whether what is written again is the message, and how many steps each message took.
#include "ndef.hpp"
#include "steps.h"

#include <cstdio>
#include <cstdlib>
#include <ctime>

/// The most steps for each byte of a message and 64 more: the records are walked, each payload is read as its type says, and all is written
/// again. The links of a handover are looked for among the records, so their steps are counted apart: the most for each byte and record.
constexpr std::uint64_t most_steps = 500, most_link_steps = 20;

static std::uint8_t joined_memory[1 << 15], written_memory[1 << 16];
static std::uint64_t seen, link_steps;

static std::uint8_t message[1 << 14];
static std::size_t message_length;

static void hold(bool fact, const char *what) {
    if (fact) return;
    std::printf("FAILED: %s\n  the message: ", what);
    for (std::size_t at = 0; at < message_length; at++) std::printf("%02x", message[at]);
    std::puts("");
    std::fflush(stdout);
    std::abort();
}

static void read_text(const ndef::text &text) { seen += text.language().size() + text.str().size(); }

static void read_poster(const ndef::poster &poster) {
    seen += poster.uri().str().size() + poster.action().has_value() + poster.size().value_or(0);
    seen += poster.media_type().value_or("").size();
    for (const ndef::text &title : poster.titles()) read_text(title);
    for (const ndef::icon &icon : poster.icons()) seen += icon.data.size();
    seen += poster.title("en").has_value();
}

template <class Handover> static void read_handover(const Handover &handover, const ndef::message &message) {
    seen += handover.minor_version() + handover.carrier_count();
    for (const ndef::record &record : handover.records()) seen += record.payload_size();
    const std::uint64_t before = fuzz_steps;
    for (const ndef::link &link : handover.links(message))
        for (std::uint32_t index = 0; index < link.alternative.reference_count(); index++)
            seen += link.alternative.reference(index)->size();
    link_steps += fuzz_steps - before;
}

static void read_record(const ndef::record &record, const ndef::message &message, ndef::profile how) {
    ndef::buffer buffer(joined_memory);
    const auto payload = record.payload(buffer);
    hold(payload && payload->size() == record.payload_size(), "a payload has the length that its record tells");
    seen += record.id().size() + record.payload_string().size();
    if (const auto text = record.as<ndef::text>(buffer, how)) read_text(*text);
    if (const auto uri = record.as<ndef::uri>(buffer, how)) seen += uri->str().size();
    if (const auto poster = record.as<ndef::poster>(buffer, how)) read_poster(*poster);
    if (const auto request = record.as<ndef::request>(buffer, how)) read_handover(*request, message);
    if (const auto select = record.as<ndef::select>(buffer, how)) read_handover(*select, message);
    if (const auto carrier = record.as<ndef::carrier>(buffer, how)) seen += carrier->data().size() + carrier->type().size();
}

/// Reads the message with which the bytes begin. The answer has to be the library's.
static void look_at(ndef::bytes bytes, ndef::profile how) {
    ndef::limits limits;
    limits.flags = static_cast<std::uint32_t>(how);
    ndef_checked checked = {};
    const std::uint32_t status = ndef_check(bytes.data(), bytes.size(), &limits, &checked);
    const auto message = ndef::message::check(bytes, limits);
    hold(message.has_value() == (status == NDEF_OK), "a message is taken where the library takes it");
    for (const ndef::field &field : ndef::fields(bytes, limits)) seen += field.octets.size();
    if (!message) {
        hold(message.error().place == checked.place && message.error().why == static_cast<int>(checked.reason), "the refusal is the library's");
        return;
    }
    hold(message->octets().size() == checked.place && message->record_count() == checked.records, "the extent is the library's");
    for (const ndef::record &record : *message) read_record(record, *message, how);
    ndef::buffer buffer(written_memory);
    ndef_size count = 0;
    hold(ndef_normalize(bytes.data(), bytes.size(), 0, written_memory, sizeof written_memory, &count) == NDEF_OK, "a message is written again");
    const auto again = ndef::message::check(ndef::bytes(written_memory, static_cast<std::size_t>(count)), limits);
    hold(again && again->record_count() == checked.records, "what is written again is a message");
}

int main(int words, char **word) {
    const std::time_t end = std::time(nullptr) + (words > 1 ? std::atol(word[1]) : 1);
    std::uint64_t messages = 0, greatest = 0, greatest_link = 0;
    std::uint8_t head[4];
    while (std::time(nullptr) < end && std::fread(head, 1, 4, stdin) == 4) {
        const std::size_t length = message_length = head[0] | std::size_t{head[1]} << 8;
        hold(std::fread(message, 1, length, stdin) == length, "the messages are whole");
        for (const ndef::profile how : {ndef::profile::strict, ndef::profile::standard}) {
            fuzz_steps = link_steps = 0;
            look_at(ndef::bytes(message, length), how);
            const std::uint64_t steps = (fuzz_steps - link_steps) / (length + 64), linked = link_steps / (length + 64) / (length / 3 + 1);
            greatest = steps > greatest ? steps : greatest;
            greatest_link = linked > greatest_link ? linked : greatest_link;
            hold(steps <= most_steps && linked <= most_link_steps, "the steps are a multiple of the length");
        }
        messages++;
    }
    hold(seen > 0 && messages > 0 && greatest > 0, "something was read");
    std::printf("%llu messages, at most %llu steps a byte, of links %llu a byte and record\n", static_cast<unsigned long long>(messages),
                static_cast<unsigned long long>(greatest), static_cast<unsigned long long>(greatest_link));
    return 0;
}
