// What ndef_building.hpp has: builders of posters and handovers, messages that own their bytes, filters, and what
// prints errors. Prints what fails. The octets are laid out by hand, as the standards say.
#include "ndef.hpp"

#include <cstdio>
#include <sstream>

static int passed, failed;

static void test(const char *name, bool is_true) {
    is_true ? passed++ : failed++;
    if (!is_true) std::printf("FAILED: %s\n", name);
}

static void payloads() {
    std::uint8_t small[5];
    ndef::buffer buffer(small);
    const auto refused = ndef::poster_builder("a").write(buffer);
    test("a poster that doesn't fit", !refused && refused.error().what == NDEF_BUFFER_TOO_SMALL && refused.error().needed == 6);
    test("nothing is taken of the buffer", buffer.size() == 5);
    const auto request = ndef::request_builder(7).payload(), select = ndef::select_builder().payload();
    test("handovers of no other version are of 1.2", request && select && request->at(0) == 0x12 && *select == std::vector<std::uint8_t>{0x12});
}

static ndef::new_record text_of(const char *payload) { return ndef::well_known("T", std::string_view(payload)); }

static void messages() {
    using namespace std::literals;
    const auto made = ndef::owned_message::write({text_of("\2enA"), ndef::media("a/b", std::string_view("1"))});
    test("a message is written", made && made->octets() == ndef::bytes("\x91\1\4T\2enA\x52\3\1a/b1"sv));
    if (!made) return;
    ndef::owned_message kept;
    test("a message of nothing", kept.octets().empty() && kept.begin() == kept.end() && kept != *made);
    {
        std::string input = "\xD1\1\4T\2enBmore";
        const auto read = ndef::owned_message::check(input);
        test("a message is read", bool(read));
        if (read) kept = *read;
        input.assign(input.size(), '\0');
    }
    test("it owns its octets", kept.octets() == ndef::bytes("\xD1\1\4T\2enB"sv));
    ndef::owned_message copy(kept.view()), moved = std::move(kept);
    test("copies and moved ones are equal", copy == moved && !(copy != moved));
    for (const ndef::record &record : moved) test("its records", record.as<ndef::text>()->str() == "B");
    const auto refused = ndef::owned_message::check("\xD0\0"sv);
    test("no message", !refused && refused.error().why == NDEF_REASON_END_OF_INPUT && refused.error().place == 2);
    test("no records", !ndef::owned_message::write(std::vector<ndef::new_record>()));
    std::ostringstream printed;
    printed << refused.error() << "; " << ndef::error{NDEF_BUFFER_TOO_SMALL, {}, 0, 5};
    test("errors are printed", printed.str() == "refused at 2: EndOfInput: The input ends within a message.; " + std::string(ndef::to_string(NDEF_BUFFER_TOO_SMALL)));
#ifdef __cpp_lib_format
    test("errors are formatted", std::format("{}", refused.error()) == "refused at 2: EndOfInput: The input ends within a message.");
#endif
}

/// A message of a record for each letter: a text for T, a URI for U, an external type for others.
static ndef::owned_message of(std::string_view letters) {
    std::vector<ndef::new_record> records;
    for (std::size_t at = 0; at < letters.size(); at++) {
        const std::string_view type = letters.substr(at, 1);
        const bool is_known = type == "T" || type == "U";
        records.push_back(is_known ? ndef::well_known(type, std::string_view("\0a", 2)) : ndef::external(type, {}));
    }
    return *ndef::owned_message::write(records);
}

static bool matches(const ndef::filter &filter, const ndef::owned_message &message) { return filter.matches(message.view()); }

static void filters() {
    const auto text = [](ndef::filter &to, std::size_t least, std::size_t most) {
        to.record(NDEF_TNF_WELL_KNOWN, "T", least, most);
    };
    ndef::filter any, given(ndef::order::given), none, twice, again(ndef::order::given);
    text(any, 1, 2);
    any.record(NDEF_TNF_WELL_KNOWN, "U", 0, 1);
    text(given, 1, 2);
    given.record(NDEF_TNF_WELL_KNOWN, "U", 0, 1);
    text(twice, 0, 2);
    twice.record(NDEF_TNF_EXTERNAL, "x");
    text(twice, 1, 1);
    text(again, 0, 1);
    again.record(NDEF_TNF_WELL_KNOWN, "U", 1, 1);
    text(again, 1, 1);
    struct { const char *letters; bool any, given, twice, again; } const rows[] = {
        {"T", true, true, false, false}, {"TT", true, true, false, false}, {"TTT", false, false, false, false},
        {"U", false, false, false, false}, {"TU", true, true, false, false}, {"UT", true, false, false, true},
        {"TUT", true, false, false, true}, {"TUU", false, false, false, false}, {"Tx", false, false, true, false},
        {"TTxT", false, false, true, false}, {"x", false, false, false, false}, {"TxTTT", false, false, false, false}};
    for (const auto &row : rows) {
        const auto message = of(row.letters);
        test(row.letters, any.matches(message.view()) == row.any && given.matches(message.view()) == row.given &&
                              twice.matches(message.view()) == row.twice && again.matches(message.view()) == row.again);
    }
    ndef::filter row(ndef::order::given);
    text(row, 0, 1);
    text(row, 1, 1);
    test("a type that is added twice in a row",
         matches(row, of("T")) && matches(row, of("TT")) && !matches(row, of("TTT")));
    test("a filter of nothing", none.matches(ndef::message()) && !matches(none, of("T")));
    test("a message of nothing", !any.matches(ndef::message()));
    ndef::filter external;
    external.record(NDEF_TNF_EXTERNAL, "T");
    test("another type name format", !matches(external, of("T")));
}

int main() {
    payloads();
    messages();
    filters();
    std::printf("%d passed, %d failed\n", passed, failed);
    return failed != 0;
}
