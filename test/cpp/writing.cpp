// What ndef_writing.hpp promises of what it writes: no message that message::check refuses, unless that is asked for, and an
// error that says which record, which argument, and where in the record. Then how results, fields and links are passed on.
// Prints what fails. The octets are laid out by hand, as the standards say.
#include "ndef.hpp"

#include <cstdio>
#include <memory>

using namespace std::literals;

static int passed, failed;
static std::uint8_t space[4 << 20];

static void test(const char *name, bool is_true) {
    is_true ? passed++ : failed++;
    if (!is_true) std::printf("FAILED: %s\n", name);
}

static const std::vector<std::uint8_t> large(1048577);
static const std::string many(256, 'x');

/// Records that have a spelling and that are refused after a first one, with the place in the record and the reason.
struct refused_record {
    const char *name;
    ndef::new_record one;
    std::uint64_t place;
    ndef::reason why;
};
static const refused_record refused_records[] = {
    {"a text of no bytes", ndef::well_known("T", {}), 3, NDEF_REASON_DOES_NOT_FIT},
    {"a reserved code", ndef::well_known("U", "\x24"sv), 4, NDEF_REASON_URI_CODE},
    {"bit 6 of a text in chunks", {NDEF_TNF_WELL_KNOWN, "T", "\x42""en"sv, "", 1, false}, 4, NDEF_REASON_TEXT_BIT},
    {"a payload of 1 MiB + 1", {NDEF_TNF_UNKNOWN, "", large}, 5, NDEF_REASON_PAYLOAD_TOO_LARGE}};

/// The argument that is named for a record that has no spelling.
static ndef::error why_bad(const ndef::new_record &one) {
    ndef::buffer buffer(space);
    const auto written = ndef::write_message(buffer, {ndef::new_record(), one});
    ndef::builder builder{ndef::buffer(space)};
    const auto added = builder.add(one);
    if (written || added || added.error().which != written.error().which || added.error().record != 0) return {};
    return written.error();
}

static void arguments_are_named() {
    struct { const char *name; ndef::new_record one; ndef::argument which; } const rows[] = {
        {"a type without a type name format", {NDEF_TNF_EMPTY, "T"}, ndef::argument::type},
        {"no type", {NDEF_TNF_MEDIA, ""}, ndef::argument::type},
        {"a type of 256 bytes", {NDEF_TNF_MEDIA, many}, ndef::argument::type},
        {"an id of 256 bytes", {NDEF_TNF_MEDIA, "a/b", {}, many}, ndef::argument::id},
        {"a payload without a type name format", {NDEF_TNF_EMPTY, "", "x"sv}, ndef::argument::payload},
        {"the type name format 7", {static_cast<ndef::tnf>(7), "T"}, ndef::argument::format},
        {"a type and an id of 256 bytes", {NDEF_TNF_MEDIA, many, {}, many}, ndef::argument::several}};
    for (const auto &row : rows) {
        const ndef::error why = why_bad(row.one);
        test(row.name, why.what == NDEF_BAD_ARGUMENT && why.record == 1 && why.which == row.which);
    }
    test("it is printed", ndef::to_string(why_bad(rows[3].one)) == "record 1: BadArgument: id");
    ndef::buffer buffer(space);
    const auto none = ndef::write_message(buffer, std::vector<ndef::new_record>());
    test("no records", none.error().which == ndef::argument::records && ndef::to_string(none.error()) == "BadArgument: records");
    const auto refused = ndef::write_message(buffer, {refused_records[1].one});
    test("a refusal is printed", ndef::to_string(refused.error()) == "record 0: refused at 4: UriCode: The URI identifier codes from 24 to FF (hexadecimal) are reserved.");
}

/// A builder takes what message::check takes, and is as it was after a record that is refused.
static void builders_are_checked() {
    ndef::builder builder{ndef::buffer(space)}, loose{ndef::buffer(space), ndef::unchecked};
    test("a text", bool(builder.add_text("en", "a")) && bool(builder.add_uri("tel:1")));
    const std::string before(builder.made().octets().text());
    for (const auto &row : refused_records) {
        const auto added = builder.add(row.one);
        test(row.name, !added && added.error().record == 2 && added.error().place == row.place && added.error().why == row.why);
        test(row.name, builder.made().octets().text() == before && ndef::message::check(builder.made().octets()));
    }
    test("a record after them", bool(builder.add(ndef::media("a/b", {}))) && builder.made().record_count() == 3);
    test("it is a message", bool(ndef::message::check(builder.made().octets())));
    test("unchecked", bool(loose.add(refused_records[0].one)) && bool(loose.add(refused_records[1].one)));
    ndef::limits few;
    few.records = 2;
    ndef::builder two{ndef::buffer(space), few};
    test("two of two", two.add_text("en", "a") && two.add_text("en", "b"));
    const auto third = two.add_text("en", "c");
    test("three of two", !third && third.error().why == NDEF_REASON_TOO_MANY_RECORDS && two.made().record_count() == 2);
    few.records = 0;
    ndef::builder none{ndef::buffer(space), few};
    test("limits out of range", none.add_text("en", "a").error().which == ndef::argument::limits && none.made().octets().empty());
}

/// A copy of fields and of links outlives what it was copied of; what was moved from has none.
static void copies_are_kept() {
    const std::string message = "\x91\2\x0aHs\x12\xd1\2\4ac\1\1b\0\x5a\3\0\1a/bb"s;
    const auto whole = ndef::message::check(message);
    const auto select = whole->begin()->as<ndef::select>();
    auto fields = std::make_unique<ndef::fields>(message);
    auto links = std::make_unique<ndef::links>(select->links(*whole));
    ndef::fields fields_copy = *fields;
    ndef::links links_copy = *links;
    const std::size_t count = fields->size();
    fields.reset();
    links.reset();
    test("fields that were copied", count > 3 && fields_copy.size() == count && fields_copy.begin()->name == NDEF_FIELD_HEADER);
    test("links that were copied", links_copy.size() == 1 && links_copy.begin()->record_index == 1);
    const ndef::fields fields_moved = std::move(fields_copy);
    const ndef::links links_moved = std::move(links_copy);
    test("fields that were moved", fields_moved.size() == count && fields_copy.size() == 0 && fields_copy.begin() == fields_copy.end());
    test("links that were moved", links_moved.size() == 1 && links_copy.size() == 0 && links_copy.begin() == links_copy.end());
}

static ndef::result<std::unique_ptr<int>> pointed(int value) { return std::make_unique<int>(value); }

static void results() {
    const ndef::result<int> good = 1, bad = ndef::error{NDEF_END};
    const auto zero = [](const ndef::error &why) { return ndef::result<int>(why.what == NDEF_END ? 0 : -1); };
    test("or_else", *good.or_else(zero) == 1 && *bad.or_else(zero) == 0);
    test("or_else of a temporary", **pointed(3).or_else([](const ndef::error &) { return pointed(4); }) == 3
         && *ndef::result<int>(ndef::error{NDEF_END}).or_else(zero) == 0);
    const std::unique_ptr<int> taken = *pointed(5);
    test("the value of a temporary", *taken == 5);
    test("value_or of a temporary", *pointed(6).value_or(nullptr) == 6);
    const auto next = [](std::unique_ptr<int> of) { return pointed(*of + 1); };
    test("and_then of a temporary", **pointed(7).and_then(next) == 8);
    test("transform of a temporary", *pointed(8).transform([](std::unique_ptr<int> of) { return *of + 1; }) == 9);
    const ndef::owned_message kept = *ndef::owned_message::write({ndef::new_record()});
    test("a message of a temporary", kept.octets() == ndef::bytes("\xD0\0\0"sv));
}

int main() {
    arguments_are_named();
    builders_are_checked();
    copies_are_kept();
    results();
    std::printf("%d passed, %d failed\n", passed, failed);
    return failed != 0;
}
