// Messages that are written in steps, and records whose payload is given in parts: they have the bytes that write_message
// writes at once, whatever the sizes of the buffers and the parts, and the same errors. The word is the number of random
// messages. Prints what fails.
#include "random.hpp"

#include <cstdio>
#include <cstdlib>
#include <list>

static int passed, failed;

static void test(const char *name, bool is_true) {
    is_true ? passed++ : failed++;
    if (!is_true) std::printf("FAILED: %s\n", name);
}

using namespace std::literals;

static std::uint8_t space[1 << 20];

/// Records with what they view.
struct drawn {
    std::vector<content> contents;
    std::vector<octets> ids;
    std::vector<ndef::new_record> records;

    explicit drawn(dice &dice) {
        for (std::size_t left = 1 + dice.below(4); left; left--) {
            content one = outer(dice);
            if (one.tnf == 7) one.tnf = 5;
            contents.push_back(one);
            ids.push_back(one.tnf ? dice.digits(3) : octets());
        }
        for (std::size_t index = 0; index < contents.size(); index++) {
            const content &one = contents[index];
            ndef::new_record record{static_cast<ndef::tnf>(one.tnf), one.type, one.payload, ndef::bytes(ids[index]).text()};
            if (dice.below(3) == 0) record.chunk = static_cast<std::uint32_t>(1 + dice.below(30));
            record.is_long = dice.below(3) == 0;
            records.push_back(record);
        }
    }
};

/// All that a writer writes to buffers of sizes up to one; each but the last is filled.
template <class Writer> ndef::result<octets> in_steps(Writer &writer, dice &dice, std::size_t most) {
    octets all;
    for (;;) {
        octets memory(1 + dice.below(most), 0xa5);
        ndef::buffer buffer(memory);
        const auto made = writer.next(buffer);
        if (!made) return made.error();
        all.insert(all.end(), made->begin(), made->end());
        for (std::size_t at = made->size(); at < memory.size(); at++)
            if (memory[at] != 0xa5) return ndef::error{};
        if (made->size() < memory.size()) break;
    }
    std::uint8_t more[9];
    ndef::buffer buffer(more), none;
    const auto again = writer.next(buffer), nothing = writer.next(none);
    if (!again || !again->empty() || !nothing || !nothing->empty()) return ndef::error{};
    return all;
}

/// A record whose payload is given in random parts, to buffers of random sizes.
static ndef::result<octets> in_parts(const ndef::new_record &one, ndef::position where, dice &dice) {
    octets all;
    ndef::bytes left = one.payload;
    auto writer = ndef::record_writer::begin(one, one.payload.size(), where);
    if (!writer) return writer.error();
    while (!writer->is_whole()) {
        const std::size_t size = dice.below(left.size() + 1);
        ndef::bytes part = left.part(0, size);
        octets memory(1 + dice.below(40));
        ndef::buffer buffer(memory);
        const auto made = writer->next(part, buffer);
        if (!made) return made.error();
        all.insert(all.end(), made->begin(), made->end());
        left = left.from(size - part.size());
        if (writer->left() != left.size()) return ndef::error{};
    }
    return all;
}

static void random_messages(int count) {
    dice dice(0x9E3779B97F4A7C15);
    int wrong = 0;
    for (int number = 0; number < count; number++) {
        const drawn of(dice);
        ndef::buffer buffer(space);
        const auto whole = ndef::write_message(buffer, of.records, ndef::unchecked);
        ndef::message_writer<std::vector<ndef::new_record>> writer(of.records, ndef::unchecked);
        const auto steps = in_steps(writer, dice, dice.one_of<std::size_t>({1, 2, 5, 40, 1000}));
        octets joined_parts;
        for (const auto &one : of.records) {
            const bool begins = &one == &of.records.front(), ends = &one == &of.records.back();
            const auto where = static_cast<ndef::position>((begins ? NDEF_WRITE_FIRST : 0) | (ends ? NDEF_WRITE_LAST : 0));
            const auto made = in_parts(one, where, dice);
            if (made) joined_parts = joined(joined_parts, *made);
        }
        const bool is_same = whole && steps && ndef::bytes(*steps) == whole->octets() && ndef::bytes(joined_parts) == whole->octets();
        // Checked, it ends with the error of write_message, or with none.
        ndef::buffer other(space);
        const auto checked = ndef::write_message(other, of.records);
        ndef::message_writer<std::vector<ndef::new_record>> careful(of.records);
        const auto got = in_steps(careful, dice, 20);
        const bool agrees = checked ? bool(got) : !got && got.error().what == NDEF_REFUSED && got.error().record == checked.error().record
            && got.error().place == checked.error().place && got.error().why == checked.error().why;
        wrong += !is_same || !agrees;
    }
    std::printf("%d random messages\n", count);
    test("random messages are those that are written at once", wrong == 0);
}

/// What the first call that fails says, and whether the next one says the same.
template <class Records> ndef::error first_error(const Records &records, const ndef::checking &how = {}) {
    ndef::message_writer<Records> writer(records, how);
    for (;;) {
        std::uint8_t memory[4];
        ndef::buffer buffer(memory), again(memory);
        const auto made = writer.next(buffer);
        if (made && made->empty()) return {NDEF_OK};
        if (made) continue;
        const auto same = writer.next(again);
        const bool is_same = !same && same.error().what == made.error().what && same.error().place == made.error().place && buffer.size() == 4;
        return is_same ? made.error() : ndef::error{NDEF_MORE};
    }
}

template <class Records> static void errors_of_messages() {
    const auto first = ndef::media("a/b", {}, "i");
    const Records refused{first, ndef::well_known("T", "\x42""en"sv)};
    auto why = first_error(refused);
    test("a refusal", why.what == NDEF_REFUSED && why.record == 1 && why.place == 4 && why.why == NDEF_REASON_TEXT_BIT);
    test("unchecked", first_error(refused, ndef::unchecked).what == NDEF_OK);
    why = first_error(Records{first, ndef::media("", {})});
    test("no type", why.what == NDEF_BAD_ARGUMENT && why.record == 1 && why.which == ndef::argument::type);
    why = first_error(Records());
    test("no records", why.what == NDEF_BAD_ARGUMENT && why.which == ndef::argument::records && !why.record);
    ndef::limits limits;
    limits.records = 1;
    why = first_error(Records{first, first}, limits);
    test("too many records", why.why == NDEF_REASON_TOO_MANY_RECORDS && why.record == 0 && why.place == 0);
    limits.records = 0;
    why = first_error(Records{first}, limits);
    test("limits out of range", why.what == NDEF_BAD_ARGUMENT && why.which == ndef::argument::limits && !why.record);
    test("a writer of a temporary doesn't compile", !std::is_constructible_v<ndef::message_writer<Records>, Records>);
}

static void payloads_of_another_length() {
    const ndef::new_record head{NDEF_TNF_UNKNOWN};
    auto writer = *ndef::record_writer::begin(head, 3);
    std::uint8_t memory[9];
    ndef::buffer buffer(memory);
    ndef::bytes none, two("ab"sv), rest("cd"sv), last("c"sv);
    test("the head", *writer.next(none, buffer) == ndef::bytes("\xD5\0\3"sv) && writer.left() == 3 && !writer.is_whole());
    test("two bytes", *writer.next(two, buffer) == ndef::bytes("ab"sv) && two.empty() && writer.left() == 1);
    const auto many = writer.next(rest, buffer);
    test("more bytes than are left", !many && many.error().what == NDEF_BAD_ARGUMENT && rest.size() == 2 && writer.left() == 1 && buffer.size() == 4);
    test("none are given", writer.next(none, buffer)->empty() && !writer.is_whole());
    test("the last one", *writer.next(last, buffer) == ndef::bytes("c"sv) && writer.is_whole());
    test("no more follow", writer.next(none, buffer)->empty() && writer.next(rest, buffer).error().what == NDEF_BAD_ARGUMENT);
}

static void arguments_of_records() {
    static const std::string many(256, 'x');
    struct { const char *name; ndef::new_record one; ndef_size size; ndef::argument which; } const rows[] = {
        {"no type", {NDEF_TNF_MEDIA}, 1, ndef::argument::type},
        {"an id of 256 bytes", {NDEF_TNF_UNKNOWN, "", {}, many}, 1, ndef::argument::id},
        {"a payload of an empty record", {}, 1, ndef::argument::payload},
        {"a payload of 4 GiB", {NDEF_TNF_UNKNOWN, "", "x"sv}, ndef_size{1} << 32, ndef::argument::payload}};
    for (const auto &row : rows) {
        const auto begun = ndef::record_writer::begin(row.one, row.size);
        test(row.name, !begun && begun.error().what == NDEF_BAD_ARGUMENT && begun.error().which == row.which);
    }
    test("a payload of 4 GiB less 1", bool(ndef::record_writer::begin({NDEF_TNF_UNKNOWN}, (ndef_size{1} << 32) - 1)));
}

int main(int, char **words) {
    errors_of_messages<std::vector<ndef::new_record>>();
    errors_of_messages<std::list<ndef::new_record>>();
    payloads_of_another_length();
    arguments_of_records();
    random_messages(std::atoi(words[1]));
    std::printf("%d passed, %d failed\n", passed, failed);
    return failed != 0;
}
