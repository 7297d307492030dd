// What ndef.hpp has of its own: results, views of bytes, buffers, iterators, copies, defaults, large inputs, threads, and
// memory that the caller changes afterwards. Expected bytes are those of the standards. Prints what differs.
#include "ndef.h"

#include <cstddef>
#include <cstdint>

/// How often a record was asked for.
static std::size_t asked;
static std::uint32_t counted_record_at(const std::uint8_t *octets, ndef_size length, ndef_size at, ndef_record *out) {
    asked++;
    return ndef_record_at(octets, length, at, out);
}
#define ndef_record_at counted_record_at
#include "look.hpp"
#include "random.hpp"
#undef ndef_record_at

#include <array>
#include <cstring>
#include <memory>
#include <thread>

static std::uint8_t memory[1 << 21];

/// Whether a range gives these values, however it is walked: by a loop, by both ways to step, from copies, and twice.
template <class Range, class Key>
static void walk(const Range &range, const std::vector<std::string> &wanted, Key key) {
    std::vector<std::string> got, by_steps, by_copies;
    for (const auto &one : range) got.push_back(key(one));
    LOOK(got == wanted);
    auto before = range.begin();
    for (auto at = range.begin(); at != range.end(); ++at) {
        by_steps.push_back(key(*at));
        LOOK(key(*at.operator->()) == by_steps.back() && at == at && !(at != at) && at != range.end() &&
             !(at == range.end()));
        auto copy = at;
        const auto same = copy++;
        by_copies.push_back(key(*same));
        LOOK(same == at && copy != at && (copy == range.end()) == (by_copies.size() == wanted.size()));
        before = at;
    }
    LOOK(by_steps == wanted && by_copies == wanted &&
         std::distance(range.begin(), range.end()) == static_cast<std::ptrdiff_t>(wanted.size()));
    LOOK(wanted.empty() || key(*before) == wanted.back());
    LOOK((range.begin() == range.end()) == wanted.empty() && range.begin() == range.begin() &&
         range.end() == range.end());
    LOOK(wanted.size() < 2 || std::next(range.begin()) != range.begin());
    LOOK(&++(before = range.begin(), before) == &before || wanted.empty());
}

/// A walk asks for each record once, and for none after the last. A message that is checked has the number of its records.
static void records_asked_for() {
    for (std::size_t count = 1; count < 40; count++) {
        std::string octets;
        for (std::size_t at = 0; at < count; at++) {
            octets.push_back(static_cast<char>((at == 0 ? 0x80 : 0) | (at + 1 == count ? 0x40 : 0) | 0x15));
            octets.append({0, 1, 'x'});
        }
        asked = 0;
        LOOK(ndef::message::check(octets)->size() == count && asked == 0);
        LOOK(ndef::message::unchecked(octets).size() == count && asked == count);
    }
}

static const auto letters = [](const ndef::record &one) { return one.payload_string(); };

/// Three records, the second in chunks: NDEF 1.0, 3.2.
static const octets three = {0x92, 3,   1,    'a', '/', 'b', 'x',  0x32, 3, 1,   'a', '/',
                             'b',  'y', 0x16, 0,   1,   'z', 0x52, 3,    0, 'a', '/', 'b'};

static void ranges() {
    const auto message = *ndef::message::check(three);
    walk(message, {"x", "yz", ""}, letters);
    walk(ndef::message(), {}, letters);
    const octets poster = {0x91, 1,   2,   'U', 0,   'a', 0x11, 1,    4,    'T', 2,   'e', 'n', 'A', 0x12, 7,    1, 'i',
                           'm',  'a', 'g', 'e', '/', 'a', '1',  0x11, 1,    4,   'T', 2,   'e', 'n', 'B',  0x12, 7, 1,
                           'v',  'i', 'd', 'e', 'o', '/', 'b',  '2',  0x51, 1,   4,   'T', 2,   'd', 'e',  'C'};
    const auto read = *ndef::poster::read(poster);
    walk(read.titles(), {"A", "B", "C"}, [](const ndef::text &one) { return one.str(); });
    walk(read.icons(), {"image/a1", "video/b2"},
         [](const ndef::icon &one) { return std::string(one.media_type) + std::string(one.data.text()); });
    walk(ndef::views<ndef::uri>(read.records()), {"a"}, [](const ndef::uri &one) { return one.str(); });
    walk(ndef::views<ndef::text>(), {}, [](const ndef::text &one) { return one.str(); });
    walk(ndef::icons(), {}, [](const ndef::icon &) { return std::string(); });
    const auto type_of = [](const ndef::icon &one) { return std::string(one.media_type) + std::string(one.data.text()); };
    walk(ndef::icons(message), {"a/bx", "a/b"}, type_of);
    LOOK(read.title("en")->str() == "A" && read.title("EN")->str() == "A" && read.title("De")->str() == "C" &&
         read.title("fr").error().what == NDEF_END);
    const octets empty = {0xd1, 1, 3, 'T', 2, 'e', 'n'};
    const auto name = [](const ndef::field &one) {
        return std::to_string(one.at) + std::string(ndef::to_string(one.name));
    };
    const std::vector<std::string> wanted = {"0header", "1TYPE_LENGTH", "2PAYLOAD_LENGTH",
                                             "3TYPE",   "4status",      "5language code"};
    static ndef_field array[6];
    walk(ndef::fields(empty), wanted, name);
    walk(*ndef::fields::in(array, 6, empty), wanted, name);
    walk(ndef::fields(), {}, name);
    LOOK(ndef::fields().after().what == NDEF_END && ndef::fields().size() == 0 && !ndef::fields().at(0));
}

/// A request whose first carrier refers to the second record, whose second to none, and whose third to that record
/// again.
static const octets linked = {0x91, 2,   35, 'H', 'r', 0x12, 0x91, 2, 2,   'c', 'r', 0x12, 0x34, 0x11, 2,    4, 'a',
                              'c',  1,   1,  '0', 0,   0x11, 2,    4, 'a', 'c', 3,   1,    '1',  0,    0x51, 2, 4,
                              'a',  'c', 0,  1,   '0', 0,    0x5a, 3, 1,   1,   'a', '/',  'b',  '0',  9};

static void copies() {
    const auto message = *ndef::message::check(linked);
    const auto request = *message.begin()->as<ndef::request>();
    const auto key = [](const ndef::link &one) {
        return std::to_string(static_cast<unsigned>(one.alternative.power())) +
               (one.record ? std::to_string(one.record->place()) : "none");
    };
    const std::vector<std::string> wanted = {"140", "3none", "040"};
    static ndef_link array[3];
    ndef::links made = request.links(message), copied = made;
    walk(made, wanted, key);
    walk(copied, wanted, key);
    const ndef::links moved = std::move(made);
    walk(moved, wanted, key);
    copied = ndef::links();
    walk(copied, {}, key);
    walk(*request.links(array, 3, message), wanted, key);
    LOOK(request.links(array, 2, message).error().needed == 3 &&
         request.links(array, 0, message).error().what == NDEF_BUFFER_TOO_SMALL);
    LOOK(request.links(message).size() == 3 && request.carrier_count() == 3 && request.records().record_count() == 4);
    const ndef::links both = request.links(message);
    LOOK(std::next(both.begin())->record_index == 0 && both.begin()->record_index == 1);
    LOOK(ndef::links::in(array, 3, message, ndef::bytes()).error().what == NDEF_BAD_ARGUMENT);
    // A copy holds after what it was made of is gone and its memory is used again; so does what was moved.
    auto source = std::make_unique<ndef::links>(request.links(message));
    const ndef::links kept = *source;
    source.reset();
    const std::vector<ndef_link> used(3);
    walk(kept, wanted, key);
    auto left = std::make_unique<ndef::links>(request.links(message));
    const ndef::links taken_over = std::move(*left);
    left.reset();
    walk(taken_over, wanted, key);
    auto fields = std::make_unique<ndef::fields>(linked);
    const ndef::fields again = *fields, taken = std::move(*fields);
    fields.reset();
    LOOK(again.size() == taken.size() && again.at(4)->at == 3 && taken.at(4)->at == 3 &&
         taken.begin()->name == NDEF_FIELD_HEADER);
    ndef::record one = *message.begin(), other;
    other = one;
    LOOK(other.place() == 0 && other.type() == "Hr" && other.as<ndef::request>()->collision() == 0x1234 &&
         ndef::record().type().empty());
}

struct counted {
    explicit counted(int number) : value(std::make_unique<int>(number)) {}
    std::unique_ptr<int> value;
};

static void results() {
    using number = ndef::result<int>;
    number good = 3;
    const number bad = ndef::error{NDEF_BUFFER_TOO_SMALL, {}, 0, 7};
    LOOK(good && good.has_value() && *good == 3 && good.value_or(9) == 3 && !bad && !bad.has_value() &&
         bad.value_or(9) == 9);
    *good = 5;
    LOOK(*good == 5 && good.transform([](int value) { return value + 0.5; }).value_or(0) == 5.5);
    LOOK(bad.error().what == NDEF_BUFFER_TOO_SMALL && bad.error().needed == 7);
    LOOK(!good.and_then([](int) { return number(ndef::error{}); }) &&
         good.and_then([](int value) { return number(value * 2); }).value_or(0) == 10);
    ndef::result<counted> held = counted(4);
    LOOK(*held->value == 4 && *std::move(*held).value == 4);
    const ndef::error none;
    LOOK(none.what == NDEF_BAD_ARGUMENT && none.why == 0 && none.place == 0 && none.needed == 0 &&
         none.sentence().empty());
    const octets reserved{0xd7};
    LOOK(ndef::message::check(reserved).error().sentence() == "The type name format 7 is reserved.");
    LOOK(good.value() == 5 && (good.value() = 6) == 6 && number(7).value() == 7);
#ifdef __cpp_exceptions
    bool is_thrown = false;
    try {
        bad.value();
    } catch (const ndef::bad_result_access &why) {
        is_thrown = why.error().needed == 7 && std::string(why.what()) == "an ndef::result has no value";
    }
    LOOK(is_thrown);
#endif
    const auto fewer = [](ndef::error why) { why.needed--; return why; };
    LOOK(good.transform_error(fewer) == good && bad.transform_error(fewer).error().needed == 6 && number(bad).transform_error(fewer) != bad);
    LOOK(number(7).transform_error(fewer) == number(7));
    const auto differs = [](auto change) { ndef::error one; change(one); return one != ndef::error{}; };
    LOOK(differs([](ndef::error &one) { one.what = NDEF_END; }) && differs([](ndef::error &one) { one.why = NDEF_REASON_UTF8; }) &&
         differs([](ndef::error &one) { one.place = 1; }) && differs([](ndef::error &one) { one.needed = 1; }) &&
         differs([](ndef::error &one) { one.record = 1; }) && differs([](ndef::error &one) { one.which = ndef::argument::format; }));
    LOOK(good == number(6) && good != number(7) && good != bad && bad == number(bad) && bad != number(ndef::error{}));
    const ndef::result<std::string> text = std::string("kept");
    LOOK(text->size() == 4 && *text == "kept");
}

static void views_of_bytes() {
    std::array<std::uint8_t, 3> numbers = {1, 2, 3};
    const std::array<std::byte, 2> raw = {std::byte{1}, std::byte{2}};
    const std::uint8_t plain[] = {1, 2, 3, 4};
    const std::string text = "abc";
    LOOK(ndef::bytes(numbers).size() == 3 && ndef::bytes(numbers).data() == numbers.data() &&
         ndef::bytes(raw).size() == 2 && ndef::bytes(plain).size() == 4);
    const ndef::bytes all(plain, 4);
    LOOK(all[0] == 1 && all[3] == 4 && !all.empty() && ndef::bytes().empty() && ndef::bytes().data() == nullptr &&
         all.end() - all.begin() == 4);
    LOOK(all.part(1, 2).data() == plain + 1 && all.part(1, 2).size() == 2 && all.part(4, 1).empty() &&
         all.part(5, 0).empty() && all.part(4, 0).data() == plain + 4);
    LOOK(all.part(0, 4).size() == 4 && all.part(0, 5).size() == 4 && all.part(3, ~ndef_size{0}).size() == 1 &&
         all.from(4).empty() && all.from(2)[0] == 3);
    LOOK(ndef::bytes(text).text() == "abc" && ndef::bytes(text) == ndef::bytes(std::string("abc")) &&
         ndef::bytes(text) != ndef::bytes(std::string("abd")));
    LOOK(!(ndef::bytes(text) != ndef::bytes(text)) && !(ndef::bytes(text) == ndef::bytes(std::string("ab"))));
    ndef::buffer buffer(numbers), none;
    LOOK(buffer.data() == numbers.data() && buffer.size() == 3 && none.size() == 0 && none.data() == nullptr &&
         none.take(4).empty());
    LOOK(buffer.take(0).empty() && buffer.size() == 3 && buffer.take(1).data() == numbers.data() &&
         buffer.data() == numbers.data() + 1 && buffer.size() == 2);
    LOOK(buffer.take(2).size() == 2 && buffer.size() == 0 && buffer.take(1).empty());
    ndef::buffer again(memory, 4), larger(memory, 12);
    LOOK(ndef::write_text(again, "en", "Hi").error().needed == 5 && again.size() == 4 && again.data() == memory);
    LOOK(ndef::write_text(larger, "en", "Hi")->data() == memory && larger.data() == memory + 5 &&
         ndef::write_uri(larger, "tel:1")->data() == memory + 5);
}

/// What is left out: no titles and no icons of a poster, no id, no chunks, the strict profile and UTF-8.
static void defaults() {
    ndef::buffer buffer(memory);
    const ndef_poster_writing how = {{0, 1}, {}, 0, 0, 0, 0, 0};
    const auto poster = ndef::write_poster(buffer, std::string_view("a"), how);
    LOOK(poster && hex(*poster) == "D10102550061");
    LOOK(hex(*ndef::write_text(buffer, "en", "A")) == "02656E41" &&
         hex(*ndef::write_text(buffer, "en", "A", ndef::encoding::utf16)) == "82656EFEFF0041");
    const auto type = std::string_view("x");
    LOOK(hex(ndef::write_message(buffer, {ndef::well_known(type, type)})->octets()) == "D101017878");
    LOOK(hex(ndef::write_message(buffer, {ndef::media(type, type)})->octets()) == "D201017878");
    LOOK(hex(ndef::write_message(buffer, {ndef::external(type, type, "i")})->octets()) == "DC010101786978");
    LOOK(hex(ndef::write_message(buffer, {ndef::new_record()})->octets()) == "D00000");
    const octets reserved = {0xd1, 1, 2, 'U', 0x24, 'a'};
    LOOK(ndef::message::check(reserved).error().why == NDEF_REASON_URI_CODE &&
         !ndef::uri::read(ndef::bytes(reserved).from(4)));
    ndef::limits limits;
    LOOK(limits.payload == 1048576 && limits.records == 1024 && limits.chunks == 4096 && limits.flags == 0);
    limits.flags = NDEF_STANDARD;
    const auto message = *ndef::message::check(reserved, limits);
    LOOK(!message.begin()->as<ndef::uri>() && message.begin()->as<ndef::uri>(ndef::profile::standard)->str() == "a");
    LOOK(static_cast<int>(ndef::action::do_it) == 0 && static_cast<int>(ndef::action::save) == 1 &&
         static_cast<int>(ndef::action::open) == 2);
    LOOK(static_cast<int>(ndef::power::inactive) == 0 && static_cast<int>(ndef::power::active) == 1);
    LOOK(static_cast<int>(ndef::power::activating) == 2 && static_cast<int>(ndef::power::unknown) == 3);
    const ndef::field field;
    LOOK(field.octets.empty() && field.at == 0 && field.depth == 0 && field.name == 0 && ndef::uri().code() == 0 &&
         ndef::text().str().empty());
    std::uint8_t few[6];
    ndef::builder builder{ndef::buffer(few)};
    LOOK(builder.made().octets().empty() && builder.add_uri("tel:1")->octets().size() == 6 &&
         builder.add_text("", "").error().needed == 11);
    LOOK(hex(builder.made().octets()) == "D101025505"
                                         "31" &&
         builder.add(ndef::new_record()).error().needed == 9);
}

/// Views show what the caller's memory holds now; strings, and what a buffer holds, stay.
static void aliasing() {
    octets bytes = {0xd1, 1, 8, 'T', 2, 'e', 'n', 'H', 'e', 'l', 'l', 'o'};
    const auto text = *ndef::message::check(bytes)->begin()->as<ndef::text>();
    const std::string kept = text.str();
    ndef::buffer buffer(memory);
    const auto written = ndef::write_text(buffer, "en", text.utf8(buffer).value_or(""));
    bytes[7] = 'J';
    LOOK(text.str() == "Jello" && kept == "Hello" && written->text() == std::string_view("\2enHello"));
    std::string type = "a/b", payload = "x";
    ndef::builder builder{ndef::buffer(memory)};
    const auto made = builder.add(ndef::media(type, payload));
    type[0] = payload[0] = '?';
    LOOK(hex(made->octets()) == "D20301612F6278");
}

/// A message of 1 MB of payload, read, checked in parts, and written; and one of 1024 records.
static void large() {
    const std::string payload(1048576 - 3, 'a');
    static std::uint8_t memory_of_2_mb[1 << 21];
    ndef::buffer buffer(memory_of_2_mb);
    const auto text = ndef::write_text(buffer, "en", payload);
    const auto message =
        ndef::write_message(buffer, {{NDEF_TNF_WELL_KNOWN, "T", *text, "", 65536, false}, ndef::new_record()})
            .value_or(ndef::message());
    LOOK(message.octets().size() == 0);
    static std::uint8_t memory_of_3_mb[3 << 20];
    ndef::buffer larger(memory_of_3_mb);
    const auto whole =
        *ndef::write_message(larger, {{NDEF_TNF_WELL_KNOWN, "T", *text, "", 65536, false}, ndef::new_record()});
    LOOK(whole.begin()->chunks() == 16 && whole.begin()->payload_size() == 1048576 && whole.record_count() == 2);
    LOOK(ndef::message::check(whole.octets())->octets() == whole.octets() &&
         whole.begin()->payload_string() == text->text());
    LOOK(whole.begin()->as<ndef::text>(larger)->str() == payload && whole.begin()->payload().error().needed == 1048576);
    ndef::checker checker;
    for (ndef_size at = 0; at < whole.octets().size(); at += 999) {
        const auto fed = checker.feed(whole.octets().part(at, 999));
        LOOK(fed && fed->has_value() == (at + 999 >= whole.octets().size()));
    }
    octets wrong(whole.octets().begin(), whole.octets().end());
    wrong[wrong.size() - 2] = 1;
    LOOK(ndef::message::check(wrong).error().place == wrong.size() - 2 &&
         ndef::message::check(wrong).error().why == NDEF_REASON_EMPTY_NOT_EMPTY);
    LOOK(ndef::message::check(whole.octets().part(0, 1048000)).error().place == 1048000);
    const std::vector<ndef::new_record> records(1024, ndef::media("a/b", std::string_view("x")));
    ndef::buffer other(memory);
    const auto many = ndef::write_message(other, records);
    LOOK(many && many->record_count() == 1024 && ndef::message::check(many->octets()) &&
         ndef::fields(many->octets()).size() == 5 * 1024);
}

/// Eight threads read and write at once.
static void threads() {
    std::array<bool, 8> held = {};
    std::vector<std::thread> all;
    for (std::size_t index = 0; index < held.size(); index++)
        all.emplace_back([&held, index] {
            std::vector<std::uint8_t> own(64);
            bool holds = true;
            for (int round = 0; round < 2000; round++) {
                ndef::builder builder{ndef::buffer(own)};
                const std::string text(index + 1, static_cast<char>('a' + index));
                const auto made = builder.add_text("en", text);
                holds = holds && made && ndef::message::check(made->octets())->begin()->as<ndef::text>()->str() == text;
            }
            held[index] = holds;
        });
    for (auto &one : all) one.join();
    for (const bool holds : held) LOOK(holds);
}

/// What a program asks of a result that it holds no longer, of an array of its own, of a text in UTF-16, and of the long form.
static void asked_one_by_one() {
    using number = ndef::result<int>;
    const auto twice = [](int value) { return number(2 * value); };
    const auto plus = [](int value) { return value + 1; };
    ndef::error whole;
    whole.what = NDEF_REFUSED, whole.why = NDEF_REASON_UTF8, whole.place = 1, whole.needed = 2, whole.record = 3, whole.which = ndef::argument::format;
    const number bad = whole;
    LOOK(number(whole).and_then(twice).error() == whole && bad.and_then(twice).error() == whole && *number(3).and_then(twice) == 6);
    LOOK(number(whole).transform(plus).error() == whole && bad.transform(plus).error() == whole && *number(3).transform(plus) == 4);
    const std::string hello("\xd1\x01\x08T\x02" "enHello", 12), wide("\x82" "en\xfe\xff\0H", 7);
    ndef_field array[16];
    ndef_limits wrong = ndef::limits();
    wrong.flags = ~0u;
    LOOK(ndef::fields::in(array, 1, hello).error().what == NDEF_BUFFER_TOO_SMALL && ndef::fields::in(array, 1, hello).error().needed == 7);
    LOOK(ndef::fields::in(array, 16, hello, wrong).error().what == NDEF_BAD_ARGUMENT);
    const auto fields = ndef::fields::in(array, 16, hello), none = ndef::fields::in(array, 16, ndef::bytes());
    LOOK(fields->size() == 7 && fields->at(11)->at == 7 && !fields->at(12) && !fields->at(~ndef_size{0}) && !none->at(0));
    std::uint8_t letters[8], written[32];
    ndef::buffer converted(letters), to(written);
    LOOK(*ndef::text::read(wide)->utf8(converted) == "H" && *ndef::text::read(ndef::bytes(hello).from(4))->utf8(converted) == "Hello");
    const auto again = ndef::normalize(to, *ndef::message::check(hello), true);
    LOOK(again->octets() == ndef::bytes(std::string("\xc1\x01\0\0\0\x08T\x02" "enHello", 15)));
    int calls = 0;
    const auto failing = [&](ndef::buffer &) -> ndef::result<ndef::bytes> {
        ndef::error why{};
        why.what = calls++ ? NDEF_BAD_ARGUMENT : NDEF_BUFFER_TOO_SMALL, why.needed = 1;
        return why;
    };
    LOOK(ndef::detail::in_memory(failing).error().what == NDEF_BAD_ARGUMENT);
    LOOK(ndef::links(*ndef::message::check(hello), ndef::bytes()).size() == 0);
    const std::string carrier("\x01\x01" "0\0", 4), select("\x12", 1);
    LOOK(ndef::alternative::read(carrier)->references().size() == 1 && ndef::links(*ndef::message::check(hello), select).size() == 0);
    ndef::found_hint found;
    // Release 1.0 has 14 kinds, so that its type has no number above 15.
    for (unsigned kind = 1; kind <= (ndef_version() < 0x010100 ? 15U : 18U); kind++) {
        found.kind = static_cast<ndef::hint_kind>(kind);
        found.size = kind % 2;
        LOOK(found.text().empty() == (kind == 18));
    }
}

int main() {
    for (const auto test : {records_asked_for, ranges, copies, results, views_of_bytes, asked_one_by_one, defaults, aliasing,
                            large, threads})
        test();
    std::cout << "comparisons " << compared << ", differ " << differ << '\n';
    return differ || !compared;
}
