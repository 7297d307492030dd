// What ndef.hpp has beside the reading of messages and values: records that are found, the calls that write parts of payloads, builders, results,
// bytes, buffers and names, each beside what the call of ndef.h gives. Prints what differs.
#include "look.hpp"

#include <array>
#include <cstring>
#if __cplusplus >= 202002L
#include <ranges>
#include <span>
static_assert(std::ranges::forward_range<ndef::message> && std::ranges::forward_range<ndef::links>);
static_assert(std::ranges::view<ndef::message> && std::ranges::borrowed_range<ndef::message>);
static_assert(std::ranges::sized_range<ndef::message> && std::ranges::sized_range<ndef::links> && std::ranges::sized_range<ndef::fields>);
static_assert(std::ranges::forward_range<ndef::fields>);
static_assert(std::ranges::forward_range<ndef::views<ndef::text>>);
static_assert(std::is_constructible_v<ndef::bytes, std::span<const std::byte>>);
static_assert(std::is_constructible_v<ndef::buffer, std::span<std::uint8_t> &>);
#endif

static_assert(std::is_convertible_v<std::vector<std::uint8_t>, ndef::bytes>);
static_assert(std::is_convertible_v<std::array<char, 4>, ndef::bytes>);
static_assert(std::is_convertible_v<std::string, ndef::bytes> && std::is_convertible_v<std::string_view, ndef::bytes>);
static_assert(std::is_constructible_v<ndef::bytes, const std::uint8_t (&)[4]>);
static_assert(!std::is_constructible_v<ndef::bytes, const char (&)[4]>);
static_assert(!std::is_constructible_v<ndef::bytes, std::vector<int>>);
static_assert(!std::is_constructible_v<ndef::buffer, const std::vector<std::uint8_t> &>);
static_assert(ndef::to_string(NDEF_REASON_VERSION) == "Version" && ndef::to_string(NDEF_BAD_ARGUMENT) == "BadArgument");
static_assert(ndef::to_string(static_cast<ndef::reason>(26)).empty());
static_assert(ndef::to_string(NDEF_FIELD_CARRIER_DATA) == "carrier data");
static constexpr std::uint8_t two[] = {1, 2};
static_assert(ndef::bytes(two, 2).from(1).size() == 1 && ndef::bytes(two, 2).from(3).empty());
static_assert(ndef::bytes(two, 2).part(1, 9).size() == 1 && ndef::bytes(two, 2).part(~0ull, 1).empty());

static std::uint8_t first_buffer[1 << 16], second_buffer[1 << 16];
template <class Result> static bool is_answer(const Result &got, std::uint32_t answer, const ndef_checked &why) {
    if (got) return answer == NDEF_OK;
    const ndef::error &error = got.error();
    const bool refused = answer == NDEF_REFUSED;
    return error.what == static_cast<ndef::status>(answer) &&
           error.why == (refused ? static_cast<int>(why.reason) : 0) && error.place == (refused ? why.place : 0) &&
           error.needed == 0;
}

/// Whether bytes that C++ wrote are those that a call writes: call(buffer, size, count).
template <class Call> static bool is_written(const ndef::result<ndef::bytes> &got, Call call) {
    ndef_size count = 0;
    const std::uint32_t answer = call(second_buffer, ndef_size{sizeof second_buffer}, &count);
    if (!got) return got.error().what == static_cast<ndef::status>(answer);
    return answer == NDEF_OK && *got == ndef::bytes(second_buffer, static_cast<std::size_t>(count));
}

static bool is_found(const ndef::result<ndef::record> &got, std::uint32_t answer, const ndef_record &c) {
    return got ? answer == NDEF_OK && got->place() == c.at && got->parts().end == c.end &&
                      got->parts().type_at == c.type_at
                : is_answer(got, answer, {});
}

/// What finds records, by their id and by their type, and at places.
static void finds() {
    static const auto input = from_hex("91010454 02656E41 1A0A0102 746578742F706C61696E 3132 61 51010154 00");
    const ndef::bytes whole(input);
    const ndef::message message = ndef::message::unchecked(whole);
    ndef_record c = {};
    for (const std::string_view id : {"0", "12", ""}) {
        const std::uint32_t answer = ndef_find_id(whole.data(), whole.size(), 0, ndef::bytes(id).data(), id.size(), &c);
        LOOK(is_found(message.find_id(id), answer, c));
    }
    for (const std::string_view type : {"T", "text/plain", ""})
        for (const ndef::tnf format : {NDEF_TNF_EMPTY, NDEF_TNF_WELL_KNOWN, NDEF_TNF_MEDIA}) {
            const std::uint32_t answer =
                ndef_find_type(whole.data(), whole.size(), 0, static_cast<std::uint32_t>(format),
                               ndef::bytes(type).data(), type.size(), &c);
            LOOK(is_found(message.find(format, type), answer, c));
            if (format == NDEF_TNF_WELL_KNOWN) LOOK(is_found(message.find(type), answer, c));
        }
    for (const std::size_t place : {std::size_t{0}, std::size_t{1}, whole.size() / 2, whole.size(), whole.size() + 1}) {
        const std::uint32_t answer = ndef_record_at(whole.data(), whole.size(), place, &c);
        LOOK(is_found(ndef::record::at(whole, place), answer, c));
    }
}

/// The calls that write parts of payloads.
static void writers() {
    const ndef::bytes data = std::string_view("data"), parts_of = std::string_view("referenceaux");
    const ndef_part parts[] = {{0, 9}, {9, 3}};
    for (std::uint32_t number :
         {0u, 1u, 2u, 3u, 4u, 7u, 8u, 15u, 16u, 255u, 256u, 1000u, 65535u, 65536u, 0x12345678u, 0xffffffffu}) {
        ndef::buffer buffer(first_buffer);
        LOOK(is_written(ndef::write_action(buffer, static_cast<ndef::action>(number)),
                        [=](auto... to) { return ndef_write_action(number, to...); }));
        LOOK(is_written(ndef::write_size(buffer, number), [=](auto... to) { return ndef_write_size(number, to...); }));
        LOOK(is_written(ndef::write_collision(buffer, number),
                        [=](auto... to) { return ndef_write_collision(number, to...); }));
        LOOK(is_written(ndef::write_error(buffer, number, data),
                        [=](auto... to) { return ndef_write_error(number, data.data(), 4, to...); }));
        LOOK(is_written(ndef::write_error_number(buffer, number, 7),
                        [=](auto... to) { return ndef_write_error_number(number, 7, to...); }));
        LOOK(is_written(ndef::write_error_number(buffer, 2, number),
                        [=](auto... to) { return ndef_write_error_number(2, number, to...); }));
        LOOK(is_written(ndef::write_carrier(buffer, number, "a/b", data), [=](auto... to) {
            return ndef_write_carrier(number, ndef::bytes(std::string_view("a/b")).data(), 3, data.data(), 4, to...);
        }));
        LOOK(is_written(ndef::write_alternative(buffer, static_cast<ndef::power>(number), parts_of, parts, 2),
                        [&](auto... to) {
                            return ndef_write_alternative(number, parts_of.data(), parts_of.size(), parts, 2, to...);
                        }));
        for (ndef::handover which : {ndef::handover::request, ndef::handover::select})
            LOOK(is_written(ndef::write_handover(buffer, which, 1, number, ndef::bytes()), [=](auto... to) {
                return ndef_write_handover(static_cast<std::uint32_t>(which), 1, number, nullptr, 0, to...);
            }));
        LOOK(is_written(ndef::write_handover(buffer, ndef::handover::select, number, 2, ndef::bytes()),
                        [=](auto... to) { return ndef_write_handover(NDEF_SELECT, number, 2, nullptr, 0, to...); }));
    }
    const ndef_poster_writing poster = {{0, 9}, {9, 3}, 1, 1, 200, 1, 0x12345678};
    const ndef_title_writing titles[] = {{{9, 2}, {0, 4}, 0}, {{9, 3}, {0, 9}, 1}};
    const ndef_icon_writing icons[] = {{{0, 9}, {9, 3}}, {{9, 3}, {0, 0}}};
    for (std::size_t count : {0u, 1u, 2u}) {
        ndef::buffer buffer(first_buffer);
        LOOK(is_written(ndef::write_poster(buffer, parts_of, poster, titles, count, icons, 2 - count), [&](auto... to) {
            return ndef_write_poster(parts_of.data(), parts_of.size(), &poster, titles, count, icons, 2 - count, to...);
        }));
    }
}

/// The records of the three usual formats and of a builder, with an id, in chunks and in the long form.
static void built() {
    const std::string_view data = "payload of some bytes", id = "id";
    for (std::uint32_t chunk : {0u, 4u})
        for (bool is_long : {false, true}) {
            ndef::buffer buffer(first_buffer);
            ndef::builder builder(buffer);
            auto one = ndef::external("a:b", data, id);
            one.chunk = chunk, one.is_long = is_long;
            const auto made = builder.add(one);
            const std::uint32_t form = is_long ? NDEF_WRITE_LONG : 0, ends = NDEF_WRITE_FIRST | NDEF_WRITE_LAST;
            const ndef_writing how = {NDEF_TNF_EXTERNAL, ends | form, chunk};
            const auto wanted = [&](auto... to) {
                return ndef_write_record(ndef::bytes(std::string_view("a:b")).data(), 3, ndef::bytes(id).data(), 2,
                                         ndef::bytes(data).data(), data.size(), &how, to...);
            };
            LOOK(made && is_written(made->octets(), wanted));
            static std::uint8_t other[256];
            ndef::buffer again(other);
            const auto written = ndef::write_message(again, {one});
            LOOK(written && is_written(written->octets(), wanted));
        }
    ndef::buffer buffer(first_buffer);
    ndef::builder builder(buffer);
    const auto uri = builder.add_uri("http://www.x", "u");
    LOOK(uri && uri->begin()->id() == "u" && uri->find_id("u")->as<ndef::uri>()->str() == "http://www.x");
    const auto both = builder.add_text("en", "Hi", ndef::encoding::utf16, "t");
    LOOK(both && both->record_count() == 2 && both->find_id("t")->as<ndef::text>()->is_utf16());
    const auto wide = both->find_id("t")->as<ndef::text>();
    LOOK(!wide->utf8() && wide->utf8().error().what == NDEF_BUFFER_TOO_SMALL && wide->utf8().error().needed == 2);
    const ndef::bytes plain(reinterpret_cast<const std::uint8_t *>("\2enHi"), 5);
    LOOK(ndef::text::read(plain)->utf8()->data() == plain.text().data() + 3 && *ndef::text::read(plain)->utf8() == "Hi");
    LOOK(both->find_id("t")->as<ndef::text>()->str() == "Hi" && builder.made().octets() == both->octets());
    LOOK(ndef::well_known("T", {}).format == NDEF_TNF_WELL_KNOWN && ndef::media("a/b", {}).format == NDEF_TNF_MEDIA);
    LOOK(ndef::external("a:b", {}).format == NDEF_TNF_EXTERNAL);
    const auto media = ndef::write_message(buffer, {ndef::media("T", std::string_view("\2enHi"))});
    LOOK(media && !media->begin()->as<ndef::text>() &&
         media->begin()->as<ndef::text>().error().what == NDEF_BAD_ARGUMENT);
}

/// Results, bytes, buffers and names.
static void basics() {
    using number = ndef::result<int>;
    const ndef::error why = {NDEF_REFUSED, NDEF_REASON_UTF8, 7, 0};
    const number good = 3, bad = why;
    const auto twice = [](int value) { return 2 * value; };
    const auto again = [](int value) { return number(value + 1); };
    LOOK(*good.transform(twice) == 6 && *good.and_then(again) == 4 && good.value_or(9) == 3 && bad.value_or(9) == 9);
    const std::string many(1000, 'x');
    const ndef::bytes all(many);
    LOOK(all == ndef::bytes(many) && all != all.part(0, 999) && all != ndef::bytes(std::string_view("x")) &&
         !(all == all.from(1)));
    LOOK(ndef::bytes(std::string_view("ab")) != ndef::bytes(std::string_view("ac")) &&
         ndef::bytes() == ndef::bytes(std::string_view("")));
    LOOK(all.from(999).size() == 1 && all.from(1000).empty() && all.from(1001).empty() && all.part(998, 5).size() == 2);
    ndef::buffer buffer(first_buffer, 5);
    LOOK(buffer.take(3).size() == 3 && buffer.size() == 2 && buffer.data() == first_buffer + 3 && buffer.take(9).size() == 2 &&
         buffer.size() == 0);
    char text[80];
    ndef_size count = 0;
    const auto named = [&](std::uint32_t answer) {
        return answer == NDEF_OK ? std::string(text, static_cast<std::size_t>(count)) : std::string();
    };
    std::uint8_t *memory = reinterpret_cast<std::uint8_t *>(text);
    for (std::uint32_t value = 0; value < 32; value++) {
        const auto status = static_cast<ndef::status>(value % 8);
        LOOK(ndef::to_string(status) == named(ndef_status_name(status, memory, sizeof text, &count)));
        LOOK(ndef::to_string(static_cast<ndef::reason>(value)) ==
             named(ndef_reason_name(value, memory, sizeof text, &count)));
        LOOK(ndef::sentence(static_cast<ndef::reason>(value)) ==
             named(ndef_reason_sentence(value, memory, sizeof text, &count)));
        LOOK(ndef::error{NDEF_REFUSED, static_cast<ndef::reason>(value), 0, 0}.sentence() ==
             ndef::sentence(static_cast<ndef::reason>(value)));
        LOOK(ndef::to_string(static_cast<ndef::field_name>(value)) ==
             named(ndef_field_name(value, memory, sizeof text, &count)));
    }
}
int main() {
    finds();
    writers();
    built();
    basics();
    std::cout << "comparisons " << compared << ", differ " << differ << '\n';
    return differ || compared < 300;
}
