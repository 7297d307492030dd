/// ndef_messages.hpp: messages, their records, why bytes are refused and what is strange in them, and checks of bytes that
/// arrive in parts. Include ndef.hpp.
#ifndef NDEF_MESSAGES_HPP
#define NDEF_MESSAGES_HPP

#include "ndef_answers.hpp"

#if __cplusplus >= 202002L && __has_include(<ranges>)
#include <ranges>
#endif

namespace ndef {

// ---- messages

/// What becomes of the type name format 7 and of URI codes above 0x23, which are reserved: they are refused, though the
/// standards ask a reader to accept them, or read as the standards say (NDEF_STANDARD). docs/FORMAT.md has each
/// difference.
enum class profile : std::uint32_t { strict = 0, standard = NDEF_STANDARD };

/// How large a message may be and how it is checked, as ndef_limits says; it begins with ndef_default_limits.
struct limits : ndef_limits {
    limits() noexcept { ndef_default_limits(this); }
};

/// What the payload of a record is: NDEF_KIND_OTHER, NDEF_KIND_TEXT, ...
using kind = ::ndef_kinds;

/// A record of a message: a view of the message's bytes.
class record {
public:
    record() noexcept = default;

    /// The record that begins at an offset of some bytes, as ndef_record_at gives it.
    static result<record> at(kept message NDEF_LIFETIMEBOUND, ndef_size place) noexcept {
        return from_call(ndef_record_at, message, place);
    }

    [[nodiscard]] ndef::tnf format() const noexcept { return static_cast<ndef::tnf>(raw.tnf); }
    [[nodiscard]] std::string_view type() const noexcept { return whole.part(raw.type_at, raw.type_length).text(); }
    [[nodiscard]] std::string_view id() const noexcept { return whole.part(raw.id_at, raw.id_length).text(); }

    /// Whether the record has a type of a format; without a format, one that the NFC Forum defines.
    [[nodiscard]] bool is(ndef::tnf wanted, std::string_view name) const noexcept { return format() == wanted && type() == name; }
    [[nodiscard]] bool is(std::string_view name) const noexcept { return is(NDEF_TNF_WELL_KNOWN, name); }

    /// What the payload is, as ndef_kind gives it. For a record of the message within a payload, say of which kind that is.
    [[nodiscard]] ndef::kind kind(ndef::kind within = NDEF_KIND_OTHER) const noexcept {
        return static_cast<ndef::kind>(ndef_kind(whole.data(), whole.size(), &raw, within));
    }

    /// The payload: in place if the record has one chunk, otherwise joined in the buffer.
    result<bytes> payload(buffer &joined) const noexcept {
        if (raw.chunks == 1) return whole.part(raw.payload_at, raw.payload_length);
        return detail::written(joined, [this](auto... words) { return join(words...); });
    }

    /// The payload in place. A record of several chunks has NDEF_BUFFER_TOO_SMALL, and the size of the buffer that joins them.
    result<bytes> payload() const noexcept {
        buffer none;
        return payload(none);
    }

    /// The payload as a string.
    [[nodiscard]] std::string payload_string() const {
        return detail::as_string([this](auto... words) { return join(words...); });
    }

    /// The payload read as a text, uri, poster, request, select or another view. NDEF_BAD_ARGUMENT if the record has
    /// another type. A record of several chunks needs a buffer for its joined payload.
    template <class View> result<View> as(buffer &joined, profile how = profile::strict) const noexcept {
        if (!is(View::type_name)) return error{};
        return payload(joined).and_then([how](bytes whole_payload) { return View::read(whole_payload, how); });
    }
    template <class View> result<View> as(profile how = profile::strict) const noexcept {
        buffer none;
        return as<View>(none, how);
    }

    [[nodiscard]] ndef_size payload_size() const noexcept { return raw.payload_length; }
    [[nodiscard]] ndef_size chunks() const noexcept { return raw.chunks; }
    [[nodiscard]] bool is_last() const noexcept { return raw.last != 0; }

    /// Where the record begins in the message, and where its parts lie.
    [[nodiscard]] ndef_size place() const noexcept { return raw.at; }
    [[nodiscard]] const ndef_record &parts() const noexcept { return raw; }

private:
    friend class message;
    /// The record that a call of ndef.h gives: call(message, length, words.., record).
    template <class Call, class... Words>
    static result<record> from_call(Call call, bytes message, Words... words) noexcept {
        record found;
        const std::uint32_t answer = call(message.data(), message.size(), words..., &found.raw);
        if (answer != NDEF_OK) return detail::failure(answer);
        found.whole = message;
        return found;
    }

    [[nodiscard]] std::uint32_t join(std::uint8_t *memory, ndef_size size, ndef_size *count, ndef_checked *) const noexcept {
        return ndef_payload(whole.data(), whole.size(), raw.at, memory, size, count);
    }

    bytes whole;
    ndef_record raw = {};
};

/// Bytes that are a message: a range of its records.
class message {
public:
    using iterator = detail::iterator_of<message, record>;

    /// A message of no bytes and no records.
    message() noexcept = default;

    /// The message with which the bytes begin. Other bytes may follow: `octets().size()` says where it ends.
    static result<message> check(kept input NDEF_LIFETIMEBOUND, const ndef_limits &within = limits()) noexcept {
        ndef_checked checked = {};
        const std::uint32_t answer = ndef_check(input.data(), input.size(), &within, &checked);
        if (answer != NDEF_OK) return detail::failure(answer, checked);
        return message(input.part(0, checked.place), checked.records);
    }

    /// The records with which the bytes begin, unchecked: they go on until one is the last, or no whole record follows.
    /// Use it for bytes that a checker has taken. It is safe for any bytes.
    static message unchecked(kept input NDEF_LIFETIMEBOUND) noexcept { return message(input); }

    [[nodiscard]] bytes octets() const noexcept { return whole; }
    [[nodiscard]] iterator begin() const noexcept { return iterator(*this); }
    [[nodiscard]] iterator end() const noexcept { return {}; }

    /// The number of records. Of a message that `check` made it is known; of another they are walked.
    [[nodiscard]] std::size_t record_count() const noexcept {
        return is_counted ? records : static_cast<std::size_t>(std::distance(begin(), end()));
    }
    [[nodiscard]] std::size_t size() const noexcept { return record_count(); }

    /// The first record with a type; without a format, one that the NFC Forum defines. NDEF_END if there is none.
    result<record> find(ndef::tnf format, std::string_view type) const noexcept {
        return record::from_call(ndef_find_type, whole, ndef_size{0}, static_cast<std::uint32_t>(format),
                               detail::octets(type.data()), type.size());
    }
    result<record> find(std::string_view type) const noexcept { return find(NDEF_TNF_WELL_KNOWN, type); }

    /// The first record with an id. No record has the empty id. NDEF_END if there is none.
    result<record> find_id(std::string_view id) const noexcept {
        return record::from_call(ndef_find_id, whole, ndef_size{0}, detail::octets(id.data()), id.size());
    }

private:
    friend iterator;
    template <class View> friend class views;
    friend class icons;
    explicit message(bytes input) noexcept : whole(input) {}
    message(bytes input, std::uint32_t count) noexcept : whole(input), records(count), is_counted(true) {}
    [[nodiscard]] bool look(ndef_size &place, record &found) const noexcept {
        if (ndef_record_at(whole.data(), whole.size(), place, &found.raw) != NDEF_OK) return false;
        found.whole = whole;
        place = found.raw.last ? detail::no_place : found.raw.end;
        return true;
    }

    bytes whole;
    std::uint32_t records = 0;
    bool is_counted = false;
};

} // namespace ndef

#if defined(__cpp_lib_ranges)
/// A message is copied at once, and its iterators hold what it holds.
template <> inline constexpr bool std::ranges::enable_view<ndef::message> = true;
template <> inline constexpr bool std::ranges::enable_borrowed_range<ndef::message> = true;
#endif

namespace ndef {

// ---- why bytes are refused

namespace detail {
/// The sentence that a call of ndef.h writes: call(given.., memory, size, count). None where it writes none.
template <class Call, class... Given> std::optional<std::string> said(Call call, const Given &...given) {
    std::string text = as_string([&](std::uint8_t *memory, ndef_size size, ndef_size *count, ndef_checked *) {
        return call(given..., memory, size, count);
    });
    if (text.empty()) return std::nullopt;
    return text;
}
} // namespace detail

/// What was wanted where bytes are refused, in a sentence of English, or what the reason means, as ndef_refusal_message writes it. None
/// where they begin with a message, where a limit is out of range, and where NDEF_OPAQUE or an unknown flag is set.
inline std::optional<std::string> why(bytes of, const ndef_limits &within = limits()) {
    return detail::said(ndef_refusal_message, of.data(), of.size(), &within);
}

/// A sentence that may help where bytes are refused, as ndef_hint writes it: it names commands. None also where nothing is
/// known to help. `find_hint` says the same to a program.
inline std::optional<std::string> hint(bytes of, const ndef_limits &within = limits()) {
    return detail::said(ndef_hint, of.data(), of.size(), &within);
}

// ---- what is strange in messages that are accepted

/// What is strange in the record with an index, counted from 0, of the message with which the bytes begin, beside its other
/// records, in a sentence of English, as ndef_record_warning writes it. None where nothing is known to be strange, where there is no such record or
/// no message, and where the message has more than 64 records.
inline std::optional<std::string> record_warning(bytes of, ndef_size index) {
    return detail::said(ndef_record_warning, of.data(), of.size(), index);
}

// ---- what may help, to a program

/// What a hint is about: NDEF_HINT_TLV, NDEF_HINT_ATTRIBUTES, ...
using hint_kind = ::ndef_hint_number;

/// What may help where bytes are refused, as ndef_find_hint says it by numbers.
struct found_hint {
    hint_kind kind{};
    ndef_size place = 0; ///< the offset at which a message may begin; 0 where the hint names none
    ndef_size size = 0;  ///< the number of bytes that a tag has for it; 0 where the hint names none

    /// The same in a sentence of English, which names what a program in C++ calls; "" for any other number.
    std::string text() const;
};

/// What may help where bytes are refused; none where `hint` has no sentence.
inline std::optional<found_hint> find_hint(bytes of, const ndef_limits &within = limits()) noexcept {
    ndef_found out = {};
    if (ndef_find_hint(of.data(), of.size(), &within, &out) != NDEF_OK) return std::nullopt;
    return found_hint{static_cast<hint_kind>(out.hint), out.at, out.length};
}

namespace detail {
/// The sentence for what a tag has for a message.
inline std::string in_tag(const found_hint &found, const char *around) {
    if (found.size == 0) return "This tag is empty: it has no bytes for a message.";
    const std::string at = std::to_string(found.place), size = std::to_string(found.size);
    return "A message of length " + size + " may begin at byte " + at + around + ": read `ndef::bytes(input).part(" +
           at + ", " + size + ")`.";
}

/// The sentence for a message at an offset.
inline std::string at_place(ndef_size place) {
    const std::string at = std::to_string(place);
    return "The bytes may begin with what surrounds a message on a tag; a message begins at byte " + at +
           ": read `ndef::bytes(input).from(" + at + ")`.";
}

/// The sentence for a message at an offset, in which reserved areas of a tag may lie.
inline std::string interrupted(ndef_size place) {
    const std::string at = std::to_string(place);
    return "A message may begin at byte " + at +
           ", in an NDEF TLV of a tag, but reserved areas may lie before its end: use a reader that skips them.";
}
} // namespace detail

inline std::string found_hint::text() const {
    switch (static_cast<unsigned>(kind)) { // a header of release 1.0 has no names for 15 to 17
        case NDEF_HINT_TLV: return detail::in_tag(*this, ", in an NDEF TLV of a tag");
        case NDEF_HINT_ATTRIBUTES: return detail::in_tag(*this, ", after the attribute block of a Type 3 Tag");
        case NDEF_HINT_FILE: return detail::in_tag(*this, ", after its length, as in a file of a Type 4 Tag");
        case NDEF_HINT_MESSAGE: return detail::at_place(place);
        case NDEF_HINT_TERMINATOR: return "FE (hexadecimal) ends the TLV blocks of a tag.";
        case NDEF_HINT_DIGITS: return "These are hexadecimal digits, not the bytes that they spell: decode them first.";
        case NDEF_HINT_XXD: return "This is a dump by xxd, not the bytes that it spells: decode its digits first.";
        case NDEF_HINT_HEXDUMP:
            return "This is a dump by hexdump, not the bytes that it spells: decode its digits first.";
        case NDEF_HINT_WORDS:
            return "This dump by od or hexdump may show numbers of two bytes, not bytes: decode a dump of single bytes.";
        case NDEF_HINT_FLIPPER:
            return "This is a file of a Flipper, not the bytes: decode the digits of its pages first.";
        case NDEF_HINT_PROXMARK:
            return "This is what a Proxmark prints, not the bytes: decode the digits of its blocks first.";
        case NDEF_HINT_BASE64: return "This may be base64, not the bytes that it spells: decode it first.";
        case NDEF_HINT_CODE: return "68 (hexadecimal) is the letter h: was the identifier code left out?";
        case NDEF_HINT_STANDARD:
            return "The standard profile reads this: set NDEF_STANDARD in the flags of the limits.";
        case 15: return detail::interrupted(place); // NDEF_HINT_INTERRUPTED
        case 16: // NDEF_HINT_UNFINISHED
            return "This Type 3 Tag is being written: its attribute block says that the message is not whole yet.";
        case 17: return "This is a dump by od, not the bytes that it spells: decode its digits first."; // NDEF_HINT_OD
    }
    return {};
}

// ---- bytes that arrive in parts

/// Checks a message that arrives in parts. Of its bytes it holds those of one type at most.
class checker {
public:
    /// What is known once the message has ended.
    struct checked {
        std::uint64_t size;    ///< its bytes
        std::uint32_t records; ///< its records
    };

    explicit checker(const ndef_limits &within = limits()) noexcept { ndef_begin(&within, &state); }

    /// Checks the next bytes: nothing while the message goes on. The answer is what message::check answers for all
    /// bytes so far; after the message's end or a refusal it stays the same.
    result<std::optional<checked>> feed(bytes next) noexcept {
        ndef_checked out = {};
        const std::uint32_t answer = ndef_feed(&state, next.data(), next.size(), &out);
        if (answer == NDEF_OK) return std::optional<checked>(checked{out.place, out.records});
        if (answer == NDEF_MORE) return std::optional<checked>();
        return detail::failure(answer, out);
    }

private:
    ndef_checker state;
};

} // namespace ndef

#endif
