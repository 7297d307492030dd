/// ndef_writing.hpp: payloads, records and messages, written. Include ndef.hpp.
#ifndef NDEF_WRITING_HPP
#define NDEF_WRITING_HPP

#include "ndef_messages.hpp"
#include "ndef_payloads.hpp"

#include <initializer_list>

namespace ndef {

// ---- writing
//
// Each function writes to the front of a buffer and returns what it wrote. NDEF_BUFFER_TOO_SMALL gives the size that is needed.

/// How a text is encoded: in UTF-8, or in UTF-16, big-endian with a byte order mark.
enum class encoding : std::uint32_t { utf8 = 0, utf16 = NDEF_AS_UTF16 };

/// Of which of the two handover records a payload is.
enum class handover : std::uint32_t { request = NDEF_REQUEST, select = NDEF_SELECT };

/// The payload of a Text record, as ndef_write_text writes it. The text is given in UTF-8.
inline result<bytes> write_text(buffer &to, std::string_view language, std::string_view text,
                                encoding how = encoding::utf8) noexcept {
    return detail::put(to, ndef_write_text, detail::octets(language.data()), language.size(),
                       detail::octets(text.data()), text.size(), static_cast<std::uint32_t>(how));
}

/// The payload of a URI record, as ndef_write_uri writes it.
inline result<bytes> write_uri(buffer &to, std::string_view uri) noexcept {
    return detail::put(to, ndef_write_uri, detail::octets(uri.data()), uri.size());
}

/// The payload of an Action record of a smart poster.
inline result<bytes> write_action(buffer &to, action what) noexcept {
    return detail::put(to, ndef_write_action, static_cast<std::uint32_t>(what));
}

/// The payload of a Size record of a smart poster: the size in bytes of what the URI leads to.
inline result<bytes> write_size(buffer &to, std::uint32_t size_in_bytes) noexcept {
    return detail::put(to, ndef_write_size, size_in_bytes);
}

/// The payload of a Handover Carrier record, as ndef_write_carrier writes it.
inline result<bytes> write_carrier(buffer &to, std::uint32_t format, std::string_view type, bytes data) noexcept {
    return detail::put(to, ndef_write_carrier, format, detail::octets(type.data()), type.size(), data.data(),
                       data.size());
}

/// The payload of an Alternative Carrier record whose references are parts of some bytes, as ndef_write_alternative
/// writes it: the carrier data reference first, then the auxiliary ones.
inline result<bytes> write_alternative(buffer &to, power state, bytes references, const ndef_part *parts,
                                       std::size_t parts_count) noexcept {
    return detail::put(to, ndef_write_alternative, static_cast<std::uint32_t>(state), references.data(),
                       references.size(), parts, parts_count);
}

/// The same with a carrier data reference alone.
inline result<bytes> write_alternative(buffer &to, power state, std::string_view data_reference) noexcept {
    const ndef_part part = {0, data_reference.size()};
    return write_alternative(to, state, bytes(data_reference), &part, 1);
}

/// The payload of a Collision Resolution record, the first of a request: its random number, at most 65535.
inline result<bytes> write_collision(buffer &to, std::uint32_t number) noexcept {
    return detail::put(to, ndef_write_collision, number);
}

/// The payload of an Error record of a select, as ndef_write_error writes it.
inline result<bytes> write_error(buffer &to, std::uint32_t error_reason, bytes data) noexcept {
    return detail::put(to, ndef_write_error, error_reason, data.data(), data.size());
}

/// The same for the reasons 1 to 3, whose data are a number, as ndef_write_error_number writes it.
inline result<bytes> write_error_number(buffer &to, std::uint32_t error_reason, std::uint32_t number) noexcept {
    return detail::put(to, ndef_write_error_number, error_reason, number);
}

/// The payload of a Handover Request or Select record, as ndef_write_handover writes it: a version and a message.
inline result<bytes> write_handover(buffer &to, handover which, std::uint32_t major_version, std::uint32_t minor_version,
                                    bytes records) noexcept {
    return detail::put(to, ndef_write_handover, static_cast<std::uint32_t>(which), major_version, minor_version,
                       records.data(), records.size());
}

/// The payload of a Smart Poster record whose parts lie in some bytes, as ndef_write_poster writes it.
inline result<bytes> write_poster(buffer &to, bytes from, const ndef_poster_writing &how,
                                  const ndef_title_writing *titles = nullptr, std::size_t titles_count = 0,
                                  const ndef_icon_writing *icons = nullptr, std::size_t icons_count = 0) noexcept {
    return detail::put(to, ndef_write_poster, from.data(), from.size(), &how, titles, titles_count, icons, icons_count);
}

/// The payload of a Handover Request record whose references are parts of some bytes, as ndef_write_request writes it.
inline result<bytes> write_request(buffer &to, std::uint32_t minor_version, std::uint32_t collision, bytes from,
                                   const ndef_part *references, std::size_t references_count,
                                   const ndef_alternative_writing *alternatives,
                                   std::size_t alternatives_count) noexcept {
    return detail::put(to, ndef_write_request, minor_version, collision, from.data(), from.size(), references,
                       references_count, alternatives, alternatives_count);
}

/// The payload of a Handover Select record whose parts lie in some bytes, as ndef_write_select writes it.
inline result<bytes> write_select(buffer &to, const ndef_select_writing &how, bytes from, const ndef_part *references,
                                  std::size_t references_count, const ndef_alternative_writing *alternatives,
                                  std::size_t alternatives_count) noexcept {
    return detail::put(to, ndef_write_select, &how, from.data(), from.size(), references, references_count,
                       alternatives, alternatives_count);
}

/// A record to be written.
struct new_record {
    ndef::tnf format = NDEF_TNF_EMPTY;
    std::string_view type = {};
    bytes payload = {};
    std::string_view id = {}; ///< empty: the record gets none
    std::uint32_t chunk = 0;  ///< the payload bytes of each chunk but the last; 0: one chunk
    bool is_long = false;     ///< write the payload length in four bytes even where one would do
};

/// Records of the common type name formats.
inline new_record well_known(std::string_view type, bytes payload, std::string_view id = {}) noexcept {
    return {NDEF_TNF_WELL_KNOWN, type, payload, id};
}
inline new_record media(std::string_view type, bytes payload, std::string_view id = {}) noexcept {
    return {NDEF_TNF_MEDIA, type, payload, id};
}
inline new_record external(std::string_view type, bytes payload, std::string_view id = {}) noexcept {
    return {NDEF_TNF_EXTERNAL, type, payload, id};
}

namespace detail {
/// How a record is written, with the flags of its position.
inline ndef_writing writing_of(const new_record &one, std::uint32_t flags) noexcept {
    if (one.is_long) flags |= NDEF_WRITE_LONG;
    return {static_cast<std::uint32_t>(one.format), flags, one.chunk};
}

/// Writes a record, as ndef_write_record does.
inline result<bytes> write_record(buffer &to, const new_record &one, std::uint32_t flags) noexcept {
    const ndef_writing how = writing_of(one, flags);
    return put(to, ndef_write_record, octets(one.type.data()), one.type.size(), octets(one.id.data()), one.id.size(),
               one.payload.data(), one.payload.size(), &how);
}

/// Whether the library writes a record.
inline bool is_written(const new_record &one) noexcept {
    buffer none;
    const auto made = write_record(none, one, 0);
    return made || made.error().what == NDEF_BUFFER_TOO_SMALL;
}

/// Which argument of a record without a spelling is wrong: that with another of which the library writes it.
inline argument wrong_argument(const new_record &one) noexcept {
    const auto is_so_written = [&](argument other, tnf format, std::string_view type) {
        new_record changed = one;
        if (other == argument::id) changed.id = {};
        if (other == argument::payload) changed.payload = {};
        changed.format = format;
        changed.type = type;
        return is_written(changed);
    };
    for (const argument other : {argument::id, argument::payload})
        if (is_so_written(other, one.format, one.type)) return other;
    for (const std::string_view type : {std::string_view(), std::string_view("x")})
        if (is_so_written(argument::type, one.format, type)) return argument::type;
    for (const tnf format : {NDEF_TNF_WELL_KNOWN, NDEF_TNF_UNKNOWN})
        if (is_so_written(argument::format, format, one.type)) return argument::format;
    return argument::several;
}

/// Why the record with an index isn't written: what the call answered, and for which argument.
inline error of_record(error why, std::size_t index, const new_record &one) noexcept {
    why.record = index;
    if (why.what == NDEF_BAD_ARGUMENT) why.which = wrong_argument(one);
    return why;
}

/// The message that was written, if it is one within the limits; else which record is refused, where in it and why.
inline result<message> accepted(const message &written, const ndef_limits &within) noexcept {
    const auto found = message::check(written.octets(), within);
    if (found) return found;
    error why = found.error();
    if (why.what == NDEF_BAD_ARGUMENT) why.which = argument::limits;
    if (why.what != NDEF_REFUSED) return why;
    std::size_t index = 0;
    ndef_size begun = 0;
    for (const record &one : written) {
        if (one.parts().end > why.place) break;
        begun = one.parts().end;
        index++;
    }
    why.place -= begun;
    why.record = index;
    return why;
}
} // namespace detail

/// Says that what is written isn't checked: a reader may refuse it.
struct unchecked_tag {};
inline constexpr unchecked_tag unchecked{};

/// How what is written is checked: by message::check within limits, or ndef::unchecked.
struct checking {
    checking(const ndef_limits &of = limits()) noexcept : within(of), is_done(true) {}
    checking(unchecked_tag) noexcept : is_done(false) {}

    ndef_limits within = {};
    bool is_done;
};

/// A message of records, one or more, as ndef_write_record writes each. NDEF_BAD_ARGUMENT if there is no record, or one of
/// them can't be written, and NDEF_REFUSED if a check refuses what is written: the error says which record; then which
/// argument, or where in the record and why. NDEF_BUFFER_TOO_SMALL gives the size of the whole message. The buffer may hold a
/// part of the message after an error.
template <class Records>
result<message> write_message(buffer &to, const Records &records, const checking &how = {}) noexcept {
    buffer rest = to;
    ndef_size whole = 0;
    std::size_t index = 0;
    std::uint32_t place = NDEF_WRITE_FIRST;
    for (auto at = std::begin(records); at != std::end(records); index++, place = 0) {
        const new_record one = *at;
        if (++at == std::end(records)) place |= NDEF_WRITE_LAST;
        const auto made = detail::write_record(rest, one, place);
        if (!made && made.error().what != NDEF_BUFFER_TOO_SMALL) return detail::of_record(made.error(), index, one);
        whole += made ? made->size() : made.error().needed;
    }
    if (whole == 0) return error{NDEF_BAD_ARGUMENT, {}, 0, 0, {}, argument::records};
    if (whole > to.size()) return detail::failure(NDEF_BUFFER_TOO_SMALL, {}, whole);
    const message made = message::unchecked(bytes(to.data(), to.size()).part(0, whole));
    const auto found = how.is_done ? detail::accepted(made, how.within) : made;
    if (found) to.take(whole);
    return found;
}
inline result<message> write_message(buffer &to, std::initializer_list<new_record> records, const checking &how = {}) noexcept {
    return write_message<std::initializer_list<new_record>>(to, records, how);
}

/// The message again, each record in one chunk, as ndef_normalize writes it.
inline result<message> normalize(buffer &to, const message &from, bool is_long = false) noexcept {
    const bytes whole = from.octets();
    const std::uint32_t flags = is_long ? NDEF_WRITE_LONG : 0;
    return detail::put(to, ndef_normalize, whole.data(), whole.size(), flags).transform([](bytes made) {
        return message::unchecked(made);
    });
}

/// A message that is built in memory of the caller, and is whole after each record, as ndef_append leaves it. Each record has
/// to leave a message that message::check takes within the limits, unless the builder is ndef::unchecked.
class builder {
public:
    explicit builder(buffer to, const checking &how = {}) noexcept : memory(to), is_checked(how.is_done) {
        ndef_begin(&how.within, &before_last);
    }

    /// Appends a record, and returns the message. A record that can't be appended leaves the message as it was.
    result<message> add(const new_record &one) noexcept {
        const ndef_writing how = detail::writing_of(one, 0);
        const auto made = append(ndef_append, detail::octets(one.type.data()), one.type.size(), detail::octets(one.id.data()),
                                 one.id.size(), one.payload.data(), one.payload.size(), &how);
        if (made || made.error().what != NDEF_BAD_ARGUMENT || made.error().which != argument::unknown) return made;
        return detail::of_record(made.error(), built.records, one);
    }

    /// Appends the record of a text, given in UTF-8, whose payload is written where it belongs.
    result<message> add_text(std::string_view language, std::string_view text, encoding how = encoding::utf8,
                             std::string_view id = {}) noexcept {
        return append(ndef_append_text, detail::octets(id.data()), id.size(), detail::octets(language.data()), language.size(),
                      detail::octets(text.data()), text.size(), static_cast<std::uint32_t>(how));
    }

    /// Appends the record of a URI in the same way.
    result<message> add_uri(std::string_view uri, std::string_view id = {}) noexcept {
        return append(ndef_append_uri, detail::octets(id.data()), id.size(), detail::octets(uri.data()), uri.size());
    }

    /// The message so far.
    [[nodiscard]] message made() const noexcept { return message::unchecked(bytes(memory.data(), memory.size()).part(0, built.length)); }

private:
    /// Appends a record by a call of ndef.h: call(built, words.., memory, size, count).
    template <class Call, class... Words> result<message> append(Call call, Words... words) noexcept {
        const ndef_message_builder before = built;
        const std::uint8_t header = before.length ? memory.data()[before.last_at] : std::uint8_t{0};
        ndef_size count = 0;
        const std::uint32_t answer = call(&built, words..., memory.data(), memory.size(), &count);
        if (answer != NDEF_OK) return detail::failure(answer, {}, count);
        const std::uint32_t taken = is_checked ? feed(before) : static_cast<std::uint32_t>(NDEF_OK);
        if (taken == NDEF_OK) return made();
        // The call before made this octet that of a last record.
        if (before.length) memory.data()[before.last_at] = header;
        error why = detail::failure(taken, refused);
        why.place -= taken == NDEF_REFUSED ? before.length : 0;
        if (taken == NDEF_BAD_ARGUMENT) why.which = argument::limits;
        else why.record = before.records;
        built = before;
        return why;
    }

    /// Checks the new record after all others. The record that was the last says so no longer, and is fed as it is now.
    std::uint32_t feed(const ndef_message_builder &before) noexcept {
        ndef_checker now = before_last;
        std::uint32_t answer = NDEF_MORE;
        if (before.length) answer = ndef_feed(&now, memory.data() + fed, before.length - fed, &refused);
        ndef_checker after = now;
        answer = ndef_feed(&after, memory.data() + before.length, built.length - before.length, &refused);
        if (answer == NDEF_OK) before_last = now, fed = before.length;
        return answer;
    }

    buffer memory;
    ndef_message_builder built = {};
    bool is_checked;
    ndef_checker before_last = {}; ///< it was fed the bytes before the last record, of which there are `fed`
    ndef_size fed = 0;
    ndef_checked refused = {};
};

// ---- in steps

/// Where in its message a record is written.
enum class position : std::uint32_t {
    middle = 0,
    first = NDEF_WRITE_FIRST,
    last = NDEF_WRITE_LAST,
    only = NDEF_WRITE_FIRST | NDEF_WRITE_LAST
};

/// A record that is written in steps, to buffers of any size, and whose payload is given in parts, as ndef_writer_next
/// writes it. It isn't checked beyond the record: a reader may refuse the message.
class record_writer {
public:
    /// Begins a record whose payload has a number of bytes. `one` says how it is written, and its type and id have to
    /// outlive the writer; its payload isn't used. NDEF_BAD_ARGUMENT says which argument is wrong.
    static result<record_writer> begin(const new_record &one, ndef_size payload_size,
                                       position where = position::only) noexcept {
        record_writer made(one);
        const ndef_writing how = detail::writing_of(one, static_cast<std::uint32_t>(where));
        if (ndef_writer_begin(&made.state, one.type.size(), one.id.size(), payload_size, &how) == NDEF_OK) return made;
        new_record bare = one;
        bare.payload = {};
        error why = detail::failure(NDEF_BAD_ARGUMENT);
        why.which = detail::is_written(bare) ? argument::payload : detail::wrong_argument(bare);
        return why;
    }

    /// Writes the next bytes of the record to the buffer, as many as there are and fit. The payload goes on with the part,
    /// of which what is written is taken off its front. No bytes where the record is whole, and where the part gives no
    /// more. NDEF_BAD_ARGUMENT: the part has more bytes than are left of the payload; nothing is written.
    result<bytes> next(bytes &part, buffer &to) noexcept {
        const std::uint32_t before = state.taken;
        const auto made = call(part, to);
        part = part.from(state.taken - before);
        if (made || made.error().what != NDEF_END) return made;
        return bytes(to.data(), 0);
    }

    /// Whether the record is whole: no other call without a part and a buffer fails.
    [[nodiscard]] bool is_whole() const noexcept {
        record_writer copy = *this;
        buffer none;
        return !copy.call({}, none);
    }

    /// How many bytes of the payload are left.
    [[nodiscard]] std::uint32_t left() const noexcept { return state.payload_length - state.taken; }

private:
    explicit record_writer(const new_record &one) noexcept : type(one.type), id(one.id) {}

    result<bytes> call(bytes part, buffer &to) noexcept {
        return detail::put(to, ndef_writer_next, &state, detail::octets(type.data()), type.size(), detail::octets(id.data()),
                           id.size(), part.data(), part.size());
    }

    ndef_writer state = {};
    std::string_view type, id;
};

/// A message of records that is written in steps, to buffers of any size: it is never whole in memory. It is checked as
/// write_message checks it, while it is written. The records have to outlive the writer.
template <class Records> class message_writer {
public:
    explicit message_writer(const Records &records, const checking &how = {}) noexcept
        : at(std::begin(records)), end(std::end(records)), check(how.within), is_checked(how.is_done) {
        if (at == end) failed = error{NDEF_BAD_ARGUMENT, {}, 0, 0, {}, argument::records};
    }
    message_writer(const Records &&, const checking & = {}) = delete;

    /// Writes the next bytes of the message, as many as there are and fit; none where it is whole. The errors are those of
    /// write_message but for NDEF_BUFFER_TOO_SMALL, and each later call returns the same.
    result<bytes> next(buffer &to) noexcept {
        buffer rest = to;
        while (!failed && rest.size() > 0 && at != end) step(rest);
        if (failed) return *failed;
        return to.take(to.size() - rest.size());
    }

private:
    /// Writes the next bytes of a record, and checks them. Of one that is whole it goes on to the next one.
    void step(buffer &to) noexcept {
        if (!writer && !begin()) return;
        const bytes made = writer->next(left, to).value_or(bytes());
        if (made.empty()) {
            ++at, ++index, before = length;
            writer.reset();
            return;
        }
        length += made.size();
        if (!is_checked) return;
        const auto checked = check.feed(made);
        if (checked) return;
        failed = checked.error();
        if (failed->what == NDEF_BAD_ARGUMENT) {
            failed->which = argument::limits;
        } else {
            failed->place -= before;
            failed->record = index;
        }
    }

    bool begin() noexcept {
        const new_record one = *at;
        const std::uint32_t place = (index == 0 ? NDEF_WRITE_FIRST : 0) | (std::next(at) == end ? NDEF_WRITE_LAST : 0);
        const auto begun = record_writer::begin(one, one.payload.size(), static_cast<position>(place));
        left = one.payload;
        if (begun) writer = *begun;
        else failed = detail::of_record(begun.error(), index, one);
        return bool(begun);
    }

    decltype(std::begin(std::declval<const Records &>())) at, end;
    checker check;
    bool is_checked;
    std::optional<record_writer> writer{};
    bytes left = {};
    std::size_t index = 0;
    ndef_size before = 0, length = 0; ///< the bytes before this record, and all that are written
    std::optional<error> failed{};
};

} // namespace ndef

#endif
