/// ndef_building.hpp: smart posters, handovers and messages that are put together part by part in memory that they own,
/// filters of records, and what prints answers. Include ndef.hpp.
#ifndef NDEF_BUILDING_HPP
#define NDEF_BUILDING_HPP

#include "ndef_writing.hpp"

#include <ostream>
#if __has_include(<version>)
#include <version>
#endif
#ifdef __cpp_lib_format
#include <format>
#endif

namespace ndef {

namespace detail {
/// The bytes of parts, one after another, for calls that take offsets.
class arena {
public:
    /// Puts bytes into the arena, and returns where they lie.
    ndef_part put(bytes part) {
        const ndef_part place = {held.size(), part.size()};
        held.insert(held.end(), part.begin(), part.end());
        return place;
    }
    ndef_part put(std::string_view part) { return put(bytes(part)); }
    [[nodiscard]] bytes all() const noexcept { return held; }

private:
    std::vector<std::uint8_t> held;
};

/// What a call writes to a buffer, in new memory: write(buffer) is called with a buffer of the size that it needs.
template <class Write> result<std::vector<std::uint8_t>> in_memory(Write write) {
    buffer none;
    const result<bytes> asked = write(none);
    std::vector<std::uint8_t> made;
    if (asked) return made;
    if (asked.error().what != NDEF_BUFFER_TOO_SMALL) return asked.error();
    made.resize(static_cast<std::size_t>(asked.error().needed));
    buffer exact(made);
    const result<bytes> written = write(exact);
    if (!written) return written.error();
    return made;
}
} // namespace detail

/// A smart poster that is put together. It copies what it is given.
///
///     auto payload = ndef::poster_builder("https://example.com").title("en", "Hello").payload();
class poster_builder {
public:
    explicit poster_builder(std::string_view uri) { how.uri = arena.put(uri); }

    /// Adds a title. Give each title a different language.
    poster_builder &title(std::string_view language, std::string_view text, encoding in = encoding::utf8) {
        titles.push_back({arena.put(language), arena.put(text), in == encoding::utf16 ? 1u : 0u});
        return *this;
    }
    poster_builder &action(ndef::action what) {
        how.has_action = 1;
        how.action = static_cast<std::uint32_t>(what);
        return *this;
    }
    /// The size in bytes of what the URI leads to.
    poster_builder &size(std::uint32_t size_in_bytes) {
        how.has_size = 1;
        how.size = size_in_bytes;
        return *this;
    }
    /// The media type of what the URI leads to.
    poster_builder &media_type(std::string_view type) {
        how.has_media_type = 1;
        how.media_type = arena.put(type);
        return *this;
    }
    /// Adds an icon, of a media type that begins with "image/" or "video/".
    poster_builder &icon(std::string_view type, bytes data) {
        icons.push_back({arena.put(type), arena.put(data)});
        return *this;
    }

    /// Writes the payload, as ndef_write_poster does.
    result<bytes> write(buffer &to) const noexcept {
        return write_poster(to, arena.all(), how, titles.data(), titles.size(), icons.data(), icons.size());
    }
    result<std::vector<std::uint8_t>> payload() const {
        return detail::in_memory([this](buffer &to) { return write(to); });
    }

private:
    detail::arena arena;
    ndef_poster_writing how = {};
    std::vector<ndef_title_writing> titles;
    std::vector<ndef_icon_writing> icons;
};

/// What requests and selects that are put together have in common: their alternative carriers. `Builder` is either.
template <class Builder> class handover_builder {
public:
    /// Adds an alternative carrier: its power state, the id of the record that describes it, and auxiliary references.
    Builder &carrier(power state, std::string_view reference, const std::vector<std::string_view> &auxiliary = {}) {
        const ndef_size first = references.size();
        references.push_back(arena.put(reference));
        for (const std::string_view other : auxiliary) references.push_back(arena.put(other));
        alternatives.push_back({first, references.size() - first, static_cast<std::uint32_t>(state)});
        return static_cast<Builder &>(*this);
    }
    result<std::vector<std::uint8_t>> payload() const {
        return detail::in_memory([this](buffer &to) { return static_cast<const Builder &>(*this).write(to); });
    }

protected:
    detail::arena arena;
    std::vector<ndef_part> references;
    std::vector<ndef_alternative_writing> alternatives;
};

/// A handover request of version 1.2 that is put together, or of another minor version. It copies what it is given.
class request_builder : public handover_builder<request_builder> {
public:
    explicit request_builder(std::uint32_t collision, std::uint32_t minor_version = 2) noexcept
        : number(collision), minor(minor_version) {}

    /// Writes the payload, as ndef_write_request does.
    result<bytes> write(buffer &to) const noexcept {
        return write_request(to, minor, number, arena.all(), references.data(), references.size(), alternatives.data(),
                             alternatives.size());
    }

private:
    std::uint32_t number, minor;
};

/// A handover select of version 1.2 that is put together, or of another minor version. It copies what it is given.
class select_builder : public handover_builder<select_builder> {
public:
    explicit select_builder(std::uint32_t minor_version = 2) noexcept { how.minor = minor_version; }

    /// The error of the select: its reason and its data.
    select_builder &error(std::uint32_t error_reason, bytes data) {
        how.has_error = 1;
        how.reason = error_reason;
        how.data = arena.put(data);
        return *this;
    }

    /// Writes the payload, as ndef_write_select does.
    result<bytes> write(buffer &to) const noexcept {
        return write_select(to, how, arena.all(), references.data(), references.size(), alternatives.data(),
                            alternatives.size());
    }

private:
    ndef_select_writing how = {};
};

/// A message that owns its bytes.
class owned_message {
public:
    using iterator = message::iterator;

    /// A message of no bytes and no records.
    owned_message() noexcept = default;
    /// A copy of a message.
    explicit owned_message(const message &of) : held(of.octets().begin(), of.octets().end()) {}

    /// A copy of the message with which the bytes begin, as message::check finds it.
    static result<owned_message> check(bytes input, const ndef_limits &within = limits()) {
        return message::check(input, within).transform([](const message &found) { return owned_message(found); });
    }
    /// The message of some records, as write_message writes it.
    template <class Records> static result<owned_message> write(const Records &records, const checking &how = {}) {
        auto made = detail::in_memory([&](buffer &to) { return octets_of(write_message(to, records, how)); });
        return std::move(made).transform([](std::vector<std::uint8_t> &&all) { return owned_message(std::move(all)); });
    }
    static result<owned_message> write(std::initializer_list<new_record> records, const checking &how = {}) {
        return write<std::initializer_list<new_record>>(records, how);
    }

    /// A view of the message, valid as long as this one lives and stays as it is: so there is none of a temporary.
    message view() const & noexcept NDEF_LIFETIMEBOUND { return message::unchecked(held); }
    bytes octets() const & noexcept NDEF_LIFETIMEBOUND { return held; }
    iterator begin() const & noexcept NDEF_LIFETIMEBOUND { return view().begin(); }
    message view() && = delete;
    bytes octets() && = delete;
    iterator begin() && = delete;
    [[nodiscard]] iterator end() const noexcept { return {}; }
    friend bool operator==(const owned_message &left, const owned_message &right) noexcept {
        return left.held == right.held;
    }
    friend bool operator!=(const owned_message &left, const owned_message &right) noexcept { return !(left == right); }

private:
    explicit owned_message(std::vector<std::uint8_t> bytes_of) noexcept : held(std::move(bytes_of)) {}
    static result<bytes> octets_of(const result<message> &made) noexcept {
        return made.transform([](const message &whole) { return whole.octets(); });
    }

    std::vector<std::uint8_t> held;
};

/// Whether the records of a message have to be in the order in which a filter has their types.
enum class order { any, given };

/// Which records a message has to have, and how many of each type. A message with a record of another type doesn't
/// match. A filter of nothing matches the message of no records alone.
class filter {
public:
    explicit filter(order how = order::any) noexcept : is_ordered(how == order::given) {}

    /// Adds a type, with the least and the most records of it. To add a type again adds to both numbers; in a given
    /// order, only where no other type was added in between. In a given order a type takes as many of the records that
    /// follow as it may.
    filter &record(tnf format, std::string_view type, std::size_t least = 1, std::size_t most = 1) {
        for (std::size_t index = is_ordered && !wanted.empty() ? wanted.size() - 1 : 0; index < wanted.size(); index++)
            if (wanted[index].format == format && wanted[index].type == type) {
                wanted[index].least += least;
                wanted[index].most += most;
                return *this;
            }
        wanted.push_back({format, std::string(type), least, most});
        return *this;
    }

    [[nodiscard]] bool matches(const message &of) const {
        std::vector<std::size_t> counts(wanted.size(), 0);
        std::size_t from = 0;
        for (const ndef::record &one : of) {
            const std::size_t index = index_of(one, from, counts);
            if (index == wanted.size()) return false;
            counts[index]++;
            if (is_ordered) from = index;
        }
        for (std::size_t index = 0; index < wanted.size(); index++)
            if (counts[index] < wanted[index].least) return false;
        return true;
    }

private:
    struct wanted_type {
        tnf format;
        std::string type;
        std::size_t least, most;
    };

    /// The first of the types from one on that a record has and that takes one record more, or their number.
    [[nodiscard]] std::size_t index_of(const ndef::record &one, std::size_t from, const std::vector<std::size_t> &counts) const {
        std::size_t index = from;
        while (index < wanted.size() &&
               !(one.is(wanted[index].format, wanted[index].type) && counts[index] < wanted[index].most))
            index++;
        return index;
    }

    std::vector<wanted_type> wanted;
    bool is_ordered;
};

// ---- printing

/// The name of an argument, such as "id"; "" for one that isn't known.
constexpr std::string_view to_string(argument value) noexcept {
    constexpr std::string_view names[] = {"", "limits", "records", "format", "type", "id", "payload", "several"};
    return names[static_cast<std::size_t>(value)];
}

/// Prints an error: "refused at 4: TextBit: " and what the reason means, or the name of the status; of a record that isn't
/// written "record 1: refused at 4: .." or "record 0: BadArgument: id".
inline std::string to_string(const error &why) {
    std::string text = why.record ? "record " + std::to_string(*why.record) + ": " : std::string();
    if (why.what == NDEF_REFUSED)
        return text + "refused at " + std::to_string(why.place) + ": " + std::string(to_string(why.why)) + ": " +
            std::string(why.sentence());
    text += to_string(why.what);
    return why.which == argument::unknown ? text : text + ": " + std::string(to_string(why.which));
}
inline std::ostream &operator<<(std::ostream &to, const error &why) { return to << to_string(why); }

} // namespace ndef

#ifdef __cpp_lib_format
/// std::format prints an error as operator<< does.
template <> struct std::formatter<ndef::error> : std::formatter<std::string> {
    auto format(const ndef::error &why, std::format_context &context) const {
        return std::formatter<std::string>::format(ndef::to_string(why), context);
    }
};
#endif

#endif
