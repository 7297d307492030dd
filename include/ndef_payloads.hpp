/// ndef_payloads.hpp: texts, URIs, smart posters and handovers, read. Include ndef.hpp.
#ifndef NDEF_PAYLOADS_HPP
#define NDEF_PAYLOADS_HPP

#include "ndef_messages.hpp"

namespace ndef {

// ---- payloads
//
// Each class reads a payload, its chunks joined: Class::read(payload), or record.as<Class>(). The profile says what
// becomes of reserved values; where there are none it makes no difference.

/// The payload of a Text record.
class text : public detail::payload_view<ndef_text_parts> {
public:
    static constexpr std::string_view type_name = "T";
    static result<text> read(kept payload NDEF_LIFETIMEBOUND, profile = profile::strict) noexcept {
        return read_by<text>(payload, ndef_text);
    }

    [[nodiscard]] std::string_view language() const noexcept { return part(raw.language_at, raw.language_length).text(); }
    [[nodiscard]] bool is_utf16() const noexcept { return raw.utf16 != 0; }

    /// The text as it is encoded in the payload.
    [[nodiscard]] bytes encoded() const noexcept { return part(raw.text_at, raw.text_length); }

    /// The text in UTF-8: in place if it is encoded so, otherwise converted in the buffer.
    result<std::string_view> utf8(buffer &converted) const noexcept {
        if (!is_utf16()) return encoded().text();
        const auto made = detail::written(converted, [this](auto... words) { return convert(words...); });
        return made.transform([](bytes found) { return found.text(); });
    }

    /// The text in UTF-8 in place. One in UTF-16 has NDEF_BUFFER_TOO_SMALL, and the size of the buffer that it is converted in.
    result<std::string_view> utf8() const noexcept {
        buffer none;
        return utf8(none);
    }

    /// The text in UTF-8 as a string.
    [[nodiscard]] std::string str() const {
        if (!is_utf16()) return std::string(encoded().text());
        return detail::as_string([this](auto... words) { return convert(words...); });
    }

private:
    [[nodiscard]] std::uint32_t convert(std::uint8_t *memory, ndef_size size, ndef_size *count, ndef_checked *why) const noexcept {
        return ndef_text_in_utf8(whole.data(), whole.size(), memory, size, count, why);
    }
};

/// The payload of a URI record: the code of a prefix, and the rest.
class uri : public detail::payload_view<ndef_uri_parts> {
public:
    static constexpr std::string_view type_name = "U";
    static result<uri> read(kept payload NDEF_LIFETIMEBOUND, profile how = profile::strict) noexcept {
        auto found = read_by<uri>(payload, ndef_split_uri, static_cast<std::uint32_t>(how));
        if (found) found->reading = how;
        return found;
    }

    [[nodiscard]] std::uint32_t code() const noexcept { return raw.code; }
    [[nodiscard]] std::string_view rest() const noexcept { return part(raw.rest_at, raw.rest_length).text(); }

    /// The URI in UTF-8, its prefix spelled out, in the buffer.
    result<std::string_view> utf8(buffer &spelled) const noexcept {
        const auto made = detail::written(spelled, [this](auto... words) { return spell(words...); });
        return made.transform([](bytes found) { return found.text(); });
    }

    /// The URI as a string.
    [[nodiscard]] std::string str() const {
        return detail::as_string([this](auto... words) { return spell(words...); });
    }

private:
    [[nodiscard]] std::uint32_t spell(std::uint8_t *memory, ndef_size size, ndef_size *count, ndef_checked *why) const noexcept {
        return ndef_uri(whole.data(), whole.size(), static_cast<std::uint32_t>(reading), memory, size, count, why);
    }

    profile reading = profile::strict;
};

/// Those records of a message that can be read as a View. Others are skipped, and so are records of several chunks.
template <class View> class views {
public:
    using iterator = detail::iterator_of<views, View>;
    views() noexcept = default;
    explicit views(message of, profile how = profile::strict) noexcept : records(of), reading(how) {}
    [[nodiscard]] iterator begin() const noexcept { return iterator(*this); }
    [[nodiscard]] iterator end() const noexcept { return {}; }

private:
    friend iterator;
    [[nodiscard]] bool look(ndef_size &place, View &found) const noexcept {
        for (record one; place != detail::no_place && records.look(place, one);)
            if (const auto view = one.as<View>(reading)) {
                found = *view;
                return true;
            }
        return false;
    }

    message records;
    profile reading = profile::strict;
};

/// An icon of a smart poster.
struct icon {
    std::string_view media_type; ///< such as "image/png"
    bytes data;                  ///< the bytes of the image
};

/// The icons among the records of a smart poster: all records of a media type. The standard asks for types that begin with
/// "image/" or "video/", and the library does not look at that: look at the type before you use the data.
class icons {
public:
    using iterator = detail::iterator_of<icons, icon>;
    icons() noexcept = default;
    explicit icons(message of) noexcept : records(of) {}
    [[nodiscard]] iterator begin() const noexcept { return iterator(*this); }
    [[nodiscard]] iterator end() const noexcept { return {}; }

private:
    friend iterator;
    [[nodiscard]] bool look(ndef_size &place, icon &found) const noexcept {
        for (record one; place != detail::no_place && records.look(place, one);)
            if (const auto data = one.payload(); data && one.format() == NDEF_TNF_MEDIA) {
                found = {one.type(), *data};
                return true;
            }
        return false;
    }

    message records;
};

/// What a smart poster recommends to do with its URI. Other numbers are reserved.
enum class action : std::uint32_t { do_it = 0, save = 1, open = 2 };

/// The payload of a Smart Poster record.
class poster : public detail::payload_view<ndef_poster_parts> {
public:
    static constexpr std::string_view type_name = "Sp";
    static result<poster> read(kept payload NDEF_LIFETIMEBOUND, profile how = profile::strict) noexcept {
        auto found = read_by<poster>(payload, ndef_poster, static_cast<std::uint32_t>(how));
        if (found) found->reading = how;
        return found;
    }

    [[nodiscard]] ndef::uri uri() const noexcept {
        return ndef::uri::read(part(raw.uri_at, raw.uri_length), reading).value_or(ndef::uri());
    }
    [[nodiscard]] std::optional<ndef::action> action() const noexcept {
        return raw.has_action ? std::optional(static_cast<ndef::action>(raw.action)) : std::nullopt;
    }
    /// The size in bytes of what the URI leads to.
    [[nodiscard]] std::optional<std::uint32_t> size() const noexcept {
        return raw.has_size ? std::optional(raw.size) : std::nullopt;
    }

    /// The media type of what the URI leads to, such as "text/html".
    [[nodiscard]] std::optional<std::string_view> media_type() const noexcept {
        ndef_part found;
        const std::uint32_t answer = ndef_poster_media_type(whole.data(), whole.size(), &found);
        return answer == NDEF_OK ? std::optional(part(found.at, found.length).text()) : std::nullopt;
    }

    /// Its titles, each in a language.
    [[nodiscard]] views<text> titles() const noexcept { return views<text>(records()); }

    /// The first title in a language, such as "en". Upper and lower case are the same in the language code. NDEF_END if
    /// there is none.
    result<text> title(std::string_view language) const noexcept {
        ndef_text_parts found;
        const std::uint32_t answer =
            ndef_title(whole.data(), whole.size(), detail::octets(language.data()), language.size(), &found);
        if (answer != NDEF_OK) return detail::failure(answer);
        const bytes code = part(found.language_at, found.language_length);
        for (text one : titles())
            if (bytes(one.language()).data() == code.data()) return one;
        return error{};
    }

    /// Its icons, each with its media type.
    [[nodiscard]] ndef::icons icons() const noexcept { return ndef::icons(records()); }

    /// All its records.
    [[nodiscard]] message records() const noexcept { return message::unchecked(whole); }

private:
    profile reading = profile::strict;
};

/// The payload of a Handover Carrier record.
class carrier : public detail::payload_view<ndef_carrier_parts> {
public:
    static constexpr std::string_view type_name = "Hc";
    static result<carrier> read(kept payload NDEF_LIFETIMEBOUND, profile = profile::strict) noexcept {
        return read_by<carrier>(payload, ndef_carrier);
    }

    /// What kind of name the carrier type is, 0 to 7.
    [[nodiscard]] std::uint32_t format() const noexcept { return raw.format; }
    [[nodiscard]] std::string_view type() const noexcept { return part(raw.type_at, raw.type_length).text(); }
    [[nodiscard]] bytes data() const noexcept { return part(raw.data_at, raw.data_length); }
};

/// The power state of a carrier.
enum class power : std::uint32_t { inactive = 0, active = 1, activating = 2, unknown = 3 };

/// The payload of an Alternative Carrier record, of the message within a handover.
class alternative : public detail::payload_view<ndef_alternative_parts> {
public:
    static constexpr std::string_view type_name = "ac";
    static result<alternative> read(kept payload NDEF_LIFETIMEBOUND, profile = profile::strict) noexcept {
        return read_by<alternative>(payload, ndef_alternative);
    }

    [[nodiscard]] ndef::power power() const noexcept { return static_cast<ndef::power>(raw.power); }

    /// The number of references, and one of them: 0 is the carrier data reference, which is the id of the record that
    /// describes the carrier, and the others are the auxiliary ones. NDEF_END if there are fewer. Each call looks at the
    /// payload from its start; `references` looks at it once.
    [[nodiscard]] std::uint32_t reference_count() const noexcept { return raw.references; }
    result<std::string_view> reference(std::uint32_t index) const noexcept {
        ndef_part found;
        const std::uint32_t answer = ndef_reference(whole.data(), whole.size(), index, &found);
        if (answer != NDEF_OK) return detail::failure(answer);
        return part(found.at, found.length).text();
    }

    /// All references, the carrier data reference first.
    [[nodiscard]] std::vector<std::string_view> references() const {
        std::vector<std::string_view> all;
        for (const ndef_part &one : detail::all_of<ndef_part>(ndef_references, whole.data(), ndef_size{whole.size()}))
            all.push_back(part(one.at, one.length).text());
        return all;
    }
};

/// The payload of an Error record, of the message within a handover select.
class handover_error : public detail::payload_view<ndef_error_parts> {
public:
    static constexpr std::string_view type_name = "err";
    static result<handover_error> read(kept payload NDEF_LIFETIMEBOUND, profile = profile::strict) noexcept {
        return read_by<handover_error>(payload, ndef_error);
    }

    /// 0 to 255; the standard defines 1 to 3.
    [[nodiscard]] std::uint32_t error_reason() const noexcept { return raw.reason; }
    [[nodiscard]] bytes data() const noexcept { return part(raw.data_at, raw.data_length); }

    /// With the reasons 1 to 3, the number that the data hold.
    [[nodiscard]] std::optional<std::uint32_t> number() const noexcept {
        return raw.has_number ? std::optional(raw.number) : std::nullopt;
    }
};

/// A link of a handover: an alternative carrier, and the record of the message to which it refers, if there is one.
struct link {
    ndef::alternative alternative;
    std::optional<ndef::record> record;
    std::size_t record_index = 0; ///< the index of that record in the message, from 0
};

/// The links of a handover, in order, as one call of ndef_links gives them.
class links {
    /// The links that lie in an array.
    struct link_view {
    [[nodiscard]]     bool look(ndef_size &index, link &found) const noexcept {
            if (index >= count) return false;
            const ndef_link &one = first[index++];
            const auto carrier = alternative::read(payload.part(one.carrier_at, one.carrier_length));
            if (!carrier) return false;
            found = {*carrier, std::nullopt, static_cast<std::size_t>(one.record_index)};
            if (one.has_record)
                if (const auto record = ndef::record::at(whole, one.record_at)) found.record = *record;
            return true;
        }

        bytes whole, payload;
        const ndef_link *first = nullptr;
        std::size_t count = 0;
    };

public:
    using iterator = detail::iterator_of<link_view, link>;
    links() noexcept = default;

    /// The links of a message by the payload of its handover, in memory that they own. None where it is no handover.
    links(const message &of, kept handover NDEF_LIFETIMEBOUND)
        : view{of.octets(), handover, nullptr, 0},
          own(detail::all_of<ndef_link>(ndef_links, view.whole.data(), ndef_size{view.whole.size()}, handover.data(),
                                        ndef_size{handover.size()})) {}

    /// The same in an array of the caller. NDEF_BUFFER_TOO_SMALL says how many elements it must have; NDEF_BAD_ARGUMENT: it is no
    /// handover.
    static result<links> in(ndef_link *array, std::size_t size, const message &of, kept handover) {
        const bytes whole = of.octets();
        const auto count = detail::filled(array, size, ndef_links, whole.data(), ndef_size{whole.size()},
                                          handover.data(), ndef_size{handover.size()});
        if (!count) return count.error();
        links found;
        found.view = {whole, handover, array, *count};
        return found;
    }

    /// Iterators are valid as long as these links and the array exist. A copy has memory of its own, or the same array.
    iterator begin() const & noexcept NDEF_LIFETIMEBOUND { return iterator(range()); }
    iterator begin() && = delete;
    [[nodiscard]] iterator end() const noexcept { return {}; }
    [[nodiscard]] std::size_t size() const noexcept { return range().count; }

private:
    /// The links where they lie now: those in memory that it owns move with it.
    [[nodiscard]] link_view range() const noexcept {
        return view.first ? view : link_view{view.whole, view.payload, own.data(), own.size()};
    }

    link_view view;
    std::vector<ndef_link> own;
};

/// What the payloads of the two handover records have.
template <class Parts> class handover_view : public detail::payload_view<Parts> {
public:
    [[nodiscard]] std::uint32_t major_version() const noexcept { return this->raw.major; }
    [[nodiscard]] std::uint32_t minor_version() const noexcept { return this->raw.minor; }

    /// The number of alternative carriers; and each of them, with its record in the message whose handover this is, in
    /// memory that they own or in an array of the caller.
    [[nodiscard]] std::size_t carrier_count() const noexcept { return static_cast<std::size_t>(this->raw.carriers); }
    [[nodiscard]] ndef::links links(const message &of) const { return {of, this->whole}; }
    result<ndef::links> links(ndef_link *array, std::size_t size, const message &of) const {
        return ndef::links::in(array, size, of, this->whole);
    }

    /// All its records; none if the payload is the version alone.
    [[nodiscard]] message records() const noexcept { return message::unchecked(this->whole.from(1)); }
};

/// The payload of a Handover Request record.
class request : public handover_view<ndef_request_parts> {
public:
    static constexpr std::string_view type_name = "Hr";
    static result<request> read(kept payload NDEF_LIFETIMEBOUND, profile how = profile::strict) noexcept {
        return read_by<request>(payload, ndef_request, static_cast<std::uint32_t>(how));
    }

    /// The random number by which two devices that ask at once agree.
    [[nodiscard]] std::uint32_t collision() const noexcept { return raw.collision; }
};

/// The payload of a Handover Select record.
class select : public handover_view<ndef_select_parts> {
public:
    static constexpr std::string_view type_name = "Hs";
    static result<select> read(kept payload NDEF_LIFETIMEBOUND, profile how = profile::strict) noexcept {
        return read_by<select>(payload, ndef_select, static_cast<std::uint32_t>(how));
    }

    /// The reason of its error, if it has one, and the error's data.
    [[nodiscard]] std::optional<std::uint32_t> error_reason() const noexcept {
        return raw.has_error ? std::optional(raw.error) : std::nullopt;
    }
    [[nodiscard]] bytes error_data() const noexcept { return part(raw.detail_at, raw.detail_length); }
};

} // namespace ndef

#endif
