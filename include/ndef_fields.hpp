/// ndef_fields.hpp: to which field each byte of a message belongs. Include ndef.hpp.
#ifndef NDEF_FIELDS_HPP
#define NDEF_FIELDS_HPP

#include "ndef_messages.hpp"

#include <algorithm>
#include <vector>

namespace ndef {

// ---- fields

/// The name of a field: NDEF_FIELD_HEADER, ...
using field_name = ::ndef_field_names;

/// The name as text, as ndef_field_name writes it; "" for any other number.
constexpr std::string_view to_string(field_name value) noexcept {
#define NDEF_FIELD_TEXT(number, name, text) case NDEF_FIELD_##name: return text;
    switch (value) { NDEF_FIELDS(NDEF_FIELD_TEXT) }
#undef NDEF_FIELD_TEXT
    return "";
}

/// Bytes of a message that belong to one field.
struct field {
    bytes octets;            ///< the bytes, at least one
    std::size_t at = 0;      ///< where they begin
    std::uint32_t depth = 0; ///< 0 in the message itself, 1 in a message within a payload
    field_name name = {};
};

/// What is strange in a field of a message that is accepted, in a sentence of English, by its name and bytes, as
/// ndef_field_warning writes it. None where nothing is known to be strange, and where the field has no name.
inline std::optional<std::string> field_warning(const field &of) {
    return detail::said(ndef_field_warning, static_cast<std::uint32_t>(of.name), of.octets.data(), of.octets.size());
}

/// The fields of the message with which some bytes begin, in order, as one call of ndef_fields gives them; of bytes that
/// are refused, those before the refused one. Payloads are looked into: with NDEF_OPAQUE there are no fields.
class fields {
    /// The fields that lie in an array.
    struct field_view {
    [[nodiscard]]     field at(std::size_t index) const noexcept {
            const ndef_field &one = first[index];
            return {whole.part(one.at, one.length), static_cast<std::size_t>(one.at), one.depth,
                    static_cast<field_name>(one.name)};
        }
    [[nodiscard]]     bool look(ndef_size &index, field &found) const noexcept {
            if (index >= count) return false;
            found = at(static_cast<std::size_t>(index++));
            return true;
        }

        bytes whole;
        const ndef_field *first = nullptr;
        std::size_t count = 0;
    };

public:
    using iterator = detail::iterator_of<field_view, field>;
    fields() noexcept = default;

    /// The fields, in memory that they own.
    explicit fields(kept of NDEF_LIFETIMEBOUND, const ndef_limits &within = limits()) {
        ndef_size count = 0;
        if (fill(nullptr, 0, of, within, &count) != NDEF_BUFFER_TOO_SMALL) return;
        own.resize(static_cast<std::size_t>(count));
        fill(own.data(), own.size(), of, within, &count);
    }

    /// The same in an array of the caller. NDEF_BUFFER_TOO_SMALL says how many elements it must have; NDEF_BAD_ARGUMENT: a limit is
    /// out of range, or NDEF_OPAQUE or an unknown flag is set.
    static result<fields> in(ndef_field *array, std::size_t size, kept of, const ndef_limits &within = limits()) {
        fields found;
        ndef_size count = 0;
        const std::uint32_t answer = found.fill(array, size, of, within, &count);
        if (answer != NDEF_OK && answer != NDEF_REFUSED) return detail::failure(answer, {}, count);
        found.view.first = array;
        found.view.count = static_cast<std::size_t>(count);
        return found;
    }

    /// Iterators are valid as long as these fields and the array exist. A copy has memory of its own, or the same array.
    iterator begin() const & noexcept NDEF_LIFETIMEBOUND { return iterator(range()); }
    iterator begin() && = delete;
    [[nodiscard]] iterator end() const noexcept { return {}; }
    [[nodiscard]] std::size_t size() const noexcept { return range().count; }

    /// Why no field follows the last one: NDEF_END after a message, NDEF_REFUSED with the offset and the reason, or
    /// NDEF_BAD_ARGUMENT.
    [[nodiscard]] const error &after() const noexcept { return end_of; }

    /// The field to which the byte at an offset belongs; where there is none, what `after` says.
    result<field> at(ndef_size place) const noexcept {
        const field_view all = range();
        const auto is_after = [](ndef_size wanted, const ndef_field &one) { return wanted < one.at; };
        const ndef_field *next = std::upper_bound(all.first, all.first + all.count, place, is_after);
        if (next == all.first || place - (next - 1)->at >= (next - 1)->length) return end_of;
        return all.at(static_cast<std::size_t>(next - 1 - all.first));
    }

private:
    std::uint32_t fill(ndef_field *array, std::size_t size, bytes of, const ndef_limits &within, ndef_size *count) noexcept {
        ndef_checked why = {};
        const std::uint32_t answer = ndef_fields(of.data(), of.size(), &within, array, size, count, &why);
        view = {of, nullptr, 0};
        end_of = detail::failure(answer == NDEF_OK ? static_cast<std::uint32_t>(NDEF_END) : answer, why);
        return answer;
    }

    /// The fields where they lie now: those in memory that it owns move with it.
    [[nodiscard]] field_view range() const noexcept { return view.first ? view : field_view{view.whole, own.data(), own.size()}; }

    field_view view;
    std::vector<ndef_field> own;
    error end_of = detail::failure(NDEF_END);
};

} // namespace ndef

#endif
