/// ndef_answers.hpp: what all calls for C++ share: results and errors, views of bytes, buffers, iterators. Include
/// ndef.hpp.
#ifndef NDEF_ANSWERS_HPP
#define NDEF_ANSWERS_HPP

#include "ndef.h"

#include <cassert>
#include <cstddef>
#include <cstdint>
#include <cstdlib>
#include <exception>
#include <iterator>
#include <optional>
#include <string>
#include <string_view>
#include <type_traits>
#include <utility>
#include <variant>
#include <vector>

/// Clang warns where what is made of an argument outlives it.
#if defined(__has_cpp_attribute)
#if __has_cpp_attribute(clang::lifetimebound)
#define NDEF_LIFETIMEBOUND [[clang::lifetimebound]]
#endif
#endif
#ifndef NDEF_LIFETIMEBOUND
#define NDEF_LIFETIMEBOUND
#endif

namespace ndef {

// ---- answers

/// What a call answers, why a byte is refused, and what kind of name the type of a record is: NDEF_OK, ..,
/// NDEF_REASON_RESERVED_TNF, .. and NDEF_TNF_EMPTY, ...
using status = ::ndef_status;
using reason = ::ndef_reason;
using tnf = ::ndef_tnf;

/// The name of a status, as ndef_status_name writes it; "" for any other number.
constexpr std::string_view to_string(status value) noexcept {
#define NDEF_STATUS_TEXT(number, name, text) case NDEF_##name: return text;
    switch (value) { NDEF_STATUSES(NDEF_STATUS_TEXT) }
#undef NDEF_STATUS_TEXT
    return "";
}

/// The name of a reason, as ndef_reason_name writes it; "" for any other number.
constexpr std::string_view to_string(reason value) noexcept {
#define NDEF_REASON_TEXT(number, name, text) case NDEF_REASON_##name: return text;
    switch (value) { NDEF_REASONS(NDEF_REASON_TEXT) }
#undef NDEF_REASON_TEXT
    return "";
}

/// What a reason means, in a sentence of English, as ndef_reason_sentence writes it; "" for any other number.
constexpr std::string_view sentence(reason value) noexcept {
#define NDEF_SENTENCE_TEXT(number, name, text) case NDEF_REASON_##name: return text;
    switch (value) { NDEF_SENTENCES(NDEF_SENTENCE_TEXT) }
#undef NDEF_SENTENCE_TEXT
    return "";
}

/// Which argument of a call that writes a message is wrong: the limits, that there are no records, or of a record its type
/// name format, its type, its id, its payload or several of them.
enum class argument { unknown, limits, records, format, type, id, payload, several };

/// Why there is no value.
struct error {
    status what = NDEF_BAD_ARGUMENT; ///< never NDEF_OK
    reason why = {};                 ///< with NDEF_REFUSED, the reason; else 0
    std::uint64_t place = 0;         ///< with NDEF_REFUSED, the offset of the first refused byte; else 0
    ndef_size needed = 0;            ///< with NDEF_BUFFER_TOO_SMALL, the size that the buffer must have; else 0
    /// Where a record isn't written, its index in the message, from 0; `place` counts from its first byte then.
    std::optional<std::size_t> record{};
    argument which = argument::unknown; ///< with NDEF_BAD_ARGUMENT of a call that writes a message, which argument

    /// With NDEF_REFUSED, what the reason means, in a sentence; else "". ndef::why says what was wanted, of the bytes.
    [[nodiscard]] constexpr std::string_view sentence() const noexcept { return ndef::sentence(why); }

    friend constexpr bool operator==(const error &left, const error &right) noexcept {
        return left.what == right.what && left.why == right.why && left.place == right.place && left.needed == right.needed &&
            left.record == right.record && left.which == right.which;
    }
    friend constexpr bool operator!=(const error &left, const error &right) noexcept { return !(left == right); }
};

/// What `value()` of a result throws where there is none.
class bad_result_access : public std::exception {
public:
    explicit bad_result_access(const ndef::error &of) noexcept : why(of) {}
    const char *what() const noexcept override { return "an ndef::result has no value"; }
    [[nodiscard]] const ndef::error &error() const noexcept { return why; }

private:
    ndef::error why;
};

/// A value, or the error that says why there is none. It is used as std::expected of C++23 is, but `->` isn't there for a
/// temporary whose value owns memory: what is seen by it would be gone.
template <class T> class [[nodiscard]] result {
public:
    using value_type = T;
    constexpr result(T value) noexcept(std::is_nothrow_move_constructible_v<T>) : held(std::move(value)) {}
    constexpr result(ndef::error why) noexcept : held(why) {}

    constexpr bool has_value() const noexcept { return held.index() == 0; }
    constexpr explicit operator bool() const noexcept { return has_value(); }

    /// The value. There must be one: ask first.
    constexpr const T &operator*() const & noexcept { return *value_pointer(); }
    constexpr T &operator*() & noexcept { return *const_cast<T *>(value_pointer()); }
    constexpr T &&operator*() && noexcept { return std::move(*const_cast<T *>(value_pointer())); }
    constexpr const T *operator->() const & noexcept { return value_pointer(); }
    constexpr T *operator->() & noexcept { return const_cast<T *>(value_pointer()); }
    constexpr const T *operator->() const && noexcept {
        static_assert(std::is_trivially_copyable_v<T>, "keep the result as long as what is seen by it");
        return value_pointer();
    }
    /// The same; bad_result_access where there is none, or where the compiler has no exceptions, std::abort.
    constexpr const T &value() const & { return has_value() ? **this : (fail(), **this); }
    constexpr T &value() & { return has_value() ? **this : (fail(), **this); }
    constexpr T &&value() && { return has_value() ? *std::move(*this) : (fail(), *std::move(*this)); }
    constexpr T value_or(T other) const & { return has_value() ? **this : std::move(other); }
    constexpr T value_or(T other) && { return has_value() ? *std::move(*this) : std::move(other); }

    /// The error. There must be one: ask first.
    [[nodiscard]] constexpr const ndef::error &error() const noexcept {
        assert(!has_value());
        return *std::get_if<1>(&held);
    }

    /// What a function makes of the value, which is a result; or the error.
    template <class F> constexpr auto and_then(F &&next) const & -> std::invoke_result_t<F, const T &> {
        if (has_value()) return std::forward<F>(next)(**this);
        return error();
    }
    template <class F> constexpr auto and_then(F &&next) && -> std::invoke_result_t<F, T &&> {
        if (has_value()) return std::forward<F>(next)(*std::move(*this));
        return error();
    }

    /// What a function makes of the value, as a result; or the error.
    template <class F> constexpr auto transform(F &&next) const & -> result<std::invoke_result_t<F, const T &>> {
        if (has_value()) return std::forward<F>(next)(**this);
        return error();
    }
    template <class F> constexpr auto transform(F &&next) && -> result<std::invoke_result_t<F, T &&>> {
        if (has_value()) return std::forward<F>(next)(*std::move(*this));
        return error();
    }

    /// The value; or what a function makes of the error, which is a result of the same type.
    template <class F> constexpr result or_else(F &&next) const & {
        return has_value() ? *this : std::forward<F>(next)(error());
    }
    template <class F> constexpr result or_else(F &&next) && {
        return has_value() ? std::move(*this) : std::forward<F>(next)(error());
    }

    /// The value; or the error that a function makes of the error.
    template <class F> constexpr result transform_error(F &&next) const & {
        return has_value() ? *this : result(std::forward<F>(next)(error()));
    }
    template <class F> constexpr result transform_error(F &&next) && {
        return has_value() ? std::move(*this) : result(std::forward<F>(next)(error()));
    }

private:
    [[noreturn]] void fail() const {
#ifdef __cpp_exceptions
        throw bad_result_access(error());
#else
        std::abort();
#endif
    }

    [[nodiscard]] constexpr const T *value_pointer() const noexcept {
        assert(has_value());
        return std::get_if<0>(&held);
    }

    std::variant<T, ndef::error> held;
};

/// Whether two results have equal values, or equal errors.
template <class T, class Other>
constexpr auto operator==(const result<T> &left, const result<Other> &right) -> decltype(static_cast<bool>(*left == *right)) {
    if (left.has_value() != right.has_value()) return false;
    return left ? static_cast<bool>(*left == *right) : left.error() == right.error();
}
template <class T, class Other>
constexpr auto operator!=(const result<T> &left, const result<Other> &right) -> decltype(left == right) {
    return !(left == right);
}

// ---- memory

namespace detail {
/// Memory of characters, std::bytes or numbers of 8 bits, as bytes.
template <class T, class = std::enable_if_t<sizeof(T) == 1 && std::is_trivial_v<T>>> auto octets(T *data) noexcept {
    return reinterpret_cast<std::conditional_t<std::is_const_v<T>, const std::uint8_t *, std::uint8_t *>>(data);
}

/// Whether a type gives bytes that live in it, as a container does and a view doesn't: one that is const gives others.
template <class T> using data_of = decltype(std::data(std::declval<T &>()));
template <class T, class = void> inline constexpr bool owns = false;
template <class T>
inline constexpr bool owns<T, std::void_t<decltype(octets(std::declval<data_of<T>>()))>> =
    !std::is_array_v<T> && !std::is_same_v<data_of<T>, data_of<const T>>;
template <class T, std::size_t Count> inline constexpr bool owns<T[Count], void> = !std::is_same_v<T, char>;
template <class T> using if_owner = std::enable_if_t<owns<std::remove_cv_t<std::remove_reference_t<T>>>>;
template <class T> using if_view =
    std::enable_if_t<!owns<T>, decltype(octets(std::data(std::declval<const T &>())))>;
} // namespace detail

/// A view of bytes: of a std::vector, std::array, std::span, std::string or array of std::uint8_t, std::byte or char.
class bytes {
public:
    constexpr bytes() noexcept = default;
    constexpr bytes(const std::uint8_t *data, std::size_t size) noexcept : first(data), length(size) {}
    template <class View, class = detail::if_view<View>>
    bytes(const View &of) noexcept : first(detail::octets(std::data(of))), length(std::size(of)) {}
    template <class Owner, class = detail::if_owner<Owner>, class = void>
    bytes(Owner &&of NDEF_LIFETIMEBOUND) noexcept : first(detail::octets(std::data(of))), length(std::size(of)) {}
    /// It isn't clear whether the NUL of a literal counts: give a std::string_view.
    template <std::size_t Count> bytes(const char (&)[Count]) = delete;

    [[nodiscard]] constexpr const std::uint8_t *data() const noexcept { return first; }
    [[nodiscard]] constexpr std::size_t size() const noexcept { return length; }
    [[nodiscard]] constexpr bool empty() const noexcept { return length == 0; }
    [[nodiscard]] constexpr const std::uint8_t *begin() const noexcept { return first; }
    [[nodiscard]] constexpr const std::uint8_t *end() const noexcept { return first + length; }
    constexpr std::uint8_t operator[](std::size_t index) const noexcept {
        assert(index < length);
        return first[index];
    }

    /// The bytes from an offset on; none if the offset is beyond the end.
    [[nodiscard]] constexpr bytes from(ndef_size at) const noexcept { return part(at, length); }

    /// `count` bytes from an offset on, or as many of them as there are.
    [[nodiscard]] constexpr bytes part(ndef_size at, ndef_size count) const noexcept {
        if (at > length) return {};
        const std::size_t place = static_cast<std::size_t>(at), rest = length - place;
        return {first + place, count < rest ? static_cast<std::size_t>(count) : rest};
    }

    /// The same bytes as characters.
    [[nodiscard]] std::string_view text() const noexcept { return {reinterpret_cast<const char *>(first), length}; }

    friend bool operator==(bytes left, bytes right) noexcept { return left.text() == right.text(); }
    friend bool operator!=(bytes left, bytes right) noexcept { return !(left == right); }

private:
    const std::uint8_t *first = nullptr;
    std::size_t length = 0;
};

/// Bytes that a view is made of. They have to outlive it, so a temporary that owns them isn't taken.
class kept : public bytes {
public:
    using bytes::bytes;
    constexpr kept(bytes of) noexcept : bytes(of) {}
    template <class Owner, class = detail::if_owner<Owner>, class = void>
    kept(Owner &of NDEF_LIFETIMEBOUND) noexcept : bytes(of) {}
    template <class Owner, class = detail::if_owner<Owner>, class = std::enable_if_t<!std::is_reference_v<Owner>>>
    kept(Owner &&) = delete;
};

/// A buffer of the caller, to which calls write one after the other. A call that succeeds takes what it wrote from the
/// front of the buffer, so what it returned stays as it is. A call that fails takes nothing.
class buffer {
public:
    /// A buffer of no bytes. A call that writes to it gives the size that it needs.
    constexpr buffer() noexcept = default;
    constexpr buffer(std::uint8_t *data, std::size_t size) noexcept : first(data), length(size) {}
    template <class Container, class = std::enable_if_t<std::is_same_v<std::uint8_t *, decltype(detail::octets(
                                                                  std::data(std::declval<Container &>())))>>>
    explicit buffer(Container &of) noexcept : first(detail::octets(std::data(of))), length(std::size(of)) {}

    [[nodiscard]] constexpr std::uint8_t *data() const noexcept { return first; }
    [[nodiscard]] constexpr std::size_t size() const noexcept { return length; }

    /// Takes bytes from the front of the buffer; all of them if there are fewer.
    constexpr bytes take(ndef_size count) noexcept {
        const std::size_t taken = count < length ? static_cast<std::size_t>(count) : length;
        const bytes front{first, taken};
        first += taken;
        length -= taken;
        return front;
    }

private:
    std::uint8_t *first = nullptr;
    std::size_t length = 0;
};

namespace detail {
constexpr error failure(std::uint32_t answer, const ndef_checked &why = {}, ndef_size needed = 0) noexcept {
    if (answer == NDEF_REFUSED) return {NDEF_REFUSED, static_cast<reason>(why.reason), why.place, 0};
    return {static_cast<status>(answer), {}, 0, answer == NDEF_BUFFER_TOO_SMALL ? needed : 0};
}

/// What a call writes to a buffer: call(memory, size, count, why).
template <class Call> result<bytes> written(buffer &to, Call call) noexcept {
    ndef_size count = 0;
    ndef_checked why = {};
    const std::uint32_t answer = call(to.data(), ndef_size{to.size()}, &count, &why);
    if (answer != NDEF_OK) return failure(answer, why, count);
    return to.take(count);
}

/// The same as a string, of which the call is asked for the size first; empty if the call fails.
template <class Call> std::string as_string(Call call) {
    ndef_size count = 0;
    ndef_checked why = {};
    std::string text;
    if (call(static_cast<std::uint8_t *>(nullptr), ndef_size{0}, &count, &why) != NDEF_BUFFER_TOO_SMALL) return text;
    text.resize(static_cast<std::size_t>(count));
    call(reinterpret_cast<std::uint8_t *>(text.data()), count, &count, &why);
    return text;
}

/// What a call of ndef.h writes whose last arguments are a buffer: call(words.., memory, size, count).
template <class Call, class... Words> result<bytes> put(buffer &to, Call call, Words... words) noexcept {
    return written(to, [&](std::uint8_t *memory, ndef_size size, ndef_size *count, ndef_checked *) {
        return call(words..., memory, size, count);
    });
}

/// The elements that a call of ndef.h writes to an array of the caller: call(words.., array, size, count). The count, or
/// NDEF_BUFFER_TOO_SMALL with the number of elements that are needed.
template <class Element, class Call, class... Words>
result<std::size_t> filled(Element *array, std::size_t size, Call call, Words... words) noexcept {
    ndef_size count = 0;
    const std::uint32_t answer = call(words..., array, ndef_size{size}, &count);
    if (answer != NDEF_OK) return failure(answer, {}, count);
    return static_cast<std::size_t>(count);
}

/// The same in a std::vector; an empty one where the call answers something else.
template <class Element, class Call, class... Words> std::vector<Element> all_of(Call call, Words... words) {
    std::vector<Element> array;
    const auto asked = filled<Element>(nullptr, 0, call, words...);
    if (asked || asked.error().what != NDEF_BUFFER_TOO_SMALL) return array;
    array.resize(static_cast<std::size_t>(asked.error().needed));
    filled(array.data(), array.size(), call, words...).has_value();
    return array;
}

/// What all views of payloads have: the payload, and what a call says of it.
template <class Parts> class payload_view {
public:
    /// The payload itself.
    [[nodiscard]] bytes payload() const noexcept { return whole; }

protected:
    /// Reads a payload by a call of ndef.h: call(payload, length, words.., parts, why).
    template <class View, class Call, class... Words>
    static result<View> read_by(bytes payload, Call call, Words... words) noexcept {
        View found;
        ndef_checked why = {};
        const std::uint32_t answer = call(payload.data(), payload.size(), words..., &found.raw, &why);
        if (answer != NDEF_OK) return failure(answer, why);
        found.whole = payload;
        return found;
    }

    [[nodiscard]] bytes part(ndef_size at, ndef_size length) const noexcept { return whole.part(at, length); }

    bytes whole;
    Parts raw = {};
};

/// No more values follow.
inline constexpr ndef_size no_place = ~ndef_size{0};

/// An iterator over a range that has look(place, value): whether there is a value from an offset on. It is written to `value`,
/// and the offset becomes that from which the next one is looked for.
template <class Range, class T> class iterator_of {
public:
    using iterator_category = std::input_iterator_tag;
    using iterator_concept = std::forward_iterator_tag;
    using value_type = T;
    using difference_type = std::ptrdiff_t;
    using pointer = const T *;
    using reference = T;

    iterator_of() noexcept = default;
    explicit iterator_of(const Range &of) noexcept : range(of), is_there(range.look(next, now)) {}
    T operator*() const noexcept { return now; }
    const T *operator->() const noexcept { return &now; }
    iterator_of &operator++() noexcept {
        is_there = next != no_place && range.look(next, now);
        return *this;
    }
    iterator_of operator++(int) noexcept {
        iterator_of before = *this;
        ++*this;
        return before;
    }
    friend bool operator==(const iterator_of &left, const iterator_of &right) noexcept {
        return left.is_there == right.is_there && (!left.is_there || left.next == right.next);
    }
    friend bool operator!=(const iterator_of &left, const iterator_of &right) noexcept { return !(left == right); }

private:
    Range range;
    T now{};
    ndef_size next = 0;
    bool is_there = false;
};
} // namespace detail

} // namespace ndef

#endif
