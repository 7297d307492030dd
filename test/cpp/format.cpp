// std::format prints an error as operator<< does. STUB stands for the header <format> that a compiler lacks.
#ifdef STUB
#include <string>
namespace std {
struct format_context { string *to; };
template <class T> struct formatter;
template <> struct formatter<string> {
    string *format(const string &text, format_context &context) const { return &(*context.to += text); }
};
} // namespace std
#endif
#include "ndef.hpp"

int main() {
    const std::uint8_t input[] = {0xd7, 0, 0};
    const ndef::error why = ndef::message::check(input).error();
#ifdef STUB
    std::string text;
    std::format_context context{&text};
    std::formatter<ndef::error>().format(why, context);
#else
    const std::string text = std::format("{}", why);
#endif
    return text != ndef::to_string(why);
}
