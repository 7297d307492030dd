// Programs that would read memory that is gone, one for each number in CASE from 1 to 15. None of them compiles. Case 0, which
// keeps what is looked at, does.
#include "ndef.hpp"

std::string file();
std::vector<std::uint8_t> octets();
ndef::result<ndef::owned_message> owned();

int main() {
    const std::string kept = file();
    const auto message = ndef::message::check(kept);
#if CASE == 0
    const auto text = std::string_view(kept);
    const auto same = ndef::message::check(text), again = ndef::message::check(ndef::bytes(kept));
    const auto own = owned();
    const std::string &lent = kept;
    std::uint8_t array[3] = {0xD0, 0, 0};
    const auto of_array = ndef::message::check(array);
    const ndef::fields fields(lent);
    std::size_t count = 0;
    for (const ndef::field &field : ndef::fields(kept)) count += field.at;
    for (const ndef::record &record : own->view()) count += record.chunks();
    return ndef::why(file()) || ndef::owned_message::check(file()) || same || again || of_array ||
        own->octets().size() + fields.size() + count || message->begin()->as<ndef::text>()->str().empty();
#elif CASE == 1
    const auto gone = ndef::message::check(file());
#elif CASE == 2
    const auto gone = ndef::message::check(octets());
#elif CASE == 3
    const auto gone = ndef::message::unchecked(static_cast<const std::string &&>(file()));
#elif CASE == 4
    const ndef::fields gone(octets());
#elif CASE == 5
    const auto gone = ndef::record::at(file(), 0);
#elif CASE == 6
    const auto gone = ndef::text::read(message->begin()->payload_string());
#elif CASE == 7
    const auto gone = owned()->view();
#elif CASE == 8
    const auto gone = (*owned()).view();
#elif CASE == 9
    const auto gone = (*owned()).octets();
#elif CASE == 10
    const auto gone = (*owned()).begin();
#elif CASE == 11
    const auto gone = ndef::fields(kept).begin();
#elif CASE == 12
    const auto gone = ndef::links(*message, octets());
#elif CASE == 13
    const ndef::bytes gone("letters");
#elif CASE == 14
    const ndef::message_writer<std::vector<ndef::new_record>> gone(std::vector<ndef::new_record>{});
#elif CASE == 15
    const auto gone = ndef::links(*message, kept).begin();
#endif
}
