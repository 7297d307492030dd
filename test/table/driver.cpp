// driver TABLE: makes each call of the table, as its second form has them, through ndef.hpp, and prints a line for each row. What is given to what
// copies is gone before an answer is read, and three threads make all calls again in another order: nothing may be another answer then.
#include "ndef.hpp"

#include <algorithm>
#include <atomic>
#include <cstdio>
#include <cstring>
#include <fstream>
#include <iostream>
#include <map>
#include <sstream>
#include <string>
#include <thread>
#include <vector>

static const char NOT[] = R"({"stream":"there is no reader of streams: a checker is fed","trailing":"a message is what the bytes begin with",
"layout":"there are no layouts in ndef.hpp","sentence":"why says it of the bytes","which":"builders of payloads don't say it","limits":"why and hint say nothing where the limits are out of range",
"place":"the error of a checker has it","refused":"links are asked of a view that was read","value":"views of the payload, not of the record","profile":"normalize is of a strict message","within":"there are views of texts, URIs, alternative carriers and errors"})";

// ---- a row of the table, or a part of it

class part {
public:
    using words = std::map<std::string, std::string>;
    part(const words &all, std::string name) : all(&all), name(std::move(name)) {}
    part operator[](const std::string &member) const { return part(*all, name.empty() ? member : name + "." + member); }
    part operator[](std::size_t index) const { return (*this)[std::to_string(index)]; }
    explicit operator bool() const { return all->count(name) != 0; }
    std::string string() const { return *this ? all->at(name) : std::string(); }
    std::uint32_t u32() const { return *this ? static_cast<std::uint32_t>(std::stoul(string())) : 0; }
    std::vector<part> items() const {
        std::vector<part> made;
        for (std::size_t index = 0; *this && index < u32(); index++) made.push_back((*this)[index]);
        return made;
    }

private:
    const words *all;
    std::string name;
};

static part::words words_of(const std::string &line) {
    part::words made;
    for (std::size_t at = 0; at < line.size();) {
        const std::size_t end = std::min(line.find('\t', at), line.size()), sign = line.find('=', at);
        made[line.substr(at, sign - at)] = line.substr(sign + 1, end - sign - 1);
        at = end + 1;
    }
    return made;
}

// ---- what is shown

using std::string;
static string quoted(std::string_view text) {
    string made = "\"";
    for (const char one : text) {
        if (one == '"' || one == '\\') made += '\\';
        made += one;
    }
    return made + '"';
}
static string hex(ndef::bytes of) {
    string made = "\"";
    for (const unsigned octet : of) { char two[3]; std::snprintf(two, sizeof two, "%02x", octet); made += two; }
    return made + '"';
}
static string hex(std::string_view of) { return hex(ndef::bytes(of)); }
static string hex(const string &of) { return hex(std::string_view(of)); }
static string list(const std::vector<string> &all) {
    string made = "[";
    for (const string &one : all) made += (made.size() > 1 ? "," : "") + one;
    return made + "]";
}
static string number(std::uint64_t value) { return std::to_string(value); }
static string maybe(const std::optional<string> &text) { return text ? quoted(*text) : "null"; }
static string flag(bool value) { return value ? "true" : "false"; }

static std::vector<std::uint8_t> octets(const part &digits) {
    const string all = digits.string();
    std::vector<std::uint8_t> made;
    for (std::size_t at = 0; at < all.size(); at += 2) made.push_back(static_cast<std::uint8_t>(std::stoul(all.substr(at, 2), nullptr, 16)));
    return made;
}
static string text(const part &digits) { const auto all = octets(digits); return {all.begin(), all.end()}; }

struct missing { const char *why; };
struct answered { string text; };

static string place_of(const ndef::error &why) { return "[" + number(why.place) + "," + quoted(ndef::to_string(why.why)) + "]"; }
static string refusal_of(const ndef::error &why) {
    const bool is_refused = why.what == NDEF_REFUSED;
    if (is_refused == (why.why == decltype(why.why){}) || (!is_refused && why.place) || (why.what == NDEF_BUFFER_TOO_SMALL) != (why.needed != 0))
        return R"({"failed":"an error with what another has"})";
    if (!is_refused) return R"({"bad":true})";
    if (!why.record) return "{\"refused\":" + place_of(why) + "}";
    return "{\"refused\":{\"record\":" + number(*why.record) + ",\"place\":" + number(why.place) + ",\"reason\":" + quoted(ndef::to_string(why.why)) + ",\"sentence\":\"-sentence\"}}";
}
template <class T> static T of(ndef::result<T> made) {
    if (!made) throw answered{refusal_of(made.error())};
    return *made;
}

static ndef::limits limits_of(const part &row) {
    ndef::limits made;
    if (row["limits"]["payload"]) made.payload = row["limits"]["payload"].u32();
    if (row["limits"]["records"]) made.records = row["limits"]["records"].u32();
    if (row["limits"]["chunks"]) made.chunks = row["limits"]["chunks"].u32();
    made.flags = (row["profile"] ? NDEF_STANDARD : 0) | (row["opaque"] ? NDEF_OPAQUE : 0);
    return made;
}
static ndef::profile profile_of(const part &row) { return row["profile"] ? ndef::profile::standard : ndef::profile::strict; }

// ---- values

static string of_text(const ndef::text &one) { return "[" + hex(one.language()) + "," + hex(one.str()) + "," + flag(one.is_utf16()) + "]"; }
static string of_carrier(const ndef::alternative &one, const string &more = "") {
    std::vector<string> others;
    for (const auto name : one.references()) others.push_back(hex(name));
    const string first = others.at(0);
    others.erase(others.begin());
    return "[" + number(static_cast<unsigned>(one.power())) + "," + first + "," + list(others) + more + "]";
}
template <class View> static string of_handover(const View &one) {
    std::vector<string> carriers;
    for (const auto &carrier : ndef::views<ndef::alternative>(one.records())) carriers.push_back(of_carrier(carrier));
    if (carriers.size() != one.carrier_count()) throw answered{R"({"failed":"carrier_count"})"};
    return "\"version\":[" + number(one.major_version()) + "," + number(one.minor_version()) + "],\"carriers\":" + list(carriers);
}
static string value(const ndef::text &one) { return "{\"kind\":\"text\",\"language\":" + hex(one.language()) + ",\"text\":" + hex(one.str()) + ",\"utf16\":" + flag(one.is_utf16()) + "}"; }
static string value(const ndef::uri &one) { return "{\"kind\":\"uri\",\"uri\":" + hex(one.str()) + "}"; }
static string value(const ndef::poster &one) {
    std::vector<string> titles, icons;
    for (const ndef::text &title : one.titles()) titles.push_back(of_text(title));
    for (const ndef::icon &icon : one.icons()) icons.push_back("[" + hex(icon.media_type) + "," + hex(icon.data) + "]");
    return "{\"kind\":\"poster\",\"uri\":" + hex(one.uri().str()) + ",\"titles\":" + list(titles) + ",\"action\":" + (one.action() ? number(static_cast<unsigned>(*one.action())) : "null")
        + ",\"size\":" + (one.size() ? number(*one.size()) : "null") + ",\"media\":" + (one.media_type() ? hex(*one.media_type()) : "null") + ",\"icons\":" + list(icons) + "}";
}
static string value(const ndef::request &one) { return "{\"kind\":\"request\"," + of_handover(one) + ",\"collision\":" + number(one.collision()) + "}"; }
static string value(const ndef::select &one) {
    string wrong = "null";
    if (one.error_reason()) {
        for (const auto &error : ndef::views<ndef::handover_error>(one.records())) {
            wrong = "[" + number(*one.error_reason()) + "," + hex(one.error_data()) + "," + (error.number() ? number(*error.number()) : "null") + "]";
            break;
        }
    }
    return "{\"kind\":\"select\"," + of_handover(one) + ",\"error\":" + wrong + "}";
}
static string value(const ndef::carrier &one) {
    return "{\"kind\":\"carrier\",\"format\":" + number(one.format()) + ",\"type\":" + hex(one.type()) + ",\"data\":" + hex(one.data()) + "}";
}

// What a reader of a view by its type name makes of each kind.
template <class Use> static string by_kind(unsigned kind, Use use) {
    switch (kind) {
        case NDEF_KIND_TEXT: return use(ndef::text());
        case NDEF_KIND_URI: return use(ndef::uri());
        case NDEF_KIND_SMART_POSTER: return use(ndef::poster());
        case NDEF_KIND_REQUEST: return use(ndef::request());
        case NDEF_KIND_SELECT: return use(ndef::select());
        case NDEF_KIND_CARRIER: return use(ndef::carrier());
        default: return "null";
    }
}
static string value_of(const ndef::record &record, ndef::profile how) {
    for (unsigned kind = NDEF_KIND_TEXT; kind <= NDEF_KIND_CARRIER; kind++)
        if (kind != record.kind() && by_kind(kind, [&](auto view) { return record.as<decltype(view)>(how) ? string("a value") : string(); }) != "") throw answered{R"({"failed":"a view of another type"})"};
    return by_kind(record.kind(), [&](auto view) {
        std::vector<std::uint8_t> memory(static_cast<std::size_t>(record.payload_size()));
        ndef::buffer joined(memory);
        const auto read = record.as<decltype(view)>(joined, how);
        return read ? value(*read) : refusal_of(read.error());
    });
}
static string parts_of(const ndef::record &record) {
    return number(record.format()) + "," + hex(record.type()) + "," + hex(record.id()) + "," + hex(record.payload_string());
}

static std::vector<std::uint8_t> made(const part &given) {
    const string kind = given["kind"].string();
    std::vector<std::uint8_t> memory(1 << 17);
    ndef::buffer buffer(memory);
    const auto kept = [](ndef::bytes of) { return std::vector<std::uint8_t>(of.begin(), of.end()); };
    if (kind == "text") {
        const string language = text(given["language"]), said = text(given["text"]);
        return kept(of(ndef::write_text(buffer, language, said, given["utf16"] ? ndef::encoding::utf16 : ndef::encoding::utf8)));
    }
    if (kind == "uri") return kept(of(ndef::write_uri(buffer, text(given["uri"]))));
    if (kind == "carrier") return kept(of(ndef::write_carrier(buffer, given["format"].u32(), text(given["type"]), octets(given["data"]))));
    if (kind == "poster") {
        ndef::poster_builder poster(text(given["uri"]));
        for (const part &one : given["titles"].items()) poster.title(text(one[0]), text(one[1]), one[2] ? ndef::encoding::utf16 : ndef::encoding::utf8);
        for (const part &one : given["icons"].items()) poster.icon(text(one[0]), octets(one[1]));
        if (given["action"]) poster.action(static_cast<ndef::action>(given["action"].u32()));
        if (given["size"]) poster.size(given["size"].u32());
        if (given["media"]) poster.media_type(text(given["media"]));
        return of(poster.payload());
    }
    if (given["version"][0].u32() != 1) throw answered{R"({"bad":true})"};
    const auto carriers = [&](auto &builder) {
        for (const part &one : given["carriers"].items()) {
            std::vector<string> others;
            for (const part &other : one[2].items()) others.push_back(text(other));
            builder.carrier(static_cast<ndef::power>(one[0].u32()), text(one[1]), std::vector<std::string_view>(others.begin(), others.end()));
        }
    };
    if (kind == "request") {
        ndef::request_builder request(given["collision"].u32(), given["version"][1].u32());
        carriers(request);
        return of(request.payload());
    }
    ndef::select_builder select(given["version"][1].u32());
    carriers(select);
    if (given["error"]) select.error(given["error"][0].u32(), octets(given["error"][1]));
    return of(select.payload());
}

// ---- operations

// Records to be written, with what they see.
struct written {
    std::vector<std::vector<string>> texts;
    std::vector<ndef::new_record> records;
    explicit written(const part &row) {
        for (const part &one : row["records"].items()) texts.push_back({text(one[1]), text(one[2]), text(one[3])});
        for (std::size_t at = 0; at < texts.size(); at++)
            records.push_back({static_cast<ndef::tnf>(row["records"][at][0].u32()), texts[at][0], texts[at][2], texts[at][1], row["form"]["chunk"].u32(), bool(row["form"]["long"])});
    }
};
static ndef::checking checking_of(const part &row) { return row["unchecked"] ? ndef::checking(ndef::unchecked) : ndef::checking(limits_of(row)); }

static string decode(const part &row) {
    const auto input = octets(row["bytes"]);
    const ndef::message message = of(ndef::message::check(input, limits_of(row)));
    std::vector<string> records;
    for (const ndef::record &record : message) records.push_back("[" + parts_of(record) + "," + number(record.kind()) + "," + value_of(record, profile_of(row)) + "]");
    return "{\"length\":" + number(message.octets().size()) + ",\"records\":" + list(records) + "}";
}
static string check(const part &row) {
    const auto input = octets(row["bytes"]);
    const ndef::message message = of(ndef::message::check(input, limits_of(row)));
    return "{\"length\":" + number(message.octets().size()) + ",\"records\":" + number(message.record_count()) + "}";
}
static string feed(const part &row) {
    ndef::checker checker(limits_of(row));
    std::vector<string> steps;
    std::size_t fed = 0;
    for (const part &part : row["parts"].items()) {
        const auto next = octets(part);
        fed += next.size();
        const auto found = checker.feed(next);
        if (!found && found.error().what != NDEF_REFUSED) return R"({"bad":true})";
        if (!found) steps.push_back("[\"refused\"," + number(found.error().place) + "," + quoted(ndef::to_string(found.error().why)) + "]");
        else steps.push_back(*found ? "[\"whole\"," + number((*found)->size) + "]" : "[\"more\"," + number(fed) + "]");
    }
    return "{\"fed\":" + list(steps) + "}";
}
static string fields(const part &row) {
    const auto input = octets(row["bytes"]);
    const ndef::fields all(input, limits_of(row));
    std::vector<string> items;
    for (const ndef::field &one : all) {
        items.push_back("[" + number(one.at) + "," + number(one.octets.size()) + "," + number(one.depth) + "," + quoted(ndef::to_string(one.name)) + "]");
        const auto again = all.at(one.at + one.octets.size() - 1);
        if (!again || again->at != one.at) return R"({"failed":"at"})";
    }
    if (all.after().what == NDEF_BAD_ARGUMENT) return R"({"bad":true})";
    return "{\"fields\":" + list(items) + ",\"refused\":" + (all.after().what == NDEF_REFUSED ? place_of(all.after()) : "null") + "}";
}
// Whether the limits of a row are such as there may be.
static bool has_limits(const part &row) {
    const auto is_within = [&](const char *name, std::uint32_t most) { return !row["limits"][name] || (row["limits"][name].u32() && row["limits"][name].u32() <= most); };
    return is_within("payload", 4294967295) && is_within("records", 65535) && is_within("chunks", 65535);
}
static string refusal(const part &row) {
    const auto input = octets(row["bytes"]);
    const ndef::limits within = limits_of(row);
    if (row["opaque"] || !has_limits(row)) throw missing{"limits"};
    const auto found = ndef::find_hint(input, within);
    string numbers = "null", said = "null";
    if (found) {
        numbers = "[" + number(found->kind) + "," + number(found->place) + "," + number(found->size) + "]";
        const string all = found->text();
        std::vector<string> places;
        if (const auto at = all.find("read `"); at != string::npos) {
            const auto from = all.find_first_of("0123456789", all.find('.', at));
            const std::uint64_t first = std::stoull(all.substr(from));
            places.push_back(number(std::min<std::uint64_t>(first, input.size())));
            if (const auto comma = all.find(", ", from); comma != string::npos) places.push_back(number(std::min<std::uint64_t>(first + std::stoull(all.substr(comma + 2)), input.size())));
        }
        said = "[" + quoted(all.substr(0, all.find(':'))) + "," + list(places) + "]";
    }
    return "{\"why\":" + maybe(ndef::why(input, within)) + ",\"hint\":" + maybe(ndef::hint(input, within)) + ",\"found\":" + numbers + ",\"text\":" + said + "}";
}
static string warnings(const part &row) {
    const auto input = octets(row["bytes"]);
    const ndef::message message = of(ndef::message::check(input));
    std::vector<string> of_fields, of_records;
    const ndef::fields all(input);
    std::size_t index = 0;
    for (const ndef::field &one : all) {
        if (const auto said = ndef::field_warning(one)) of_fields.push_back("[" + number(index) + "," + quoted(*said) + "]");
        index++;
    }
    for (index = 0; index <= message.record_count(); index++)
        if (const auto said = ndef::record_warning(input, index)) of_records.push_back("[" + number(index) + "," + quoted(*said) + "]");
    return "{\"fields\":" + list(of_fields) + ",\"records\":" + list(of_records) + "}";
}
template <class View> static string links_of(const ndef::message &message, const ndef::record &record, ndef::profile how) {
    std::vector<std::uint8_t> memory(static_cast<std::size_t>(record.payload_size()));
    ndef::buffer joined(memory);
    const auto read = record.as<View>(joined, how);
    if (!read) throw missing{"refused"};
    const View handover = *read;
    std::vector<string> items;
    const ndef::links all = handover.links(message);
    for (const ndef::link &one : all) items.push_back(of_carrier(one.alternative, one.record ? "," + number(one.record_index) : ",null"));
    return "{\"links\":" + list(items) + "}";
}
static string links(const part &row) {
    const auto input = octets(row["bytes"]);
    const ndef::message message = of(ndef::message::check(input, limits_of(row)));
    std::uint32_t index = 0;
    for (const ndef::record &record : message)
        if (index++ == row["index"].u32()) {
            if (record.kind() == NDEF_KIND_REQUEST) return links_of<ndef::request>(message, record, profile_of(row));
            if (record.kind() == NDEF_KIND_SELECT) return links_of<ndef::select>(message, record, profile_of(row));
        }
    throw missing{"refused"};
}
static string value_of_row(const part &row) {
    const auto payload = octets(row["payload"]);
    const std::map<string, unsigned> kinds{{"T", 1}, {"U", 2}, {"Sp", 3}, {"Hr", 4}, {"Hs", 5}, {"Hc", 6}};
    return by_kind(kinds.at(text(row["type"])), [&](auto view) { return "{\"value\":" + value(of(decltype(view)::read(payload, profile_of(row)))) + "}"; });
}
// The value of a record within a poster or handover; ndef.hpp has no views of the others.
static string value_within(const ndef::record &one, ndef::kind outer, ndef::profile how) {
    const unsigned kind = one.kind(outer);
    if (kind == NDEF_KIND_ALTERNATIVE) return "{\"kind\":\"alternative\",\"alternative\":" + of_carrier(*one.as<ndef::alternative>(how)) + "}";
    if (kind == NDEF_KIND_ERROR) {
        const auto error = *one.as<ndef::handover_error>(how);
        return "{\"kind\":\"error\",\"error\":[" + number(error.error_reason()) + "," + hex(error.data()) + "," + (error.number() ? number(*error.number()) : "null") + "]}";
    }
    return kind >= NDEF_KIND_ACTION ? R"("-within")" : kind == NDEF_KIND_OTHER ? "null" : value_of(one, how);
}
template <class View> static string within_of(const View &one, ndef::kind outer, ndef::profile how) {
    std::vector<string> items;
    if (one.records().octets().empty()) return R"({"within":[]})";
    for (const ndef::record &each : one.records())
        items.push_back("[" + parts_of(each) + "," + number(each.kind(outer)) + "," + value_within(each, outer, how) + "]");
    return "{\"within\":" + list(items) + "}";
}
static string within(const part &row) {
    const auto payload = octets(row["payload"]);
    const ndef::profile how = profile_of(row);
    const string type = text(row["type"]);
    if (type == "Sp") return within_of(of(ndef::poster::read(payload, how)), NDEF_KIND_SMART_POSTER, how);
    if (type == "Hr") return within_of(of(ndef::request::read(payload, how)), NDEF_KIND_REQUEST, how);
    if (type == "Hs") return within_of(of(ndef::select::read(payload, how)), NDEF_KIND_SELECT, how);
    value_of_row(row);
    return R"({"within":null})";
}
static string reason(const part &row) {
    const ndef::reason one = static_cast<ndef::reason>(row["number"].u32());
    return "{\"name\":" + quoted(ndef::to_string(one)) + ",\"sentence\":" + quoted(ndef::sentence(one)) + "}";
}
static string title(const part &row) {
    const auto payload = octets(row["payload"]);
    const ndef::poster poster = of(ndef::poster::read(payload));
    const auto found = poster.title(text(row["language"]));
    return "{\"title\":" + (found ? of_text(*found) : "null") + "}";
}
static string encode(const part &row) {
    const written all(row);
    std::vector<std::uint8_t> memory(1 << 17);
    ndef::buffer buffer(memory);
    return "{\"bytes\":" + hex(of(ndef::write_message(buffer, all.records, checking_of(row))).octets()) + "}";
}
static string line(const part &row) {
    const written all(row);
    const auto input = octets(row["bytes"]);
    std::vector<std::uint8_t> memory(1 << 17);
    ndef::buffer buffer(memory);
    std::ostringstream printed;
    printed << (row["records"] ? ndef::write_message(buffer, all.records) : ndef::message::check(input)).error();
    return "{\"line\":" + quoted(printed.str()) + "}";
}
static string parts(const part &row) {
    const written all(row);
    ndef::message_writer<std::vector<ndef::new_record>> writer(all.records, checking_of(row));
    std::vector<string> items;
    for (;;) {
        std::vector<std::uint8_t> memory(row["size"].u32());
        ndef::buffer buffer(memory);
        const ndef::bytes part = of(writer.next(buffer));
        if (part.empty()) return "{\"parts\":" + list(items) + "}";
        items.push_back(hex(part));
    }
}
static string record_parts(const part &row) {
    const string type = text(row["record"][1]), id = text(row["record"][2]);
    const ndef::new_record one{static_cast<ndef::tnf>(row["record"][0].u32()), type, {}, id};
    ndef::record_writer writer = of(ndef::record_writer::begin(one, row["length"].u32()));
    string all;
    for (const part &part : row["parts"].items()) {
        const auto given = octets(part);
        ndef::bytes rest = given;
        for (;;) {
            std::vector<std::uint8_t> memory(16);
            ndef::buffer buffer(memory);
            const ndef::bytes made = of(writer.next(rest, buffer));
            if (made.empty()) break;
            const string digits = hex(made);
            all += digits.substr(1, digits.size() - 2);
        }
    }
    return writer.is_whole() ? "{\"bytes\":\"" + all + "\"}" : R"({"bad":true})";
}
static string normalize(const part &row) {
    const auto input = octets(row["bytes"]);
    std::vector<std::uint8_t> memory(1 << 17);
    ndef::buffer buffer(memory);
    return "{\"bytes\":" + hex(of(ndef::normalize(buffer, of(ndef::message::check(input, limits_of(row))))).octets()) + "}";
}
static string make(const part &row) {
    std::vector<std::uint8_t> payload;
    try {
        payload = made(row["value"]);
    } catch (const answered &) {
        return R"({"bad":"-which"})";
    }
    const std::map<string, unsigned> kinds{{"text", 1}, {"uri", 2}, {"poster", 3}, {"request", 4}, {"select", 5}, {"carrier", 6}};
    const string shown = by_kind(kinds.at(row["value"]["kind"].string()), [&](auto view) { return value(of(decltype(view)::read(payload))); });
    return "{\"payload\":" + hex(payload) + ",\"value\":" + shown + "}";
}

static string answer(const part &row) {
    static const std::map<string, string (*)(const part &)> operations{{"check", check}, {"decode", decode}, {"feed", feed}, {"fields", fields}, {"refusal", refusal},
        {"warnings", warnings}, {"links", links}, {"value_of", value_of_row}, {"within", within}, {"title", title}, {"reason", reason}, {"encode", encode}, {"line", line}, {"parts", parts}, {"record_parts", record_parts},
        {"normalize", normalize}, {"make", make}};
    try {
        const auto found = operations.find(row["op"].string());
        if (found != operations.end()) return found->second(row);
        throw missing{row["op"].string() == "stream" ? "stream" : row["op"].string() == "layout" ? "layout" : "trailing"};
    } catch (const missing &no) {
        return string("{\"not\":\"") + no.why + "\"}";
    } catch (const answered &thrown) {
        return thrown.text;
    } catch (const std::exception &wrong) {
        return "{\"failed\":" + quoted(wrong.what()) + "}";
    }
}

int main(int, char **words) {
    std::ifstream table(words[1]);
    std::vector<part::words> rows;
    for (string line; std::getline(table, line);) rows.push_back(words_of(line));
    std::vector<string> answers(rows.size());
    std::vector<std::atomic<bool>> others(rows.size());
    for (std::size_t at = 0; at < rows.size(); at++) answers[at] = answer(part(rows[at], ""));
    const auto again = [&](std::size_t turn) {
        for (std::size_t index = rows.size(); index-- > 0;) {
            const std::size_t at = (index + turn * rows.size() / 3) % rows.size();
            if (answer(part(rows[at], "")) != answers[at]) others[at] = true;
        }
    };
    std::vector<std::thread> threads;
    for (std::size_t turn = 0; turn < 3; turn++) threads.emplace_back(again, turn);
    for (std::thread &one : threads) one.join();
    string head = NOT;
    head.erase(std::remove(head.begin(), head.end(), '\n'), head.end());
    std::cout << "{\"language\":\"C++\",\"not\":" << head << "}\n";
    for (std::size_t at = 0; at < rows.size(); at++)
        std::cout << "{\"id\":" << quoted(rows[at]["id"]) << ",\"answer\":" << (others[at] ? R"({"failed":"another answer in threads"})" : answers[at]) << "}\n";
}
