// Random messages written by Qt and read by the library, and the other way; then one octet of them changed. Prints how
// many were read the same, and the others by cause; fails where a message that was written is read as another one.
#include "ndef.h"

#include <QByteArray>
#include <QNdefMessage>
#include <QNdefRecord>

#include <cstdio>
#include <cstdlib>
#include <map>
#include <random>
#include <string>
#include <vector>

struct Plain {
    unsigned tnf;
    QByteArray type, id, payload;
    bool operator==(const Plain &other) const {
        return tnf == other.tnf && type == other.type && id == other.id && payload == other.payload;
    }
};
using Message = std::vector<Plain>;

static std::mt19937 numbers(20260101);
static unsigned below(unsigned n) { return unsigned(numbers() % n); }

static QByteArray octets(unsigned n) {
    QByteArray bytes(int(n), 0);
    for (auto &octet : bytes) octet = char(below(256));
    return bytes;
}

static const uint8_t *start(const QByteArray &bytes) { return reinterpret_cast<const uint8_t *>(bytes.constData()); }

static Message some_message() {
    Message message(1 + below(5));
    for (auto &record : message) {
        record.tnf = below(6);
        if (record.tnf == NDEF_TNF_EMPTY) continue;
        if (record.tnf != NDEF_TNF_UNKNOWN) record.type = octets(below(40) ? 1 + below(12) : 255);
        if (below(2)) record.id = octets(below(40) ? 1 + below(10) : 255);
        record.payload = octets(below(4) ? below(40) : 200 + below(200));
    }
    return message;
}

static bool read_by_ours(const QByteArray &bytes, Message &message, ndef_checked &checked) {
    const ndef_limits limits = { 1048576, 1024, 4096, NDEF_OPAQUE };
    if (ndef_check(start(bytes), size_t(bytes.size()), &limits, &checked) != NDEF_OK) return false;
    ndef_record r;
    for (size_t at = 0; ndef_record_at(start(bytes), size_t(checked.place), at, &r) == NDEF_OK; at = r.end) {
        QByteArray payload(int(r.payload_length), 0);
        size_t count = 0;
        uint8_t *buffer = reinterpret_cast<uint8_t *>(payload.data());
        if (ndef_payload(start(bytes), size_t(checked.place), at, buffer, r.payload_length, &count) != NDEF_OK) abort();
        message.push_back({ r.tnf, bytes.mid(int(r.type_at), int(r.type_length)), bytes.mid(int(r.id_at), int(r.id_length)), payload });
    }
    return message.size() == checked.records;
}

static QByteArray write_by_ours(const Message &message, unsigned form, unsigned chunk) {
    QByteArray bytes;
    for (size_t i = 0; i < message.size(); i++) {
        const Plain &m = message[i];
        const unsigned flags = form | (i == 0 ? unsigned(NDEF_WRITE_FIRST) : 0u) | (i + 1 == message.size() ? unsigned(NDEF_WRITE_LAST) : 0u);
        const ndef_writing how = { m.tnf, flags, chunk };
        QByteArray buffer(8192, 0);
        size_t count = 0;
        if (ndef_write_record(start(m.type), size_t(m.type.size()), start(m.id), size_t(m.id.size()), start(m.payload),
                              size_t(m.payload.size()), &how, reinterpret_cast<uint8_t *>(buffer.data()), size_t(buffer.size()),
                              &count) != NDEF_OK) abort();
        bytes += buffer.left(int(count));
    }
    return bytes;
}

static Message read_by_qt(const QByteArray &bytes) {
    Message message;
    for (const QNdefRecord &r : QNdefMessage::fromByteArray(bytes))
        message.push_back({ unsigned(r.typeNameFormat()), r.type(), r.id(), r.payload() });
    return message;
}

static QByteArray write_by_qt(const Message &message) {
    QNdefMessage all;
    for (const Plain &m : message) {
        QNdefRecord r;
        r.setTypeNameFormat(QNdefRecord::TypeNameFormat(m.tnf));
        r.setType(m.type);
        r.setId(m.id);
        r.setPayload(m.payload);
        all.append(r);
    }
    return all.toByteArray();
}

static std::string reason_of(const ndef_checked &checked) {
    uint8_t name[16];
    size_t length = 0;
    if (ndef_reason_name(checked.reason, name, sizeof name, &length) != NDEF_OK) return {};
    return std::string(reinterpret_cast<char *>(name), length);
}

// Qt gives an empty payload where the last piece of a record is empty.
static bool is_empty_end(const Message &ours, const Message &theirs) {
    if (ours.size() != theirs.size()) return false;
    for (size_t i = 0; i < ours.size(); i++) {
        Plain emptied = ours[i];
        emptied.payload.clear();
        if (!(theirs[i] == ours[i]) && !(theirs[i] == emptied)) return false;
    }
    return true;
}

static std::map<std::string, long> counts;
static long wrong = 0;

static void expect(bool is_same, const char *what) {
    counts[std::string(what) + (is_same ? ": the same" : ": ANOTHER")]++;
    wrong += !is_same;
}

static void change(QByteArray bytes) {
    bytes[int(below(unsigned(bytes.size())))] = char(below(256));
    Message ours;
    ndef_checked checked;
    const bool is_read = read_by_ours(bytes, ours, checked);
    const Message theirs = read_by_qt(bytes);
    if (!is_read) counts[theirs.empty() ? "changed: neither reads" : "changed: Qt alone reads, " + reason_of(checked)]++;
    else if (ours == theirs) counts["changed: read the same"]++;
    else if (is_empty_end(ours, theirs)) counts["changed: Qt drops a payload whose last piece is empty"]++;
    else expect(false, "changed, read by both");
}

int main(int count, char **words) {
    const long rounds = count > 1 ? atol(words[1]) : 100000;
    if (!freopen("/dev/null", "w", stderr)) return 2; // Qt warns of each message that it doesn't read
    for (long i = 0; i < rounds; i++) {
        const Message message = some_message();
        const QByteArray theirs = write_by_qt(message);
        Message read;
        ndef_checked checked;
        expect(read_by_ours(theirs, read, checked) && read == message, "Qt wrote, ours read");
        const unsigned form = below(2) ? unsigned(NDEF_WRITE_LONG) : 0u, chunk = below(2) ? 0 : 1 + below(30);
        const QByteArray ours = write_by_ours(message, form, chunk);
        expect(read_by_qt(ours) == message, "ours wrote, Qt read");
        change(ours);
    }
    for (auto &each : counts) printf("%9ld %s\n", each.second, each.first.c_str());
    return wrong != 0;
}
