/* Times the library for C:
 *
 *   c FOLDER MILLISECONDS        times each call of a message for so long, and prints 'CALL NAME NANOSECONDS' of each
 *   c FOLDER instructions        has callgrind dump what many calls take, by 'TIMES NAME'
 *   c FOLDER once CALL NAME      makes one call, for its memory; 'nothing' makes none
 *   c FOLDER same                compares what the library and the checker by hand say of the messages of standard input
 *
 * A time is the least of many runs, of processor time. */
#include "timing.h"
#include "ndef.h"
#include "hand.h"
#ifdef WITH_CALLGRIND
#include <valgrind/callgrind.h>
#else
#define CALLGRIND_ZERO_STATS
#define CALLGRIND_DUMP_STATS_AT(name) (void)(name)
#endif

static const char *const names[] = {"hello", "umlauts", "uri", "poster", "records-1000", "opaque-1M", "ascii-1M", "wide-1M", "chunks-4000",
                                    "records-100", "records-10000", "records-60000", "cut"};
enum { NAMES = sizeof names / sizeof *names };
static ndef_limits limits;
static uint8_t buffer[1 << 20];

static uint32_t check(const message *m) {
    ndef_checked checked;
    return ndef_check(m->at, m->length, &limits, &checked);
}

/* A check, and then each record. */
static uint32_t walk(const message *m) {
    ndef_checked checked;
    ndef_record record = {0};
    uint32_t status = ndef_check(m->at, m->length, &limits, &checked);
    while (status == NDEF_OK && !record.last) status = ndef_record_at(m->at, m->length, record.end, &record);
    return status;
}

/* A check of parts of so many bytes at most. */
static uint32_t feed_by(const message *m, size_t most) {
    ndef_checker checker;
    ndef_checked checked;
    uint32_t status = ndef_begin(&limits, &checker);
    for (size_t at = 0, part; at < m->length && status != NDEF_REFUSED; at += part) {
        part = m->length - at < most ? m->length - at : most;
        status = ndef_feed(&checker, m->at + at, part, &checked);
    }
    return status;
}

static uint32_t feed(const message *m) { return feed_by(m, 4096); }
static uint32_t feed_octets(const message *m) { return feed_by(m, 1); }

static uint32_t hand(const message *m) {
    ndef_checked checked;
    return hand_check(m->at, m->length, &limits, &checked);
}

/* By hand the octets that came are kept, and the record that isn't whole is read again. */
static uint32_t hand_octets(const message *m) {
    reading r = {{buffer, 0, 0}, 0, 1, 0};
    ndef_checked checked;
    uint32_t status = NDEF_MORE;
    for (size_t i = 0; i < m->length && status == NDEF_MORE; i++) {
        buffer[i] = m->at[i];
        status = hand_read(buffer, i + 1, &limits, &r, &checked);
    }
    return status;
}

static uint32_t copy(const message *m) {
    memcpy(buffer, m->at, m->length < sizeof buffer ? m->length : sizeof buffer);
    __asm__ volatile("" : : "r"(buffer) : "memory");
    return NDEF_OK;
}

static uint32_t record_at(const message *m) { ndef_record record; return ndef_record_at(m->at, m->length, 0, &record); }
static uint32_t items(const message *m) { ndef_checked checked; ndef_item given[4]; return ndef_items(m->at, m->length, &limits, &checked, given, 4); }
static uint32_t payload(const message *m) { ndef_size count; return ndef_payload(m->at, m->length, 0, buffer, sizeof buffer, &count); }

/* Calls of payloads. The message is a payload for them. */
static ndef_checked why;
static uint32_t text(const message *m) { ndef_text_parts parts; return ndef_text(m->at, m->length, &parts, &why); }
static uint32_t text_in_utf8(const message *m) { ndef_size count; return ndef_text_in_utf8(m->at, m->length, buffer, sizeof buffer, &count, &why); }
static uint32_t uri(const message *m) { ndef_size count; return ndef_uri(m->at, m->length, 0, buffer, sizeof buffer, &count, &why); }
static uint32_t uri_view(const message *m) { ndef_uri_parts parts; return ndef_split_uri(m->at, m->length, 0, &parts, &why); }
static uint32_t carrier(const message *m) { ndef_carrier_parts parts; return ndef_carrier(m->at, m->length, &parts, &why); }
static uint32_t error(const message *m) { ndef_error_parts parts; return ndef_error(m->at, m->length, &parts, &why); }
static uint32_t alternative(const message *m) { ndef_alternative_parts parts; return ndef_alternative(m->at, m->length, &parts, &why); }
static uint32_t request(const message *m) { ndef_request_parts parts; return ndef_request(m->at, m->length, 0, &parts, &why); }
static uint32_t selected(const message *m) { ndef_select_parts parts; return ndef_select(m->at, m->length, 0, &parts, &why); }
static uint32_t poster(const message *m) { ndef_poster_parts parts; return ndef_poster(m->at, m->length, 0, &parts, &why); }

typedef struct { const char *name; uint32_t (*call)(const message *); } operation;
static const operation timed[] = {{"check", check}, {"hand-check", hand}, {"walk", walk}, {"feed", feed}, {"memcpy", copy}};

#define BYTES(text) {"", (uint8_t *)(text), sizeof(text) - 1}
#define CARRIER "\x02\x04" "ac\x01\x01" "0\x00"
typedef struct { const char *name; uint32_t (*call)(const message *); message of; } counted;
static const counted counts[] = {
    {"ndef_check of a select of 2 carriers", check, BYTES("\xD1\x02\x13Hs\x12\x91" CARRIER "\x51" CARRIER)},
    {"ndef_check of a request", check, BYTES("\xD1\x02\x11Hr\x12\x91\x02\x02" "cr\x12\x34\x51" CARRIER)},
    {"ndef_check of a carrier", check, BYTES("\xD1\x02\x09Hc\x02\x03" "a/bdata")},
    {"ndef_check, refused at the last byte of a text", check, BYTES("\xD1\x01\x08T\x02" "enHell\xFF")},
    {"ndef_check, refused at the first byte", check, BYTES("\xD7\x01\x08T\x02" "enHello")},
    {"ndef_check of zeros, refused at the first", check, BYTES("\x00\x00\x00\x00\x00\x00\x00\x00\x00\x00\x00\x00\x00\x00\x00\x00")},
    {"ndef_check of a poster, refused in its second record", check,
     BYTES("\xD1\x02\x23Sp\x91\x01\x0CU\x01" "example.com\x11\x01\x08T\x02" "enTitl\xFF\x51\x03\x01" "act\x00")},
    {"ndef_check of a select, refused in its second carrier", check, BYTES("\xD1\x02\x13Hs\x12\x91" CARRIER "\x51\x02\x04" "ac\x01\x01" "1\x09")},
    {"ndef_text of \"Hello\"", text, BYTES("\x02" "enHello")},
    {"ndef_text_in_utf8 of it", text_in_utf8, BYTES("\x02" "enHello")},
    {"ndef_text, refused at its last byte", text, BYTES("\x02" "enHell\xFF")},
    {"ndef_uri of http://www.example.com", uri, BYTES("\x01" "example.com")},
    {"ndef_split_uri of it", uri_view, BYTES("\x01" "example.com")},
    {"ndef_carrier", carrier, BYTES("\x02\x03" "a/b" "data")},
    {"ndef_error", error, BYTES("\x01\x10")},
    {"ndef_alternative", alternative, BYTES("\x01\x01" "0\x00")},
    {"ndef_request of 2 carriers", request, BYTES("\x12\x91\x02\x02" "cr\x12\x34\x11" CARRIER "\x51" CARRIER)},
    {"ndef_select of 1 carrier", selected, BYTES("\x12\xD1" CARRIER)},
    {"ndef_poster of 2 records", poster, BYTES("\x91\x01\x0CU\x01" "example.com\x51\x01\x08T\x02" "enHello")},
};

/* Ends the program where an answer isn't the one that the name of the message says. */
static void answers(const char *what, uint32_t (*call)(const message *), const message *m, int is_refused) {
    if ((call(m) != NDEF_OK) == is_refused) return;
    fprintf(stderr, "%s of %s: another answer than expected\n", what, m->name);
    exit(1);
}

/* What the checker by hand does in place of a call of the library, if anything. */
static uint32_t (*by_hand(uint32_t (*call)(const message *)))(const message *) { return call == check ? hand : call == feed_octets ? hand_octets : NULL; }

/* Whether the library and the checker by hand answer otherwise: 2 where only one of them accepts, 1 where the offset or the reason differs. */
static int difference(const message *m) {
    ndef_checked ours, theirs;
    uint32_t status = ndef_check(m->at, m->length, &limits, &ours);
    if (status != hand_check(m->at, m->length, &limits, &theirs) || ours.records != theirs.records) return 2;
    return ours.place != theirs.place || ours.reason != theirs.reason;
}

/* Compares the two over messages that come as test/fuzz/messages.c writes them. */
static int same(void) {
    long found[3] = {0, 0, 0};
    uint8_t head[4], octets[1 << 14];
    while (fread(head, 1, 4, stdin) == 4) {
        message m = {"", octets, (size_t)head[1] << 8 | head[0]};
        if (m.length > sizeof octets || fread(octets, 1, m.length, stdin) != m.length) return 2;
        found[difference(&m)]++;
    }
    printf("same %ld, refused otherwise %ld, accepted otherwise %ld\n", found[0], found[1], found[2]);
    return found[0] == 0 || found[1] > found[0] / 30 || found[2] != 0;
}

static void time_all(const char *folder, double milliseconds) {
    for (int i = 0; i < NAMES; i++) {
        message m = read_message(folder, names[i]);
        int is_refused = strcmp(m.name, "cut") == 0;
        for (size_t k = 0; k < sizeof timed / sizeof *timed; k++) {
            if (is_refused && k > 1) continue;
            answers(timed[k].name, timed[k].call, &m, is_refused);
            printf("%s %s %.2f\n", timed[k].name, m.name, least(timed[k].call, &m, milliseconds));
            fflush(stdout);
        }
        free(m.at);
    }
}

static void count_calls(const char *what, const char *who, uint32_t (*call)(const message *), const message *m) {
    char label[120];
    int times = m->length < 10000 ? 1000 : 10;
    snprintf(label, sizeof label, "%d %s%s", times, who, what);
    call(m);
    CALLGRIND_ZERO_STATS;
    for (int i = 0; i < times; i++) call(m);
    CALLGRIND_DUMP_STATS_AT(label);
    if (!by_hand(call)) return;
    if (difference(m) || call(m) != by_hand(call)(m)) { fprintf(stderr, "%s: by hand another answer\n", what); exit(1); }
    count_calls(what, "by hand: ", by_hand(call), m);
}

static void count_all(const char *folder) {
    static const struct { const char *name; uint32_t (*call)(const message *); const char *of; } calls[] = {
        {"ndef_check of \"Hello\"", check, "hello"}, {"ndef_check of \"Gr\xC3\xBC\xC3\x9F" "e\"", check, "umlauts"}, {"ndef_check of a URI", check, "uri"},
        {"ndef_check of a poster", check, "poster"}, {"ndef_check of \"Hello\" without its last byte", check, "cut"},
        {"ndef_record_at of \"Hello\"", record_at, "hello"}, {"ndef_payload of \"Hello\"", payload, "hello"},
        {"ndef_items of \"Hello\"", items, "hello"}, {"ndef_items of a poster", items, "poster"},
        {"ndef_check of 4000 chunks", check, "chunks-4000"}, {"4000 chunks in parts of 4096 bytes", feed, "chunks-4000"},
        {"\"Hello\", fed octet by octet", feed_octets, "hello"}, {"a poster, fed octet by octet", feed_octets, "poster"}};
    for (size_t i = 0; i < sizeof calls / sizeof *calls; i++) {
        message m = read_message(folder, calls[i].of);
        count_calls(calls[i].name, "", calls[i].call, &m);
        free(m.at);
    }
    for (size_t i = 0; i < sizeof counts / sizeof *counts; i++) {
        answers(counts[i].name, counts[i].call, &counts[i].of, strstr(counts[i].name, "refused") != NULL);
        count_calls(counts[i].name, "", counts[i].call, &counts[i].of);
    }
}

static int call_once(const char *folder, const char *call, const char *name) {
    message m = read_message(folder, name);
    for (size_t k = 0; k < sizeof timed / sizeof *timed; k++)
        if (strcmp(timed[k].name, call) == 0) answers(call, timed[k].call, &m, 0);
    return 0;
}

int main(int count, char **arguments) {
    ndef_default_limits(&limits);
    limits.records = limits.chunks = 65535;
    if (count == 5 && strcmp(arguments[2], "once") == 0) return call_once(arguments[1], arguments[3], arguments[4]);
    if (count != 3) return 2;
    if (strcmp(arguments[2], "same") == 0) return same();
    if (strcmp(arguments[2], "instructions") == 0) count_all(arguments[1]);
    else time_all(arguments[1], atof(arguments[2]));
    return 0;
}
