// calls CALL SIZE [CAPACITY [SECONDS]]: other calls on every path of inputs of SIZE bytes: memory, ends, answers in range; for `feed` that each
// cutting in two gives what the reference says of the whole. Buffers have exactly CAPACITY bytes.
#include "library.hpp"
#include <ctime>
#define IN_ENGINE
#include "reference.h"
static double now() { timespec t; clock_gettime(CLOCK_PROCESS_CPUTIME_ID, &t); return t.tv_sec + t.tv_nsec * 1e-9; }
using sym::Memory; using sym::must;
int main(int argc, char **argv) {
    std::string call = argv[1]; int size = atoi(argv[2]), capacity = argc > 3 ? atoi(argv[3]) : 8; double seconds = argc > 4 ? atof(argv[4]) : 300;
    register_constants();
    sym::Set start[64]; for (auto &s : start) s = ~sym::Set{{0, 0, 0, 0}};
    int cut = 0;
    auto body = [&]() {
        Memory bytes(size, "bytes"), limits(16, "limits"), out(256, "out"), more(256, "more"), buffer(capacity, "buffer"), count(8, "count");
        for (int i = 0; i < size; i++) sym::store(P(bytes.b) + i, sym::V(sym::input[i], sym::byte_of_input(i), nullptr, sym::u8), 1);
        bytes.obj.readonly = true;
        nd_store_32(limits.b, 1048576U); nd_store_32(limits.b + 4, 1024U); nd_store_32(limits.b + 8, 4096U); nd_store_32(limits.b + 12, 0U);
        U64 n = (uint64_t)size, space = (uint64_t)capacity; U32 s;
        if (call == "feed") {
            Memory checker(488, "checker"), found(16, "found");
            must(nd_ndef_begin(limits.b, checker.b) == 0, "ndef_begin");
            s = nd_ndef_feed(checker.b, bytes.b, (uint64_t)cut, found.b);
            if (s == 5) s = nd_ndef_feed(checker.b, P(bytes.b) + cut, (uint64_t)(size - cut), found.b);
            ref_answer want = ref_check(bytes.b, n, 1048576U, 1024U, 4096U, 0);
            if (want.status == 1 && want.reason == 24) { must(s == 5, "feed: not NDEF_MORE"); return; }
            must(s == want.status, "feed: another status");
            must(nd_load_64(found.b) == want.place, "feed: another place"); must(nd_load_32(found.b + 8) == want.records, "feed: another number of records");
            must(nd_load_32(found.b + 12) == want.reason, "feed: another reason");
            return;
        }
        if (call == "text") s = nd_ndef_text(bytes.b, n, out.b, more.b);
        else if (call == "uri") s = nd_ndef_uri(bytes.b, n, 0U, buffer.b, space, count.b, more.b);
        else if (call == "record_at") s = nd_ndef_record_at(bytes.b, n, (uint64_t)cut, out.b);
        else if (call == "payload") s = nd_ndef_payload(bytes.b, n, 0ULL, buffer.b, space, count.b);
        else if (call == "write_uri") s = nd_ndef_write_uri(bytes.b, n, buffer.b, space, count.b);
        else if (call == "write_text") s = nd_ndef_write_text(bytes.b, (uint64_t)cut, P(bytes.b) + cut, (uint64_t)(size - cut), 0U, buffer.b, space, count.b);
        else if (call == "write_text16") s = nd_ndef_write_text(bytes.b, (uint64_t)cut, P(bytes.b) + cut, (uint64_t)(size - cut), 1U, buffer.b, space, count.b);
        else if (call == "text_in_utf8") s = nd_ndef_text_in_utf8(bytes.b, n, buffer.b, space, count.b, more.b);
        else if (call == "normalize") s = nd_ndef_normalize(bytes.b, n, 0U, buffer.b, space, count.b);
        else { fprintf(stderr, "no call %s\n", call.c_str()); exit(2); }
        must(s <= 4, "a status");
    };
    bool cuts = call == "feed" || call == "record_at" || call == "write_text" || call == "write_text16", all = true;
    for (cut = 0; cut <= (cuts ? size : 0); cut++) all &= sym::explore(size, start, body, [](const sym::octet *, int, bool) {}, seconds, now);
    printf("%s size %d capacity %d: %s in %.1f s, %lu paths, %lu failures\n", call.c_str(), size, capacity, all ? "ALL PATHS" : "time is up", (double)clock() / CLOCKS_PER_SEC,
           (unsigned long)sym::paths, (unsigned long)sym::failures);
    return sym::failures ? 1 : all ? 0 : 3;
}
