// check SIZE [FLAGS [PAYLOAD RECORDS CHUNKS [SECONDS [PREFIX [CORPUS]]]]]: nd_ndef_check on every path of inputs of SIZE bytes,
// beside the reference, whose answers must be the same.
#include "library.hpp"
#include <ctime>
#ifdef REFERENCE
#define IN_ENGINE
#include "reference.h"
#endif
static double now() { timespec t; clock_gettime(CLOCK_PROCESS_CPUTIME_ID, &t); return t.tv_sec + t.tv_nsec * 1e-9; }
static uint64_t accepted, reasons[64];
int main(int argc, char **argv) {
    int size = atoi(argv[1]);
    uint32_t flags = argc > 2 ? atoi(argv[2]) : 0, payload = 1048576, records = 1024, chunks = 4096;
    if (argc > 5) payload = strtoul(argv[3], 0, 0), records = strtoul(argv[4], 0, 0), chunks = strtoul(argv[5], 0, 0);
    double seconds = argc > 6 ? atof(argv[6]) : 600;
    // The first bytes in hexadecimal, where . is any digit: `d101..54`, say.
    std::string prefix = argc > 7 ? argv[7] : "";
    FILE *corpus = argc > 8 ? fopen(argv[8], "w") : nullptr;
    register_constants();
    sym::Set start[64];
    for (auto &s : start) s = ~sym::Set{{0, 0, 0, 0}};
    for (size_t i = 0; i + 1 < prefix.size(); i += 2) {
        sym::Set &s = start[i / 2]; s = {{0, 0, 0, 0}};
        auto digit = [](char c, int v) { return c == '.' || (c <= '9' ? c - '0' : (c | 32) - 'a' + 10) == v; };
        for (int v = 0; v < 256; v++) if (digit(prefix[i], v >> 4) && digit(prefix[i + 1], v & 15)) s.w[v >> 6] |= 1ull << (v & 63);
    }
    std::unordered_map<uint64_t, int> ways;
    auto sign = []() { uint64_t h = 7; for (auto &e : sym::events) h = sym::mix(h, e.n->hash + e.taken); return h; };
    auto body = [&]() {
        sym::Memory bytes(size, "bytes"), limits(16, "limits"), out(16, "out");
        for (int i = 0; i < size; i++) sym::store(P(bytes.b) + i, sym::V(sym::input[i], sym::byte_of_input(i), nullptr, sym::u8), 1);
        bytes.obj.readonly = true;
        nd_store_32(limits.b, payload); nd_store_32(limits.b + 4, records); nd_store_32(limits.b + 8, chunks); nd_store_32(limits.b + 12, flags);
        limits.obj.readonly = true;
        U32 status = nd_ndef_check(bytes.b, (uint64_t)size, limits.b, out.b);
        U64 place = nd_load_64(out.b); U32 number = nd_load_32(out.b + 8), reason = nd_load_32(out.b + 12);
        sym::must(status <= 1, "a status of ndef_check");
#ifdef REFERENCE
        ref_answer want = ref_check(bytes.b, (uint64_t)size, payload, records, chunks, flags);
        sym::must(status == want.status, "another status than the reference");
        sym::must(number == want.records, "another number of records than the reference");
        sym::must(place == want.place, "another place than the reference");
        sym::must(reason == want.reason, "another reason than the reference");
#else
        sym::must(place <= (uint64_t)size, "a place past the end");
#endif
        if (!status.c) accepted++; else if (reason.c < 64) reasons[reason.c]++;
    };
    bool all = sym::explore(size, start, body, [&](const sym::octet *b, int n, bool ok) {
        if (getenv("COMPLETE")) ways[sign()]++;
        if (corpus) { for (int i = 0; i < n; i++) fprintf(corpus, "%02x", b[i]); fputc('\n', corpus); }
    }, seconds, now);
    if (getenv("COMPLETE")) {
        // Random inputs, bytes of headers and types among them: the way of each must be one of those that were found.
        static const unsigned char likely[] = {0xD1, 0x91, 0x51, 0x11, 1, 2, 3, 0, 'T', 'U', 'S', 'p', 'H', 's', 'r', 'c', 0xB1, 0x56, 0xC1, 0xD9, 0x80, 0xC3, 0xE2, 0xFF, 0xFE, 4, 5, 6};
        long unknown = 0, tried = atol(getenv("COMPLETE"));
        for (long k = 0; k < tried; k++) {
            sym::forget(); sym::events.clear(); sym::known.clear(); sym::steps = 0; sym::pins = 0;
            for (int i = 0; i < size; i++) {
                do sym::input[i] = sym::rnd() % 3 ? likely[(sym::rnd() >> 20) % sizeof likely] : (unsigned char)(sym::rnd() >> 20); while (!start[i].has(sym::input[i]));
                sym::domain[i] = start[i]; if (sym::single(start[i])) sym::pins |= 1ull << i;
            }
            try { body(); } catch (sym::Failure &) {}
            unknown += !ways.count(sign());
        }
        printf("%ld random inputs, %ld of them on a way that was not found; %zu ways\n", tried, unknown, ways.size());
        if (unknown) sym::failures++;
    }
    printf("size %d flags %u limits %u %u %u prefix '%s': %s in %.1f s, %lu paths, %lu accepted, %lu failures, %lu events a path; solver: %lu cached, %lu searched, %lu found, %lu tried all, %lu z3 (%lu no)\n",
           size, flags, payload, records, chunks, prefix.c_str(), all ? "ALL PATHS" : "time is up", (double)clock() / CLOCKS_PER_SEC, (unsigned long)sym::paths, (unsigned long)accepted, (unsigned long)sym::failures,
           (unsigned long)(sym::all_events / (sym::paths ? sym::paths : 1)), (unsigned long)sym::cached, (unsigned long)sym::searched, (unsigned long)sym::guessed, (unsigned long)sym::tried_all, (unsigned long)sym::z3_asked, (unsigned long)sym::z3_no);
    for (int r = 0; r < 64; r++) if (reasons[r]) printf(" %d:%lu", r, (unsigned long)reasons[r]);
    printf("\n");
    return sym::failures ? 1 : all ? 0 : 3;
}
