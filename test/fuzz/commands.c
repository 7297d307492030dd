/* commands steps SECONDS: runs the three commands in one process, with a message of standard input (test/fuzz/messages.c writes them) as their
 * input and words that depend on its number, for so many seconds. It is linked with the assembly of dist/ as test/coverage/instrument.py
 * changes it with --steps, with the library for C, and with --wrap of the calls to the system. What has to hold:
 *
 *     the exit status is one that the page docs/COMMAND.md lists, and 3 only where a call to the system failed
 *     `check` takes what the library takes, and what `encode` prints is taken again, with the same number of records
 *     all memory that was taken is given back, and each file that was opened is closed
 *     the steps are at most a multiple of the bytes that were read and written
 *
 * commands runs SECONDS: the same, where the assembly counts no steps.
 *
 * commands faults COUNT: lets memory be refused, and reading, writing and the look at what a file is fail, at each place: runs each of some
 * commands on each of COUNT messages with the first such call failing, then the second, and so on, until a run has no such call. After 300
 * runs it skips some, and more the longer it goes on. A run that fails ends with 3 and gives all memory back, and what it printed is the
 * front of what it prints otherwise, but for a last line that says the fault. */
#define _GNU_SOURCE
#include "ndef.h"

#include <errno.h>
#include <fcntl.h>
#include <stdbool.h>
#include <stdio.h>
#include <stdlib.h>
#include <string.h>
#include <sys/stat.h>
#include <sys/types.h>
#include <time.h>
#include <unistd.h>

/* The most steps for each byte that a command reads, writes or is given in its words, and 4096 more: it builds the page of its options
 * each time. */
enum { MOST_STEPS = 100, MOST_INPUT = 1 << 16, MOST_OUTPUT = 1 << 20, MOST_WORDS = 24, MOST_GIVEN = 14, EACH = 300, INPUT_FILE = 1000, FOLDER };

typedef struct {
    bool is_there;
    void *block;
} memory;

extern uint64_t coverage_steps;
extern uint8_t coverage_marks[], coverage_marks_end[];
int ndef_commands(void);

static uint8_t input[MOST_INPUT], output[MOST_OUTPUT], nowhere;
static size_t input_length, input_at, output_length, error_length, blocks, files, failing;
static const char *words[MOST_WORDS];
static size_t words_count, words_length;
static bool names_files, is_terminal;
/* Which call fails, of those of a kind, counted from 1; and how many there were. */
enum kind { ALLOCATION, READ, WRITE, LOOK, KINDS };
static size_t fails_at[KINDS], calls[KINDS];
static uint64_t greatest;
/* What a run printed without a fault. Its bytes count for the steps of a run with a fault too, which may make them and not print them. */
static uint8_t whole[MOST_OUTPUT];
static size_t whole_length;

static void hold(bool fact, const char *what) {
    if (fact) return;
    printf("FAILED: %s\n  the words:", what);
    for (size_t i = 0; i < words_count; i++) printf(" %s", words[i]);
    printf("\n  the input: ");
    for (size_t i = 0; i < input_length; i++) printf("%02x", input[i]);
    printf("\n  printed: %.*s\n", (int)(output_length < 1000 ? output_length : 1000), (const char *)output);
    fflush(stdout);
    abort();
}

/* ---- what the commands ask of the system */

/* Whether this call of a kind has to fail. */
static bool fails_now(enum kind kind) { return ++calls[kind] == fails_at[kind]; }

static memory found(void *block) {
    const memory answer = { block != NULL, block != NULL ? block : &nowhere };
    blocks += block != NULL;
    return answer;
}

memory rattle_alloc(size_t size, size_t align) {
    (void)align;
    return found(fails_now(ALLOCATION) ? NULL : malloc(size != 0 ? size : 1));
}

memory rattle_realloc(void *block, size_t kept, size_t size, size_t align) {
    (void)kept, (void)align;
    void *other = fails_now(ALLOCATION) ? NULL : realloc(block, size != 0 ? size : 1);
    blocks -= other != NULL;
    return found(other);
}

void rattle_dealloc(void *block) {
    blocks--;
    free(block);
}

static ssize_t put(const char *text, uint8_t *buffer, size_t size) {
    if (text == NULL) return -1;
    const size_t length = strlen(text);
    if (size != 0) memcpy(buffer, text, length < size ? length : size);
    return length <= size ? (ssize_t)length : -2;
}

ssize_t rattle_arg(size_t index, uint8_t *buffer, size_t size) { return put(index < words_count ? words[index] : NULL, buffer, size); }
ssize_t rattle_env(const char *name, uint8_t *buffer, size_t size) { return put(strcmp(name, "COLUMNS") == 0 ? "100" : NULL, buffer, size); }
ssize_t rattle_env_at(size_t index, uint8_t *buffer, size_t size) { return put(index == 0 ? "COLUMNS=100" : NULL, buffer, size); }
int rattle_errno(void) { return errno; }
void rattle_set_errno(int number) { errno = number; }

ssize_t __wrap_read(int file, void *buffer, size_t size);
ssize_t __wrap_write(int file, const void *bytes, size_t size);
int __wrap_isatty(int file);
int __wrap_open(const char *name, int how, ...);
int __wrap_close(int file);
int __wrap_statx(int folder, const char *name, int how, unsigned asked, struct statx *out);
off_t __wrap_lseek(int file, off_t by, int from);

/* Gives at most as many bytes as asked for, often fewer; where `failing` says so, none and an error. */
ssize_t __wrap_read(int file, void *buffer, size_t size) {
    if ((file != 0 && file != INPUT_FILE) || failing == 1 || fails_now(READ)) return errno = EIO, -1;
    size_t left = input_length - input_at;
    if (left > size) left = size;
    if (left > 3 && input_length % 3 == 0) left = left / 2;
    memcpy(buffer, input + input_at, left);
    input_at += left;
    return (ssize_t)left;
}

/* Takes all, or where `failing` says so, nothing. */
ssize_t __wrap_write(int file, const void *bytes, size_t size) {
    if (failing == 2 || fails_now(WRITE)) return errno = ENOSPC, -1;
    size_t taken = size > 1 && input_length % 5 == 0 ? size / 2 : size;
    if (file != 1) return error_length += taken, (ssize_t)taken;
    if (taken > MOST_OUTPUT - output_length) taken = MOST_OUTPUT - output_length;
    if (taken == 0 && size != 0) return errno = ENOSPC, -1;
    memcpy(output + output_length, bytes, taken);
    output_length += taken;
    return (ssize_t)taken;
}

int __wrap_isatty(int file) { return (void)file, is_terminal; }

/* The files a and b are there, and hold the input; d is a folder. */
int __wrap_open(const char *name, int how, ...) {
    (void)how;
    const bool is_folder = strcmp(name, "d") == 0;
    if (strcmp(name, "a") != 0 && strcmp(name, "b") != 0 && !is_folder) return errno = ENOENT, -1;
    input_at = 0;
    files++;
    return is_folder ? FOLDER : INPUT_FILE;
}

int __wrap_close(int file) {
    if (file != INPUT_FILE && file != FOLDER) return errno = EBADF, -1;
    files--;
    return 0;
}

/* Says what an open file is: a folder, or a file of bytes. */
int __wrap_statx(int file, const char *name, int how, unsigned asked, struct statx *out) {
    (void)asked;
    if ((file != INPUT_FILE && file != FOLDER) || *name != 0 || (how & AT_EMPTY_PATH) == 0) return errno = EBADF, -1;
    if (fails_now(LOOK)) return errno = EIO, -1;
    memset(out, 0, sizeof *out);
    out->stx_mask = STATX_BASIC_STATS;
    out->stx_mode = file == FOLDER ? S_IFDIR | 0755 : S_IFREG | 0644;
    out->stx_size = file == FOLDER ? 0 : input_length;
    return 0;
}

/* Standard input of an even length can be read again from another place, as a file can. */
off_t __wrap_lseek(int file, off_t by, int from) {
    if (file != 0 || input_length % 2 != 0 || from != SEEK_CUR) return errno = ESPIPE, -1;
    input_at = (size_t)((off_t)input_at + by);
    return (off_t)input_at;
}

/* ---- runs of a command */

static void word(const char *text) {
    words[words_count++] = text;
    words_length += strlen(text);
}

static void begin(const char *name) { words_count = words_length = 0, word(name); }

/* Runs the command with the words and the input. Its status is one of those listed. */
static int run(void) {
    input_at = output_length = error_length = 0;
    coverage_steps = 0;
    memset(calls, 0, sizeof calls);
    const size_t before = blocks;
    const int status = ndef_commands();
    hold(status >= 0 && status <= 3, "the exit status is listed");
    hold(blocks == before, "all memory is given back");
    hold(files == 0, "all files are closed");
    const bool is_faulty = failing != 0 || fails_at[ALLOCATION] + fails_at[READ] + fails_at[WRITE] + fails_at[LOOK] != 0;
    hold(status != 3 || is_faulty || names_files, "only a failing system ends with 3");
    const size_t printed = output_length > whole_length ? output_length : whole_length;
    const uint64_t steps = coverage_steps / (input_length + printed + error_length + words_length + 4096);
    if (steps > greatest) greatest = steps;
    hold(steps <= MOST_STEPS, "the steps are a multiple of the bytes");
    return status;
}

static void options(uint32_t number) {
    static const char *const profiles[] = { "strict", "standard" };
    if (number & 1) word("--profile"), word(profiles[number >> 1 & 1]);
    if (number & 4) word("--records"), word(number & 8 ? "2" : "65535");
    if (number & 16) word("--payload"), word(number & 32 ? "20" : "4294967295");
    if (number & 64) word("--pieces"), word(number & 128 ? "2" : "65535");
}

/* The limits that those options say. */
static ndef_limits limits_of(uint32_t number) {
    ndef_limits limits;
    ndef_default_limits(&limits);
    if ((number & 3) == 3) limits.flags = NDEF_STANDARD;
    if (number & 4) limits.records = number & 8 ? 2 : 65535;
    if (number & 16) limits.payload = number & 32 ? 20 : 4294967295u;
    if (number & 64) limits.chunks = number & 128 ? 2 : 65535;
    return limits;
}

/* How many messages the bytes are, by the library; all of them are valid or `valid` is 0. */
static size_t messages_in(const uint8_t *bytes, size_t length, const ndef_limits *limits, int *valid) {
    size_t at = 0, count = 0;
    ndef_checked checked;
    for (*valid = 1; at < length && *valid; count += (size_t)*valid) {
        *valid = ndef_check(bytes + at, length - at, limits, &checked) == NDEF_OK;
        if (*valid) at += checked.place;
    }
    return count;
}

static void checks(uint32_t number) {
    const ndef_limits limits = limits_of(number);
    int valid, again;
    const size_t count = messages_in(input, input_length, &limits, &valid);
    begin("ndef"), word("check"), options(number);
    hold(run() == (valid ? 0 : 1), "`ndef check` takes what the library takes");
    size_t lines = 0;
    for (size_t i = 0; i < output_length; i++) lines += output[i] == '\n';
    hold(lines == count + (valid ? 0 : 1), "`ndef check` prints a line for each message");
    begin("ndef"), word("show"), options(number);
    hold(run() == (valid ? 0 : 1), "`ndef show` takes what the library takes");
    begin("ndef"), word("encode"), options(number);
    if (number & 256) word("--form"), word("long");
    if (number & 512) word("--chunk"), word("7");
    hold(run() == (valid ? 0 : 1), "`ndef encode` takes what the library takes");
    const ndef_limits wide = { 4294967295u, 65535, 65535, limits.flags };
    const size_t written = messages_in(output, output_length, &wide, &again);
    hold(again && written == count, "what `ndef encode` writes is as many messages");
}

/* `ndef-explain`, whose options are others. */
static void explains(uint32_t number) {
    begin("ndef-explain");
    if (number & 1) word("--json");
    if (number & 2) word("--profile"), word("standard");
    const int status = run();
    hold(status <= 1, "`ndef-explain` explains any bytes");
}

/* `ndef-make record` and `carrier` with the bytes as their payload; what it makes is a message. */
static void makes(uint32_t number) {
    static const char *const types[] = { "T", "U", "Sp", "Hr", "Hs", "Hc", "x", "a/b" };
    ndef_limits limits;
    int valid;
    ndef_default_limits(&limits);
    begin("ndef-make");
    if (number & 1) word("carrier"), word("--format"), word("2"), word("--type"), word("a/b");
    else word("record"), word("--tnf"), word("1"), word("--type"), word(types[number >> 1 & 7]);
    if (number & 16) word("--and"), word("text"), word("Hello");
    if (run() == 0) hold(messages_in(output, output_length, &limits, &valid) == 1 && valid, "what `ndef-make` writes is a message");
}

/* The bytes as words of any command; those that aren't a string end at their first 0. */
static void speaks(uint32_t number) {
    static const char *const names[] = { "ndef", "ndef-make", "ndef-explain" };
    static char text[MOST_INPUT + 1];
    memcpy(text, input, input_length);
    text[input_length] = 0;
    begin(names[number % 3]);
    if (number & 4) word(number % 3 == 1 ? "uri" : "show");
    for (char *at = text; words_count < MOST_WORDS - 1 && at < text + input_length; at += strlen(at) + 1) word(at);
    names_files = true;
    run();
    names_files = false;
}

static void fails(uint32_t number) {
    for (failing = 1; failing < 3; failing++) {
        begin("ndef"), word(number & 1 ? "show" : "encode");
        run();
        begin(number & 2 ? "ndef-explain" : "ndef-make");
        if (!(number & 2)) word("record"), word("--tnf"), word("5");
        run();
    }
    failing = 0;
}

/* ---- faults at each place */

/* The words of the commands that are run on each message. */
static const char *const given_words[][MOST_GIVEN] = {
    { "ndef", "show" }, { "ndef", "check" }, { "ndef", "encode", "--chunk", "7" }, { "ndef", "encode", "--hex" }, { "ndef", "show", "--pieces", "0" },
    { "ndef", "show", "--hex" }, { "ndef-explain" }, { "ndef-explain", "--json" }, { "ndef-explain", "--color", "always" },
    { "ndef-explain", "--hex", "--json" }, { "ndef-explain", "--utf8", "--profile", "standard" }, { "ndef-explain", "a", "b" },
    { "ndef-explain", "--json", "a", "nowhere", "-" }, { "ndef-explain", "--hex", "b", "a" }, { "ndef-explain", "--records", "2", "a" },
    { "ndef-make", "record", "--tnf", "1", "--type", "T" }, { "ndef-make", "carrier", "--format", "2", "--type", "a/b", "--id", "0" },
    { "ndef-make", "record", "--tnf", "1", "--type", "Hs", "--unchecked" }, { "ndef-make", "--size", "media", "a/b", "--file", "a" },
    { "ndef-make", "poster", "tel:1", "--and", "text", "a", "--and", "carrier", "--format", "1", "--type", "x", "--raw" },
    { "ndef-make", "poster", "tel:1", "--icon", "b", "--icon-type", "image/png", "--and", "external", "a:b", "--file", "nowhere" },
    { "ndef-make", "--from", "a" }, { "ndef-make", "--from", "-", "--drop", "1", "--hex" },
    { "ndef-make", "--from", "a", "--drop", "1", "--and", "--replace", "2", "text", "Hello", "--and", "app", "a.b" },
    { "ndef-make", "--tag", "ntag213", "--from", "b", "--replace", "1", "handover", "select", "--carrier", "ref=0,power=active" },
};

/* Those of commands that take no message: they are run a few times alone. */
static const char *const other_words[][MOST_GIVEN] = {
    { "ndef" }, { "ndef", "--help" }, { "ndef", "show", "--wrong" }, { "ndef-explain", "--help" }, { "ndef-explain", "--version" },
    { "ndef-explain", "--wrong" }, { "ndef-explain", "nowhere" }, { "ndef-explain", "d" }, { "ndef-make" }, { "ndef-make", "--help" }, { "ndef-make", "--version" },
    { "ndef-make", "wrong" }, { "ndef-make", "text" }, { "ndef-make", "poster", "\xff" }, { "ndef-make", "text", "--utf16", "\xc3\xa9" },
    { "ndef-make", "text", "--language", "de", "Hello", "--and", "uri", "http://www.example.com", "--hex" },
    { "ndef-make", "poster", "http://www.example.com", "--title", "en=Example", "--action", "save", "--size", "7", "--media", "text/html" },
    { "ndef-make", "handover", "request", "--collision", "7", "--carrier", "active=0,1", "--carrier", "inactive=2", "--carrier", "power=activating,ref=3" },
    { "ndef-make", "handover", "select", "--error", "2:00000001", "--carrier", "active=0", "--and", "text", "x" },
    { "ndef-make", "handover", "select", "--carrier", "unknown=", "--and", "text" }, { "ndef-make", "--tag", "9", "external", "a:b", "--payload", "00ff" },
    { "ndef-make", "uri", "a", "--and", "record", "--tnf", "7" }, { "ndef-make", "uri", "a", "--and", "text", "--lang", "en", "a" },
    { "ndef-make", "--from", "d" }, { "ndef-make", "--from", "nowhere", "--drop", "1" }, { "ndef-make", "--from", "a", "--drop" },
    { "ndef-make", "text", "--help" }, { "ndef-make", "uri", "--help" }, { "ndef-make", "poster", "--help" }, { "ndef-make", "handover", "--help" },
    { "ndef-make", "handover", "request", "--help" }, { "ndef-make", "handover", "select", "--help" }, { "ndef-make", "record", "--help" },
    { "ndef-make", "media", "--help" }, { "ndef-make", "external", "--help" }, { "ndef-make", "app", "--help" }, { "ndef-make", "carrier", "--help" },
};
enum { GIVEN = sizeof given_words / sizeof *given_words, OTHER = sizeof other_words / sizeof *other_words };

/* Makes the input hexadecimal digits. */
static void spell_input(void) {
    static uint8_t bytes[MOST_INPUT / 2];
    if (input_length > sizeof bytes) return;
    memcpy(bytes, input, input_length);
    for (size_t i = 0; i < input_length; i++) {
        input[2 * i] = (uint8_t)"0123456789abcdef"[bytes[i] >> 4];
        input[2 * i + 1] = (uint8_t)"0123456789abcdef"[bytes[i] & 15];
    }
    input_length *= 2;
}

static int run_words(const char *const *given) {
    words_count = words_length = 0;
    for (size_t i = 0; i < MOST_GIVEN && given[i] != NULL; i++) word(given[i]);
    names_files = false;
    for (size_t i = 1; i < words_count; i++) names_files |= strcmp(words[i], "nowhere") == 0 || strcmp(words[i], "d") == 0;
    return run();
}

/* Whether the words name several inputs: a fault of one ends that one alone. */
static bool are_several(void) {
    size_t inputs = 0;
    for (size_t i = 1; i < words_count; i++) inputs += strcmp(words[i], "a") == 0 || strcmp(words[i], "b") == 0;
    return inputs > 1 || names_files;
}

/* Whether what was printed is the front of it, and perhaps the fault: as a line, or in JSON as a member. */
static bool is_front(void) {
    static const char *const faults[] = { "fault: memory\n", "fault: reading\n", "\33[31mfault: memory\33[0m\n",
        "\33[31mfault: reading\33[0m\n", "\"fault\":\"memory\"}\n", "\"fault\":\"reading\"}\n" };
    size_t same = 0;
    while (same < output_length && same < whole_length && output[same] == whole[same]) same++;
    if (same == output_length) return true;
    for (size_t i = 0; i < sizeof faults / sizeof *faults; i++) {
        const size_t line = strlen(faults[i]);
        if (output_length >= line && output_length - line <= same + 1 && memcmp(output + output_length - line, faults[i], line) == 0) return true;
    }
    return false;
}

/* Lets each call of a kind fail in turn, of one command on one message; of a run with many, each of the first and then ever fewer. */
static size_t faults_of(const char *const *given, enum kind kind) {
    fails_at[kind] = whole_length = 0;
    const int usual = run_words(given);
    const size_t all = calls[kind];
    size_t runs = 0;
    whole_length = output_length;
    memcpy(whole, output, whole_length);
    for (fails_at[kind] = 1; fails_at[kind] <= all; fails_at[kind] += 1 + fails_at[kind] / EACH) {
        const int status = run_words(given);
        runs++;
        hold(status == 3 || status == usual, "a fault ends with 3");
        hold(status == usual || are_several() ? output_length <= 2 * whole_length + 20 : is_front(), "what is printed is the front of what is printed without a fault");
    }
    fails_at[kind] = 0;
    return runs;
}

static bool read_message(void) {
    uint8_t head[4];
    if (fread(head, 1, 4, stdin) != 4) return false;
    input_length = head[0] | (size_t)head[1] << 8;
    hold(fread(input, 1, input_length, stdin) == input_length, "the messages are whole");
    return true;
}

static int faults(size_t wanted) {
    size_t runs = 0;
    for (size_t done = 0; done < wanted && read_message(); done++) {
        if (done % 4 == 3) spell_input();
        is_terminal = done % 3 == 2;
        for (int kind = 0; kind < KINDS; kind++) {
            for (size_t i = 0; i < GIVEN; i++) runs += faults_of(given_words[i], (enum kind)kind);
            for (size_t i = 0; i < OTHER && done < 4; i++) runs += faults_of(other_words[i], (enum kind)kind);
        }
    }
    printf("%zu runs with a fault\n", runs);
    return runs == 0;
}

static size_t marked(void) {
    size_t taken = 0;
    for (const uint8_t *mark = coverage_marks; mark < coverage_marks_end; mark++) taken += *mark;
    return taken;
}

/* Runs the commands on messages for so many seconds; with `counts`, steps are counted. */
static int runs(long seconds, bool counts) {
    const time_t end = time(NULL) + seconds;
    uint64_t messages = 0;
    while (time(NULL) < end && read_message()) {
        checks((uint32_t)(messages * 2654435761u >> 7));
        explains((uint32_t)messages);
        makes((uint32_t)messages);
        if (messages % 4 == 0) speaks((uint32_t)(messages / 4));
        if (messages % 16 == 0) fails((uint32_t)(messages / 16));
        messages++;
    }
    printf("%llu messages, ", (unsigned long long)messages);
    if (counts) printf("at most %llu steps a byte, ", (unsigned long long)greatest);
    printf("%zu branches taken\n", marked());
    hold(!counts || greatest != 0, "steps are counted");
    return messages == 0;
}

int main(int count, char **given) {
    if (count == 3 && strcmp(given[1], "faults") == 0) return faults((size_t)atol(given[2]));
    const bool counts = count == 3 && strcmp(given[1], "steps") == 0;
    if (counts || (count == 3 && strcmp(given[1], "runs") == 0)) return runs(atol(given[2]), counts);
    return 2;
}
