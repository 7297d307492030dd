/* Writes random messages to standard output, each as its length in four bytes, the lowest first, and its bytes:
 *
 *     messages SEED COUNT < LINES
 *
 * LINES are lines of hexadecimal digits, as the bytes of the cases and the corpus of test/fuzz. A message is a line, or two of them one
 * after the other, with up to six changes: a bit, a byte, a byte one more or less, bytes less, or bytes twice. The same seed gives the same messages.
 * COUNT 0 has no end. With the seed 0 they are the lines, in order and unchanged. */
#include <stdint.h>
#include <stdio.h>
#include <stdlib.h>
#include <string.h>

enum { MOST = 4096, LINES = 16384 };
static uint8_t *lines[LINES], message[2 * MOST];
static size_t lengths[LINES], count, length;
static uint64_t state;

static uint32_t below(uint32_t bound) {
    state += 0x9e3779b97f4a7c15u;
    uint64_t mixed = state;
    mixed = (mixed ^ mixed >> 30) * 0xbf58476d1ce4e5b9u;
    mixed = (mixed ^ mixed >> 27) * 0x94d049bb133111ebu;
    return (uint32_t)((mixed ^ mixed >> 31) >> 32) % bound;
}

/* Keeps the bytes of a line, if it has at most MOST. */
static void keep(const char *line) {
    const size_t size = strspn(line, "0123456789abcdefABCDEF") / 2;
    if (size > MOST || count == LINES) return;
    lines[count] = malloc(size + 1);
    if (lines[count] == NULL) exit(3);
    for (size_t i = 0; i < size; i++) {
        const char digits[3] = { line[2 * i], line[2 * i + 1], 0 };
        lines[count][i] = (uint8_t)strtoul(digits, NULL, 16);
    }
    lengths[count++] = size;
}

static void append_line(void) {
    const uint32_t which = below((uint32_t)count);
    if (length + lengths[which] > sizeof message) return;
    memcpy(message + length, lines[which], lengths[which]);
    length += lengths[which];
}

/* Takes bytes of the message out, or puts some of them in once more. */
static void move(size_t at, int again) {
    const size_t part = 1 + below((uint32_t)(length - at < 16 ? length - at : 16));
    if (!again) {
        memmove(message + at, message + at + part, length - at - part);
        length -= part;
    } else if (length + part <= sizeof message) {
        memmove(message + at + part, message + at, length - at);
        length += part;
    }
}

static int put_message(const uint8_t *bytes, size_t size) {
    const uint8_t head[4] = { (uint8_t)size, (uint8_t)(size >> 8), (uint8_t)(size >> 16), (uint8_t)(size >> 24) };
    return fwrite(head, 1, 4, stdout) == 4 && fwrite(bytes, 1, size, stdout) == size;
}

static void change(void) {
    static const uint8_t telling[] = { 0x00, 0x01, 0x7f, 0x80, 0xff, 0xd1, 0x91, 0x51, 0x11, 0xb1, 0x36, 0x56, 0xd9, 0xc1, 'T', 'U' };
    const size_t at = below((uint32_t)length);
    switch (below(6)) {
    case 0: message[at] ^= (uint8_t)(1u << below(8)); break;
    case 1: message[at] = (uint8_t)below(256); break;
    case 2: message[at] = telling[below(sizeof telling)]; break;
    case 3: message[at] = (uint8_t)(message[at] + 1 - 2 * below(2)); break;
    case 4: move(at, 0); break;
    default: move(at, 1); break;
    }
}

int main(int words, char **word) {
    static char line[4 * MOST];
    if (words != 3) return 2;
    state = strtoull(word[1], NULL, 10);
    while (fgets(line, sizeof line, stdin) != NULL) keep(line);
    if (count == 0) return 2;
    const uint64_t most = strtoull(word[2], NULL, 10);
    for (size_t i = 0; state == 0 && i < count; i++)
        if (!put_message(lines[i], lengths[i])) return 3;
    if (state == 0) return fflush(stdout) != 0 ? 3 : 0;
    for (uint64_t made = 0; most == 0 || made < most; made++) {
        length = 0;
        append_line();
        if (below(4) == 0) append_line();
        for (uint32_t times = below(7); times != 0 && length != 0; times--) change();
        if (!put_message(message, length)) return 3;
    }
    return fflush(stdout) != 0 ? 3 : 0;
}
