/* SPDX-License-Identifier: CC0-1.0 OR MIT OR Apache-2.0
 * cc run.c reader.c && ./a.out [typed|leaf|opaque [strict|standard]] <../cases.txt: runs the cases on a reader. reader.c has
 * message_length, which returns the length of the message with which the bytes begin, or -1 where there is none. */
#include <stdint.h>
#include <stdio.h>
#include <stdlib.h>
#include <string.h>

long long message_length(const uint8_t *bytes, size_t length);

int main(int count, char **words) {
    const char *language = count > 1 ? words[1] : "typed", *profile = count > 2 ? words[2] : "strict";
    static char line[1 << 20], *column[10];
    static uint8_t bytes[1 << 18];
    unsigned run = 0, wrong = 0;
    while (fgets(line, sizeof line, stdin)) {
        int columns = 0;
        for (char *word = strtok(line, "|"); word && columns < 10; word = strtok(NULL, "|")) column[columns++] = word;
        if (*line == '#' || columns < 9 || !strstr(column[4], language) || !strstr(column[6], "usual")) continue;
        if (!strstr(column[5], "both") && !strstr(column[5], profile)) continue;
        size_t length = 0;
        for (char *at = column[7], *end; bytes[length] = (uint8_t)strtoul(at, &end, 16), end != at; at = end) length++;
        long long wanted = -1, found = message_length(bytes, length);
        if (sscanf(column[8], " accepted %lld", &wanted) != 1) wanted = -1;
        run++;
        if (found != wanted && ++wrong) printf("%s|%s|%s: wanted %lld, got %lld\n", column[0], column[2], column[3], wanted, found);
    }
    printf("%u cases, %u wrong\n", run, wrong);
    return wrong || !run;
}
