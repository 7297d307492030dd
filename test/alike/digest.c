/* Prints a digest of all that the library for C answers of the messages that come from standard input, as test/fuzz/messages.c writes
 * them: read with each set of flags, within small limits and usual ones. */
#include "reading.h"

#include <stdio.h>

static struct reader reader;
static uint8_t message[1 << 14];

int main(void) {
    uint8_t head[4];
    unsigned long long messages = 0, accepted = 0;
    while (fread(head, 1, 4, stdin) == 4) {
        const ndef_size length = head[0] | (ndef_size)head[1] << 8;
        if (length > sizeof message || fread(message, 1, length, stdin) != length) return 2;
        for (uint32_t flags = 0; flags < 4; flags++) {
            const ndef_limits limits = { messages % 4 == 0 ? 20 : 1048576, messages % 8 == 0 ? 2 : 1024, messages % 16 == 0 ? 2 : 4096, flags };
            accepted += read_message(&reader, message, length, &limits) == NDEF_OK;
            if (flags < 2) read_fields(&reader, message, length, &limits);
        }
        messages++;
    }
    printf("%016llx of %llu messages, accepted %llu times\n", (unsigned long long)reader.hash, messages, accepted);
    return 0;
}
