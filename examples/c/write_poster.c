/* Writes a tag's message, a smart poster: write_poster URI LANGUAGE TITLE > tag.bin */
#include "ndef.h"

#include <stdio.h>
#include <string.h>

static uint8_t words_of[16384], poster[16384], tag[16640];

/* Adds a word after those that are there, and returns where it lies. */
static ndef_part put(ndef_size *length, const char *word) {
    const ndef_part part = { *length, strlen(word) };
    memcpy(words_of + part.at, word, part.length);
    *length += part.length;
    return part;
}

int main(int count, char **words) {
    const ndef_writing how = { NDEF_TNF_WELL_KNOWN, NDEF_WRITE_FIRST | NDEF_WRITE_LAST, 0 };
    ndef_poster_writing said = { 0 };
    ndef_title_writing title = { 0 };
    ndef_size length = 0, poster_length, tag_length;
    if (count != 4 || strlen(words[1]) + strlen(words[2]) + strlen(words[3]) > sizeof words_of) {
        fprintf(stderr, "usage: write_poster URI LANGUAGE TITLE\n");
        return 2;
    }
    said.uri = put(&length, words[1]);
    title.language = put(&length, words[2]);
    title.text = put(&length, words[3]);
    if (ndef_write_poster(words_of, length, &said, &title, 1, NULL, 0, poster, sizeof poster, &poster_length) != NDEF_OK
        || ndef_write_record((const uint8_t *)"Sp", 2, NULL, 0, poster, poster_length, &how, tag, sizeof tag,
                             &tag_length) != NDEF_OK) {
        fprintf(stderr, "write_poster: no such poster, or it is too long\n");
        return 1;
    }
    return fwrite(tag, 1, tag_length, stdout) != tag_length;
}
