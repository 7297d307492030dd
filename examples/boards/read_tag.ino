// Prints the texts and links of a Type 2 Tag, of what a PN532 answers where it reads the tag's memory.
#include <ndef.h>
#include <string.h>

// The answers to InDataExchange with the tag's command READ of the pages 4 and 8: D5 41, the status and 16 bytes.
static const uint8_t answers[][19] = {
  {0xD5, 0x41, 0, 0x03, 0x1C, 0x91, 0x01, 0x08, 'T', 0x02, 'e', 'n', 'H', 'e', 'l', 'l', 'o', 0x51, 0x01},
  {0xD5, 0x41, 0, 0x0C, 'U', 0x02, 'e', 'x', 'a', 'm', 'p', 'l', 'e', '.', 'c', 'o', 'm', 0xFE, 0x00}};
static uint8_t memory[sizeof answers / sizeof *answers * 16], payload[256], spelled[512];

static void printTag(const uint8_t *bytes, ndef_size length) {
  ndef_limits limits;
  ndef_checked checked, why;
  ndef_record record;
  ndef_size size, count;
  ndef_default_limits(&limits);
  if (ndef_check(bytes, length, &limits, &checked) != NDEF_OK) {
    Serial.print("refused: ");
    Serial.println(ndef_reason_text(checked.reason));
    return;
  }
  for (ndef_size at = 0; ndef_record_at(bytes, checked.place, at, &record) == NDEF_OK; at = record.end) {
    const uint32_t kind = ndef_kind(bytes, checked.place, &record, NDEF_KIND_OTHER);
    if (ndef_payload(bytes, checked.place, at, payload, sizeof payload, &size) != NDEF_OK) continue;
    if (kind == NDEF_KIND_TEXT && ndef_text_in_utf8(payload, size, spelled, sizeof spelled, &count, &why) == NDEF_OK)
      Serial.print("text ");
    else if (kind == NDEF_KIND_URI && ndef_uri(payload, size, 0, spelled, sizeof spelled, &count, &why) == NDEF_OK)
      Serial.print("link ");
    else continue;
    Serial.write(spelled, count);
    Serial.println();
  }
}

void setup() {
  ndef_limits limits;
  ndef_found found;
  Serial.begin(115200);
  for (size_t page = 0; page < sizeof memory / 16; page++) memcpy(memory + 16 * page, answers[page] + 3, 16);
  ndef_default_limits(&limits);
  // The library finds where the tag has a message.
  if (ndef_find_hint(memory, sizeof memory, &limits, &found) == NDEF_OK && found.hint == NDEF_HINT_TLV)
    printTag(memory + found.at, found.length);
}

void loop() {}
