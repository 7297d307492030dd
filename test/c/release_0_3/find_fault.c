/* find_fault.c */
#include "ndef.h"

#include <stdio.h>

int main(void) {
    static const uint8_t broken[] = { 0xd1, 1, 6, 'U', 'h', 't', 't', 'p', ':', '/' };
    ndef_limits limits;
    ndef_field fields[32];
    ndef_checked refusal;
    ndef_size count;
    uint8_t buffer[192];
    ndef_usual_limits(&limits);
    if (ndef_fields(broken, sizeof broken, &limits, fields, 32, &count, &refusal) != NDEF_REFUSED)
        return 1;
    for (ndef_size index = 0; index < count; index++)
        printf("%llu %s\n", (unsigned long long)fields[index].at,
               ndef_field_text(fields[index].name));
    printf("at %llu %s\n", (unsigned long long)refusal.place, ndef_reason_text(refusal.reason));
    if (ndef_why(broken, sizeof broken, &limits, buffer, sizeof buffer, &count) == NDEF_OK)
        printf("%.*s\n", (int)count, (const char *)buffer);
    if (ndef_hint(broken, sizeof broken, &limits, buffer, sizeof buffer, &count) == NDEF_OK)
        printf("hint: %.*s\n", (int)count, (const char *)buffer);
    return 0;
}
