/* Reads a recording from its standard input, a line of hexadecimal for each message or fragment, and says who called what: for each message, whole
 * or joined, the number of the line that ends it, then `request ID OPERATION` or `reply ID STATUS`; else the number of the refusal. */
#include <inttypes.h>
#include <stdio.h>

#include "haulspar.h"

/* A line without its line end; of one that is too long as much as tells so. False at the end of the input. */
static bool read_line(uint8_t line[HAULSPAR_LINE_DIGITS + 1], size_t *len) {
    int character;
    *len = 0;
    while ((character = getchar()) != EOF && character != '\n') {
        if (*len <= HAULSPAR_LINE_DIGITS) {
            line[(*len)++] = (uint8_t)character;
        }
    }
    return character != EOF || *len > 0;
}

/* What a message asks for or answers; 75 where it is no request or reply. */
static void say(const uint8_t *message, size_t len) {
    uint64_t said[HAULSPAR_HEADER_NUMBERS];
    uint32_t answer = haulspar_header(message, len, said);
    if (answer != HAULSPAR_OK) {
        printf("%" PRIu32 "\n", answer);
    } else if (said[HAULSPAR_HEADER_TYPE] == 0) {
        printf("request %" PRIu64 " %.*s\n", said[HAULSPAR_HEADER_ID], (int)said[HAULSPAR_HEADER_OPERATION_LENGTH],
               (const char *)message + said[HAULSPAR_HEADER_OPERATION_INDEX]);
    } else {
        printf("reply %" PRIu64 " %" PRIu64 "\n", said[HAULSPAR_HEADER_ID], said[HAULSPAR_HEADER_STATUS]);
    }
}

int main(void) {
    static struct haulspar_record record; /* all zero: nothing was read yet */
    static uint8_t line[HAULSPAR_LINE_DIGITS + 1], octets[HAULSPAR_LINE_OCTETS], places[HAULSPAR_PLACES_OCTETS], message[HAULSPAR_MESSAGE_OCTETS];
    size_t len;
    uint64_t count;
    for (uint64_t number = 1; read_line(line, &len); number++) {
        uint32_t answer = haulspar_decode(line, len, octets, sizeof octets, &count);
        if (answer == HAULSPAR_OK) {
            answer = haulspar_join(octets, count, &record, places, sizeof places, message, sizeof message, &count);
        }
        if (answer == HAULSPAR_HELD) {
            continue; /* a fragment: its message is not whole yet */
        }
        printf("%" PRIu64 " ", number);
        if (answer == HAULSPAR_OK || answer == HAULSPAR_JOINED || answer == HAULSPAR_CANCELLED) {
            say(message, count);
        } else {
            printf("%" PRIu32 "\n", answer);
        }
    }
    return 0;
}
