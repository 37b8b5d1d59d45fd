/* Reads a profile body, given as a line of hexadecimal, and says where it leads. */
#include <inttypes.h>
#include <stdio.h>
#include <string.h>

#include "haulspar.h"

int main(int argc, char **argv) {
    uint8_t octets[HAULSPAR_LINE_OCTETS];
    uint64_t count, numbers[10];
    if (argc != 2) {
        return 2;
    }
    uint32_t answer = haulspar_decode((const uint8_t *)argv[1], strlen(argv[1]), octets, sizeof octets, &count);
    if (answer == HAULSPAR_OK) {
        answer = haulspar_profile(octets, count, numbers);
    }
    if (answer != HAULSPAR_OK) {
        printf("refused: %" PRIu32 "\n", answer);
        return 1;
    }
    printf("IIOP %" PRIu64 ".%" PRIu64 " %.*s:%" PRIu64 ", key of %" PRIu64 " octets, %" PRIu64 " components\n", numbers[1], numbers[2],
           (int)numbers[4], (const char *)octets + numbers[3], numbers[5], numbers[7], numbers[8]);
    return 0;
}
