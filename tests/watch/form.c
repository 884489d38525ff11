/* The trailer's codec, for tests/watch.py: form HEX.. reads each trailer, and prints its fields and what is written for
 * them; or `none` where it is no trailer. */
#include "../../lib/udp/udp.h"
#include <inttypes.h>
#include <stdio.h>
#include <string.h>

int main(int count, char **words) {
    for (int i = 1; i < count; i++) {
        uint8_t octets[TRAILER_LEN] = {0}, again[TRAILER_LEN] = {0};
        unsigned one;
        for (size_t k = 0; k < TRAILER_LEN && sscanf(words[i] + 2 * k, "%2x", &one) == 1; k++) octets[k] = (uint8_t)one;
        struct trailer t;
        if (!dtu_trailer_read(octets, &t)) {
            printf("none\n");
            continue;
        }
        printf("%08" PRIx32 " %" PRIu64 " %u %u %" PRIu64 " %" PRIu64 " %u %u %u %" PRIu32 " %u ", t.print, t.opening,
               t.kind, t.round, t.made, t.sure, t.of, t.aged, t.rounded, t.wall, t.heard);
        dtu_trailer_write(again, &t);
        for (size_t k = 0; k < TRAILER_LEN; k++) printf("%02x", again[k]);
        printf("\n");
    }
    return 0;
}
