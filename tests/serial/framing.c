/* Datagrams of each length and of many patterns go over the framing and back; spoilt ones don't. Writes the frame of the octets
 * that are given in hexadecimal digits, so that tests/serial_line.py compares it with its own. */
#include "framing.h"

#include <stdio.h>
#include <stdlib.h>
#include <string.h>

enum { MOST = 8222 };
#define CHECK(it) ((it) ? (void)0 : (printf("framing.c:%d: %s\n", __LINE__, #it), exit(1)))

static void both_ways(const uint8_t *datagram, size_t len) {
    size_t room = framing_room(len);
    uint8_t *line = malloc(room);
    CHECK(line);
    size_t count = framing_write(datagram, len, line);
    CHECK(count <= room && line[0] == 0 && line[count - 1] == 0);
    for (size_t i = 1; i + 1 < count; i++) CHECK(line[i] != 0);
    size_t at = 1 + (size_t)rand() % (count - 2);
    uint8_t *spoilt = malloc(count - 2);
    CHECK(spoilt);
    memcpy(spoilt, line + 1, count - 2);
    spoilt[at - 1] ^= (uint8_t)(1u << rand() % 8);
    CHECK(framing_read(spoilt, count - 2) == 0);
    CHECK(framing_read(line + 1, count - 2) == len && memcmp(line + 1, datagram, len) == 0);
    free(spoilt), free(line);
}

int main(int count, char **words) {
    static uint8_t octets[MOST];
    if (count == 2) {
        static uint8_t line[2 * MOST];
        size_t len = strlen(words[1]) / 2;
        for (size_t i = 0; i < len; i++) {
            char digits[3] = {words[1][2 * i], words[1][2 * i + 1], 0};
            octets[i] = (uint8_t)strtoul(digits, NULL, 16);
        }
        size_t all = framing_write(octets, len, line);
        for (size_t i = 0; i < all; i++) printf("%02x", line[i]);
        putchar('\n');
        return 0;
    }
    srand(1);
    for (size_t len = 1; len <= 1100; len++)
        for (int kind = 0; kind < 4; kind++) {
            for (size_t i = 0; i < len; i++) {
                const unsigned its[4] = {0, 1 + (unsigned)i % 255, (unsigned)rand(), (unsigned)rand() % 2};
                octets[i] = (uint8_t)its[kind];
            }
            both_ways(octets, len);
        }
    both_ways(octets, MOST);
    for (int i = 0; i < 100000; i++) { /* any octets: none reads beyond them, and hardly one is a datagram */
        size_t len = (size_t)rand() % 40;
        uint8_t *some = malloc(len ? len : 1);
        CHECK(some);
        for (size_t j = 0; j < len; j++) some[j] = (uint8_t)rand();
        CHECK(framing_read(some, len) == 0);
        free(some);
    }
    return 0;
}
