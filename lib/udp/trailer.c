/* The trailer behind each datagram between drivers. docs/formats.md has its form. */
#include "udp.h"

/* where each field is */
enum { PRINT = 0, OPENING = 4, KIND = 10, ROUND = 11, MADE = 12, SURE = 18, OF = 24, AGED = 26, ROUNDED = 28, WALL = 29,
       HEARD = 32 };
enum { VERSION = 1 << 4 };

void dtu_trailer_write(uint8_t *at, const struct trailer *it) {
    dtu_put_number(at + PRINT, it->print, 4);
    dtu_put_number(at + OPENING, it->opening, 6);
    at[KIND] = (uint8_t)(VERSION | it->kind);
    at[ROUND] = it->round;
    dtu_put_number(at + MADE, it->made, 6);
    dtu_put_number(at + SURE, it->sure, 6);
    dtu_put_number(at + OF, it->of, 2);
    dtu_put_number(at + AGED, it->aged, 2);
    at[ROUNDED] = it->rounded;
    dtu_put_number(at + WALL, it->wall, 3);
    dtu_put_number(at + HEARD, it->heard, 2);
}

/* Reads one. False: it is of another version, or no trailer. */
bool dtu_trailer_read(const uint8_t *at, struct trailer *it) {
    *it = (struct trailer){.print = (uint32_t)dtu_get_number(at + PRINT, 4),
                           .opening = dtu_get_number(at + OPENING, 6),
                           .kind = at[KIND] & 15,
                           .round = at[ROUND],
                           .made = dtu_get_number(at + MADE, 6),
                           .sure = dtu_get_number(at + SURE, 6),
                           .of = (uint16_t)dtu_get_number(at + OF, 2),
                           .aged = (uint16_t)dtu_get_number(at + AGED, 2),
                           .rounded = at[ROUNDED],
                           .wall = (uint32_t)dtu_get_number(at + WALL, 3),
                           .heard = (uint16_t)dtu_get_number(at + HEARD, 2)};
    return (at[KIND] & 240) == VERSION && it->kind >= TRAILER_FRAME && it->kind <= TRAILER_PONG && it->opening != 0;
}
