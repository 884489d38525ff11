/* Datagrams on a serial line: each with its CRC-32, stuffed (COBS) so that it has no octet 0, and between two of them. */
#ifndef LINE_H
#define LINE_H
#include <stdbool.h>
#include <stddef.h>
#include <stdint.h>

#include "deltat_micro.h"

enum { LINE_CHECK = 4, LINE_ROOM = DTM_MAX_DATAGRAM + LINE_CHECK + 4 };

/* what has arrived of a datagram, and counts of those that were spoilt */
struct line { uint8_t octets[LINE_ROOM]; size_t len; uint32_t spoilt; };

/* Sends a datagram octet by octet, stuffed as it goes. */
void line_send(const uint8_t *octets, size_t len, void (*send)(uint8_t octet));
/* Takes an octet. The length of a datagram that is whole now, in line->octets until the next call; 0: none is. */
size_t line_take(struct line *line, uint8_t octet);
#endif
