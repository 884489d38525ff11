/* Datagrams between octets 0: each with its CRC-32, stuffed (COBS) so that it has no octet 0. */
#ifndef DELTAT_SERIAL_FRAMING_H
#define DELTAT_SERIAL_FRAMING_H
#include <stddef.h>
#include <stdint.h>

enum { FRAMING_CHECK = 4 };

/* the most octets that a datagram of `len` octets takes on the line */
size_t framing_room(size_t len);
/* Writes a datagram as it goes over the line, with an octet 0 at both ends. Returns the octets of `to`. */
size_t framing_write(const uint8_t *datagram, size_t len, uint8_t *to);
/* Reads what stood between two octets 0, in its place. Returns the octets of the datagram, or 0 if it was spoilt. */
size_t framing_read(uint8_t *octets, size_t len);
#endif
