#include "framing.h"

#include <string.h>

enum { MOST_RUN = 254 };

#ifdef DT_SERIAL_ZLIB
#include <zlib.h>
static uint32_t check_of(uint32_t it, const uint8_t *octets, size_t len) { return (uint32_t)crc32(it, octets, (uInt)len); }
#else
/* by halves of an octet: a table of 16 words */
static uint32_t check_of(uint32_t it, const uint8_t *octets, size_t len) {
    static const uint32_t TABLE[16] = {0x00000000, 0x1db71064, 0x3b6e20c8, 0x26d930ac, 0x76dc4190, 0x6b6b51f4, 0x4db26158, 0x5005713c,
                                       0xedb88320, 0xf00f9344, 0xd6d6a3e8, 0xcb61b38c, 0x9b64c2b0, 0x86d3d2d4, 0xa00ae278, 0xbdbdf21c};
    it = ~it;
    for (size_t i = 0; i < len; i++) {
        it ^= octets[i];
        it = it >> 4 ^ TABLE[it & 15];
        it = it >> 4 ^ TABLE[it & 15];
    }
    return ~it;
}
#endif

size_t framing_room(size_t len) { return len + FRAMING_CHECK + (len + FRAMING_CHECK) / MOST_RUN + 1 + 2; }

/* Stuffs octets that come in parts: `mark` is the place of the count of the run that is open. */
struct stuffing { uint8_t *to; size_t at, mark; };

static void stuff(struct stuffing *it, const uint8_t *octets, size_t len) {
    for (size_t i = 0; i < len; i++) {
        /* a run of 254 octets ends without a 0 once another octet follows */
        if (it->to[it->mark] == MOST_RUN + 1) it->mark = it->at++, it->to[it->mark] = 1;
        if (octets[i] != 0) it->to[it->at++] = octets[i], it->to[it->mark]++;
        else it->mark = it->at++, it->to[it->mark] = 1;
    }
}

size_t framing_write(const uint8_t *datagram, size_t len, uint8_t *to) {
    uint32_t check = check_of(0, datagram, len);
    uint8_t tail[FRAMING_CHECK];
    struct stuffing it = {to, 2, 1};
    for (int i = 0; i < FRAMING_CHECK; i++) tail[i] = (uint8_t)(check >> 8 * i);
    to[0] = 0; /* ends what may stand on the line of another datagram */
    to[1] = 1;
    stuff(&it, datagram, len);
    stuff(&it, tail, sizeof tail);
    to[it.at++] = 0;
    return it.at;
}

static size_t unstuff(uint8_t *octets, size_t len) {
    size_t to = 0;
    for (size_t at = 0; at < len;) {
        uint8_t count = octets[at++];
        if (count == 0 || at + count - 1 > len) return 0;
        memmove(octets + to, octets + at, count - 1u);
        to += count - 1u, at += count - 1u;
        if (count <= MOST_RUN && at < len) octets[to++] = 0;
    }
    return to;
}

size_t framing_read(uint8_t *octets, size_t len) {
    uint32_t check = 0;
    len = unstuff(octets, len);
    if (len <= FRAMING_CHECK) return 0;
    len -= FRAMING_CHECK;
    for (int i = 0; i < FRAMING_CHECK; i++) check |= (uint32_t)octets[len + (size_t)i] << 8 * i;
    return check_of(0, octets, len) == check ? len : 0;
}
