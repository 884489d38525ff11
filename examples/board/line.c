#include "line.h"

enum { MOST_RUN = 254 };

static uint32_t crc32(const uint8_t *from, size_t len) {
    uint32_t it = UINT32_MAX;
    for (size_t i = 0; i < len; i++) {
        it ^= from[i];
        for (int bit = 0; bit < 8; bit++) it = it >> 1 ^ (it & 1 ? 0xedb88320u : 0);
    }
    return ~it;
}

void line_send(const uint8_t *octets, size_t len, void (*send)(uint8_t octet)) {
    uint32_t check = crc32(octets, len);
    uint8_t tail[LINE_CHECK];
    size_t all = len + LINE_CHECK;
    for (int i = 0; i < LINE_CHECK; i++) tail[i] = (uint8_t)(check >> 8 * i);
    send(0); /* ends what may stand there of another one */
    for (size_t i = 0; i <= all;) {
        size_t run = 0;
        while (i + run < all && run < MOST_RUN && (i + run < len ? octets[i + run] : tail[i + run - len]) != 0) run++;
        send((uint8_t)(run + 1));
        for (size_t j = i; j < i + run; j++) send(j < len ? octets[j] : tail[j - len]);
        i += run;
        if (run < MOST_RUN) i++; /* a 0, or the end */
        else if (i == all) break;
    }
    send(0);
}

static size_t unstuff(uint8_t *it, size_t len) {
    size_t to = 0;
    for (size_t i = 0; i < len;) {
        uint8_t count = it[i++];
        if (count == 0 || i + count - 1 > len) return 0;
        for (uint8_t j = 1; j < count; j++) it[to++] = it[i++];
        if (count <= MOST_RUN && i < len) it[to++] = 0;
    }
    return to;
}

size_t line_take(struct line *line, uint8_t octet) {
    size_t len = line->len;
    uint32_t check = 0;
    if (octet != 0) {
        if (len < LINE_ROOM) line->octets[len] = octet;
        if (len <= LINE_ROOM) line->len++;
        return 0;
    }
    line->len = 0;
    if (len == 0) return 0;
    len = len <= LINE_ROOM ? unstuff(line->octets, len) : 0;
    for (size_t i = 0; len > LINE_CHECK && i < LINE_CHECK; i++) check |= (uint32_t)line->octets[len - LINE_CHECK + i] << 8 * i;
    if (len > LINE_CHECK && crc32(line->octets, len - LINE_CHECK) == check) return len - LINE_CHECK;
    line->spoilt++;
    return 0;
}
