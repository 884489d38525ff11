/* What the files of the driver share. */
#ifndef DELTAT_SERIAL_INSIDE_H
#define DELTAT_SERIAL_INSIDE_H
#include "deltat_serial.h"

#include "framing.h"

enum { LINK = 1, HEADERS = 30, USUAL_LATE = 20, LONGEST_MESSAGE = 65536, MOST_SENT = 64 };

/* a message that was sent: its octets that are neither acknowledged nor uncertain */
struct sent { struct dt_flow flow; uint32_t left; };

struct dt_serial {
    struct dt_serial_options options; /* with the usual values in place of zeros */
    uint32_t longest;                 /* ms that the longest datagram takes on the line */
    dt_node *node;
    int line;
    bool has_failed;
    uint64_t empty_at;      /* when the line was last found empty */
    uint64_t heard_at;      /* when an octet arrived last */
    uint64_t pending_since; /* when the oldest datagram that the node may still have was made; UINT64_MAX: none */
    uint8_t *out;           /* a datagram on its way to the line */
    size_t out_len, out_at;
    uint64_t out_since;
    uint8_t *in;            /* what has arrived between two octets 0 */
    size_t in_len, in_room;
    uint8_t *message;
    struct sent sent[MOST_SENT]; /* in the order of sending */
    size_t sent_count;
    struct dt_serial_event event;
    struct dt_serial_counts counts;
};

uint64_t serial_now(void);
/* Opens the line, raw, at its rate. -1: errno says why. */
int serial_open_line(const char *path, uint32_t rate);
/* Puts on the line what the node has. False: the line is gone, and the event says why. */
bool serial_flush(dt_serial *it);
/* Hands in what has arrived. False: the line is gone, or the node is stopped. */
bool serial_receive(dt_serial *it);
bool serial_failed(dt_serial *it, int system_error);
#endif
