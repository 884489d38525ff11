/* deltat_serial.h - a Delta-t node over one serial line, for Linux. Interface version 1.
 *
 * The library of deltat.h has no line, no clock and no timer. This driver has them: each datagram goes over the line with its
 * CRC-32, stuffed (COBS) so that it has no octet 0, and between two of them. What arrives spoilt is dropped, which is a loss
 * like any other. It never calls back and starts no thread. A program asks for the next event:
 *
 *     struct dt_serial_error error;
 *     dt_serial *serial = dt_serial_open(&options, &error);
 *     for (;;) {
 *         const struct dt_serial_event *event = dt_serial_next(serial, -1);
 *         if (event->kind == DT_SERIAL_EVENT_MESSAGE) use(&event->flow, event->octets, event->len);
 *         if (event->kind == DT_SERIAL_EVENT_FAILED) break;
 *     }
 *     dt_serial_close(serial);
 *
 * In another loop, watch dt_serial_fd for reading, call dt_serial_next(serial, 0) until it returns DT_SERIAL_EVENT_NONE, and
 * wake up at dt_serial_wake_ms.
 *
 * What the caller still has to do
 *   - All nodes have the same mpl, r and a, and no two nodes have the same number (deltat.h).
 *   - `start_as` is right: DT_START_AGAIN unless the number was never used, or not for dt_params_quiet_ms.
 *   - mpl pays for the charge, which dt_serial_charge computes.
 *   - One thread at a time for each driver; none from a signal handler, and none in a forked child.
 *
 * lib/serial/README.md is the page for programmers. */
#ifndef DELTAT_SERIAL_H
#define DELTAT_SERIAL_H
#include "deltat.h"
#ifdef __cplusplus
extern "C" {
#endif

typedef struct dt_serial dt_serial;

/* Zero the struct, and set `size` and what you need. A zero means the value in brackets. */
struct dt_serial_options {
    uint32_t size;             /* sizeof(struct dt_serial_options) */
    uint32_t node, peer;       /* numbers of this node, and of the one at the other end */
    const char *path;          /* of the line: "/dev/ttyUSB0" */
    uint32_t rate;             /* bits a second: 1,200 to 921,600, one that the system knows [115,200] */
    struct dt_params params;   /* of the network */
    uint32_t charge;           /* in ms [dt_serial_charge] */
    uint32_t pace;             /* in ms [what the longest datagram takes, at 10 bits an octet] */
    uint32_t turnaround;       /* half duplex: ms without an octet before this end sends [0: full duplex] */
    uint32_t max_late;         /* a datagram that couldn't be written in so many ms is dropped [20] */
    uint32_t max_under_way;    /* datagrams of messages that may be sent and not acknowledged, of all flows, 1 to 64: so
                                  that they leave the line before they are sent again [rto / (2 pace), at least 1] */
    uint32_t max_message;      /* octets of a message [65,536] */
    uint32_t report_kinds;     /* reports that are events, as bits 1 << kind [DT_REPORT_UNCERTAIN] */
    const uint32_t *others;    /* nodes behind the peer, which have the same route */
    size_t other_count;
    const uint16_t *ports;     /* that receive; datagrams for others are dropped [all] */
    size_t port_count;
    uint32_t max_flows;        /* flows that may have a receiver at one time [64] */
    uint8_t start_as;          /* enum dt_start */
};

struct dt_serial_error {
    char text[200];    /* one line: what is wrong, and what to do */
    int system_error;  /* an errno, or 0 */
    dt_status status;  /* DT_INVALID (an option), DT_NO_MEMORY, DT_NOT_OPEN (the system refused a call) */
};

enum dt_serial_event_kind {
    DT_SERIAL_EVENT_NONE = 0,    /* nothing happened in `wait_ms` */
    DT_SERIAL_EVENT_MESSAGE = 1, /* `flow`, `octets`, `len`, `gap` */
    DT_SERIAL_EVENT_REPORT = 2,  /* `report` */
    DT_SERIAL_EVENT_FAILED = 3   /* the driver can't continue: `system_error` (the line is gone), or 0: out of memory */
};

/* Belongs to the driver, and stays as it is until its next call. */
struct dt_serial_event {
    const uint8_t *octets;
    size_t len;
    struct dt_flow flow;
    struct dt_report report;
    int system_error;
    uint8_t kind; /* enum dt_serial_event_kind */
    bool gap;     /* octets of the flow before this message may be missing */
};

struct dt_serial_counts { /* since the opening */
    uint64_t datagrams_in, datagrams_out; /* whole ones */
    uint64_t spoilt;                      /* arrived with a wrong check, or too long */
    uint64_t late;                        /* couldn't be written within max_late, and were dropped */
    uint64_t blocked;                     /* the guard blocked them, or the header wasn't valid */
};

/* Computes the charge of a line by its options: what the longest datagram takes, max_late to write it, its turnaround, 20 ms
 * until a program reads it, and 3 for whole milliseconds. */
uint32_t dt_serial_charge(const struct dt_serial_options *options);

/* Opens the line and a node. Returns null if that fails, and `error` says why; then nothing is left open. */
dt_serial *dt_serial_open(const struct dt_serial_options *options, struct dt_serial_error *error);

/* Closes both. What was sent and isn't acknowledged may be lost. */
void dt_serial_close(dt_serial *serial);

/* Returns what happened next. Waits at most `wait_ms` ms for it (-1: without limit; 0: not at all), and meanwhile sends and
 * receives what is due. Never returns null. */
const struct dt_serial_event *dt_serial_next(dt_serial *serial, int wait_ms);

/* Sends a whole message of 1 to params.cap octets from a port of this node to a port of another one.
 *   DT_OK
 *   DT_FULL     it doesn't fit now, or more than max_under_way datagrams would be under way, and one is: try again after the
 *               next event
 *   DT_QUIET    the node is silent after its start
 *   DT_INVALID  it is to this node, empty, or longer than params.cap
 *   DT_STOPPED, DT_NO_MEMORY  the driver has failed */
dt_status dt_serial_send(dt_serial *serial, const struct dt_flow *flow, const void *octets, size_t len);

/* Octets that were sent, and neither acknowledged nor reported uncertain. */
uint64_t dt_serial_under_way(dt_serial *serial);

struct dt_serial_counts dt_serial_get_counts(const dt_serial *serial);
int dt_serial_fd(const dt_serial *serial);
/* ms until dt_serial_next must be called, or -1: nothing is due */
int dt_serial_wake_ms(dt_serial *serial);

#ifdef __cplusplus
}
#endif
#endif
