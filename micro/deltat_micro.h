/* deltat_micro.h - a node of Delta-t for small devices, in C99: no malloc, no division, no 64-bit number.
 *
 * The rules are those of docs/protocol.md, the octets those of docs/formats.md. It is tested against the proved program
 * (tests/micro.py), and not proved. All buffers are in struct dtm_node, and have their sizes at compile time: define the
 * limits below for this header and deltat_micro.c alike (-DDTM_SENDS=2). It calls memcpy, memmove and memset only.
 *
 * ---- DUTIES OF THE CALLER ---- (docs/premises.md has the reasons)
 *
 * 1. Clock. `now` is in milliseconds, 32 bits of one clock that wraps around (after 49 days) and never steps back. Read a
 *    counter that runs by itself, in sleep too; never count interrupts. Call dtm_tick at dtm_deadline at the latest.
 * 2. Links. No datagram is under way on a link for longer than the receiver's `charge` of that link, and what it waited
 *    in the device before dtm_receive is in `waited_ms`. A datagram that was changed on its way isn't handed in: a line
 *    needs a checksum.
 * 3. Start. Open with `again` unless the number is new, or nothing left the node for 3 mpl + r + a.
 * 4. Network. All nodes have the same mpl, r and a, and different numbers. A peer's `seg` is at most DTM_SEG.
 * 5. The callbacks must not call the node, and no function is called while another one runs (in an interrupt).
 *
 * One call of dtm_tick, dtm_send, dtm_read or dtm_receive does all that is due at `now`; its time grows with the
 * records and segments, which have their limits, and with the octets that it moves. */
#ifndef DELTAT_MICRO_H
#define DELTAT_MICRO_H
#include <stdbool.h>
#include <stddef.h>
#include <stdint.h>

#ifndef DTM_SENDS
#define DTM_SENDS 1 /* flows with a send record at one time: 1 to 255 */
#endif
#ifndef DTM_RECVS
#define DTM_RECVS 1 /* flows with a receive record or unread octets at one time: 1 to 255 */
#endif
#ifndef DTM_SEGMENTS
#define DTM_SEGMENTS 4 /* outstanding segments of a send record: 1 to 64 */
#endif
#ifndef DTM_CAP
#define DTM_CAP 512 /* octets of a send record: 1 to 65,536 */
#endif
#ifndef DTM_RCAP
#define DTM_RCAP 512 /* unread octets of a flow: 1 to 65,536 */
#endif
#ifndef DTM_SEG
#define DTM_SEG 128 /* octets of a segment: 1 to 8,192 */
#endif
#ifndef DTM_LINKS
#define DTM_LINKS 1 /* 1 to 255 */
#endif
#ifndef DTM_ROUTES
#define DTM_ROUTES 1 /* 1 to 255 */
#endif
#ifndef DTM_QUEUE
#define DTM_QUEUE 1 /* datagrams that may wait on a link for its pace: 1 to 64; 1 is enough if the pace is 0 */
#endif
#ifndef DTM_FLOWS
#define DTM_FLOWS 2 /* flows from other nodes that can be admitted: 1 to 255 */
#endif
#define DTM_MAX_DATAGRAM (30 + DTM_SEG) /* octets; a longer datagram that arrives is lost */
#define DTM_NEVER 0xffffffffu           /* from dtm_wake: nothing is due */
#define DTM_MAX_SLEEP 0x40000000u       /* ms, 12 days: a call must come within this time */

enum dtm_status {
    DTM_OK,
    DTM_INVALID,   /* an argument is out of range; nothing changed */
    DTM_MALFORMED, /* the datagram isn't valid; a report has the fault */
    DTM_EXPIRED,   /* the datagram's lifetime is over by what it waited; nothing changed */
    DTM_BLOCKED,   /* the flow isn't admitted; nothing changed but what was due */
    DTM_FULL,      /* the octets don't fit into the send record; none was taken */
    DTM_QUIET,     /* the node is silent after its start; none was taken */
    DTM_NO_RECORD, /* DTM_SENDS other flows have a send record; none was taken */
    DTM_NONE,      /* nothing is unread */
    DTM_LOST       /* the datagram is longer than DTM_MAX_DATAGRAM, or DTM_RECVS other flows have a receive record */
};
enum dtm_fault { /* why a datagram is DTM_MALFORMED: the first test that failed */
    DTM_FAULT_SHORT = 1,
    DTM_FAULT_VERSION,
    DTM_FAULT_LENGTH,
    DTM_FAULT_LIFETIME,
    DTM_FAULT_PROTOCOL,
    DTM_FAULT_KIND,
    DTM_FAULT_FLAGS,
    DTM_FAULT_WINDOW,
    DTM_FAULT_SIZE
};
enum dtm_packet_kind { DTM_PACKET_DATA = 1, DTM_PACKET_ACK, DTM_PACKET_PROBE, DTM_PACKET_CLOSING };
enum dtm_mark { DTM_MARK_RUN = 1, DTM_MARK_BEGIN = 2, DTM_MARK_END = 4 };
enum dtm_action {
    DTM_ACTION_DROP,
    DTM_ACTION_MAKE,
    DTM_ACTION_REPLY_NUMBER,
    DTM_ACTION_REPLY_EXPECTED,
    DTM_ACTION_ACCEPT,
    DTM_ACTION_SKIP
};
enum dtm_report_kind { /* what a report says, and the fields that it sets; all others are 0 */
    DTM_REPORT_SEND_QUEUED = 1,   /* flow, count */
    DTM_REPORT_SEND_QUIET,        /* flow, count: the ms that are left */
    DTM_REPORT_SEND_FULL,         /* flow, count: the octets that fit */
    DTM_REPORT_SEGMENT_SENT,      /* flow, number, count, marks */
    DTM_REPORT_SEGMENT_RESENT,    /* flow, number, count, marks */
    DTM_REPORT_PROBE_SENT,        /* flow, number */
    DTM_REPORT_UNCERTAIN,         /* flow, count: octets that were given up, delivered once or not at all */
    DTM_REPORT_SEND_RELEASED,     /* flow */
    DTM_REPORT_RECEIVE_RELEASED,  /* flow */
    DTM_REPORT_SEND_RENEWED,      /* flow */
    DTM_REPORT_ACK_SENT,          /* flow, number, window */
    DTM_REPORT_REPLY_SENT,        /* flow, number, window */
    DTM_REPORT_ACCEPTED,          /* flow, number, count, marks: DTM_MARK_RUN if octets before may be missing */
    DTM_REPORT_PACKET_DROPPED,    /* flow, number */
    DTM_REPORT_RUN_ENDED,         /* flow, number */
    DTM_REPORT_ACKNOWLEDGED,      /* flow, count, window */
    DTM_REPORT_ACK_IGNORED,       /* flow, number, window */
    DTM_REPORT_PACKET_QUIET,      /* count: the ms that are left */
    DTM_REPORT_READ,              /* flow, count, marks */
    DTM_REPORT_READ_NONE,         /* flow */
    DTM_REPORT_PACKET_OUT,        /* number: the link, count: the lifetime */
    DTM_REPORT_EXPIRED_IN,        /* number: the link */
    DTM_REPORT_EXPIRED_OUT,       /* number: the link */
    DTM_REPORT_LINK_FULL,         /* number: the link */
    DTM_REPORT_NO_ROUTE,          /* number: the node */
    DTM_REPORT_PACKET_MALFORMED   /* number: the fault, count: its value, window: of DTM_FAULT_LENGTH the octets there */
};

/* Times in ms, sizes in octets: docs/parameters.md. mpl 2 to 86,400,000; r, a, rto and probe 1 to 86,400,000, and probe
 * below 3 mpl + r + a; seg, cap and rcap 1 to the compiled limits; window 1 to 65,536; run_limit 1 to 2^31; start any. */
struct dtm_params { uint32_t mpl, r, a, rto, probe, seg, cap, rcap, window, run_limit, start; };
struct dtm_flow { uint32_t source, target; uint16_t source_port, target_port; };
struct dtm_link { uint32_t charge, pace; uint8_t number; };
struct dtm_route { uint32_t to; uint8_t link; };
struct dtm_report { struct dtm_flow flow; uint32_t number, count, window; uint8_t kind, marks; };
struct dtm_read_result { uint32_t len; uint8_t status, marks; };
struct dtm_message { struct dtm_flow flow; const uint8_t *octets; size_t len; uint8_t marks; };
struct dtm_arrival { const uint8_t *octets; size_t len; uint32_t waited_ms; uint8_t link; };

/* Called by dtm_tick, dtm_send, dtm_read and dtm_receive. `report` is valid during the call, `datagram` too. */
struct dtm_callbacks {
    void (*report)(void *context, const struct dtm_report *report);
    void (*datagram)(void *context, uint8_t link, const uint8_t *octets, size_t len);
    void *context;
};

/* All is copied. Without admitted flows (flow_count 0) every flow to this node is admitted. */
struct dtm_options {
    struct dtm_params params;
    uint32_t node; /* the number of this node */
    bool again;    /* silent for 3 mpl + r + a from `now` on */
    const struct dtm_link *links;
    const struct dtm_route *routes;
    const struct dtm_flow *flows; /* from other nodes to this one: data of any other flow are dropped */
    size_t link_count, route_count, flow_count;
    struct dtm_callbacks callbacks;
};

/* A datagram that was read. `octets` points into it. `value` and `present` are what a fault's report has. */
struct dtm_packet {
    uint32_t life, source, target, number, window, value, present;
    const uint8_t *octets;
    uint16_t source_port, target_port, size;
    uint8_t version, protocol, kind, flags;
};

/* ---- what a node keeps; not for the caller ---- */

struct dtm_segment { uint32_t first, last; uint16_t len; };
struct dtm_sender {
    struct dtm_flow flow;
    uint32_t left, edge;       /* offsets, modulo 2^32 */
    uint32_t place;            /* how far *next* is above the last multiple of the quantum */
    uint32_t touched, crossed;
    uint32_t at, held, out;    /* the ring: the octet of `left`, octets there, those of them that are outstanding */
    uint8_t segments, has_crossed;
    struct dtm_segment segment[DTM_SEGMENTS];
    uint8_t octets[DTM_CAP], begins[(DTM_CAP + 7) / 8], ends[(DTM_CAP + 7) / 8];
};
struct dtm_receiver {
    struct dtm_flow flow;
    uint32_t expected, touched, due, advertised;
    uint32_t at, unread;
    uint8_t has_record, owes;
    uint8_t octets[DTM_RCAP], runs[(DTM_RCAP + 7) / 8], begins[(DTM_RCAP + 7) / 8], ends[(DTM_RCAP + 7) / 8];
};
struct dtm_waiting { uint32_t since; uint16_t len; uint8_t octets[DTM_MAX_DATAGRAM]; };
struct dtm_queue {
    uint32_t charge, pace, last;
    uint8_t link, has_last, at, len;
    struct dtm_waiting wait[DTM_QUEUE];
};
struct dtm_node {
    struct dtm_params p;
    uint32_t receive, give, send, spacing, quantum;
    uint32_t me, now, opened;
    struct dtm_callbacks callbacks;
    uint8_t is_quiet, links, routes, flows, senders, receivers;
    uint8_t sender_order[DTM_SENDS], receiver_order[DTM_RECVS]; /* indexes, in the order of making; the free ones last */
    struct dtm_route route[DTM_ROUTES];
    struct dtm_flow flow[DTM_FLOWS];
    struct dtm_queue queue[DTM_LINKS];
    struct dtm_sender sender[DTM_SENDS];
    struct dtm_receiver receiver[DTM_RECVS];
};

/* Tests parameters. 0 if all are in range; else the number of the first that isn't (1: mpl, .. 10: run_limit). */
int dtm_params_check(const struct dtm_params *params);

/* Opens a node. Its memory is the caller's and needs no value before.
 * DTM_INVALID  a parameter is out of range, a list is longer than its limit, two links have one number, a route is to this
 *              node or over an unknown link, or an admitted flow isn't to this node; the node isn't open */
uint8_t dtm_open(struct dtm_node *node, const struct dtm_options *options, uint32_t now);

/* Sends octets of a flow, all or none. DTM_MARK_BEGIN and DTM_MARK_END say that a message begins and ends with them.
 * DTM_INVALID  the flow isn't from this node to another one, or there are no octets
 * DTM_FULL, DTM_QUIET, DTM_NO_RECORD  none was taken; what was due was done */
uint8_t dtm_send(struct dtm_node *node, uint32_t now, const struct dtm_message *message);

/* Reads at most `room` octets of a flow: up to a gap or the end of a message. `marks`: DTM_MARK_RUN if octets before may
 * be missing, DTM_MARK_BEGIN and DTM_MARK_END if a message begins and ends with them. DTM_NONE  nothing is unread */
struct dtm_read_result dtm_read(struct dtm_node *node, uint32_t now, const struct dtm_flow *flow, uint8_t *octets, size_t room);

/* Hands in a datagram. `waited_ms` is at least what it waited in this device, 0 if it was taken as it came.
 * DTM_INVALID    there is no such link
 * DTM_MALFORMED, DTM_EXPIRED, DTM_BLOCKED, DTM_LOST  it is gone; to the network that is a loss */
uint8_t dtm_receive(struct dtm_node *node, uint32_t now, const struct dtm_arrival *arrival);

/* Does all that is due at `now`. */
void dtm_tick(struct dtm_node *node, uint32_t now);

/* The ms from the last call on until something is due, or DTM_NEVER. Nothing is due before. */
uint32_t dtm_wake(const struct dtm_node *node);

/* The time at which dtm_tick must be called, at the latest DTM_MAX_SLEEP after the last call: sleep until then, or until
 * a datagram arrives. A time that has passed is one for which (int32_t)(now - deadline) >= 0. */
uint32_t dtm_deadline(const struct dtm_node *node);

/* Whether neither a record nor a datagram that waits is left, and the silence is over: nothing is ever due. */
bool dtm_is_idle(const struct dtm_node *node);

/* ---- the pure parts ---- */

/* Reads the header of a datagram: 0, or a fault. */
uint8_t dtm_read_deltagram(const uint8_t *octets, size_t len, struct dtm_packet *packet);
/* Reads the packet of a datagram whose header was read: 0, or a fault. */
uint8_t dtm_read_packet(const uint8_t *frame, size_t len, struct dtm_packet *packet);
/* How a number relates to the expected one: 0 below, 1 equal, 2 above. */
uint8_t dtm_relation(uint32_t number, uint32_t expected);
/* What is done with a data packet: the receive table of docs/protocol.md. */
uint8_t dtm_action_of(bool has_record, bool run, uint8_t relation, bool fits);
#endif
