/* deltat.h - Delta-t nodes for C and C++, without sockets, clocks or threads. Interface version 2.
 *
 * Delta-t carries messages over datagrams that may be lost, repeated, reordered or delayed. No
 * octet is delivered twice, a flow's octets stay in order, and reports say which sent octets were
 * acknowledged and which are uncertain. There is no handshake.
 *
 * The library does no I/O. Your program passes in datagrams, messages to send and the time; it
 * takes out datagrams to put on the wire, messages that arrived, and the time of the next call.
 *
 * Contents
 *   1 Duties of the caller         5 Lifecycle     9 Limits: the guard
 *   2 The loop of a program        6 Input        10 Counters
 *   3 Status codes                 7 Output       11 Services: request and reply
 *   4 Types                        8 Messages     12 Helpers: names, log lines, parameters
 *  13 The watch: how old a datagram is
 *  14 Orders: calls that are executed once at most
 *
 * What is proved. The contract of each function (crates/dt_c) is proved for all arguments, under
 * duty 1. What the calls of several nodes give together is proved by the laws of
 * crates/dt_network and crates/dt_service_laws, under all duties and the assumptions below them.
 * Only tested: names and lines of section 12, dt_*_new, dt_*_free, sizes and alignments, that
 * dt_*_close returns the memory, and that a call finds memory when there is some.
 *
 * ---- 1 DUTIES OF THE CALLER ----
 *
 * The library can't check these. If you break one of 3 to 10, octets may be delivered twice, or be
 * acknowledged without having been delivered, or an answer may be another call's; no call will say
 * so.
 *
 *  1. Memory. Get a handle from dt_node_new, or place it yourself: dt_node_size() octets of your
 *     memory, aligned to dt_node_align() (a service: the dt_service_ functions), on which
 *     dt_node_init is called once before any other call. Don't read, write, copy or move a handle,
 *     and call dt_node_close before you release its memory. No pointer may be null, even if a
 *     length is 0, unless the function says so. A length is the number of elements at the pointer,
 *     and they take less than 2^63 octets. Nothing passed to a call may overlap what the call
 *     writes. A bool is 0 or 1. The library allocates with rattle_alloc, rattle_realloc and
 *     rattle_dealloc (lib/heap.c: malloc, realloc, free); link your own to replace them.
 *  2. Threads. One call at a time per handle, from any thread; different handles may be used at the
 *     same time if the allocator allows it. No call blocks or calls back. Make no call in a signal
 *     handler, nor in the forked child of a process with threads. After any fork only one of the
 *     two processes may keep using a handle: two copies are two nodes with one number (duty 8).
 *  3. Clock. `now` is in milliseconds, from one clock that never steps back, runs at the right
 *     rate and keeps counting while the machine sleeps (Linux: CLOCK_BOOTTIME, not
 *     CLOCK_MONOTONIC). A `now` below an earlier one counts as the earlier one, and one above 2^62
 *     as 2^62.
 *  4. Link delay. No datagram is under way on a link for longer than the receiver's `charge` for
 *     that link. Time counts from the call that made the datagram available to
 *     dt_node_next_datagram, to the `now` that the receiver passes to dt_node_receive, less
 *     `waited_ms`. So put datagrams on the wire after each call, and drop one that is later than
 *     your charge allows (a drop is a loss, and losses are harmless). docs/premises.md says what a
 *     charge is made of.
 *  5. Wait on this machine. `waited_ms` is at least the time the datagram waited here before
 *     dt_node_receive. Pass the lesser of two measures: (a) `now` less the time of the kernel's
 *     stamp (SO_TIMESTAMPNS), rounded up; leave it out if the stamp lies in the future; (b) `now`
 *     less the last time at which the socket was found empty. For (b) read the clock BEFORE each
 *     recv, and keep that reading if the recv finds nothing: a program that is stopped between the
 *     two then measures too much, and not too little. By (b) alone, a datagram that arrives while
 *     you wait has waited since you began to; wait for 10 ms at most then. (a) is too small if the
 *     wall clock is set back while the datagram waits; where that may happen, use (b) alone.
 *  6. Intact datagrams. Don't pass in a datagram that was changed on its way. A wire that can
 *     change one needs its own checksum or key.
 *  7. Restart. Open a node number that may have been used less than dt_params_quiet_ms() ago with
 *     DT_START_AGAIN.
 *  8. One network. All nodes have the same mpl, r and a, and no two nodes have the same number.
 *  9. Lives (services). No two openings of a node number, and no dt_service_set_life, use the same
 *     life. Count it in a file that is written, and synced if the machine may crash, before the
 *     first call; or draw it at random.
 * 10. Ports (services). A port is a caller's or a service's for the whole of one life, and callers
 *     call only service ports.
 *
 * The laws assume more than these duties. Outside the following they say nothing:
 *   - The clocks of two nodes differ by a constant whole number of milliseconds, over restarts too.
 *     Two machines round differently: that is within the laws if each datagram takes 1 ms at least
 *     and charges are 1 ms longer than delays. A clock that drifts, or begins anew at a reboot,
 *     isn't. Charges are made longer to pay for drift (docs/premises.md), but no law says that this
 *     suffices.
 *   - The parameters are equal including `start`.
 *   - Every opening of a node but its first uses DT_START_AGAIN.
 *   - Services: every node of the network is a service.
 *
 * ---- 2 THE LOOP OF A PROGRAM ----
 *
 * The functions without dt_ are yours: now() reads the clock (duty 3), receive_datagram() takes a
 * datagram from the socket if one waits, waited_ms() is the lesser of its second argument and of
 * what the stamp of the datagram says (duty 5). tests/library/loops.c runs this text.
 *
 *   void send_datagrams(dt_node *node) {
 *       uint8_t out[DT_MAX_DATAGRAM];                   // every datagram fits
 *       struct dt_datagram datagram = {.size = sizeof datagram};
 *       while (dt_node_next_datagram(node, out, sizeof out, &datagram) == DT_OK)
 *           put_on_wire(out, &datagram);                // on datagram.link, or to datagram.to
 *   }
 *
 *   for (empty_at = now();;) {
 *       wait_for_datagram(dt_node_wake(node));          // until then, for at least 1 ms;
 *                                                       // DT_NEVER: nothing is due
 *       while (looked_at = now(), receive_datagram(&in)) {
 *           at = now();
 *           dt_node_receive(node, at, in.link, in.octets, in.len, waited_ms(&in, at - empty_at));
 *           send_datagrams(node);
 *       }
 *       empty_at = looked_at;                           // the clock before the look, not after it
 *       at = now();
 *       if (dt_node_tick(node, at) != DT_OK) break;     // out of memory: close, open again
 *       while (dt_node_next_report(node, &report) == DT_OK)
 *           if (report.kind == DT_REPORT_ACCEPTED ||
 *               (report.kind == DT_REPORT_RECORD_RELEASED && !report.sending))
 *               if (dt_node_mark_readable(node, &report.flow) == DT_NO_MEMORY)
 *                   mark_later(&report.flow);           // before the next dt_node_next_message
 *       do {
 *           status = dt_node_next_message(node, at, buf, room, &message);
 *           if (status == DT_OK) use(&message, buf);
 *           if (status == DT_BUFFER_TOO_SMALL) buf = longer(buf, room = message.len);
 *           if (status == DT_LOST) log_loss(&message.flow);
 *       } while (status == DT_OK || status == DT_BUFFER_TOO_SMALL || status == DT_LOST ||
 *                status == DT_MORE);
 *       if (status != DT_NONE) break;                   // out of memory: close, open again
 *       send_datagrams(node);
 *   }
 *
 * examples/echo.c and examples/counter.c are whole programs.
 */
#ifndef DELTAT_H
#define DELTAT_H
#include <stdbool.h>
#include <stddef.h>
#include <stdint.h>
#ifdef __cplusplus
extern "C" {
#endif

/* The version of the library, as DELTAT_VERSION in text. dt_version() is that of the library that
 * the program is linked to. */
#define DELTAT_VERSION "0.3.0"
#define DELTAT_VERSION_MAJOR 0
#define DELTAT_VERSION_MINOR 3
#define DELTAT_VERSION_PATCH 0

/* The version of this interface. It rises when a program must be changed or compiled anew. */
#define DT_ABI_VERSION 2u
#define DT_MAX_DATAGRAM 8222u    /* octets; no datagram that leaves a node is longer */
#define DT_MAX_PAYLOAD 65528u    /* octets; no request or reply is longer */
#define DT_MAX_REPORT_LINE 128u  /* octets, the final 0 included; no line of a report is longer */
#define DT_NEVER UINT64_MAX      /* from dt_*_wake: nothing is due */

/* ---- 3 STATUS CODES ----
 *
 * Every function that can fail returns one of these, by itself or in the field `status` of its
 * result. The comment at each function lists all that it can return, its cause, and what it leaves.
 * Each function that takes a struct with `size` (section 4) can return DT_INVALID for it too. */

typedef uint8_t dt_status;

enum dt_status_code {
    DT_OK = 0,
    DT_NO_MEMORY = 1,         /* an allocation failed; see below */
    DT_NOT_OPEN = 2,          /* the handle isn't open, or messages aren't enabled */
    DT_INVALID = 3,           /* an argument is out of range, or a struct's `size` is wrong; nothing
                                 changed but a count */
    DT_EXISTS = 4,            /* already open, enabled, routed or set; nothing changed */
    DT_NONE = 5,              /* there is nothing to return */
    DT_BUFFER_TOO_SMALL = 6,  /* `len` octets are needed; what was to be returned waits */
    DT_FULL = 7,              /* the octets don't fit into the flow's send buffer; none was taken */
    DT_QUIET = 8,             /* the node is silent after its start; none was taken */
    DT_STOPPED = 9,           /* an earlier call ran out of memory, or the service was stopped */
    DT_MALFORMED = 11,        /* the datagram isn't valid; only a count changed */
    DT_EXPIRED = 12,          /* the datagram's lifetime is over; only a count changed */
    DT_BLOCKED = 13,          /* the guard doesn't admit the datagram; only a count changed */
    DT_MORE = 14,             /* no message found yet; call again */
    DT_LOST = 15,             /* out of memory: octets that arrived are lost; the node is usable */
    DT_TOO_MANY_CALLS = 16,   /* max_calls are waiting or have an end that wasn't taken */
    DT_LIFE_USED_UP = 17,     /* 2^32 calls were made in this life: call dt_service_set_life */
    DT_GONE = 18              /* the request isn't open any more; nothing changed */
};
/* DT_NO_MEMORY of dt_node_tick, _receive, _send, _read and _next_message: the call was done in
 * part, and from then on the node is stopped. Take the datagrams and reports that wait, close the
 * handle, and open it with DT_START_AGAIN. The same holds of the functions of a service that take
 * `now`. When another function returns DT_NO_MEMORY, nothing has changed and the node is usable.
 *
 * DT_FULL and DT_QUIET: whatever else was due at `now` was done. */

enum dt_fault { /* why a datagram is DT_MALFORMED: the first test that failed; and its `value` */
    DT_FAULT_SHORT = 1,    /* too few octets for a header: their number */
    DT_FAULT_VERSION = 2,  /* unknown version: the version */
    DT_FAULT_LENGTH = 3,   /* the length field is wrong: its value */
    DT_FAULT_LIFETIME = 4, /* the lifetime is 0: 0 */
    DT_FAULT_PROTOCOL = 5, /* another protocol: its number */
    DT_FAULT_KIND = 6,     /* unknown kind of packet: the kind */
    DT_FAULT_FLAGS = 7,    /* flags that this kind doesn't allow: the flags */
    DT_FAULT_WINDOW = 8,   /* a window that this kind doesn't allow: the window */
    DT_FAULT_SIZE = 9      /* a number of octets that this kind doesn't allow: the number */
};

/* ---- 4 TYPES ----
 *
 * Times are in milliseconds and sizes in octets.
 *
 * Structs that may grow begin with `size`: zero the struct and set `size` to its sizeof. A function
 * that takes such a struct returns DT_INVALID, and changes nothing, if the size is wrong. A struct
 * that you pass in has exactly the size of this header. A struct that a call fills has at least
 * that: the call writes the fields of this header, and leaves `size`, reserved fields and what
 * follows them as they were. It is filled when DT_OK is returned, and otherwise unchanged, unless
 * the function says more. A later library that knows more fields will take the sizes of this header
 * too. Other structs keep their layout. Reserved fields are 0. */

typedef struct dt_node dt_node;
typedef struct dt_service dt_service;

/* One-way stream of octets from a port of one node to a port of another. The way back is another
 * flow. */
struct dt_flow {
    uint32_t source, target;
    uint16_t source_port, target_port;
};

/* The parameters of a network, equal at all nodes. dt_params_for computes them. */
struct dt_params {
    uint32_t size;
    uint32_t mpl;       /* longest lifetime of a packet: 2 to 86,400,000 */
    uint32_t r;         /* from the first transmission to the last: 1 to 86,400,000 */
    uint32_t a;         /* longest delay of an acknowledgement: 1 to 86,400,000 */
    uint32_t rto;       /* from one transmission to the next: 1 to 86,400,000 */
    uint32_t probe;     /* from the last transmission to a window probe: 1 to 86,400,000, and below
                           3 mpl + r + a */
    uint32_t seg;       /* most octets of a segment: 1 to 8,192 */
    uint32_t cap;       /* send buffer of a flow: 1 to 65,536 */
    uint32_t rcap;      /* receive buffer of a flow, its unread octets: 1 to 65,536 */
    uint32_t window;    /* window of a new send record: 1 to 65,536 */
    uint32_t run_limit; /* quantum of sequence numbers: 1 to 2,147,483,648; use the largest */
    uint32_t start;     /* first sequence number of a send record: any */
};

/* A link of this node, in both directions. */
struct dt_link {
    uint32_t charge;   /* longest time under way; taken off the lifetime of what arrives */
    uint32_t pace;     /* least time from one datagram that leaves to the next; 0: no limit */
    uint16_t number;
    uint16_t reserved;
};

/* Datagrams for node `to` leave on this link. */
struct dt_route {
    uint32_t to;
    uint16_t link;
};

enum dt_start {         /* there is no default: 0 is DT_INVALID */
    DT_START_FIRST = 1, /* the number was never used, or not for dt_params_quiet_ms() */
    DT_START_AGAIN = 2  /* it may have been: the node is silent for that time from `now` */
};

struct dt_node_options {
    uint32_t size;
    uint32_t node;                 /* the number of this node */
    uint64_t now;
    const struct dt_link *links;   /* copied; the first of two with one number counts */
    size_t link_count;
    const struct dt_route *routes; /* copied; the first of two to one node counts; one over an
                                      unknown link leads nowhere */
    size_t route_count;
    uint8_t start_as;              /* enum dt_start */
};

struct dt_open_result {
    uint32_t value;   /* DT_INVALID by a parameter: its value */
    dt_status status;
    uint8_t field;    /* and its place in dt_params: 1 is mpl; 0: an option is wrong */
};

struct dt_receive_result {
    uint32_t value; /* DT_MALFORMED: see enum dt_fault; else 0 */
    dt_status status;
    uint8_t fault;  /* DT_MALFORMED: enum dt_fault; else 0 */
};

struct dt_send_result {
    uint64_t quiet_until; /* DT_QUIET: the time at which the silence ends; else 0 */
    uint32_t free;        /* DT_FULL: how many octets fit now; else 0 */
    dt_status status;
};

struct dt_read_result {
    size_t len;
    dt_status status;
    bool begin, end; /* a message begins with the first octet; ends with the last */
    bool gap;        /* octets of the flow before these may be missing */
};

struct dt_message {
    uint32_t size;
    struct dt_flow flow;
    size_t len;
    uint64_t dropped_too_long; /* messages of all flows above `longest` so far; stops at 2^64 - 1 */
    bool gap;                  /* octets of the flow before this message are left out, or may be */
};

struct dt_datagram {
    uint32_t size;
    uint32_t to;   /* the node that it is for; with relays between, not the next one */
    size_t len;
    uint16_t link;
};

enum dt_report_kind { /* what a report says, and the fields it sets beside `flow`; others are 0 */
    DT_REPORT_SEND_QUEUED = 1,      /* dt_node_send took `count` octets */
    DT_REPORT_SEND_QUIET = 2,       /* dt_node_send met the silence, which ends at `time` */
    DT_REPORT_SEND_FULL = 3,        /* dt_node_send found room for `count` octets only */
    DT_REPORT_SEGMENT_SENT = 4,     /* first transmission: `number` of its first octet, `count`,
                                       `begin`, `end`; `run`: nothing before it is outstanding */
    DT_REPORT_SEGMENT_RESENT = 5,   /* later transmission; as above */
    DT_REPORT_PROBE_SENT = 6,       /* a closed window was probed at `number` */
    DT_REPORT_UNCERTAIN = 7,        /* `count` octets were given up: delivered once or not at all */
    DT_REPORT_RECORD_RELEASED = 8,  /* the send record (`sending`) or the receive record is gone */
    DT_REPORT_RECORD_RENEWED = 9,   /* the send record began again, for octets that wait */
    DT_REPORT_ACK_SENT = 10,        /* an owed acknowledgement left: `number`, `window` */
    DT_REPORT_REPLY_SENT = 11,      /* a packet was answered at once: `number`, `window` */
    DT_REPORT_ACCEPTED = 12,        /* `count` octets from `number` on can be read; `run`: octets
                                       before them may be missing */
    DT_REPORT_PACKET_DROPPED = 13,  /* a packet of no use: `number` */
    DT_REPORT_RUN_ENDED = 14,       /* the sender says that no more octets follow `number` */
    DT_REPORT_ACKNOWLEDGED = 15,    /* `count` octets reached the other node; `window` */
    DT_REPORT_ACK_IGNORED = 16,     /* an acknowledgement of no use: `number`, `window` */
    DT_REPORT_PACKET_QUIET = 17,    /* a packet met the silence, which ends at `time`; no flow */
    DT_REPORT_READ = 18,            /* octets were read: `begin`, `end`, `run` */
    DT_REPORT_READ_NONE = 19,       /* a read found nothing */
    DT_REPORT_PACKET_OUT = 20,      /* a packet left on link `number`, lifetime `count`; no flow */
    DT_REPORT_EXPIRED_IN = 21,      /* a packet from link `number` had no lifetime left; no flow */
    DT_REPORT_EXPIRED_OUT = 22,     /* a packet for link `number` had none left; no flow */
    DT_REPORT_NO_ROUTE = 23,        /* there is no route to node `number`; no flow */
    DT_REPORT_LINK_FULL = 24,       /* 64 packets wait for link `number`: it is lost; no flow */
    DT_REPORT_PACKET_MALFORMED = 25 /* `number`: enum dt_fault, `count`: its value; no flow */
};

struct dt_report {
    uint32_t size;
    struct dt_flow flow;
    uint64_t time;
    uint32_t number, count, window;
    uint8_t kind; /* enum dt_report_kind */
    bool begin, end, run, sending;
};

/* ---- 5 LIFECYCLE ---- */

/* Returns the interface version of the library. Compare it with DT_ABI_VERSION first. */
uint32_t dt_abi_version(void);

/* Returns the size of a node's handle. */
size_t dt_node_size(void);
/* Returns the alignment of a node's handle. */
size_t dt_node_align(void);

/* Makes fresh memory a handle that isn't open. */
void dt_node_init(dt_node *node);

/* Allocates a handle that isn't open. Null: out of memory. */
dt_node *dt_node_new(void);

/* Closes a handle of dt_node_new and releases its memory. Does nothing with a null pointer. */
void dt_node_free(dt_node *node);

/* Opens a node.
 *   DT_OK
 *   DT_NO_MEMORY  nothing changed
 *   DT_EXISTS     the handle is open; nothing changed
 *   DT_INVALID    a size, `start_as` or a reserved field is wrong (`field` is 0), or a parameter is
 *                 out of range (`field`, `value`: the first such); nothing changed
 * Cost: each link with a pace reserves room for 64 datagrams of `seg` and 30 octets. */
struct dt_open_result dt_node_open(dt_node *node, const struct dt_params *params,
                                   const struct dt_node_options *options);

/* Releases what the node holds. The handle isn't open then, and may be opened again. */
void dt_node_close(dt_node *node);

/* Adds a route. Routes can't be changed or removed while a node is open.
 *   DT_OK
 *   DT_NO_MEMORY  nothing changed; the node is usable
 *   DT_NOT_OPEN
 *   DT_STOPPED    nothing changed
 *   DT_INVALID    there is no link with this number
 *   DT_EXISTS     there is a route to this node */
dt_status dt_node_add_route(dt_node *node, const struct dt_route *route);

/* Returns how long a node that starts with DT_START_AGAIN is silent: 3 mpl + r + a. 0: a parameter
 * is out of range, or `size` is wrong. */
uint64_t dt_params_quiet_ms(const struct dt_params *params);

/* Computes a number by which two programs can compare their parameters. Equal parameters give equal
 * numbers. It is the first eight octets, most significant first, of the SHA-256 digest of the
 * eleven parameters as 32-bit big-endian numbers. That different parameters give different numbers
 * isn't proved.
 *   DT_OK       `*fingerprint` is set
 *   DT_INVALID  a parameter is out of range, or `size` is wrong; `*fingerprint` is 0 */
dt_status dt_params_fingerprint(const struct dt_params *params, uint64_t *fingerprint);

/* ---- 6 INPUT ----
 *
 * Each function here first does all that is due at `now`. Put the datagrams that it made on the
 * wire. */

/* Does what is due: resends, acknowledgements, timeouts.
 *   DT_OK
 *   DT_NO_MEMORY  done in part; the node is stopped
 *   DT_NOT_OPEN
 *   DT_STOPPED    nothing changed */
dt_status dt_node_tick(dt_node *node, uint64_t now);

/* Passes in a datagram that arrived on `link`. `waited_ms` (duty 5) is taken off its lifetime.
 *   DT_OK         it was handled; a valid header with an invalid packet inside is dropped and
 *                 reported
 *   DT_NO_MEMORY  done in part; the node is stopped
 *   DT_NOT_OPEN
 *   DT_BLOCKED    the guard doesn't admit it; dt_node_get_blocked_counts counts it
 *   DT_STOPPED    the node is stopped
 *   DT_INVALID    there is no such link
 *   DT_MALFORMED  the header isn't valid: `fault`, `value`
 *   DT_EXPIRED    `waited_ms` is its whole lifetime or more
 * The last four add one to `datagrams_refused` and change nothing else. */
struct dt_receive_result dt_node_receive(dt_node *node, uint64_t now, uint16_t link,
                                         const uint8_t *datagram, size_t len, uint32_t waited_ms);

/* Sends octets: all of them or none. `begin`: the first one begins a message; `end`: the last one
 * ends it. For a whole message set both.
 *   DT_OK         the node has taken them; reports will say what becomes of them
 *   DT_NO_MEMORY  they may have been taken; the node is stopped
 *   DT_NOT_OPEN
 *   DT_STOPPED    nothing changed
 *   DT_INVALID    `flow` doesn't go from this node to another, `len` is 0, or 2^62 octets would
 *                 have been passed in; nothing changed
 *   DT_QUIET      the node is silent until `quiet_until`; none was taken
 *   DT_FULL       only `free` octets fit; none was taken. More than `cap` octets never fit */
struct dt_send_result dt_node_send(dt_node *node, uint64_t now, const struct dt_flow *flow,
                                   const uint8_t *octets, size_t len, bool begin, bool end);

/* Reads unread octets of a flow, at most `room` and not beyond the end of a message. For programs
 * that want octets as they arrive; don't mix it with dt_node_next_message on one flow. What the
 * buffer holds after the first `len` octets isn't defined.
 *   DT_OK         `len`, `begin`, `end`, `gap`
 *   DT_NONE       nothing is unread
 *   DT_NO_MEMORY  octets may have been read; the node is stopped
 *   DT_NOT_OPEN
 *   DT_STOPPED    nothing changed
 *   DT_INVALID    `flow` doesn't go from another node to this one; nothing changed
 *   DT_BUFFER_TOO_SMALL  `room` is 0; nothing changed */
struct dt_read_result dt_node_read(dt_node *node, uint64_t now, const struct dt_flow *flow,
                                   uint8_t *buf, size_t room);

/* ---- 7 OUTPUT ---- */

/* Takes the next datagram to put on the wire, into the first `len` octets of `buf`. With room for
 * DT_MAX_DATAGRAM it always fits.
 *   DT_OK                it is yours, and waits no more
 *   DT_NONE              none waits
 *   DT_BUFFER_TOO_SMALL  `len` octets are needed; it keeps waiting, and `out` is filled
 *   DT_NOT_OPEN */
dt_status dt_node_next_datagram(dt_node *node, uint8_t *buf, size_t room, struct dt_datagram *out);

/* Takes the next report, in the order in which things happened. Reports use memory until they are
 * taken, so take them all in each round.
 *   DT_OK  DT_NONE  DT_NOT_OPEN */
dt_status dt_node_next_report(dt_node *node, struct dt_report *out);

/* Returns the time at which to call dt_node_tick next. DT_NEVER: nothing is due, or the node is
 * stopped or not open. The time may be past on a node that was called so late that a segment can't
 * be resent any more. Nothing is due then, so wait for 1 ms at least. */
uint64_t dt_node_wake(dt_node *node);

/* ---- 8 MESSAGES ----
 *
 * Whole messages, put together from what is read. Each that is returned has all octets from its
 * begin mark to its end mark. By the laws of messages, those of a flow that is read by no other
 * call were sent, each comes at most once, and they come in order (dt_mailbox_laws; of reads that a
 * program joins itself, dt_service_laws). That dt_node_next_message finds every message isn't
 * proved. */

/* Enables dt_node_next_message, for messages of at most `longest` octets. A longer one is dropped
 * and counted in `dropped_too_long`, and the next message of its flow has `gap`. The begun part of
 * a message stays in memory.
 *   DT_OK
 *   DT_EXISTS    already enabled; nothing changed
 *   DT_NOT_OPEN */
dt_status dt_node_enable_messages(dt_node *node, size_t longest);

/* Says that a flow may have unread octets. Call it for each DT_REPORT_ACCEPTED, and for each
 * DT_REPORT_RECORD_RELEASED of a receive record, so that memory of a flow without a receiver is
 * freed.
 *   DT_OK
 *   DT_NO_MEMORY  nothing changed: call it again, or messages of the flow may stay unread
 *   DT_NOT_OPEN   or messages aren't enabled
 * Cost: grows with the number of marked flows that aren't read to their end. */
dt_status dt_node_mark_readable(dt_node *node, const struct dt_flow *flow);

/* Takes the next whole message of any marked flow, into the first `len` octets of `buf`; what
 * follows them stays as it was. Messages of one flow are returned in the order in which they were
 * sent. Does what is due at `now`. `gap` is true for the first message of a flow too: what was sent
 * before it isn't known.
 *   DT_OK                the message is yours
 *   DT_NONE              no marked flow has one
 *   DT_MORE              65,537 flows had none; others may: call again
 *   DT_BUFFER_TOO_SMALL  it has `len` octets and waits: call again with room for them
 *   DT_LOST              out of memory: octets of `flow` are lost, and its next message has `gap`;
 *                        the node is usable: call again
 *   DT_NO_MEMORY         the node is stopped
 *   DT_STOPPED           as DT_NO_MEMORY; a message that waits for room can still be taken
 *   DT_NOT_OPEN          or messages aren't enabled
 * After DT_NO_MEMORY or DT_STOPPED the flow that couldn't be read is marked no more. Unless DT_OK
 * is returned the buffer is unchanged. `out` is filled unless DT_NOT_OPEN is returned: what doesn't
 * apply is 0, and `dropped_too_long` always applies.
 * Cost: looks at marked flows one by one, and copies each octet three times. */
dt_status dt_node_next_message(dt_node *node, uint64_t now, uint8_t *buf, size_t room,
                               struct dt_message *out);

/* ---- 9 LIMITS: THE GUARD ---- */

/* Limits what strangers can open: from now on the node receives only at `ports` (`all`: at every
 * port), and makes no receiver for a new flow while `max_flows` flows have one. A datagram for
 * another port, or of one flow too many, is DT_BLOCKED before the node sees it. Flows that have a
 * receiver keep it, and acknowledgements are always admitted. A node opens with all ports and
 * 4,294,967,295 flows.
 *   DT_OK
 *   DT_NO_MEMORY  nothing changed
 *   DT_NOT_OPEN */
dt_status dt_node_set_guard(dt_node *node, const uint16_t *ports, size_t port_count, bool all,
                            uint32_t max_flows);

struct dt_blocked_counts {
    uint64_t closed_port, too_many_flows;
};

/* Returns how many datagrams the guard blocked since the opening. Both stop at 2^64 - 1. */
struct dt_blocked_counts dt_node_get_blocked_counts(dt_node *node);

/* Makes a loss cheap: from now on the node holds datagrams whose data came too early, behind a gap
 * of their flow, and handles them when the gap is filled; without that the sender sends all of them
 * again. At most `max_datagrams` are held, and at most `max_of_flow` of one flow; what doesn't fit
 * is handled at once, as a node without a shelf does. A node opens without a shelf: 0 and 0. For a
 * flow at full speed `max_of_flow` is its window divided by `seg`, rounded up.
 *
 * dt_node_receive returns DT_OK for a datagram that is held, and it isn't counted then: it is
 * handled by a later dt_node_receive of its flow, whose clock says how much longer it waited. One
 * whose life ends before that is lost. So a shelf is a link that delays, and no promise changes.
 * Datagrams of a flow without a receiver are never held. The guard is asked as a datagram arrives,
 * and not again.
 *   DT_OK        what is held already stays
 *   DT_NOT_OPEN
 * Cost: of dt_node_receive a look at each datagram that is held, and one more for each that it then
 * handles. Memory: the octets of the datagrams that are held and 48 for each. */
dt_status dt_node_set_shelf(dt_node *node, uint32_t max_datagrams, uint32_t max_of_flow);

/* ---- 10 COUNTERS ----
 *
 * Counters change nothing, begin at 0, and stop at 2^64 - 1. */

struct dt_node_counts { /* since the opening, without what the guard blocked */
    uint32_t size;
    uint32_t reserved;
    uint64_t datagrams_in;        /* handled */
    uint64_t datagrams_refused;   /* DT_INVALID, DT_MALFORMED, DT_EXPIRED or DT_STOPPED */
    uint64_t datagrams_out;
    uint64_t octets_queued;       /* all flows: taken by dt_node_send */
    uint64_t octets_acknowledged; /* of these: reached the other node */
    uint64_t octets_uncertain;    /* of these: given up */
    uint64_t octets_accepted;     /* arrived, and could be read */
    uint64_t octets_read;         /* of these: read */
};

struct dt_flow_counts { /* of one flow, since dt_node_count_flow */
    uint32_t size;
    uint32_t reserved;
    uint64_t octets_queued, octets_acknowledged, octets_uncertain, octets_accepted, octets_read;
};

/* Gets the counters of a node.   DT_OK  DT_NOT_OPEN */
dt_status dt_node_get_counts(dt_node *node, struct dt_node_counts *out);

/* Starts counting the octets of a flow from or to this node, until the node closes. Does nothing if
 * the flow is counted already.
 *   DT_OK
 *   DT_NO_MEMORY  nothing changed
 *   DT_NOT_OPEN
 * Cost: 64 octets a flow. */
dt_status dt_node_count_flow(dt_node *node, const struct dt_flow *flow);

/* Gets the counters of a flow.   DT_OK  DT_NOT_OPEN  DT_NONE: the flow isn't counted */
dt_status dt_node_get_flow_counts(dt_node *node, const struct dt_flow *flow,
                                  struct dt_flow_counts *out);

/* ---- 11 SERVICES: REQUEST AND REPLY ----
 *
 * A service is a node that makes calls and answers them, in a handle of its own type. It has no
 * plain messages, and dt_node functions aren't for it. Under the duties and assumptions of section
 * 1 a request is handed out at most once, requests of a flow are handed out in the order in which
 * they were made, an answer is the service's own answer to that very call, and a call ends at most
 * once.
 *
 * Each function here that takes `now` reads what arrived, hands out requests, and ends calls that
 * were answered, given up or timed out; all but dt_service_forget first do what is due at `now`. An
 * argument or a datagram that is refused does none of this.
 * Cost: a look at each 64 calls that wait, and at each flow that is unread.
 *
 *   for (empty_at = now();;) {
 *       wait_for_datagram(dt_service_wake(service));
 *       while (looked_at = now(), receive_datagram(&in)) {
 *           at = now();
 *           dt_service_receive(service, at, in.link, in.octets, in.len,
 *                              waited_ms(&in, at - empty_at));
 *           send_service_datagrams(service);            // as send_datagrams in section 2
 *       }
 *       empty_at = looked_at;
 *       is_running = dt_service_tick(service, now()) == DT_OK;
 *       while (dt_service_next_event(service, buf, DT_MAX_PAYLOAD, &event) == DT_OK) {
 *           struct dt_token token = {event.call, event.flow};
 *           if (event.kind == DT_EVENT_REQUEST)
 *               serve(&token, buf, event.len);          // dt_service_reply now or later, in any
 *                                                       // order; DT_FULL: try again later
 *           else if (event.kind != DT_EVENT_REPLY_UNCERTAIN)
 *               call_has_ended(&event, buf);            // the call that had event.user
 *       }
 *       send_service_datagrams(service);
 *       if (!is_running) break;                         // stopped: each call has had its event
 *   }
 *
 * In a buffer of DT_MAX_PAYLOAD octets every event fits. With a shorter one, DT_BUFFER_TOO_SMALL
 * says in event.len how long it must be, and the event waits. */

struct dt_service_options {
    uint32_t size;
    uint32_t life;                  /* duty 9 */
    uint32_t max_calls;             /* calls that wait or have an end that wasn't taken */
    uint32_t max_requests;          /* requests without a reply; also those that wait to be taken */
    uint32_t max_requests_per_flow; /* requests of one flow without a reply */
    /* at a limit of requests flows aren't read any more; nothing is dropped */
};

enum dt_port_kind { DT_PORT_CALLER = 1, DT_PORT_SERVICE = 2 };

/* The name of a request: its call's number (life in the upper 32 bits, count in the lower) and the
 * flow that it arrived on. You may store, compare and log it. */
struct dt_token {
    uint64_t call;
    struct dt_flow flow;
};

enum dt_invalid { /* why a call or a reply is DT_INVALID; 0: it isn't */
    DT_INVALID_FLOW = 1,    /* the flow doesn't go from this node to another */
    DT_INVALID_PORT = 2,    /* the flow doesn't come from a caller's port */
    DT_INVALID_LENGTH = 3,  /* payload and 8 octets are more than `cap` or 65,536 */
    DT_INVALID_TIMEOUT = 4, /* `timeout_ms` is 0 */
    DT_INVALID_TOTAL = 5    /* 2^62 octets would have been passed in */
};

struct dt_call_result {
    uint64_t call;        /* DT_OK: the number of the call; else 0 */
    uint64_t quiet_until; /* DT_QUIET: the time at which the silence ends; else 0 */
    uint32_t free;        /* DT_FULL: octets that fit now; a request needs 8 more; else 0 */
    dt_status status;
    uint8_t invalid;      /* DT_INVALID: enum dt_invalid; else 0 */
};

struct dt_reply_result {
    uint32_t free;    /* DT_FULL: as in dt_call_result */
    dt_status status;
    uint8_t invalid;
};

enum dt_event_kind {
    DT_EVENT_REQUEST = 1,  /* answer it: `call`, `flow`, and `len` octets of payload */
    DT_EVENT_ANSWERED = 2, /* your call ended with `len` octets of answer: `call`, `user` */
    DT_EVENT_UNSURE = 3,   /* it ended without: it was served once or not at all, or still will be:
                              `call`, `user`, `cause` */
    DT_EVENT_REPLY_UNCERTAIN = 4 /* replies to requests of `flow` were given up: each was delivered
                              once or not at all, and its caller gets no report. Reported again for
                              this flow only after this event was taken */
};

enum dt_cause {
    DT_CAUSE_GIVEN_UP = 1, /* octets of the request weren't acknowledged in time */
    DT_CAUSE_TIMEOUT = 2,  /* no answer came within `timeout_ms` */
    DT_CAUSE_STOPPED = 3   /* the service stopped */
};

struct dt_event {
    uint32_t size;
    uint8_t kind;        /* enum dt_event_kind */
    uint8_t cause;       /* enum dt_cause, else 0 */
    uint64_t call;
    uint64_t user;       /* what you passed to dt_service_call for the call that ended; else 0 */
    size_t len;
    struct dt_flow flow; /* of a request, or of the requests of uncertain replies; else 0 */
};

struct dt_call_counts { /* messages that were dropped, by cause; each stops at 2^64 - 1 */
    uint32_t size;
    uint32_t reserved;
    uint64_t late_replies;    /* to calls of this life that have ended */
    uint64_t old_replies;     /* to calls of another life */
    uint64_t unknown_replies; /* ALARM: to a call that this life hasn't made, or on another flow */
    uint64_t reused_requests; /* ALARM: a request with the name of one that is open */
    uint64_t cut;             /* incomplete: a gap, a new message or the receiver's end */
    uint64_t too_long;        /* above 65,536 octets */
    uint64_t too_short;       /* below 8 octets */
    /* ALARM: a life was used before (duty 9), or two nodes have one number (duty 8). Without an
       alarm neither is ruled out. */
};

/* Returns the size of a service's handle. */
size_t dt_service_size(void);
/* Returns the alignment of a service's handle. */
size_t dt_service_align(void);
/* Makes fresh memory a handle of a service that isn't open. */
void dt_service_init(dt_service *service);
/* Allocates a handle of a service that isn't open. Null: out of memory. */
dt_service *dt_service_new(void);
/* Closes a handle of dt_service_new and releases its memory. Does nothing with a null pointer. */
void dt_service_free(dt_service *service);
/* Releases what the service holds, events not yet taken included. The handle isn't open then, and
 * may be opened again. */
void dt_service_close(dt_service *service);

/* Opens a service. No port has a kind yet. Returns as dt_node_open. */
struct dt_open_result dt_service_open(dt_service *service, const struct dt_params *params,
                                      const struct dt_node_options *options,
                                      const struct dt_service_options *service_options);

/* Makes a port a caller's or a service's, until the service is closed. Messages for a port
 * without a kind aren't read.
 *   DT_OK
 *   DT_NO_MEMORY  nothing changed
 *   DT_NOT_OPEN
 *   DT_INVALID    there is no such kind
 *   DT_EXISTS     the port has a kind */
dt_status dt_service_set_port(dt_service *service, uint16_t port, uint8_t kind);

/* Makes a call on a flow from a caller's port. It ends, by an event with its number and with `user`
 * (a pointer, an index, or 0: the library doesn't look at it), in the first call with a `now` of
 * `timeout_ms` or more after this one, at the latest.
 *   DT_OK              `call` is its number
 *   DT_NO_MEMORY       the service is stopped. The call may have been made, so take it as unsure;
 *                      if it was, an event with `user` says so. Where there was no memory for
 *                      `user` itself, nothing changed, and the service goes on
 *   DT_NOT_OPEN
 *   DT_STOPPED         nothing changed
 *   DT_INVALID         `invalid` says why; nothing changed
 *   DT_TOO_MANY_CALLS  nothing changed
 *   DT_LIFE_USED_UP    nothing changed
 *   DT_QUIET           the node is silent until `quiet_until`; nothing was sent
 *   DT_FULL            the flow has `free` octets left; nothing was sent */
struct dt_call_result dt_service_call(dt_service *service, uint64_t now, const struct dt_flow *flow,
                                      const uint8_t *payload, size_t len, uint32_t timeout_ms,
                                      uint64_t user);

/* Replies to a request, once.
 *   DT_OK         the node has taken the reply, and the request is closed
 *   DT_NO_MEMORY  the service is stopped, and the reply may have been sent
 *   DT_NOT_OPEN
 *   DT_STOPPED    nothing changed
 *   DT_INVALID    `invalid` says why; nothing changed
 *   DT_GONE       it has a reply, was forgotten, or is of an earlier life
 *   DT_FULL       the flow has `free` octets left: try again later; the request stays open */
struct dt_reply_result dt_service_reply(dt_service *service, uint64_t now,
                                        const struct dt_token *token, const uint8_t *payload,
                                        size_t len);

/* Closes a request without a reply, so that there is room for another. Its caller becomes unsure.
 * Does not do what the node has due; dt_service_tick does.
 *   DT_OK
 *   DT_NO_MEMORY  the service is stopped
 *   DT_NOT_OPEN
 *   DT_GONE       as dt_service_reply, or the service is stopped */
dt_status dt_service_forget(dt_service *service, uint64_t now, const struct dt_token *token);

/* Takes the next event, in the order in which they happened, each once, with its payload in the
 * first `len` octets of `buf`; what follows them stays as it was. Does no other work. After the
 * service has stopped it returns the events that wait, and then DT_EVENT_UNSURE for each call that
 * waited, with DT_CAUSE_STOPPED.
 *   DT_OK
 *   DT_NONE
 *   DT_BUFFER_TOO_SMALL  `len` octets are needed; this event, and those after it, wait. Of `out`
 *                        only `len` is set, all else is 0
 *   DT_NOT_OPEN */
dt_status dt_service_next_event(dt_service *service, uint8_t *buf, size_t room,
                                struct dt_event *out);

/* Numbers the calls from now on in this life, from 0. Calls that wait keep their numbers.
 *   DT_OK
 *   DT_NOT_OPEN
 *   DT_EXISTS    it is the present life, or that of a call that waits; nothing changed */
dt_status dt_service_set_life(dt_service *service, uint32_t life);

/* Gets the counters of dropped messages.   DT_OK  DT_NOT_OPEN */
dt_status dt_service_get_call_counts(dt_service *service, struct dt_call_counts *out);

/* Stops the service: each call that waits becomes unsure, requests are forgotten, and what isn't
 * taken yet can be taken. Takes no memory.   DT_OK  DT_NOT_OPEN */
dt_status dt_service_stop(dt_service *service);

/* As dt_node_tick; when it returns DT_NO_MEMORY the service is stopped. */
dt_status dt_service_tick(dt_service *service, uint64_t now);

/* As dt_node_receive; when it returns DT_NO_MEMORY the service is stopped. A stopped service
 * doesn't count datagrams. */
struct dt_receive_result dt_service_receive(dt_service *service, uint64_t now, uint16_t link,
                                            const uint8_t *datagram, size_t len,
                                            uint32_t waited_ms);

/* As dt_node_next_datagram. */
dt_status dt_service_next_datagram(dt_service *service, uint8_t *buf, size_t room,
                                   struct dt_datagram *out);

/* As dt_node_wake, timeouts of calls included. DT_NEVER once the service is stopped. */
uint64_t dt_service_wake(dt_service *service);

/* As dt_node_add_route. Returns DT_STOPPED after a lack of memory only, not after
 * dt_service_stop. */
dt_status dt_service_add_route(dt_service *service, const struct dt_route *route);

/* As dt_node_set_guard. */
dt_status dt_service_set_guard(dt_service *service, const uint16_t *ports, size_t port_count,
                               bool all, uint32_t max_flows);

/* As dt_node_set_shelf. */
dt_status dt_service_set_shelf(dt_service *service, uint32_t max_datagrams, uint32_t max_of_flow);

/* As dt_node_get_blocked_counts. */
struct dt_blocked_counts dt_service_get_blocked_counts(dt_service *service);

/* As dt_node_get_counts. */
dt_status dt_service_get_counts(dt_service *service, struct dt_node_counts *out);

/* ---- 12 HELPERS: NAMES, LOG LINES, PARAMETERS ----
 *
 * None needs a handle, allocates or reads a clock; what they return as text is constant.
 * dt_params_for is proved, the others are plain C (lib/). */

/* Returns the version of the library: DELTAT_VERSION of the header that it was made with. */
const char *dt_version(void);

/* Returns the name of a status as this header has it, as "DT_FULL". Another number: "unknown
 * status". */
const char *dt_status_name(dt_status status);

/* Returns the name of a fault, as "DT_FAULT_SHORT". Another number: "unknown fault". */
const char *dt_fault_name(uint8_t fault);

/* Returns the name of a kind of report, as "DT_REPORT_ACCEPTED". Another number: "unknown
 * report". */
const char *dt_report_name(uint8_t kind);

/* Writes the line that the logs of `deltat node` have for a report of node `node` at `now`, as
 * "120 2 accepted 1:10>2:20 0 5 run", without a line feed and with a 0 at its end. Returns how many
 * octets the line has without the 0. If `room` isn't more than that, the line is cut; in
 * DT_MAX_REPORT_LINE octets each fits. docs/formats.md describes the lines. That of DT_REPORT_READ
 * ends in a blank: a log has the octets that were read behind it, in hexadecimal. */
size_t dt_report_line(const struct dt_report *report, uint64_t now, uint32_t node, char *buf,
                      size_t room);

struct dt_network {         /* what is known of a network, and wanted of it */
    uint32_t size;
    uint32_t hops;          /* links of the longest path: 1 to 256 */
    uint64_t delay_us;      /* longest delay of a link in microseconds, with all queues, under load:
                               at most a day */
    uint64_t round_trip_us; /* a usual round trip from end to end: at most a day */
    uint32_t drift_ppm;     /* by how much a clock may run wrong, in parts per million: at most
                               100,000 */
    uint32_t tries;         /* transmissions of a segment before it is given up: 1 to 1,000 */
    uint32_t mtu;           /* least MTU of the links: 59 to 65,535 */
    uint32_t room;          /* octets of a flow under way, or unread: 1 to 65,536 */
    uint32_t wait_ms;       /* longest wait of a packet at a node before it leaves: at most a day */
    uint32_t shelf;         /* resends of a lost packet while others wait on the shelf of a
                               `deltat node`: at most 1,000 */
};

/* Initializes a struct dt_network of one hop with usual values: clocks within 100 ppm, 5
 * transmissions, an MTU of 1,500, the largest room, no relays and no shelf. */
#define DT_NETWORK(delay_us, round_trip_us) \
    { sizeof(struct dt_network), 1, (delay_us), (round_trip_us), 100, 5, 1500, 65536, 2, 0 }

/* Computes the parameters for a network, and the charge of each of its links, as tools/params.py
 * does; docs/parameters.md says what the numbers cost. The charge has room for a wait of 20 ms in
 * the receiver's socket: a node that keeps duty 5 may have a charge of 20 less.
 *   DT_OK       `params` (all of it but `size`) and `*charge` are set
 *   DT_INVALID  a field is out of range, or `size` of either struct is wrong; nothing changed
 *   DT_NONE     no parameters suit: a packet would live for more than a day; nothing changed
 * Cost: a few steps for usual clocks. */
dt_status dt_params_for(const struct dt_network *network, struct dt_params *params,
                        uint32_t *charge);

/* ---- 13 THE WATCH: HOW OLD A DATAGRAM IS, AND HOW MUCH MAY BE UNDER WAY ----
 *
 * For programs that keep duty 4 by measuring, as the driver of deltat_udp.h does: two ends put
 * readings of their clocks behind each frame (docs/watch.md). One handle is for one peer. It has no
 * memory beside its own, so it needs no closing. Place it yourself: dt_watch_size() octets of your
 * memory, aligned to dt_watch_align(), on which dt_watch_init is called once. Readings are
 * microseconds of a clock that keeps counting while the machine sleeps, below 2^48. A handle that
 * isn't open answers DT_NOT_OPEN, or what each function says. No call allocates. */

typedef struct dt_watch dt_watch;

struct dt_watch_options {
    uint32_t size;
    uint32_t fingerprint; /* the first four octets of dt_params_fingerprint */
    uint64_t now;         /* a reading */
    uint64_t gap;         /* for how long after the last frame of an opening of the peer none of the
                             next one is taken: dt_params_quiet_ms less mpl, in microseconds */
    uint64_t most;        /* octets that may be under way: 8 segments to 2^40 - 1 */
    uint32_t drift;       /* how far two clocks go apart: half of how many parts in a million of a
                             span, 0 to 1,000. Clocks within d parts of the true time: d + 1 */
    uint32_t grain;       /* and microseconds more, 0 to 1,000,000: three steps of a clock */
    uint32_t segment;     /* octets of a segment */
    uint32_t reserved;
};

struct dt_passage {       /* the readings of a datagram */
    uint64_t made;        /* its sender's, when it was made */
    uint64_t sure;        /* the receiver's that had surely passed then; 0: not known */
    uint64_t came;        /* the receiver's, when it came */
};

struct dt_arrival {       /* a datagram, as its trailer describes it */
    uint64_t opening;     /* names its sender's opening, as no other opening of that node is named */
    uint64_t sure, came;  /* as in dt_passage */
    uint32_t fingerprint; /* its sender's */
    uint32_t is_frame;    /* 0: it carries no frame */
};

enum dt_judgement {       /* what dt_watch_judge returns */
    DT_JUDGED_PRESENT = 32,         /* of the present opening */
    DT_JUDGED_UNPROVED = 33,        /* of one that hasn't proved that it is the latest: ask it */
    DT_JUDGED_FORMER = 34,          /* of one before the present one: drop it */
    DT_JUDGED_EARLY = 35,           /* a frame too soon after the last one of the opening before: drop
                                       it */
    DT_JUDGED_OTHER_PARAMETERS = 36 /* drop it */
};

size_t dt_watch_size(void);
size_t dt_watch_align(void);

/* Makes a handle that isn't open, of fresh memory. */
void dt_watch_init(dt_watch *watch);

/* Opens a handle, or opens it anew: nothing is known of the peer.
 *   DT_OK
 *   DT_INVALID  an option is out of its range; nothing changed */
dt_status dt_watch_open(dt_watch *watch, const struct dt_watch_options *options);

/* Forgets what is known of one of two openings: its first datagram comes. The caller knows which of
 * the two, the first or the `second`, is which.
 *   DT_OK
 *   DT_NOT_OPEN, DT_INVALID  nothing changed */
dt_status dt_watch_begin(dt_watch *watch, bool second, uint64_t came);

/* Takes the readings of a datagram of that opening, also of one that is dropped later. After 30 s in
 * which none came, what was known before is forgotten.
 *   DT_OK
 *   DT_NONE     the readings can't all be true: a clock stood, was set or drifts by more than
 *               `drift`. From now on nothing of this opening may be believed
 *   DT_NOT_OPEN, DT_INVALID  nothing changed */
dt_status dt_watch_hear(dt_watch *watch, bool second, const struct dt_passage *passage);

/* Judges a datagram by its opening: returns an enum dt_judgement, DT_NOT_OPEN or DT_INVALID. An opening
 * becomes the present one if its datagram has a later `sure` than any of the one before had. */
dt_status dt_watch_judge(dt_watch *watch, const struct dt_arrival *arrival);

/* Returns what the peer's clock had surely passed when this one read `made`: what a datagram to it
 * has as `sure`. 0: nothing is known, or for 24 s nothing came. */
uint64_t dt_watch_sure(dt_watch *watch, bool second, uint64_t made);

/* Returns what this clock had surely passed when the peer's read `then`: for a datagram that had no
 * `sure`, after others had. 0: nothing is known. */
uint64_t dt_watch_around(dt_watch *watch, bool second, uint64_t then);

/* Returns how old a datagram is at most that is handed in at the reading `came`, in microseconds,
 * stops of clocks that weren't seen included. DT_NEVER: `sure` is later than `came`. */
uint64_t dt_watch_age(dt_watch *watch, bool second, uint64_t came, uint64_t sure);

/* Returns the `waited_ms` for dt_node_receive that this age means, beside the charge of the link. */
uint32_t dt_watch_waited_ms(uint64_t age, uint32_t charge);

/* Returns how many octets may be under way to the peer, handed in and not settled; 0: not open. */
uint64_t dt_watch_window(dt_watch *watch);

/* Returns 1 if a message of so many octets fits into the window beside what is under way, or if
 * nothing is under way; else 0. */
uint8_t dt_watch_admits(dt_watch *watch, uint64_t under_way, uint64_t octets);

/* Makes the window larger: by half if `fast`, else by a 64th or 8 segments, and up to `most`. Or
 * smaller by so many thousandths, 500 at most, and down to 8 segments. DT_OK or DT_NOT_OPEN. */
dt_status dt_watch_grow(dt_watch *watch, bool fast);
dt_status dt_watch_shrink(dt_watch *watch, uint32_t thousandths);

/* Returns the delay in queues to aim at, in microseconds: a quarter of the least delay `base`, 2 ms
 * at least, and at most what is left by `budget`, the longest life of a datagram, and by `resend`,
 * after which a segment goes again. 0 if `base` or `resend` is 2^50 or more. */
uint64_t dt_watch_aim(uint64_t base, uint64_t budget, uint64_t resend);

/* Returns by how many thousandths a window shrinks after a round whose delay in queues was above
 * `aim`: 80 to 500. 0 if it wasn't, or an argument is 2^50 or more. */
uint32_t dt_watch_cut(uint64_t queue, uint64_t base, uint64_t aim);

/* ---- 14 ORDERS: CALLS THAT ARE EXECUTED ONCE AT MOST ----
 *
 * An order is a call that its client notes in a store before it calls it, and whose server keeps a
 * row for it in the transaction of its effect (docs/orders.md). The library does no I/O: it says
 * which octets to store and which to send. Each field of the structs below is octets that you store
 * and hand in again as they are (docs/formats.md has what is in them). No function allocates. A
 * function that returns DT_INVALID, because octets spell nothing or a counter has no room, changed
 * nothing; so did one that returns DT_NONE.
 *
 * THE SERVER, in one transaction of its own database for each request:
 *   1. dt_orders_look_up; read the numbers of the store, the row of that client's lane (zeros if it
 *      has none) and four openings (zeros if there is none): that of `since` and the one after it,
 *      that of `knows` and the one after it.
 *   2. dt_orders_judge. DT_ORDER_EXECUTE: run the handler in the transaction. If it fails, undo what
 *      it did and say DT_ORDER_NOT_NOW; else dt_orders_executed, and say DT_ORDER_DONE (or
 *      DT_ORDER_AT_WORK) with the result that you store beside the row. DT_ORDER_READ: answer the
 *      question, and say DT_ORDER_TOLD. Any other value is what to say.
 *   3. Write the numbers and the row if they changed, dt_orders_answer, commit. Send the answer, and
 *      the result behind it, when all that the transaction read or wrote is synced.
 * Before its first request a server opens its store: dt_orders_open, commit and sync. It opens it
 * again if it finds other numbers in the store than it wrote last.
 *
 * THE CLIENT, for each lane (one order at a time):
 *   1. dt_orders_start with what the store has; store something, and sync. dt_orders_ask, call, and
 *      dt_orders_hear once, if it never heard of its server.
 *   2. dt_orders_give; store the lane and the order's body under a record number that rises.
 *   3. dt_orders_call with the number of the last record that is synced; send `request` and the body
 *      behind it, then dt_orders_made.
 *   4. The call's end: dt_orders_hear, or dt_orders_unsure. Then from 3 on again, until there is a
 *      fate. Store a fate, the answer, its result, the lane and `client` in one record, and report
 *      the fate when that is synced. */

struct dt_orders_server { /* what a transaction of a server reads and writes */
    uint8_t numbers[32];  /* of the store: zeros before its first opening */
    uint8_t row[40];      /* of the request's lane; zeros: it has none */
    uint8_t openings[64]; /* four of 16 octets each, zeros: none; dt_orders_open writes the first */
    uint8_t answer[56];   /* what dt_orders_answer wrote */
};

struct dt_orders_lane {   /* what a client keeps */
    uint8_t client[80];   /* what it knows of its server, which its lanes share; zeros at first */
    uint8_t lane[104];    /* zeros at first */
    uint8_t request[112]; /* what was called last on this lane */
};

struct dt_orders_look {   /* what a server looks up for a request */
    uint32_t kind;        /* 1 an order, 2 a cancel, 3 a question */
    uint32_t lane;        /* the client's lane */
    uint32_t since;       /* numbers of two openings of the store: 0 is the first one */
    uint32_t knows;
};

enum dt_order {              /* what the functions of orders return beside DT_OK, DT_INVALID, DT_NONE */
    DT_ORDER_DONE = 65,      /* it was executed exactly once, and the result is its own */
    DT_ORDER_NEVER = 66,     /* it was cancelled: it wasn't executed and never is */
    DT_ORDER_AT_WORK = 67,   /* it was executed, and has no result yet */
    DT_ORDER_NOT_NOW = 68,   /* its handler failed: it wasn't executed now */
    DT_ORDER_OLD = 69,       /* the server forgot what it would need to know */
    DT_ORDER_STALE = 70,     /* its number was used */
    DT_ORDER_FORKED = 71,    /* its client knows of a commit that the store lost */
    DT_ORDER_HELLO = 72,     /* its client must hear of the present opening first */
    DT_ORDER_TOLD = 73,      /* a question is answered */
    DT_ORDER_EXECUTE = 80,   /* run the handler */
    DT_ORDER_READ = 81,      /* answer the question */
    DT_ORDER_UNKNOWN = 82,   /* it was executed once or not at all, and no call of it is any more */
    DT_ORDER_WAITS = 83,     /* the answer was used; call again */
    DT_ORDER_STRANGE = 84,   /* the answer is of another call; call again */
    DT_ORDER_UNSURE = 85,    /* the answer says nothing; call again */
    DT_ORDER_ALARM = 86      /* the server's store was set back: nothing is called until
                                dt_orders_adopt */
};

/* Opens a server's store: `numbers` become those of the new opening, and the first 16 octets of
 * `openings` are the opening. `nonce`: 64 drawn bits. The opening's number is the big-endian number
 * in `numbers` from octet 16 on.
 *   DT_OK  DT_INVALID */
dt_status dt_orders_open(struct dt_orders_server *server, uint64_t nonce);

/* Gets what a server looks up for a request: the 112 octets before its body.
 *   DT_OK
 *   DT_INVALID  they spell no request */
dt_status dt_orders_look_up(const uint8_t *request, size_t len, struct dt_orders_look *look);

/* Judges a request, and writes what needs no handler: a cancelled order, or a row's stamp. Returns
 * an enum dt_order, up to DT_ORDER_READ, or DT_INVALID. `strict`: a client must know the present
 * opening; so it must be if the store may be set back and the transport may deliver an old call. */
dt_status dt_orders_judge(struct dt_orders_server *server, const uint8_t *request, size_t len,
                          bool strict);

/* Writes the row of an order that the handler executed, `done` or at work.
 *   DT_OK
 *   DT_NONE     dt_orders_judge doesn't say DT_ORDER_EXECUTE of it
 *   DT_INVALID */
dt_status dt_orders_executed(struct dt_orders_server *server, const uint8_t *request, size_t len,
                             bool strict, bool done);

/* Writes that the row's order, which was at work, has its result.
 *   DT_OK
 *   DT_NONE     it isn't at work
 *   DT_INVALID */
dt_status dt_orders_finish(struct dt_orders_server *server);

/* Forgets the row: it is zeros then, and you delete it.
 *   DT_OK
 *   DT_NONE     there is none, or its order is at work
 *   DT_INVALID */
dt_status dt_orders_forget(struct dt_orders_server *server);

/* Writes the answer to a request: DT_ORDER_DONE to DT_ORDER_TOLD.
 *   DT_OK  DT_INVALID */
dt_status dt_orders_answer(struct dt_orders_server *server, const uint8_t *request, size_t len,
                           uint8_t said);

/* A new opening of a client's store, with 64 drawn bits, for a lane of this number: called for each
 * lane, with the same nonce. `once`: the transport delivers each call once at most.
 *   DT_OK  DT_INVALID */
dt_status dt_orders_start(struct dt_orders_lane *lane, uint64_t nonce, uint32_t number, bool once);

/* Notes an order on the lane: `uid` is your name for it, `record` the record that you store it in.
 *   DT_OK
 *   DT_NONE     the lane has one, or the client never heard of its server or had an alarm
 *   DT_INVALID */
dt_status dt_orders_give(struct dt_orders_lane *lane, uint64_t uid, uint64_t record);

/* Writes the request of the lane's order. `stored`: the last record that is synced. `count`: another
 * number for each call and question since dt_orders_start.
 *   DT_OK
 *   DT_NONE     there is nothing to call: no order, not stored, a call waits, or an alarm
 *   DT_INVALID */
dt_status dt_orders_call(struct dt_orders_lane *lane, uint64_t stored, uint32_t count);

/* Writes the request of a question. If `len` is 0 it carries what the client knows; else what this
 * answer named, and the server says DT_ORDER_FORKED exactly if its store lost that. Use a struct of
 * its own for questions, and copy `client` back.
 *   DT_OK  DT_INVALID */
dt_status dt_orders_ask(struct dt_orders_lane *lane, const uint8_t *answer, size_t len,
                        uint32_t count);

/* The request was sent, or may have been (`sent`), or certainly wasn't.
 *   DT_OK  DT_INVALID */
dt_status dt_orders_made(struct dt_orders_lane *lane, bool sent);

/* The call ended without an answer.
 *   DT_OK  DT_INVALID */
dt_status dt_orders_unsure(struct dt_orders_lane *lane);

/* Takes the answer to the request: the 56 octets before its result. Returns a fate (DT_ORDER_DONE,
 * NEVER or UNKNOWN), DT_ORDER_WAITS to DT_ORDER_ALARM, or DT_INVALID. Store the lane under `record`
 * if it changed, before you call again. */
dt_status dt_orders_hear(struct dt_orders_lane *lane, const uint8_t *answer, size_t len,
                         uint64_t record);

/* Returns what an answer says, DT_ORDER_DONE to DT_ORDER_TOLD, or DT_INVALID. */
dt_status dt_orders_word(const uint8_t *answer, size_t len);

/* Cancels the lane's order. Returns
 *   DT_ORDER_NEVER  it was never called: that is its fate
 *   DT_OK           it is asked about from now on: its fate is an answer's
 *   DT_NONE         the lane has no order
 *   DT_INVALID */
dt_status dt_orders_cancel(struct dt_orders_lane *lane);

/* Goes on after an alarm, when all fates before it are stored and reported. Store `client`.
 *   DT_OK  DT_INVALID */
dt_status dt_orders_adopt(struct dt_orders_lane *lane);

#ifdef __cplusplus
}
#endif
#endif
