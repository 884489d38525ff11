/* deltat_udp.h - a Delta-t node or service over one UDP socket, for Linux. Interface version 1.
 *
 * The library of deltat.h has no socket, no clock and no timer. This driver has them: it reads the
 * socket, passes datagrams in, sends the datagrams that the node makes, and keeps the time. It
 * calls nothing of the program's back (but dt_udp_drive), and starts no thread. A program asks for the next event:
 *
 *     struct dt_udp_error error;
 *     dt_udp *udp = dt_udp_open(&options, &error);
 *     for (;;) {
 *         const struct dt_udp_event *event = dt_udp_next_event(udp, -1);
 *         if (event->kind == DT_UDP_EVENT_REQUEST)
 *             dt_udp_reply(udp, &event->token, answer, len);
 *         if (event->kind == DT_UDP_EVENT_FAILED)
 *             break;
 *     }
 *     dt_udp_close(udp);
 *
 * In the loop of another library (epoll, GLib, libuv), watch dt_udp_fd for reading, and when it is
 * readable call dt_udp_next_event(udp, 0) until it returns DT_UDP_EVENT_NONE.
 *
 * Which duties of deltat.h the driver keeps: memory of the handle, the clock (CLOCK_BOOTTIME), the
 * delay on this machine (a datagram leaves within 20 ms after it was made, or is dropped; with the
 * watch its wait counts as age), the wait
 * in the socket (the kernel's stamps, and the time since the socket was last found empty), the
 * calls of a forked child (refused), and restart and lives where `state` names a folder. And the
 * delay of the network: between two drivers each datagram ends with a trailer, by which the receiver
 * knows by its own clock how old it is at most (docs/watch.md). Both ends need that, unless they are
 * opened with DT_UDP_FLAG_WITHOUT_WATCH, to speak with nodes that have no driver.
 *
 * What the caller still has to do
 *   - options.charge covers the network, and 20 ms of each of the two machines (docs/premises.md): what
 *     is older is lost, and without the watch it may be delivered twice.
 *   - An event DT_UDP_EVENT_ALARM is answered: a clock was wrong, and one driver is to be opened again.
 *   - All nodes have equal parameters, and no two nodes have the same number.
 *   - Without `state`: `start_as` and `life` are right (deltat.h).
 *   - Call dt_udp_next_event or dt_udp_flush within 20 ms after dt_udp_send, dt_udp_call or dt_udp_reply.
 *     The wait of a datagram is a part of its age. Without the watch one that waits longer is dropped,
 *     and is sent again after rto.
 *   - One thread at a time for each driver; none from a signal handler.
 *
 * docs/driver.md is the page for programmers. */
#ifndef DELTAT_UDP_H
#define DELTAT_UDP_H
#include "deltat.h"
#ifdef __cplusplus
extern "C" {
#endif

#define DT_UDP_ABI_VERSION 1u

/* Octets of the trailer that the watch puts behind each datagram: give dt_params_for an `mtu` that is
 * so much less than that of the path. */
#define DT_UDP_TRAILER 34

typedef struct dt_udp dt_udp;

enum dt_udp_role { DT_UDP_ROLE_NODE = 1, DT_UDP_ROLE_SERVICE = 2 };

enum dt_udp_start {
    DT_UDP_START_BY_STATE = 0, /* as the state folder says; without `state` this is refused */
    DT_UDP_START_FIRST = 1,    /* the number was never used, or not for dt_params_quiet_ms() ms */
    DT_UDP_START_AGAIN = 2     /* it may have been: the node is silent for dt_params_quiet_ms() ms. With
                                  `state`: for all of them, and the life is drawn, as after a machine
                                  was set back to a snapshot */
};

enum dt_udp_flag { /* bits of options.flags */
    DT_UDP_FLAG_WITHOUT_SEGMENTS = 1, /* don't use UDP_SEGMENT and UDP_GRO */
    DT_UDP_FLAG_WITHOUT_BATCHES = 2,  /* read and write one datagram a system call */
    DT_UDP_FLAG_WITHOUT_STAMPS = 4,   /* don't use the kernel's time stamps */
    DT_UDP_FLAG_ALL_PORTS = 8,        /* receive at every port, not only at those of dt_udp_open_port */
    DT_UDP_FLAG_WITHOUT_WATCH = 32,   /* don't measure how old datagrams are: to speak with nodes that
                                         have no such driver. `charge` must be right then */
    DT_UDP_FLAG_PARAMS_CHANGED = 16   /* with `state`: the parameters were changed, with all nodes
                                         stopped. If the silence by the old ones is longer,
                                         dt_udp_open waits for the rest */
};

/* Zero the struct, and set `size` and what you need. A zero means the value in brackets. */
struct dt_udp_options {
    uint32_t size;                  /* sizeof(struct dt_udp_options) */
    uint32_t node;                  /* number of this node */
    const char *host, *port;        /* address to bind [every address, IPv6 and IPv4; a free port] */
    const struct dt_params *params; /* of the network: dt_params_for computes them; copied */
    uint32_t charge;                /* of the link, in ms */
    uint32_t pace;                  /* of the link, in ms [no limit] */
    uint16_t link;                  /* number of the link, the same at all nodes [1] */
    uint8_t role;                   /* enum dt_udp_role [DT_UDP_ROLE_NODE] */
    uint8_t start_as;               /* enum dt_udp_start */
    uint32_t life;                  /* of a service without `state` */
    const char *state;              /* folder that keeps lives and starts [none] */
    uint32_t max_calls;             /* of a service: calls under way [1,000] */
    uint32_t max_requests;          /* of a service: requests without a reply [1,000] */
    uint32_t max_requests_per_flow; /* of a service [1,000] */
    uint32_t max_message;           /* of a node: octets of a message [65,536] */
    uint32_t max_queued;            /* of a node: octets of messages that wait for dt_udp_next_event
                                       before flows aren't read any more [1,048,576] */
    uint32_t max_flows;             /* flows that may have a receiver at one time [4,096] */
    uint32_t max_peers;             /* peers that may be learnt at one time [0: none is] */
    uint32_t report_kinds;          /* of a node: reports that are events, as bits 1 << kind [none] */
    uint32_t flags;                 /* enum dt_udp_flag */
    uint32_t max_waiting;           /* octets of calls and replies that wait in the driver while enough is
                                       under way to their peers [16,777,216] */
    const char *counters;           /* file into which the driver counts, for tools/counters.py [none] */
};

/* Why dt_udp_open or dt_udp_set_peer failed. */
struct dt_udp_error {
    char text[240];    /* one line: what is wrong, and what to do */
    int system_error;  /* an errno, or 0 */
    dt_status status;    /* enum dt_status_code: DT_INVALID (an option, an address), DT_NO_MEMORY, DT_NOT_OPEN
                          (the system refused a call), DT_EXISTS (the state folder is in use) */
    uint8_t field;     /* place of a wrong parameter in dt_params: 1 is mpl; else 0 */
};

enum dt_udp_event_kind {
    DT_UDP_EVENT_NONE = 0,      /* nothing happened in `wait_ms`, or a signal came */
    DT_UDP_EVENT_MESSAGE = 1,   /* `flow`, `octets`, `gap` */
    DT_UDP_EVENT_REQUEST = 2,   /* `token`, `octets` */
    DT_UDP_EVENT_ANSWERED = 3,  /* `call`, `octets` */
    DT_UDP_EVENT_UNSURE = 4,    /* `call`, `cause`: served once, not at all, or later */
    DT_UDP_EVENT_REPORT = 5,    /* `report`: one that options.report_kinds asks for */
    DT_UDP_EVENT_TOO_BIG = 6,   /* a datagram of `len` octets to `peer` doesn't fit the path: make
                                   params.seg smaller at all nodes */
    DT_UDP_EVENT_OBJECT = 7,    /* `object` of `peer`, whole: `octets` */
    DT_UDP_EVENT_PUT_ENDED = 8, /* `object`, which was put, is over: `cause` is DT_OK (the peer has
                                   it whole), DT_FULL (the peer has no room for it) or DT_NONE (the
                                   time is over: the peer may have it) */
    DT_UDP_EVENT_FAILED = 9,    /* the driver can't continue: `cause` is DT_NO_MEMORY, DT_STOPPED, or
                                   DT_NOT_OPEN (a forked child, or a system call that failed:
                                   `system_error`) */
    DT_UDP_EVENT_REPLY_UNCERTAIN = 10, /* `flow`: as DT_EVENT_REPLY_UNCERTAIN of deltat.h */
    DT_UDP_EVENT_ALARM = 11,    /* nothing of `peer` passes any more, as `cause` says */
    DT_UDP_EVENT_ROOM = 12      /* after a DT_FULL of any call: there may be room again */
};

enum dt_udp_alarm { /* `cause` of DT_UDP_EVENT_ALARM: once for each opening of the peer */
    DT_UDP_ALARM_CLOCK = 1,     /* one of the two clocks stood, was set, or is wrong by more than 100 parts
                                   in a million. Close the driver of the end whose clock it was, or of both,
                                   and open it again */
    DT_UDP_ALARM_PARAMETERS = 2, /* the peer has other parameters */
    DT_UDP_ALARM_WATCH = 3      /* this end has a watch and the peer hasn't, or the other way round: once for each
                                   peer. Open both with a watch, or both with DT_UDP_FLAG_WITHOUT_WATCH */
};

/* Belongs to the driver, and stays as it is until the next call of dt_udp_next_event or dt_udp_close. */
struct dt_udp_event {
    const uint8_t *octets;
    size_t len;
    uint64_t call;
    uint64_t object;
    struct dt_token token;
    struct dt_flow flow;
    uint32_t peer;
    int32_t system_error;
    uint8_t kind;  /* enum dt_udp_event_kind */
    uint8_t cause; /* enum dt_cause (UNSURE), enum dt_status_code (PUT_ENDED, FAILED) */
    bool gap;      /* octets of the flow before this message may be missing */
    const struct dt_report *report; /* of DT_UDP_EVENT_REPORT, else null */
    uint64_t user; /* of ANSWERED and UNSURE: what the call was given by dt_udp_make_call, else 0 */
};

/* Counters begin at 0 when the driver is opened. */
struct dt_udp_counts {
    uint64_t reads, writes;               /* system calls */
    uint64_t datagrams_in, datagrams_out; /* all that were read; all that the system took */
    uint64_t unknown;                     /* in: from an address that isn't a peer's, or no datagram of this network */
    uint64_t not_sent;                    /* out: late, without an address, or refused by the system */
    uint64_t too_big;                     /* out: longer than the path allows */
    uint64_t challenges_out;              /* strangers that were asked to prove that they hear */
    uint64_t challenges_withheld;         /* and that weren't: too many came */
    uint64_t peers_learnt, peers_moved;   /* by such a proof; from one address to another */
    uint64_t peers_forgotten;             /* learnt ones that were silent, for others */
    uint64_t clock_steps;                 /* the wall clock was set: until then stamps don't count */
    uint64_t messages_lost;               /* of a node: out of memory */
    uint64_t messages_too_long;           /* of a node: longer than max_message */
                                          /* of the watch, in: */
    uint64_t without_trailer;             /* dropped: the sender has no watch, or a later version of it */
    uint64_t too_old;                     /* dropped: the age left no life */
    uint64_t ages_unknown;                /* kept until the sender had said how old */
    uint64_t other_parameters;            /* dropped */
    uint64_t clock_alarms;                /* dropped: a clock was wrong (DT_UDP_ALARM_CLOCK) */
    uint64_t former_openings;             /* dropped: of an opening before the peer's present one */
    uint64_t early_openings;              /* dropped: too soon after the last frame of the opening before */
    uint64_t openings_proved;             /* openings of peers that were found to be the present ones */
    uint64_t pings_in, pings_out;         /* questions how old a datagram is */
    uint64_t with_trailer;                /* dropped: the sender has a watch, and this end has none */
};

/* Computes the parameters for a network whose nodes have drivers with a watch, and the charge of its links: as
 * dt_params_for, of links whose MTU is less by the trailer and whose longest delay is longer by two round trips. So long
 * may the age of a datagram be above the time that it was under way (docs/watch.md). Returns what dt_params_for does. */
dt_status dt_udp_params_for(const struct dt_network *network, struct dt_params *params, uint32_t *charge);

/* Returns the interface version of the library. Compare it with DT_UDP_ABI_VERSION first. */
uint32_t dt_udp_abi_version(void);

/* Draws a node number that nobody had, but by chance: from 65,536 to 4,294,967,295. Start it with DT_UDP_START_FIRST;
 * it needs no state folder. Returns 0 if the system has no random octets. */
uint32_t dt_udp_fresh_number(void);

/* Opens a node or a service and binds its socket. Returns null if that fails, and `error` says why;
 * then nothing is left open.
 * Cost: about 2 MB of buffers, of which only what is used becomes resident. */
dt_udp *dt_udp_open(const struct dt_udp_options *options, struct dt_udp_error *error);

/* Closes the socket and the node, and frees the memory. Sends nothing: call dt_udp_drain first if
 * what was sent should still arrive. In a forked child it frees the child's copy only. */
void dt_udp_close(dt_udp *udp);

/* Sets the address of a node. A name is looked up by getaddrinfo now, which may block, and not again.
 * If it has several addresses, datagrams go to one after another until one of them answers. If the
 * node is behind relays, give the address of the first relay. Called again it replaces the address.
 *   DT_OK
 *   DT_INVALID    no such host or port, or none of the socket's family; `error` says which
 *   DT_NO_MEMORY  nothing changed
 *   DT_STOPPED, DT_NOT_OPEN  the driver failed, or this is a forked child */
dt_status dt_udp_set_peer(dt_udp *udp, uint32_t node, const char *host, const char *port, struct dt_udp_error *error);

/* Opens a port. Datagrams for other ports are dropped before the node sees them, unless
 * DT_UDP_FLAG_ALL_PORTS is set. `kind` is DT_PORT_CALLER or DT_PORT_SERVICE for a service, and 0 for a node. A
 * service's port keeps its kind.
 *   DT_OK
 *   DT_EXISTS       the port is open already
 *   DT_INVALID    there is no such kind here
 *   DT_NO_MEMORY  nothing changed
 *   DT_STOPPED, DT_NOT_OPEN  the driver failed, or this is a forked child
 * Cost: grows with the number of open ports. */
dt_status dt_udp_open_port(dt_udp *udp, uint16_t port, uint8_t kind);

/* Returns what happened next. Waits at most `wait_ms` ms for it (-1: without limit; 0: not at all),
 * and meanwhile sends and receives what is due. Never returns null. */
const struct dt_udp_event *dt_udp_next_event(dt_udp *udp, int wait_ms);

/* Sends a whole message of 1 to params.cap octets; of a node. As dt_node_send.
 *   DT_FULL      also: as much is under way to the target as its delay allows; DT_UDP_EVENT_ROOM follows
 *   DT_NOT_OPEN  also: the driver is a service's, failed, or is in a forked child */
struct dt_send_result dt_udp_send(dt_udp *udp, const struct dt_flow *flow, const void *octets, size_t len);

/* Makes a call, which ends within `timeout_ms` by an event; of a service. As dt_service_call. If as much is under way
 * to the target as its delay allows, the call waits in the driver, behind those of its flow, and its time passes.
 *   DT_FULL      also: options.max_waiting octets wait already; DT_UDP_EVENT_ROOM follows in each case
 *   DT_NOT_OPEN  also: the driver is a node's, failed, or is in a forked child */
struct dt_call_result dt_udp_call(dt_udp *udp, const struct dt_flow *flow, const void *octets, size_t len,
                           uint32_t timeout_ms);

/* Of a call. Zero the struct, and set `size` and what you need. */
struct dt_udp_call_options {
    uint32_t size;       /* sizeof(struct dt_udp_call_options) */
    uint32_t timeout_ms; /* at least 1 */
    struct dt_flow flow; /* from a caller's port of this node */
    uint64_t user;       /* the event of its end has it: a pointer, an index, or 0 */
};

/* Makes a call as dt_udp_call does, with a value of the caller's that its end has: so the caller needs no table of
 * calls by their numbers.
 *   DT_INVALID  also: options.size isn't that of the struct */
struct dt_call_result dt_udp_make_call(dt_udp *udp, const struct dt_udp_call_options *options, const void *octets,
                                       size_t len);

/* Replies to a request, once; of a service. `octets` may be those of the event. As dt_service_reply. A reply may wait
 * in the driver as a call does; then DT_OK says only that it was kept, and a second one for the same request is
 * dropped in silence. DT_FULL: as for a call. */
struct dt_reply_result dt_udp_reply(dt_udp *udp, const struct dt_token *token, const void *octets, size_t len);

/* Ends a request without a reply, so that there is room for another; of a service. As dt_service_forget. */
dt_status dt_udp_forget(dt_udp *udp, const struct dt_token *token);

struct dt_udp_put_result {
    uint64_t object; /* DT_OK: its number, which no other object of any opening has, but by chance */
    dt_status status;
};

/* Opens ports `first_port` to `first_port` + `lanes` for objects, the same ports at both ends; of a node. Objects are
 * sent over `lanes` flows at once, a chunk of five segments in each: 64 fill a way of 1 ms, 512 one of 20 ms, where a
 * loss holds up the chunk of its lane only. `max_octets`: of objects that arrive, until they are
 * taken.
 *   DT_OK
 *   DT_EXISTS       done before, or one of the ports is open
 *   DT_INVALID    of a service, or the ports end beyond 65,535; nothing changed
 *   DT_NO_MEMORY  some of the ports may be open
 *   DT_STOPPED, DT_NOT_OPEN  the driver failed, or this is a forked child */
dt_status dt_udp_open_objects(dt_udp *udp, uint16_t first_port, uint16_t lanes, uint64_t max_octets);

/* Sends an object of at most 2^32 - 1 octets to a node, whole, and at most once. The octets stay yours: keep them
 * unchanged until DT_UDP_EVENT_PUT_ENDED, which arrives within `timeout_ms` and 2 mpl + r + a.
 *   DT_OK
 *   DT_INVALID    dt_udp_open_objects wasn't called, the target is this node, `len` is too great, or `timeout_ms` is 0
 *   DT_NO_MEMORY  nothing changed
 *   DT_STOPPED, DT_NOT_OPEN  the driver failed, or this is a forked child
 * Cost: objects to one node are sent one after another; a target takes about 900 octets for each lane. */
struct dt_udp_put_result dt_udp_put_object(dt_udp *udp, uint32_t target, const void *octets, uint64_t len,
                                    uint32_t timeout_ms);

/* Puts what is due and what was sent on the wire now. dt_udp_next_event does it too. */
void dt_udp_flush(dt_udp *udp);

/* Sends and receives until every octet that was sent is acknowledged or uncertain, for at most
 * `wait_ms` ms (-1: without limit). Events wait for dt_udp_next_event meanwhile.
 *   DT_OK       nothing is outstanding
 *   DT_NONE    the time is over first, or a signal came
 *   DT_NO_MEMORY, DT_STOPPED, DT_NOT_OPEN  the driver failed, or this is a forked child */
dt_status dt_udp_drain(dt_udp *udp, int wait_ms);

/* Returns a descriptor that is readable if a datagram arrived or something is due. It belongs to the
 * driver: only watch it. Returns -1 if the system refuses one, and errno says why. */
int dt_udp_fd(dt_udp *udp);

/* Returns the UDP port that the socket is bound to; 0 if the system doesn't say. */
uint16_t dt_udp_local_port(dt_udp *udp);

/* Returns for how many ms the node is still silent after its start: until then sends and calls are DT_QUIET. */
uint64_t dt_udp_silent_ms(dt_udp *udp);

/* Returns the life of this opening: that of the state folder, or of the options. */
uint32_t dt_udp_life(dt_udp *udp);

/* Returns the counters, which belong to the driver. */
const struct dt_udp_counts *dt_udp_get_counts(dt_udp *udp);

/* Records what passes from now on into a file, for Wireshark and tools/trace_token.py: each datagram, and each call,
 * request, reply and end of a call with its token (docs/formats.md, "Recordings"). A file of that name is replaced; an
 * earlier recording ends. It ends by itself before the file would have more than `max_octets`. A null `path` ends it,
 * and so does dt_udp_close. What passed since the driver last waited isn't in the file yet.
 *   DT_OK
 *   DT_INVALID    the file can't be made; `error` (or null) has the errno. Nothing is recorded
 *   DT_NO_MEMORY  nothing is recorded
 *   DT_STOPPED, DT_NOT_OPEN  the driver failed, or this is a forked child
 * Cost: 256 KB while it records; a copy of each datagram, and a system call for each wait. */
dt_status dt_udp_record(dt_udp *udp, const char *path, uint64_t max_octets, struct dt_udp_error *error);

/* Returns whether the driver records: DT_OK; DT_NONE: no; DT_FULL: it ended at `max_octets`; DT_NOT_OPEN: it ended since
 * the system refused a write, and the file has what was written before. */
dt_status dt_udp_recording(dt_udp *udp);

/* Returns the handle of the node or of the service, for calls of deltat.h that the driver doesn't
 * have (counters, dt_node_count_flow, dt_service_stop ..); null if the driver has the other. Never call
 * what takes `now`, and never take datagrams, reports, messages or events by it. */
dt_node *dt_udp_node(dt_udp *udp);
dt_service *dt_udp_service(dt_udp *udp);

/* --- nodes that the program opened itself
 *
 * A program that opened a node by dt_node_open or dt_service_open, with all of its links, may have it driven: the
 * driver has the socket, the clock and the timer, and the handle stays the program's. It may call the handle in
 * between, with readings of CLOCK_BOOTTIME in ms, and takes messages and reports from it. */

/* Until when the node may have inputs: a state folder has to know before each. The driver reads and writes it in its
 * calls. */
struct dt_udp_keeper {
    uint64_t since; /* an input before this reading needn't be kept: the node is silent */
    uint64_t until; /* an input up to this reading needs no `extend` */
    uint64_t noted; /* the greatest reading of an input from `since` on: the driver writes it */
    bool (*extend)(void *user, uint64_t at); /* makes `until` at least `at`. False: the input isn't done, and the
                                                driver fails with DT_NOT_OPEN */
    void *user;
};

/* The state folder of a node that the program opens itself, to be driven or with a wire of its own: what options.state
 * is of dt_udp_open. docs/formats.md has the form of its files. */
typedef struct dt_udp_state dt_udp_state;

/* Zero the struct, and set `size` and what you need. */
struct dt_udp_state_options {
    uint32_t size;                  /* sizeof(struct dt_udp_state_options) */
    uint32_t node;                  /* number of the node */
    const struct dt_params *params; /* of the network; copied */
    const char *folder;             /* its path; it is made if it isn't there */
    const char *boot;               /* 36 of "0-9a-f-": names what the readings count from [the system's name of this
                                       start of the machine, from which CLOCK_BOOTTIME counts] */
    int64_t clock_ahead;            /* with `boot`: ns by which the readings are ahead of those of other processes */
    uint8_t start_as;               /* DT_UDP_START_BY_STATE, or DT_UDP_START_AGAIN: as in options.start_as */
    bool params_changed;            /* as DT_UDP_FLAG_PARAMS_CHANGED */
};

/* How the node starts, as its folder says. */
struct dt_udp_state_start {
    const char *why;  /* one line: what that rests on */
    char warning[64]; /* a file that was damaged or gone, for an operator; else empty */
    uint32_t life;    /* the last that was counted: no earlier life of the node had it */
    uint8_t start;    /* enum dt_start */
};

/* Opens a state folder, takes its lock, and counts a life, which is on the disk when this returns. One folder is for one
 * opening of a node. Returns null if that fails, and `error` says why: DT_EXISTS (another process has it), DT_INVALID
 * (it is of another node or of other parameters; an option is wrong; no lives are left), DT_NO_MEMORY, DT_NOT_OPEN (it
 * can't be read or written). Cost: two syncs of the disk. With `params_changed` it may wait for the rest of a silence. */
dt_udp_state *dt_udp_state_open(const struct dt_udp_state_options *options, struct dt_udp_error *error);

/* Returns how the node starts. It belongs to the state. */
const struct dt_udp_state_start *dt_udp_state_get_start(dt_udp_state *state);

/* Sets `at` to the reading to open the node at: the end of its last life, if that is known, so that the node is silent
 * for the rest only, or `now`. Until the rest is over nothing is noted.
 *   DT_OK
 *   DT_EXISTS    it was called before: open another state for another opening
 *   DT_NOT_OPEN  it can't be written, or the state is closed, or this is a forked child; don't open the node */
dt_status dt_udp_state_begin(dt_udp_state *state, uint64_t now, uint64_t *at);

/* Returns the keeper, for dt_udp_drive: the driver notes each input then. It belongs to the state, until that is freed. */
struct dt_udp_keeper *dt_udp_state_keeper(dt_udp_state *state);

/* Notes that at this reading a datagram may leave the node, or is passed in. A program with a wire of its own calls it
 * before each input of the node, except a tick at which nothing is due. Cost: three comparisons, and each quarter of
 * the quiet time a write of 125 octets.
 *   DT_OK
 *   DT_NOT_OPEN  it can't be written, or the state is closed, or this is a forked child: don't do the input */
dt_status dt_udp_state_note(dt_udp_state *state, uint64_t at);

/* Counts one more life, for dt_service_set_life. It is on the disk when this returns. Sets `life` to the last one.
 *   DT_OK
 *   DT_FULL      no lives are left
 *   DT_NOT_OPEN  it can't be written, or the state is closed, or this is a forked child */
dt_status dt_udp_state_next_life(dt_udp_state *state, uint32_t *life);

/* Returns the errno of the write that failed last, or 0. */
int dt_udp_state_system_error(dt_udp_state *state);

/* With the node closed: writes when the last datagram left or was passed in, and frees the lock. Later calls are
 * DT_NOT_OPEN. In a forked child it writes nothing, and the lock stays the parent's.
 *   DT_OK
 *   DT_NOT_OPEN  it can't be written: the next start counts with what was promised ahead */
dt_status dt_udp_state_close(dt_udp_state *state);

/* Frees the memory; null is allowed. A state that wasn't closed leaves what a killed program leaves. */
void dt_udp_state_free(dt_udp_state *state);

/* A datagram that arrived. */
struct dt_udp_datagram {
    const uint8_t *octets;
    size_t len;
    uint64_t now;
    uint32_t waited_ms;
    uint16_t link;
};

/* Functions that are called in the place of those of the handle, each with its arguments: for a node that keeps a
 * record of its inputs. Slower: a datagram a system call. */
struct dt_udp_hooks {
    dt_status (*receive)(void *user, const struct dt_udp_datagram *datagram);
    dt_status (*tick)(void *user, uint64_t now);
    uint64_t (*wake)(void *user);
    dt_status (*next_datagram)(void *user, void *room, struct dt_datagram *out); /* at most DT_MAX_DATAGRAM octets */
    void (*not_sent)(void *user); /* the last of next_datagram wasn't sent */
    void *user;
};

/* Zero the struct, and set `size` and what there is. All of it is the program's, until dt_udp_close. */
struct dt_udp_driven {
    uint32_t size;        /* sizeof(struct dt_udp_driven) */
    dt_node *node;        /* exactly one of the two: it is open */
    dt_service *service;
    struct dt_udp_keeper *keeper;     /* [none: the program has no state folder] */
    const struct dt_link *links;      /* with the watch: those of the node, with their charges */
    size_t link_count;
    const struct dt_udp_hooks *hooks; /* [none: the functions of deltat.h] */
};

/* As dt_udp_open, with a node of the program, before the first call of that. Of `options` size, node, host, port, params
 * and flags count; the guard, the ports and the routes are the program's. Without DT_UDP_FLAG_WITHOUT_WATCH each
 * neighbour needs a driver with a watch; then the program calls dt_udp_flush_since after each call of the node, since
 * what leaves otherwise counts as made when the driver was last called. Nothing limits what is under way. */
dt_udp *dt_udp_drive(const struct dt_udp_driven *driven, const struct dt_udp_options *options,
                     struct dt_udp_error *error);

/* Sets the address of a neighbour, at the other end of a link of the node. What leaves for a node that is no neighbour
 * goes to one on the same link; what arrives from another address is dropped. DT_INVALID also: of a driver of
 * dt_udp_open. Else as dt_udp_set_peer, but the route is the program's. */
dt_status dt_udp_set_neighbour(dt_udp *udp, const struct dt_route *route, const char *host, const char *port,
                               struct dt_udp_error *error);

/* One event of a batch. It has no pointer, so that a binding reads many at once. */
struct dt_udp_item {
    uint64_t call;       /* of an end, or of the request's token */
    uint32_t at, len;    /* where its octets are in the room, and how many; of TOO_BIG: of the datagram */
    struct dt_flow flow; /* of a request, or of REPLY_UNCERTAIN; of TOO_BIG its target is the peer */
    uint8_t kind;        /* enum dt_udp_event_kind */
    uint8_t cause;       /* of UNSURE: enum dt_cause */
    uint64_t user;       /* of an end: what dt_udp_make_call was given */
};

/* A call of a batch. Its octets are behind those of the call before. */
struct dt_udp_batch_call {
    struct dt_flow flow;
    uint32_t timeout_ms, len;
    uint64_t user;
};

/* Zero the struct, and set the first four. */
struct dt_udp_batch {
    struct dt_udp_item *items;
    uint8_t *octets;
    uint32_t max_items, size; /* room for so many items, and for so many octets: at least DT_MAX_PAYLOAD */
    uint32_t count, used;     /* set: how many items there are, and octets */
    uint32_t *heard;          /* [null] room for DT_UDP_MAX_HEARD nodes */
    uint32_t heard_count;     /* set: the nodes whose datagrams were passed in, each at least once; DT_UDP_MAX_HEARD
                                 also if there were more */
    bool blocked;             /* set: the guard of a driven node dropped a datagram */
    uint8_t alarm;            /* set: enum dt_udp_alarm of the node `alarm_peer`, or 0; each batch has one at most */
    uint32_t alarm_peer;
    const struct dt_udp_batch_call *calls; /* [null] `call_count` calls to make first, as by dt_udp_make_call */
    const uint8_t *payloads;
    uint32_t call_count, calls_made; /* set: how many of them were made. If one wasn't, those after it aren't tried, */
    struct dt_call_result refused;   /* set: this says why, and nothing is waited for */
};

enum { DT_UDP_MAX_HEARD = 64 };

/* Returns events of a service as dt_udp_next_event does, many at once: makes calls, waits at most `wait_ms` ms for the
 * first event, sends and receives what is due, and puts what was made meanwhile on the wire. Of a driven node, and with
 * `max_items` 0, it takes no events, and returns when something arrived or was due. Alarms aren't among the items.
 *   DT_OK        `count` events, 0 if there was none in `wait_ms`, or a signal came
 *   DT_INVALID   of a node that isn't driven
 *   DT_NO_MEMORY, DT_STOPPED, DT_NOT_OPEN  the driver can't continue; `count` events waited before that */
dt_status dt_udp_next_batch(dt_udp *udp, int wait_ms, struct dt_udp_batch *batch);

/* Says that the program called a driven node at the reading `at`, and puts what left the node on the wire: without
 * the watch what is more than 20 ms old is dropped. If the socket wasn't looked at for 5 ms, does what is due, as dt_udp_call and dt_udp_reply
 * of a driven node do: so a program may make many calls in one go. Returns whether it was looked at. */
bool dt_udp_flush_since(dt_udp *udp, uint64_t at);

/* Returns the socket, which belongs to the driver, and the errno of the system call that failed, or 0. */
int dt_udp_socket(dt_udp *udp);
int dt_udp_system_error(dt_udp *udp);

#ifdef __cplusplus
}
#endif
#endif
