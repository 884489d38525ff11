/* What the files of the driver share. Each file has one concern:
 *
 *   core.c      all calls of deltat.h: a node or a service behind one set of functions
 *   open.c      options, opening, closing
 *   sockets.c   the socket and its options, addresses of names
 *   peers.c     the table of peers
 *   strangers.c peers that are learnt
 *   state.c     the state folder
 *   reading.c   datagrams from the socket to the node
 *   writing.c   datagrams from the node to the socket
 *   clocks.c    readings of the clocks, and how long a datagram waited in the socket
 *   trailer.c   the trailer behind each datagram between drivers
 *   watch.c     how old each datagram is that arrives
 *   governor.c  how much is under way to each peer
 *   loop.c      the wait, the descriptor, the timer
 *   events.c    what dt_udp_next_event returns
 *   calls.c     what a program asks of the node
 *   objects.c   objects, in chunks over several flows
 *   driven.c    nodes that the program opened: neighbours, hooks
 *   batch.c     many events at once
 *   counters_file.c  counters in a mapped file, for whoever watches the node
 *   recording.c what passes, in a file for Wireshark and tools/trace_token.py
 */
#ifndef DELTAT_UDP_INTERNAL_H
#define DELTAT_UDP_INTERNAL_H
#include "counters_file.h"
#include "deltat_udp.h"
#include <netinet/in.h>
#include <sys/socket.h>
#include <sys/types.h>

enum {
    LATE_MS = 20,        /* a datagram that was made longer ago isn't sent without a watch: its link's charge has this */
    IN_BATCH = 32,       /* datagrams that one system call reads, each of up to 64 segments */
    OUT_BATCH = 64,      /* datagrams that are sent at once */
    MAX_SEGMENTS = 64,   /* datagrams that one UDP_SEGMENT call sends: the kernel's limit */
    MAX_UDP = 65535,     /* octets that one system call may send or read of one datagram */
    MAX_ADDRESSES = 4,   /* of one name that are tried */
    HEADER = 16,         /* octets of a Deltagram's header (docs/formats.md) */
    TRAILER_LEN = 34,    /* octets of the trailer behind each datagram (docs/formats.md) */
    TRAILER = 64,        /* room for it */
    CONTROL_ROOM = 128   /* octets of control messages of one datagram */
};

/* A reading of both clocks, one after the other, in ns. */
struct reading {
    int64_t boot; /* CLOCK_BOOTTIME: the time of the node */
    int64_t wall; /* CLOCK_REALTIME: the time of the kernel's stamps */
};

struct address {
    union {
        struct sockaddr any;
        struct sockaddr_in v4;
        struct sockaddr_in6 v6;
    } name;
    socklen_t len; /* 0: no address */
};

/* Our own address at which a peer's datagrams arrive: replies leave from it. */
struct own_address {
    sa_family_t family; /* 0: not known, the system chooses */
    union {
        struct in_addr v4;
        struct in6_addr v6;
    } name;
};

enum trailer_kind { TRAILER_FRAME = 1, TRAILER_PING = 2, TRAILER_PONG = 3 };

enum { TRAILER_NOT_AGED = 65535 };

/* What a trailer says; times are microseconds. */
struct trailer {
    uint64_t opening;     /* names its maker's opening */
    uint64_t made;        /* its maker's clock when the datagram was made */
    uint64_t sure;        /* the receiver's clock had passed this then; 0: not known */
    uint32_t print, wall; /* the first octets of the fingerprint; ms of the wall clock */
    uint16_t of;          /* the lower half of the name of the receiver's opening that `sure` belongs to */
    uint16_t aged, heard; /* of the last datagram that its maker heard: its age; how many it had heard */
    uint8_t kind, round, rounded;
};

/* A call or a reply that waits until it may be handed in; of a call that was, its numbers only. */
struct waiting {
    struct waiting *next;
    struct dt_token token; /* of a call: its flow, and its number as the program knows it */
    uint64_t call;         /* and as the library does */
    uint64_t user;         /* what the program gave a call */
    uint64_t deadline;     /* of a reply: DT_NEVER */
    size_t len;
    bool is_call;
    uint8_t octets[];
};

/* Calls of one flow, or replies on it, that wait, in their order. */
struct waiting_flow {
    struct waiting_flow *next;       /* in the peer's list */
    struct waiting_flow *next_there; /* in its bucket */
    struct waiting *first, *last;
    struct dt_flow flow;
    bool has_replies; /* or else calls */
};

struct waiting_flows {
    struct waiting_flow *first, *last;
};

/* How the window of a peer follows the delay; times are microseconds. */
struct governor {
    uint64_t base[2]; /* the least delay of this span and of the last one; DT_NEVER: none was measured */
    uint64_t turned_us, round_us, heard_us, credit_us;
    uint64_t sum_us, count, least_us; /* delays of this round, and the least of them */
    uint64_t target_us;     /* the delay in queues that is let pass: the aim, or more while others fill them */
    int64_t credit;         /* octets that the pace lets go */
    uint16_t sent_then, sent_before, lost_before;
    uint8_t above; /* rounds in a row whose delay was above the aim */
    uint8_t rounds; /* that ended, up to FIRST_ROUNDS */
    uint8_t beside; /* rounds in which others filled the queue */
    uint8_t low;    /* rounds in a row with next to no queue though the window limited, up to LONG_LOW */
    bool fast, limited;
    bool was_slow; /* the last round's delay was above half the aim */
};

/* What is known of a peer's clocks and openings, and what is under way to it. */
struct watch {
    dt_watch *rules;        /* behind this struct */
    uint64_t present, next; /* the names of its present opening, and of one that isn't proved; 0: none */
    uint64_t pinged_us;     /* when it was last asked */
    uint64_t began_us[2];   /* when the first datagram of each of the two openings came, or the first after a silence */
    uint64_t last_us[2];    /* and the last one */
    uint64_t under_way;     /* octets that were handed in and aren't settled */
    uint64_t on_wire;       /* the same with the headers of their datagrams: what the window counts */
    struct waiting_flows ready;    /* flows for which something waits for the window, each in its turn */
    struct waiting_flows full;     /* those that had no room of their own when so many octets were settled: */
    uint64_t full_at;
    struct governor governor;
    uint16_t sent, heard, its_heard;
    uint16_t aged;          /* what it is told of its last datagram */
    uint8_t round, its_round;
    uint8_t slow[2];        /* answers that were left out, since they were slow */
    bool measured[2];       /* the interval of its clock has a width */
    uint8_t alarms;         /* bits 1 << enum dt_udp_alarm that were events */
    bool second;            /* which clocks of `rules` are those of the present opening */
};

enum watched {
    WATCHED_PRESENT,  /* of the present opening */
    WATCHED_UNPROVED, /* of an opening that isn't proved: its sender can be asked */
    WATCHED_DROPPED
};

struct kept;

struct watch_alarm {
    uint32_t node;
    uint8_t cause; /* enum dt_udp_alarm */
};

enum { MAX_ALARMS = 16 };

struct watching {
    struct kept *kept, *last_kept; /* frames that wait until their age is known */
    uint64_t opening;              /* names this one */
    struct watch_alarm alarms[MAX_ALARMS];
    size_t kept_count, first_alarm, alarm_count;
    uint32_t print; /* the first octets of the fingerprint of our parameters */
    bool on;
};

/* What waits, of all peers. */
struct governing {
    struct peer *waiting;                        /* those for which something waits */
    struct waiting *first_unsure, *last_unsure;  /* calls whose time was over before they were handed in */
    struct waiting_flow **flows;                 /* those of all peers, by flow */
    struct waiting **named;                      /* calls that waited, by the library's numbers */
    uint64_t next_deadline;                      /* of the calls that wait: that of the first one, or sooner */
    uint64_t queued, settled;                    /* the node's counters at the last look */
    uint64_t counted;                            /* octets under way, of all peers */
    uint64_t octets, numbers;                    /* of what waits; of calls that waited */
    bool on;                                     /* (not for a driven node: its program hands in by itself) */
    bool wants_room;                             /* something was refused for want of room */
    bool object_waits;                           /* a chunk may not enter yet */
};

struct peer {
    struct peer *next; /* in its bucket */
    struct peer *next_waiting;
    struct watch *watch; /* null: nothing came yet */
    struct peer *next_too_big, *next_prover;
    struct peer *next_there; /* of a neighbour: in its bucket by address */
    struct peer *older, *newer; /* of learnt peers: in the order in which they were heard */
    struct address at; /* the one that is in use */
    struct own_address own;
    uint64_t heard_at;  /* when a datagram of it was last passed in */
    uint64_t sent_at;   /* when one was last sent to it */
    uint64_t proved_at; /* when it last asked us to prove our address */
    uint64_t key;       /* of a learnt peer: of its opening */
    uint16_t link; /* of a neighbour */
    uint32_t charge; /* of that link */
    uint32_t node, too_big; /* too_big: octets of a datagram that didn't fit the path, to be reported, or 0 */
    bool configured;        /* by dt_udp_set_peer */
    bool heard;             /* from `at`: no other address of its name is tried */
    bool answered;          /* a datagram of it was passed in */
    bool is_prover;         /* it asked us for a proof once */
    bool differs;           /* one of the two ends has a watch, and the other hasn't: it was an alarm */
    uint8_t choice, choices;
    struct address others[MAX_ADDRESSES]; /* the addresses of its name, `choices` in number */
};

struct peers {
    struct peer **buckets;
    struct peer *too_big; /* those with something to report */
    size_t count, size;   /* size: a power of 2 */
    uint64_t key;         /* odd and random, so that nobody chooses numbers of one bucket */
};

/* A stranger that has shown that it hears at an address. */
struct proof {
    struct address from; /* len 0: none */
    struct watch *watch; /* or null */
    uint32_t node;
    uint64_t key, at;
};

enum { PROOFS = 1024 };

struct strangers {
    struct peer oldest;    /* the head of the ring of learnt peers: `newer` is the one that was silent for longest */
    struct proof *proofs;  /* PROOFS of them, each at a place that its address decides; null: none is learnt */
    uint64_t secret[2];    /* of the cookies */
    uint64_t key;          /* of this opening */
    uint64_t burst_at;
    struct peer *provers;  /* configured peers that asked us for a proof */
    uint64_t greeted_at;
    struct address asked;  /* who was asked last, and when */
    uint64_t asked_at;
    uint32_t burst, count; /* challenges since burst_at; peers that are learnt now */
    uint32_t numbers;      /* that were ever learnt */
};

/* The last frame to a peer that hasn't answered yet. */
struct held {
    uint32_t to;
    size_t len;
    uint64_t made_at;
    uint8_t octets[DT_MAX_DATAGRAM + TRAILER];
};

/* A datagram that arrived. */
struct arrival {
    const uint8_t *octets;
    size_t len;
    const struct address *from;
    struct own_address own;
    uint32_t maker; /* the node that its header names */
    uint32_t hop;   /* the node at whose address it began: that one, or a neighbour */
    uint32_t charge; /* of the link on which it came */
    uint32_t waited_ms;
    uint64_t at;      /* the reading by which it is passed in, in ms */
    uint64_t at_us;   /* and in us */
    uint64_t came_us; /* the reading after the look that found it */
    struct trailer trailer;
};

/* One end of the protocol: exactly one of `node` and `service` is open. */
struct core {
    dt_node *node;
    dt_service *service;
    const struct dt_udp_hooks *hooks; /* null: the functions of deltat.h */
    uint16_t link;      /* of a driven node: that of the last datagram in */
    uint16_t link_out;  /* that of the last datagram out */
    uint8_t stopped;    /* the status that stopped it, or 0 */
    uint8_t received;   /* the status of the last datagram in */
    bool driven;        /* the program opened it, and closes it */
};

/* What there is of a node that the program opened. */
struct driven {
    struct peer **there;   /* neighbours by address: `size` buckets, a power of 2; null: none */
    size_t count, size;
    struct peer *hop;      /* the neighbour on a link that was looked for last */
    const struct dt_link *links; /* of the node, `link_count` of them */
    size_t link_count;
    uint64_t lost;         /* frames that weren't sent, as far as the hooks know */
    uint64_t drained_us;   /* read before the node was last asked for all that leaves */
    uint32_t heard[DT_UDP_MAX_HEARD]; /* makers of what was passed in since the last batch */
    uint32_t heard_count;
    bool blocked;          /* the guard dropped a datagram since then */
};

/* A whole message that waits for dt_udp_next_event. */
struct message {
    struct message *next;
    struct dt_flow flow;
    size_t len;
    bool gap;
    uint8_t octets[];
};

struct queue {
    struct message *first, *last;
    size_t octets;
};

struct reports {
    struct dt_report *all;
    size_t first, count, size;
};

struct incoming {
    struct mmsghdr heads[IN_BATCH];
    struct iovec parts[IN_BATCH];
    struct address from[IN_BATCH];
    _Alignas(struct cmsghdr) char controls[IN_BATCH][CONTROL_ROOM];
    uint8_t *rooms;
    size_t room;    /* octets of each */
    unsigned used;  /* how many heads have to be set up again */
    uint64_t came_us; /* the reading after the last look */
    bool full;      /* the last look filled the batch: there may be more */
};

struct outgoing {
    struct mmsghdr heads[OUT_BATCH];
    struct iovec parts[OUT_BATCH];
    struct peer *peers[OUT_BATCH]; /* of each head */
    _Alignas(struct cmsghdr) char controls[OUT_BATCH][CONTROL_ROOM];
    uint8_t *rooms; /* OUT_BATCH of DT_MAX_DATAGRAM + TRAILER octets */
    unsigned count; /* heads */
    uint64_t made_at; /* the reading by which the oldest frame that waits was made; DT_NEVER: none waits */
    uint64_t made_us; /* and in us */
};

struct ports {
    uint8_t open[65536 / 8]; /* a bit for each */
    uint16_t *list;
    size_t count, size;
};

enum { PAST_OBJECTS = 1024, MAX_PARTS = 1024 };

struct receiving;
struct target;

struct past { uint64_t number; uint32_t node; bool some; };

struct objects {
    struct target *targets;
    struct receiving *parts, *whole, *last_whole, *lent;
    uint64_t number;                 /* of the object that was put last */
    uint64_t window;                 /* octets of chunks under way to one node, at most */
    uint64_t not_sent, adapted_at;   /* the count when the window was last changed, and when that was */
    uint64_t refused_at;             /* when a sender was last refused */
    uint64_t next_deadline;          /* the first of those that are sent, or sooner */
    uint64_t max_octets, held_octets; /* of objects that are received and weren't taken */
    uint32_t sending, ended;         /* objects whose end wasn't taken; of these: that have one */
    uint32_t part_count, past_at;
    uint16_t first_port, lanes;      /* lanes 0: none are received or sent */
    struct past past[PAST_OBJECTS];  /* the objects that were whole last: chunks of them may still arrive */
    uint8_t room[65536];             /* a message that is sent */
};

struct dt_udp {
    struct dt_udp_options options; /* its pointers are null after the opening, but for params */
    struct dt_params params;       /* what options.params points to */
    struct dt_report report;       /* what the last event points to */
    struct dt_udp_counts counts;
    struct dt_udp_event event;
    struct core core;
    struct driven driven;
    struct peers peers;
    struct ports ports;
    struct strangers strangers;
    struct held held;
    dt_udp_state *state;           /* null: there is no state folder */
    struct dt_udp_keeper *keeper;  /* that of the state folder, or the program's; null: there is none */
    struct objects objects;
    struct watching watching;
    struct governing governing;
    struct queue queue;
    struct reports reports;
    struct message *lent;  /* what the last event points to */
    struct message *spare; /* with room for the longest message: the next one is taken into it */
    struct incoming in;
    struct outgoing out;
    struct counting *counting; /* null: no counters file */
    struct recording *recording; /* null: nothing is recorded */
    uint8_t *event_room; /* what a service's last event points to */
    int socket, epoll, timer, family;
    int read_timeout_ms;  /* SO_RCVTIMEO as it was set last; 0: it isn't */
    bool every_address;   /* bound to all addresses of the machine */
    bool segments, stamps;
    struct reading opened; /* when the socket was opened */
    struct reading empty;  /* read before the last look that found the socket empty */
    int64_t ahead_ns;      /* how much the wall clock was ahead of the other at the last reading */
    bool stepped;          /* the wall clock was set since `empty` */
    bool interrupted;      /* a signal ended the last wait */
    bool unread;           /* messages stay in the node, since too many octets wait for dt_udp_next_event */
    uint64_t quiet_until;  /* the node is silent until then */
    uint64_t open_calls;   /* whose end wasn't handed out */
    bool wants_room;       /* a flow was full, and the program wasn't told of room since */
    uint64_t settled_then; /* how many octets were acknowledged or uncertain when it was */
    uint64_t heard_at;     /* when a datagram was last passed in */
    uint64_t input_at;     /* the greatest reading of an input */
    uint64_t ticked_at;    /* when the node last did what is due */
    uint64_t turned_at;    /* when the socket was last looked at */
    uint64_t armed_at;     /* what the timer is set to; DT_NEVER: it isn't */
    uint8_t *fork_mark;    /* a page that a forked child finds zeroed; null: compare `owner` */
    pid_t owner;
    bool is_copy;          /* in a forked child */
    uint8_t failed;        /* enum dt_status_code, or 0 */
    int system_error;
};

/* --- core.c */
struct dt_open_result dtu_core_open(struct core *core, const struct dt_udp_options *options, uint64_t now);
void dtu_core_close(struct core *core);
dt_status dtu_core_tick(struct core *core, uint64_t now);
dt_status dtu_core_receive(struct core *core, uint64_t now, const uint8_t *octets, size_t len, uint32_t waited_ms);
bool dtu_core_next_datagram(struct core *core, uint8_t *room, size_t *len, uint32_t *to);
bool dtu_core_next_report(struct core *core, struct dt_report *report);
uint64_t dtu_core_wake(struct core *core);
dt_status dtu_core_add_route(struct core *core, uint32_t to);
dt_status dtu_core_set_guard(struct core *core, const struct ports *ports, bool all, uint32_t max_flows);
dt_status dtu_core_set_shelf(struct core *core, const struct dt_params *params);
dt_status dtu_core_set_port(struct core *core, uint16_t port, uint8_t kind);
dt_status dtu_core_mark_readable(struct core *core, const struct dt_flow *flow);
dt_status dtu_core_next_message(struct core *core, uint64_t now, const struct iovec *room, struct dt_message *out);
dt_status dtu_core_next_event(struct core *core, uint8_t *room, size_t size, struct dt_event *out);
struct dt_send_result dtu_core_send(struct core *core, uint64_t now, const struct dt_flow *flow,
                                    const struct iovec *octets);
struct dt_call_result dtu_core_make_call(struct core *core, uint64_t now, const struct dt_udp_call_options *options,
                                         const struct iovec *octets);
struct dt_reply_result dtu_core_reply(struct core *core, uint64_t now, const struct dt_token *token,
                                      const struct iovec *octets);
dt_status dtu_core_forget(struct core *core, uint64_t now, const struct dt_token *token);
uint64_t dtu_core_outstanding(struct core *core);
void dtu_core_totals(struct core *core, uint64_t *queued, uint64_t *settled);
uint64_t dtu_core_accepted(struct core *core);
void dtu_core_counts(struct core *core, uint64_t *all);
bool dtu_core_is_known(void);
uint64_t dtu_core_quiet_ms(const struct dt_params *params);

/* --- open.c */
bool dtu_is_usable(dt_udp *u);
dt_udp *dtu_open(const struct dt_udp_driven *driven, const struct dt_udp_options *options, struct dt_udp_error *error);
void dtu_fail(dt_udp *u, dt_status status, int system_error);
void dtu_judge(dt_udp *u);
bool dtu_begin(dt_udp *u, uint64_t us);

/* --- sockets.c */
dt_status dtu_socket_open(dt_udp *u, struct dt_udp_error *error);
dt_status dtu_socket_addresses(const dt_udp *u, const char *host, const char *port, struct peer *peer,
                               struct dt_udp_error *error);
bool dtu_same_address(const struct address *a, const struct address *b);
dt_status dtu_refuse(struct dt_udp_error *error, dt_status status, int system_error, const char *format, ...)
    __attribute__((format(printf, 4, 5)));

/* --- peers.c */
dt_status dtu_peers_open(struct peers *peers);
void dtu_peers_close(struct peers *peers);
struct peer *dtu_peers_find(const struct peers *peers, uint32_t node);
struct peer *dtu_peers_add(struct peers *peers, uint32_t node);
void dtu_peers_note_too_big(struct peers *peers, struct peer *peer, uint32_t len);
struct peer *dtu_peers_next_too_big(struct peers *peers);

void dtu_peers_remove(struct peers *peers, struct peer *peer);

/* --- strangers.c */
dt_status dtu_strangers_open(dt_udp *u);
void dtu_strangers_close(dt_udp *u);
void dtu_strangers_heard(dt_udp *u, struct peer *peer);
void dtu_strangers_configured(dt_udp *u, struct peer *peer);
uint64_t dtu_strangers_wake(const dt_udp *u);
void dtu_strangers_greet(dt_udp *u, uint64_t at);
bool dtu_is_control(dt_udp *u, struct arrival *arrival);
void dtu_stranger(dt_udp *u, struct arrival *arrival);

/* --- state.c */
bool dtu_keep(struct dt_udp_keeper *keeper, uint64_t at);

/* --- objects.c */
void dtu_objects_close(dt_udp *u);
void dtu_objects_free(struct receiving *object);
bool dtu_objects_send(dt_udp *u);
void dtu_objects_release(dt_udp *u);
uint64_t dtu_objects_wake(const dt_udp *u);
void dtu_objects_report(dt_udp *u, const struct dt_report *report);
bool dtu_objects_message(dt_udp *u, const struct dt_flow *flow, const uint8_t *octets, size_t len);
bool dtu_objects_event(dt_udp *u);

/* --- numbers in octets, the most significant one first; here, since each datagram has a dozen */
static inline void dtu_put_number(uint8_t *at, uint64_t value, int octets) {
    for (int i = octets - 1; i >= 0; i--, value >>= 8) at[i] = (uint8_t)value;
}

static inline uint64_t dtu_get_number(const uint8_t *at, int octets) {
    uint64_t value = 0;
    for (int i = 0; i < octets; i++) value = value << 8 | at[i];
    return value;
}

/* --- clocks.c */
uint64_t dtu_clock_ms(void);
uint64_t dtu_clock_us(void);
uint64_t dtu_clock_ms_of(const struct reading *reading);
bool dtu_clock_works(void);
struct reading dtu_clock_reading(void);
void dtu_clock_was_empty(dt_udp *u, const struct reading *before);
void dtu_clock_is_doubtful(dt_udp *u);
void dtu_clock_after_look(dt_udp *u, const struct reading *after);
uint32_t dtu_clock_waited(const dt_udp *u, const struct reading *after, int64_t stamp_ns);

/* --- trailer.c */
void dtu_trailer_write(uint8_t *at, const struct trailer *trailer);
bool dtu_trailer_read(const uint8_t *at, struct trailer *trailer);

/* --- watch.c */
dt_status dtu_watch_open(dt_udp *u);
void dtu_watch_close(dt_udp *u);
void dtu_watch_free(struct watch *watch);
void dtu_watch_stamp(dt_udp *u, struct peer *peer, struct iovec *frame);
size_t dtu_watch_stamp_own(dt_udp *u, const struct watch *watch, uint8_t *octets, size_t len);
bool dtu_watch_strip(dt_udp *u, struct arrival *arrival);
void dtu_watch_differs(dt_udp *u, struct peer *peer);
bool dtu_watch_is_bare(const dt_udp *u, const struct arrival *arrival);
bool dtu_watch_takes(dt_udp *u, struct watch **place, struct arrival *arrival);
void dtu_watch_hear(dt_udp *u, struct watch **place, const struct arrival *arrival);
void dtu_watch_bare(dt_udp *u, struct peer *peer, const struct arrival *arrival);
void dtu_watch_ask(dt_udp *u, struct peer *peer, const struct arrival *arrival);
bool dtu_watch_has_trailer(const struct arrival *arrival);
bool dtu_watch_alarm(dt_udp *u, struct watch_alarm *out);
bool dtu_watch_event(dt_udp *u);

struct watch *dtu_watch_of(dt_udp *u, struct peer *peer);

/* --- governor.c */
dt_status dtu_govern_open(dt_udp *u);
void dtu_govern_close(dt_udp *u);
void dtu_govern_free(struct watch *watch);
void dtu_govern_drop(dt_udp *u, struct peer *peer);
void dtu_govern_begin(struct governor *governor, uint64_t now_us);
void dtu_govern_heard(dt_udp *u, struct watch *watch, const struct trailer *trailer, uint64_t now_us);
void dtu_govern_count(dt_udp *u, struct peer *peer);
bool dtu_govern_admits(dt_udp *u, struct peer *peer, uint64_t octets);
bool dtu_govern_waits(dt_udp *u, struct peer *peer, const struct dt_flow *flow, uint64_t octets);
struct dt_call_result dtu_govern_keep_call(dt_udp *u, struct peer *peer, const struct dt_udp_call_options *options,
                                           const struct iovec *octets);
struct dt_reply_result dtu_govern_keep_reply(dt_udp *u, struct peer *peer, const struct dt_token *token,
                                             const struct iovec *octets);
void dtu_govern_ended(dt_udp *u, struct dt_udp_event *event);
bool dtu_govern_event(dt_udp *u);
void dtu_govern_release(dt_udp *u);
bool dtu_govern_paces(const dt_udp *u);
uint64_t dtu_govern_wake(const dt_udp *u, uint64_t now);

/* --- reading.c */
dt_status dtu_reading_open(dt_udp *u);
void dtu_reading_close(dt_udp *u);
void dtu_read_socket(dt_udp *u, int wait_ms);
bool dtu_is_from(struct peer *peer, const struct address *from);
bool dtu_pass_in(dt_udp *u, struct peer *peer, const struct arrival *arrival);
void dtu_take_frame(dt_udp *u, struct peer *peer, const struct arrival *arrival);

/* --- writing.c */
dt_status dtu_writing_open(dt_udp *u);
void dtu_writing_close(dt_udp *u);
void dtu_write_all(dt_udp *u);
void dtu_write_control(dt_udp *u, const struct arrival *to, const uint8_t *octets, size_t len);
void dtu_write_held(dt_udp *u, const struct peer *peer);

/* --- driven.c */
void dtu_driven_close(dt_udp *u);
void dtu_driven_begin(dt_udp *u);
void dtu_driven_send_made(dt_udp *u);
void dtu_driven_receive(dt_udp *u, struct peer *peer, struct arrival *arrival);
void dtu_driven_take(dt_udp *u, struct peer *peer, const struct arrival *arrival);
struct peer *dtu_driven_neighbour(const dt_udp *u, const struct address *at);
void dtu_driven_drained(dt_udp *u);
struct peer *dtu_driven_next_hop(dt_udp *u);
void dtu_driven_written(dt_udp *u);

/* --- loop.c */
void dtu_loop_close(dt_udp *u);
void dtu_loop_arm(dt_udp *u);
void dtu_loop_turn(dt_udp *u, int wait_ms);

/* --- events.c */
dt_status dtu_events_open(dt_udp *u);
void dtu_events_close(dt_udp *u);
void dtu_events_collect(dt_udp *u, uint64_t at);
bool dtu_events_next(dt_udp *u, uint8_t *room);
bool dtu_events_keep_up(dt_udp *u, uint64_t now);

/* --- counters_file.c: without a counters file each does nothing */
dt_status dtu_count_open(dt_udp *u, struct dt_udp_error *error);
void dtu_count_begin(dt_udp *u);
void dtu_count_close(dt_udp *u);
void dtu_count_publish(dt_udp *u);
void dtu_count_keep_up(dt_udp *u, uint64_t now_us);
void dtu_count_send(dt_udp *u, const struct dt_send_result *it);
void dtu_count_call(dt_udp *u, const struct dt_call_result *it);
void dtu_count_reply(dt_udp *u, const struct dt_reply_result *it);
void dtu_count_event(dt_udp *u, uint8_t kind, uint8_t cause, uint64_t call);
void dtu_count_alarm(dt_udp *u, uint8_t cause);
void dtu_count_age(dt_udp *u, uint64_t us);
void dtu_count_out(dt_udp *u, const struct iovec *frame);
void dtu_count_in(dt_udp *u, const struct arrival *a, dt_status status);

/* --- recording.c: without a recording each does nothing */

/* A datagram that passes, from or to a peer's address. */
struct passing {
    const struct address *peer;
    const struct own_address *own; /* or null */
    bool out;
};

/* A call that the program made. */
struct called {
    uint64_t call;
    size_t len;
    uint32_t timeout_ms;
    dt_status status;
    bool waits; /* in the driver */
};

void dtu_record_datagram(dt_udp *u, const struct passing *it, const uint8_t *octets, size_t len);
void dtu_record_call(dt_udp *u, const struct dt_flow *flow, const struct called *it);
void dtu_record_entered(dt_udp *u, const struct dt_token *token, uint64_t as);
void dtu_record_reply(dt_udp *u, const struct dt_token *token, size_t len, dt_status status);
void dtu_record_forgotten(dt_udp *u, const struct dt_token *token);
void dtu_record_event(dt_udp *u, const struct dt_udp_event *it);
void dtu_record_waits(dt_udp *u);
void dtu_record_close(dt_udp *u);

#endif
