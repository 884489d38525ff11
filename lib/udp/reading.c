/* Datagrams from the socket to the node. */
#include "udp.h"
#include <errno.h>
#include <netinet/udp.h>
#include <poll.h>
#include <stdlib.h>
#include <string.h>
#include <sys/time.h>
#include <time.h>

enum {
    MADE_BY = 8,           /* where a Deltagram's header names the node that made it */
    MAKER_LEN = 4,
    LIFE_AT = 4, /* and where its lifetime is, in ms */
    LIFE_LEN = 4,
    READ_CLOCK_EVERY = 16, /* datagrams */
    FLUSH_MS = 5,          /* frames that wait for longer are sent before more is passed in */
    BLIND_MS = 4 /* without stamps a look waits no longer, since a datagram may have waited as long as the look */
};

/* What control messages say of one read. */
struct label {
    int64_t stamp_ns;       /* or -1 */
    size_t segment;         /* octets of each datagram in it */
    struct own_address own; /* where it arrived */
};

dt_status dtu_reading_open(dt_udp *u) {
    u->in.room = u->segments ? MAX_UDP : DT_MAX_DATAGRAM + TRAILER;
    u->in.rooms = malloc(IN_BATCH * u->in.room);
    u->in.used = IN_BATCH;
    return u->in.rooms ? DT_OK : DT_NO_MEMORY;
}

void dtu_reading_close(dt_udp *u) { free(u->in.rooms); }

/* Sets up the heads that the last look used: the kernel writes lengths into them. */
static void set_up(dt_udp *u) {
    for (unsigned i = 0; i < u->in.used; i++) {
        u->in.parts[i] = (struct iovec){u->in.rooms + i * u->in.room, u->in.room};
        u->in.heads[i].msg_hdr = (struct msghdr){.msg_name = &u->in.from[i].name,
                                                 .msg_namelen = sizeof u->in.from[i].name,
                                                 .msg_iov = &u->in.parts[i],
                                                 .msg_iovlen = 1,
                                                 .msg_control = u->in.controls[i],
                                                 .msg_controllen = CONTROL_ROOM};
    }
    u->in.used = 0;
}

static void read_pktinfo(const struct cmsghdr *it, struct label *label) {
    if (it->cmsg_level == IPPROTO_IP && it->cmsg_type == IP_PKTINFO) {
        struct in_pktinfo info;
        memcpy(&info, CMSG_DATA(it), sizeof info);
        label->own.family = AF_INET;
        label->own.name.v4 = info.ipi_spec_dst;
    } else if (it->cmsg_level == IPPROTO_IPV6 && it->cmsg_type == IPV6_PKTINFO) {
        struct in6_pktinfo info;
        memcpy(&info, CMSG_DATA(it), sizeof info);
        label->own.family = AF_INET6;
        label->own.name.v6 = info.ipi6_addr;
    }
}

static struct label label_of(struct msghdr *head, size_t len) {
    struct label label = {.stamp_ns = -1, .segment = len};
    for (struct cmsghdr *it = CMSG_FIRSTHDR(head); it; it = CMSG_NXTHDR(head, it))
        if (it->cmsg_level == SOL_SOCKET && it->cmsg_type == SCM_TIMESTAMPNS) {
            struct timespec stamp;
            memcpy(&stamp, CMSG_DATA(it), sizeof stamp);
            label.stamp_ns = (int64_t)stamp.tv_sec * 1000000000 + stamp.tv_nsec;
        } else if (it->cmsg_level == IPPROTO_UDP && it->cmsg_type == UDP_GRO) {
            int octets;
            memcpy(&octets, CMSG_DATA(it), sizeof octets);
            if (octets > 0) label.segment = (size_t)octets;
        } else read_pktinfo(it, &label);
    return label;
}

/* Whether a datagram that came from there is of the peer. Of the addresses of its name the one that answers is kept. */
bool dtu_is_from(struct peer *peer, const struct address *from) {
    if (peer->at.len && dtu_same_address(&peer->at, from)) return true;
    if (peer->heard) return false;
    for (uint8_t i = 0; i < peer->choices; i++)
        if (dtu_same_address(&peer->others[i], from)) {
            peer->at = peer->others[i];
            return true;
        }
    return false;
}

/* Whether a frame has no lifetime left: the node drops it. Its status says so only if `waited_ms` is all of its life. */
static bool is_too_old(const struct arrival *it) {
    return it->len >= HEADER && dtu_get_number(it->octets + LIFE_AT, LIFE_LEN) <= (uint64_t)it->charge + it->waited_ms;
}

/* Passes one datagram in, of a peer or of a stranger (null); whether the node took it. What of it becomes readable is read at once, so that
 * acknowledgements say how much room there is. */
bool dtu_pass_in(dt_udp *u, struct peer *peer, const struct arrival *it) {
    if (!dtu_begin(u, it->at_us)) return false;
    dt_status status = dtu_core_receive(&u->core, it->at, it->octets, it->len, it->waited_ms);
    bool taken = status == DT_OK;
    if (is_too_old(it)) u->counts.too_old++;
    if (taken) u->heard_at = it->at;
    dtu_count_in(u, it, status);
    dtu_judge(u);
    dtu_events_collect(u, it->at);
    dtu_govern_count(u, peer);
    return taken;
}

/* Passes in a frame of a peer, of which it is known how long it waited. */
void dtu_take_frame(dt_udp *u, struct peer *peer, const struct arrival *it) {
    uint64_t old = u->counts.too_old;
    bool taken = true;
    if (u->core.driven) dtu_driven_take(u, peer, it);
    else taken = dtu_pass_in(u, peer, it);
    if (u->counts.too_old > old) dtu_watch_ask(u, peer, it);
    if (!taken || u->core.driven) return;
    peer->heard = peer->answered = true;
    peer->heard_at = it->at;
    if (it->own.family) peer->own = it->own;
    dtu_strangers_heard(u, peer);
}

/* The node that a frame's header names as its maker; 0: it has no header. */
static uint32_t maker_of(const struct arrival *it) {
    return it->len < HEADER ? 0 : (uint32_t)dtu_get_number(it->octets + MADE_BY, MAKER_LEN);
}

/* Whether a datagram has what belongs behind it: a trailer, or none. If a peer has a watch and this end hasn't, or the
 * other way round, that is an alarm, once for each peer. */
static bool is_fit(dt_udp *u, struct arrival *it) {
    if (u->watching.on ? dtu_watch_strip(u, it) : !dtu_watch_has_trailer(it)) return true;
    if (!u->watching.on) u->counts.with_trailer++;
    struct peer *peer = u->core.driven ? dtu_driven_neighbour(u, it->from) : dtu_peers_find(&u->peers, maker_of(it));
    if (peer && dtu_same_address(&peer->at, it->from)) dtu_watch_differs(u, peer);
    return false;
}

/* Takes a datagram of a node that its program opened: it has to come from a neighbour. */
static void receive_driven(dt_udp *u, struct arrival *it) {
    struct peer *peer = dtu_driven_neighbour(u, it->from);
    if (peer == NULL) {
        u->counts.unknown++;
        return;
    }
    if (!is_fit(u, it)) return;
    bool bare = dtu_watch_is_bare(u, it);
    if (!bare && dtu_is_control(u, it)) return;
    it->maker = bare ? 0 : maker_of(it);
    dtu_driven_receive(u, peer, it);
}

/* Takes a datagram: one of the drivers' own, or a frame that came from its maker's address. */
static void receive(dt_udp *u, struct arrival *it) {
    u->counts.datagrams_in++;
    dtu_record_datagram(u, &(struct passing){.peer = it->from, .own = &it->own}, it->octets, it->len);
    if (u->core.driven) {
        receive_driven(u, it);
        return;
    }
    if (!is_fit(u, it)) return;
    bool bare = dtu_watch_is_bare(u, it);
    if (!bare && dtu_is_control(u, it)) return;
    if (it->len < (bare ? MAKER_LEN : HEADER)) {
        u->counts.unknown++;
        return;
    }
    it->hop = it->maker = (uint32_t)dtu_get_number(it->octets + (bare ? 0 : MADE_BY), MAKER_LEN);
    it->charge = u->options.charge;
    struct peer *peer = dtu_peers_find(&u->peers, it->maker);
    bool is_peers = peer && dtu_is_from(peer, it->from);
    if (bare && !is_peers) u->counts.unknown++;
    else if (bare) dtu_watch_bare(u, peer, it);
    else if (!is_peers) dtu_stranger(u, it);
    else if (dtu_watch_takes(u, &peer->watch, it)) dtu_take_frame(u, peer, it);
}

/* Passes in what one read brought: one datagram, or several of one length that the system joined. */
static void take(dt_udp *u, unsigned i, const struct reading *at) {
    struct msghdr *head = &u->in.heads[i].msg_hdr;
    const uint8_t *octets = u->in.parts[i].iov_base;
    size_t len = u->in.heads[i].msg_len;
    struct label label = label_of(head, len);
    struct arrival it = {.from = &u->in.from[i],
                         .own = label.own,
                         .at = dtu_clock_ms_of(at),
                         .at_us = (uint64_t)at->boot / 1000,
                         .came_us = u->in.came_us};
    it.waited_ms = dtu_clock_waited(u, at, head->msg_flags & MSG_CTRUNC ? -1 : label.stamp_ns);
    u->in.from[i].len = head->msg_namelen;
    if (len == 0 || head->msg_flags & MSG_TRUNC) {
        u->counts.datagrams_in++;
        u->counts.unknown++;
        return;
    }
    for (size_t done = 0; done < len; done += label.segment) {
        struct arrival one = it; /* (its trailer is taken off) */
        one.octets = octets + done;
        one.len = len - done < label.segment ? len - done : label.segment;
        receive(u, &one);
    }
}

static void take_all(dt_udp *u, unsigned count, struct reading *at) {
    uint64_t since = u->counts.datagrams_in;
    for (unsigned i = 0; i < count && !u->failed; i++) {
        if (u->counts.datagrams_in - since >= READ_CLOCK_EVERY) { /* what was made by the first ones mustn't be late */
            since = u->counts.datagrams_in;
            *at = dtu_clock_reading();
            dtu_clock_after_look(u, at);
            if (dtu_clock_ms_of(at) - u->out.made_at >= FLUSH_MS && u->out.made_at != DT_NEVER) dtu_write_all(u);
        }
        take(u, i, at);
    }
}

/* --- looking at the socket */

/* Sets how long a read waits: the longest of some steps, so that it is seldom set. False: the system refuses. */
static bool set_wait(dt_udp *u, int wait_ms) {
    static const int STEPS[] = {1000, 250, 64, 16, 4, 1};
    size_t i = 0;
    while (STEPS[i] > wait_ms) i++;
    if (STEPS[i] == u->read_timeout_ms) return true;
    struct timeval it = {STEPS[i] / 1000, STEPS[i] % 1000 * 1000};
    bool done = setsockopt(u->socket, SOL_SOCKET, SO_RCVTIMEO, &it, sizeof it) == 0;
    u->read_timeout_ms = done ? STEPS[i] : 0;
    return done;
}

/* One system call that waits and reads. */
static int look(dt_udp *u, int wait_ms) {
    unsigned batch = u->options.flags & DT_UDP_FLAG_WITHOUT_BATCHES ? 1 : IN_BATCH;
    int flags = MSG_DONTWAIT;
    if (wait_ms > 0 && !u->stamps && wait_ms > BLIND_MS) wait_ms = BLIND_MS;
    /* (the timeout of a read is rounded up to the ticks of the kernel: 1 ms may take 8; that of poll isn't) */
    if (wait_ms > 0 && !dtu_govern_paces(u) && set_wait(u, wait_ms)) flags = MSG_WAITFORONE;
    else if (wait_ms > 0) (void)poll(&(struct pollfd){.fd = u->socket, .events = POLLIN}, 1, wait_ms);
    u->counts.reads++;
    int count = recvmmsg(u->socket, u->in.heads, batch, flags, NULL);
    u->in.full = count >= 0 && (unsigned)count == batch;
    u->in.used = count < 0 ? 0 : (unsigned)count;
    return count;
}

/* What a look that failed means. Most errors are of one datagram, or pass. */
static void look_failed(dt_udp *u, int why, const struct reading *before) {
    if (why == EAGAIN || why == EWOULDBLOCK) dtu_clock_was_empty(u, before);
    else if (why == EINTR) u->interrupted = true;
    else if (why == ECONNREFUSED || why == EHOSTUNREACH || why == ENETUNREACH || why == ENOMEM || why == ENOBUFS) {
        dtu_clock_is_doubtful(u); /* (the look before may have ended by this, and not since the socket was empty) */
        (void)poll(NULL, 0, 1);
    } else dtu_fail(u, DT_NOT_OPEN, why);
}

/* Looks at the socket once, waits at most `wait_ms` ms for a datagram, and passes in what is there. */
void dtu_read_socket(dt_udp *u, int wait_ms) {
    set_up(u);
    struct reading before = dtu_clock_reading();
    int count = look(u, wait_ms), why = errno;
    struct reading after = dtu_clock_reading();
    dtu_clock_after_look(u, &after);
    u->in.came_us = (uint64_t)after.boot / 1000;
    if (count < 0) {
        look_failed(u, why, &before);
        return;
    }
    take_all(u, (unsigned)count, &after);
    if (!u->in.full) dtu_clock_was_empty(u, &before);
}
