/* Datagrams from the node to the socket. */
#include "udp.h"
#include <errno.h>
#include <netinet/udp.h>
#include <poll.h>
#include <stdlib.h>
#include <string.h>

enum {
    FRAME_ROOM = DT_MAX_DATAGRAM + TRAILER,
    PACKET_HEAD = 14, /* octets of a packet before those of its flow (docs/formats.md) */
    MADE_BY = 8,      /* where a frame says which node made it: it, its target, the packet's kind and flow are before */
    NUMBER = 22,      /* the packet's number */
    ACKNOWLEDGEMENT = 2, /* its kind */
    MAX_JOINED = 65000 /* octets that one UDP_SEGMENT call sends: below what fits into one datagram of IPv4 and IPv6 */
};

dt_status dtu_writing_open(dt_udp *u) {
    u->out.rooms = malloc((size_t)OUT_BATCH * FRAME_ROOM);
    return u->out.rooms ? DT_OK : DT_NO_MEMORY;
}

void dtu_writing_close(dt_udp *u) { free(u->out.rooms); }

/* --- control messages: how the system cuts the octets, and from which of our addresses they leave */

static void add_control(struct msghdr *head, int level, int type, const struct iovec *data) {
    struct cmsghdr *it = (struct cmsghdr *)(void *)((char *)head->msg_control + head->msg_controllen);
    it->cmsg_level = level;
    it->cmsg_type = type;
    it->cmsg_len = CMSG_LEN(data->iov_len);
    memcpy(CMSG_DATA(it), data->iov_base, data->iov_len);
    head->msg_controllen += CMSG_SPACE(data->iov_len);
}

static void add_own_address(struct msghdr *head, const struct own_address *own) {
    if (own->family == AF_INET) {
        struct in_pktinfo info = {.ipi_spec_dst = own->name.v4};
        add_control(head, IPPROTO_IP, IP_PKTINFO, &(struct iovec){&info, sizeof info});
    } else if (own->family == AF_INET6) {
        struct in6_pktinfo info = {.ipi6_addr = own->name.v6};
        add_control(head, IPPROTO_IPV6, IPV6_PKTINFO, &(struct iovec){&info, sizeof info});
    }
}

static void set_controls(dt_udp *u, unsigned i) {
    struct msghdr *head = &u->out.heads[i].msg_hdr;
    memset(u->out.controls[i], 0, CONTROL_ROOM);
    head->msg_control = u->out.controls[i];
    head->msg_controllen = 0;
    uint16_t segment = (uint16_t)head->msg_iov[0].iov_len;
    if (u->every_address) add_own_address(head, &u->out.peers[i]->own);
    if (head->msg_iovlen > 1) add_control(head, IPPROTO_UDP, UDP_SEGMENT, &(struct iovec){&segment, sizeof segment});
    if (head->msg_controllen == 0) head->msg_control = NULL;
}

/* --- gathering */

/* Whether a frame can leave with those of the last head: to the same peer, all of one length but the last. */
static bool joins(const dt_udp *u, const struct peer *peer, size_t len) {
    if (!u->segments || u->out.count == 0 || u->out.peers[u->out.count - 1] != peer) return false;
    const struct msghdr *head = &u->out.heads[u->out.count - 1].msg_hdr;
    size_t first = head->msg_iov[0].iov_len;
    return head->msg_iovlen < MAX_SEGMENTS && (head->msg_iovlen + 1) * first <= MAX_JOINED &&
           head->msg_iov[head->msg_iovlen - 1].iov_len == first && len <= first;
}

static void add(dt_udp *u, struct peer *peer, struct iovec *part) {
    if (joins(u, peer, part->iov_len)) {
        u->out.heads[u->out.count - 1].msg_hdr.msg_iovlen++;
        return;
    }
    u->out.peers[u->out.count] = peer;
    u->out.heads[u->out.count++].msg_hdr = (struct msghdr){
        .msg_name = &peer->at.name, .msg_namelen = peer->at.len, .msg_iov = part, .msg_iovlen = 1};
}

/* Whether a frame is an acknowledgement of ours that says all that one before it says: of the same flow, and with no lesser
 * number. (docs/formats.md has the places. The lives may differ, and the later number and window hold.) */
static bool supersedes(const dt_udp *u, const struct iovec *frame, const struct iovec *before) {
    const uint8_t *new = frame->iov_base, *old = before->iov_base;
    size_t len = HEADER + PACKET_HEAD;
    if (frame->iov_len != len || before->iov_len != len + (u->watching.on ? TRAILER_LEN : 0)) return false;
    if (new[HEADER] != ACKNOWLEDGEMENT || dtu_get_number(new + MADE_BY, 4) != u->options.node) return false;
    uint32_t more = (uint32_t)dtu_get_number(new + NUMBER, 4) - (uint32_t)dtu_get_number(old + NUMBER, 4);
    return memcmp(new + MADE_BY, old + MADE_BY, NUMBER - MADE_BY) == 0 && more <= INT32_MAX;
}

/* An acknowledgement often waits before longer frames to the same peer. Behind them it leaves with them by one call,
 * and arrives with them too. Frames with octets keep their order: a receiver without a shelf takes them in by their
 * order only, so of two that changed places one would have to be sent again. */
static bool moves_behind(const dt_udp *u, unsigned i) {
    const struct msghdr *one = &u->out.heads[i].msg_hdr, *many = &u->out.heads[i + 1].msg_hdr;
    size_t each = many->msg_iov[0].iov_len, count = many->msg_iovlen;
    size_t bare = HEADER + PACKET_HEAD + (u->watching.on ? TRAILER : 0);
    return u->out.peers[i] == u->out.peers[i + 1] && one->msg_iovlen == 1 && one->msg_iov->iov_len <= bare &&
           bare <= each &&
           many->msg_iov[count - 1].iov_len == each && count < MAX_SEGMENTS && (count + 1) * each <= MAX_JOINED;
}

static void move_behind(dt_udp *u) {
    unsigned kept = 0;
    for (unsigned i = 0; i < u->out.count; i++, kept++) {
        if (u->segments && i + 1 < u->out.count && moves_behind(u, i)) {
            struct msghdr *many = &u->out.heads[i + 1].msg_hdr;
            struct iovec small = *u->out.heads[i].msg_hdr.msg_iov;
            many->msg_iov--; /* (its parts lie behind that one) */
            memmove(many->msg_iov, many->msg_iov + 1, many->msg_iovlen * sizeof small);
            many->msg_iov[many->msg_iovlen++] = small;
            i++;
        }
        u->out.heads[kept].msg_hdr = u->out.heads[i].msg_hdr;
        u->out.peers[kept] = u->out.peers[i];
    }
    u->out.count = kept;
}

/* Takes frames from the node, as many as are sent at once, and writes their trailers. False: none waits any more. */
static bool gather(dt_udp *u, unsigned *parts) {
    uint32_t to;
    u->out.count = *parts = 0;
    for (unsigned tried = 0; tried < (u->core.hooks ? 1 : OUT_BATCH); tried++) {
        struct iovec *part = &u->out.parts[*parts];
        part->iov_base = u->out.rooms + (size_t)*parts * FRAME_ROOM;
        if (!dtu_core_next_datagram(&u->core, part->iov_base, &part->iov_len, &to)) return false;
        struct peer *peer = dtu_peers_find(&u->peers, to);
        if (peer == NULL && u->core.driven) peer = dtu_driven_next_hop(u);
        if (peer == NULL || peer->at.len == 0) {
            u->counts.not_sent++;
            continue;
        }
        if (*parts > 0 && u->out.peers[u->out.count - 1] == peer && supersedes(u, part, part - 1)) {
            memcpy(part[-1].iov_base, part->iov_base, part->iov_len); /* (before the trailer of that one) */
            continue;
        }
        (*parts)++;
        dtu_count_out(u, part);
        dtu_watch_stamp(u, peer, part);
        add(u, peer, part);
    }
    return true;
}

/* --- sending */

/* Whether a frame that was made by this reading mustn't leave any more. With the watch its trailer says how old it is, so
 * it leaves as long as it may have life left. */
static bool is_late(const dt_udp *u, uint64_t made_at) {
    return dtu_clock_ms() - made_at > (u->watching.on ? u->options.params->mpl : LATE_MS);
}

enum { FLAGS = MSG_DONTWAIT | MSG_NOSIGNAL };

/* Waits until the socket takes more, for LATE_MS after what waits was made at most. */
static bool waits_for_room(dt_udp *u) {
    uint64_t since = dtu_clock_ms() - u->out.made_at;
    if (since >= LATE_MS) return false;
    return poll(&(struct pollfd){.fd = u->socket, .events = POLLOUT}, 1, (int)(LATE_MS - since)) > 0;
}

/* Keeps the first frame of those for a peer that hasn't answered yet: it may ask for a proof first. */
static void hold(dt_udp *u, const struct peer *peer, const struct iovec *frame) {
    if (u->held.len && u->held.to == peer->node && !is_late(u, u->held.made_at)) return;
    u->held.to = peer->node;
    u->held.len = frame->iov_len;
    u->held.made_at = u->out.made_at;
    memcpy(u->held.octets, frame->iov_base, frame->iov_len);
}

static void record(dt_udp *u, const struct peer *peer, const struct iovec *frame) {
    if (u->recording == NULL) return;
    struct passing it = {.peer = &peer->at, .own = &peer->own, .out = true};
    dtu_record_datagram(u, &it, frame->iov_base, frame->iov_len);
}

static void sent(dt_udp *u, unsigned i) {
    struct peer *peer = u->out.peers[i];
    const struct msghdr *head = &u->out.heads[i].msg_hdr;
    for (size_t k = 0; k < head->msg_iovlen; k++) record(u, peer, head->msg_iov + k);
    u->counts.datagrams_out += head->msg_iovlen;
    peer->sent_at = u->out.made_at;
    if (!peer->answered && head->msg_iov->iov_len <= sizeof u->held.octets) hold(u, peer, head->msg_iov);
    if (!peer->heard && peer->choices > 1) { /* the next one goes to another address of its name */
        peer->choice = (uint8_t)((peer->choice + 1) % peer->choices);
        peer->at = peer->others[peer->choice];
    }
}

/* A datagram that the system refused is lost, and the node sends it again. */
static void lost(dt_udp *u, struct peer *peer, size_t len, int why) {
    if (why == EMSGSIZE) {
        u->counts.too_big++;
        dtu_peers_note_too_big(&u->peers, peer, (uint32_t)len);
        return;
    }
    u->counts.not_sent++;
    peer->own.family = 0; /* (we may not have that address any more) */
}

/* Sends the datagrams of a head one by one, after the system refused them together. If they all pass, it is the joining
 * that this way out doesn't take. */
static void send_singly(dt_udp *u, unsigned i, int why) {
    struct msghdr joined = u->out.heads[i].msg_hdr, *head = &u->out.heads[i].msg_hdr;
    bool all = true;
    head->msg_iovlen = 1;
    for (size_t k = 0; k < joined.msg_iovlen; k++, head->msg_iov++) {
        set_controls(u, i);
        u->counts.writes++;
        if (sendmsg(u->socket, head, FLAGS) >= 0) {
            u->counts.datagrams_out++;
            record(u, u->out.peers[i], head->msg_iov);
            continue;
        }
        all = false;
        lost(u, u->out.peers[i], head->msg_iov->iov_len, errno);
    }
    if (all && why != EAGAIN && why != ENOBUFS && why != ENOMEM) u->segments = false;
}

/* Sends the heads from `i` on, as many as the system takes. How many it took, or -1 and errno. */
static int send_some(dt_udp *u, unsigned i) {
    u->counts.writes++;
    if (u->options.flags & DT_UDP_FLAG_WITHOUT_BATCHES || u->out.count - i == 1)
        return sendmsg(u->socket, &u->out.heads[i].msg_hdr, FLAGS) < 0 ? -1 : 1;
    return sendmmsg(u->socket, u->out.heads + i, u->out.count - i, FLAGS);
}

static void send_heads(dt_udp *u) {
    move_behind(u);
    for (unsigned i = 0; i < u->out.count; i++) set_controls(u, i);
    for (unsigned i = 0; i < u->out.count;) {
        int took = send_some(u, i), why = errno;
        for (; took > 0; took--, i++) sent(u, i);
        if (took == 0) continue;
        if ((why == EAGAIN || why == EWOULDBLOCK || why == EINTR) && waits_for_room(u)) continue;
        if (u->out.heads[i].msg_hdr.msg_iovlen > 1) send_singly(u, i, why);
        else lost(u, u->out.peers[i], u->out.heads[i].msg_hdr.msg_iov->iov_len, why);
        i++;
    }
}

/* Sends one of the driver's own datagrams to where one came from. It may be lost. */
void dtu_write_control(dt_udp *u, const struct arrival *to, const uint8_t *octets, size_t len) {
    _Alignas(struct cmsghdr) char control[CONTROL_ROOM] = {0};
    struct address address = *to->from;
    struct iovec part = {(void *)(uintptr_t)octets, len};
    struct msghdr head = {.msg_name = &address.name,
                          .msg_namelen = address.len,
                          .msg_iov = &part,
                          .msg_iovlen = 1,
                          .msg_control = control};
    if (u->every_address) add_own_address(&head, &to->own);
    if (head.msg_controllen == 0) head.msg_control = NULL;
    u->counts.writes++;
    if (sendmsg(u->socket, &head, FLAGS) < 0) u->counts.not_sent++;
    else dtu_record_datagram(u, &(struct passing){.peer = &address, .own = &to->own, .out = true}, octets, len);
}

/* Sends the last frame to a peer once more, if it isn't late yet: a repeat, which does no harm. */
void dtu_write_held(dt_udp *u, const struct peer *peer) {
    struct held *it = &u->held;
    if (it->len == 0 || it->to != peer->node || is_late(u, it->made_at)) return;
    u->counts.writes++;
    if (sendto(u->socket, it->octets, it->len, FLAGS, &peer->at.name.any, peer->at.len) >= 0) {
        u->counts.datagrams_out++;
        record(u, peer, &(struct iovec){it->octets, it->len});
    }
    it->len = 0;
}

/* Sends the frames that wait. What is late counts as lost: without the watch its life says nothing of the time that it waited here. */
static void write_frames(dt_udp *u) {
    if (u->out.made_at == DT_NEVER) return;
    dtu_driven_drained(u);
    unsigned parts;
    for (bool more = true; more;) {
        more = gather(u, &parts);
        if (parts > 0 && is_late(u, u->out.made_at)) u->counts.not_sent += parts;
        else send_heads(u);
        dtu_driven_written(u);
    }
    u->out.made_at = DT_NEVER;
    dtu_loop_arm(u);
}

/* Puts everything that waits on the wire: of objects a part at a time, so that none of it is late. */
void dtu_write_all(dt_udp *u) {
    bool more;
    do {
        more = dtu_objects_send(u);
        write_frames(u);
    } while (more && !u->failed);
}
