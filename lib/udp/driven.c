/* Nodes that the program opened, with links of their own: the neighbours at the ends of the links, the functions that
 * stand for those of the handle. */
#include "udp.h"
#include <errno.h>
#include <stdlib.h>
#include <string.h>

enum { FEWEST_BUCKETS = 16 };

dt_udp *dt_udp_drive(const struct dt_udp_driven *driven, const struct dt_udp_options *options,
                     struct dt_udp_error *error) {
    struct dt_udp_options given = {.size = 0};
    if (error) memset(error, 0, sizeof *error);
    if (driven->size != sizeof *driven || (driven->node == NULL) == (driven->service == NULL)) {
        (void)dtu_refuse(error, DT_INVALID, 0,
                         "driven.size isn't sizeof(struct dt_udp_driven), or it has no node, or two");
        return NULL;
    }
    if (options->size <= sizeof given) memcpy(&given, options, options->size); /* (else dtu_open refuses it) */
    given.role = driven->service ? DT_UDP_ROLE_SERVICE : DT_UDP_ROLE_NODE;
    given.start_as = DT_UDP_START_FIRST; /* (the program has started it) */
    given.state = NULL;
    given.max_peers = 0;
    return dtu_open(driven, &given, error);
}

void dtu_driven_close(dt_udp *u) { free(u->driven.there); }

/* --- neighbours */

static struct peer **bucket_at(const dt_udp *u, const struct address *at) {
    uint64_t value = at->name.any.sa_family == AF_INET
                         ? (uint64_t)at->name.v4.sin_addr.s_addr << 16 | at->name.v4.sin_port
                         : at->name.v6.sin6_port;
    for (size_t i = 0; at->name.any.sa_family != AF_INET && i < 16; i++)
        value = value * 31 + at->name.v6.sin6_addr.s6_addr[i];
    return &u->driven.there[(value * u->peers.key >> 32) & (u->driven.size - 1)];
}

struct peer *dtu_driven_neighbour(const dt_udp *u, const struct address *at) {
    if (u->driven.there == NULL) return NULL;
    struct peer *it = *bucket_at(u, at);
    while (it && !dtu_same_address(&it->at, at)) it = it->next_there;
    return it;
}

static void put_there(dt_udp *u, struct peer *it) {
    struct peer **bucket = bucket_at(u, &it->at);
    it->next_there = *bucket;
    *bucket = it;
}

/* Makes all buckets anew, for one more neighbour or another address. False: out of memory, and nothing changed. */
static bool rebuild(dt_udp *u) {
    struct driven *d = &u->driven;
    size_t size = d->size ? d->size : FEWEST_BUCKETS;
    while (size < d->count) size *= 2;
    struct peer **there = calloc(size, sizeof *there);
    if (there == NULL) return false;
    free(d->there);
    d->there = there;
    d->size = size;
    for (size_t i = 0; i < u->peers.size; i++)
        for (struct peer *it = u->peers.buckets[i]; it; it = it->next)
            if (it->at.len) put_there(u, it);
    return true;
}

static bool needs_rebuilding(const dt_udp *u, const struct peer *it) {
    return it->at.len || u->driven.count > u->driven.size;
}

/* The charge of a link of the node: of the first one with this number, as the library has it. */
static uint32_t charge_of(const dt_udp *u, uint16_t link) {
    for (size_t i = 0; i < u->driven.link_count; i++)
        if (u->driven.links[i].number == link) return u->driven.links[i].charge;
    return 0;
}

dt_status dt_udp_set_neighbour(dt_udp *u, const struct dt_route *route, const char *host, const char *port,
                               struct dt_udp_error *error) {
    if (error) memset(error, 0, sizeof *error);
    if (!dtu_is_usable(u)) return dtu_refuse(error, u->failed, 0, "the driver failed, or this is a forked child");
    if (!u->core.driven || host == NULL || port == NULL)
        return dtu_refuse(error, DT_INVALID, 0, "node %u: no host, no port, or the driver opened the node", route->to);
    struct peer found = {.choices = 0};
    dt_status status = dtu_socket_addresses(u, host, port, &found, error);
    if (status != DT_OK) return status;
    struct peer *peer = dtu_peers_find(&u->peers, route->to);
    if (peer == NULL && (peer = dtu_peers_add(&u->peers, route->to)) != NULL) u->driven.count++;
    if (peer == NULL) return dtu_refuse(error, DT_NO_MEMORY, 0, "node %u isn't added: out of memory", route->to);
    bool anew = needs_rebuilding(u, peer);
    struct address before = peer->at;
    peer->at = found.at;
    if (anew && !rebuild(u)) {
        peer->at = before;
        return dtu_refuse(error, DT_NO_MEMORY, 0, "node %u isn't added: out of memory", route->to);
    }
    if (!anew) put_there(u, peer);
    peer->link = route->link;
    peer->charge = charge_of(u, route->link);
    peer->configured = peer->heard = true;
    return DT_OK;
}

/* The neighbour on the link of the last datagram out, or null. The one that was found last is tried first: most nodes
 * have one way to all that aren't beside them. */
struct peer *dtu_driven_next_hop(dt_udp *u) {
    struct peer *hop = u->driven.hop;
    if (hop && hop->link == u->core.link_out) return hop;
    for (size_t i = 0; i < u->peers.size; i++)
        for (struct peer *it = u->peers.buckets[i]; it; it = it->next)
            if (it->link == u->core.link_out) return u->driven.hop = it;
    return NULL;
}

/* --- datagrams */

static void note_heard(struct driven *d, uint32_t maker) {
    bool again = d->heard_count > 0 && d->heard[d->heard_count - 1] == maker;
    if (!again && d->heard_count < DT_UDP_MAX_HEARD) d->heard[d->heard_count++] = maker;
}

/* A datagram of a neighbour came: if its age is known, it is passed in. */
void dtu_driven_receive(dt_udp *u, struct peer *peer, struct arrival *it) {
    it->hop = peer->node;
    it->charge = peer->charge;
    if (dtu_watch_is_bare(u, it)) dtu_watch_bare(u, peer, it);
    else if (dtu_watch_takes(u, &peer->watch, it)) dtu_take_frame(u, peer, it);
}

/* Passes in a datagram of a neighbour. */
void dtu_driven_take(dt_udp *u, struct peer *peer, const struct arrival *it) {
    u->core.link = peer->link;
    u->core.received = DT_OK;
    if (!dtu_pass_in(u, NULL, it)) { /* (nothing of it is governed) */
        u->driven.blocked |= u->core.received == DT_BLOCKED;
        return;
    }
    note_heard(&u->driven, it->maker);
    peer->answered = true;
    peer->heard_at = it->at;
    if (it->own.family) peer->own = it->own;
}

/* The program may have called the node since the driver's last call: what that made leaves too. It wasn't made before
 * the node was last asked for all that leaves. */
void dtu_driven_begin(dt_udp *u) {
    if (!u->core.driven || u->out.made_at != DT_NEVER) return;
    u->out.made_at = dtu_clock_ms();
    u->out.made_us = u->driven.drained_us;
}

/* Before an input of the driver's: what the program's own calls of the node made leaves with its own time, and not with
 * that of the input, by which it would look younger than it is. */
void dtu_driven_send_made(dt_udp *u) {
    if (!u->core.driven || u->out.made_at != DT_NEVER) return;
    dtu_driven_begin(u);
    dtu_write_all(u);
}

/* The node is asked for all that leaves. */
void dtu_driven_drained(dt_udp *u) {
    if (u->core.driven && u->watching.on) u->driven.drained_us = dtu_clock_us();
}

/* Tells the hooks of a frame that wasn't sent. They get one frame out at a time. */
void dtu_driven_written(dt_udp *u) {
    uint64_t lost = u->counts.not_sent + u->counts.too_big;
    if (u->core.hooks && lost != u->driven.lost) u->core.hooks->not_sent(u->core.hooks->user);
    u->driven.lost = lost;
}

bool dt_udp_flush_since(dt_udp *u, uint64_t at) {
    if (!dtu_is_usable(u)) return false;
    if (u->out.made_at == DT_NEVER || 1000 * at < u->out.made_us) u->out.made_us = 1000 * at;
    if (at < u->out.made_at) u->out.made_at = at;
    dtu_write_all(u);
    return dtu_events_keep_up(u, dtu_clock_ms());
}

int dt_udp_socket(dt_udp *u) { return u->socket; }
int dt_udp_system_error(dt_udp *u) { return u->system_error; }
