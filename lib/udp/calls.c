/* What a program asks of the node. */
#include "udp.h"
#include <stdlib.h>
#include <string.h>

/* --- peers and ports */

dt_status dt_udp_set_peer(dt_udp *u, uint32_t node, const char *host, const char *port, struct dt_udp_error *error) {
    if (error) memset(error, 0, sizeof *error);
    if (!dtu_is_usable(u)) return dtu_refuse(error, u->failed, 0, "the driver failed, or this is a forked child");
    if (host == NULL || port == NULL) return dtu_refuse(error, DT_INVALID, 0, "node %u has no host or no port", node);
    struct peer found = {.choices = 0};
    dt_status status = dtu_socket_addresses(u, host, port, &found, error);
    if (status != DT_OK) return status;
    status = dtu_core_add_route(&u->core, node);
    struct peer *peer = status == DT_OK ? dtu_peers_find(&u->peers, node) : NULL;
    if (status == DT_OK && peer == NULL) peer = dtu_peers_add(&u->peers, node);
    if (peer == NULL)
        return dtu_refuse(error, status == DT_OK ? DT_NO_MEMORY : status, 0, "node %u isn't added: out of memory",
                          node);
    dtu_strangers_configured(u, peer);
    memcpy(peer->others, found.others, sizeof peer->others);
    peer->choices = found.choices;
    peer->choice = 0;
    peer->at = found.at;
    peer->own.family = 0;
    peer->heard = peer->answered = false;
    peer->configured = true;
    return DT_OK;
}

static bool has_room(struct ports *ports) {
    if (ports->count < ports->size) return true;
    size_t size = ports->size ? 2 * ports->size : 16;
    uint16_t *more = realloc(ports->list, size * sizeof *more);
    if (more == NULL) return false;
    ports->list = more;
    ports->size = size;
    return true;
}

dt_status dt_udp_open_port(dt_udp *u, uint16_t port, uint8_t kind) {
    struct ports *ports = &u->ports;
    bool all = u->options.flags & DT_UDP_FLAG_ALL_PORTS;
    if (!dtu_is_usable(u)) return u->failed;
    if (ports->open[port / 8] >> port % 8 & 1) return DT_EXISTS;
    if (!has_room(ports)) return DT_NO_MEMORY;
    dt_status status = dtu_core_set_port(&u->core, port, kind);
    if (status != DT_OK) return status;
    ports->list[ports->count++] = port;
    status = dtu_core_set_guard(&u->core, ports, all, u->options.max_flows);
    if (status != DT_OK) {
        ports->count--;
        return status;
    }
    ports->open[port / 8] |= (uint8_t)(1u << port % 8);
    return DT_OK;
}

/* --- messages and calls: each is an input of the node at this reading, and what it makes has to leave soon. What may
 * not enter yet, since enough is under way to the peer, waits (governor.c), but for messages, which are refused. */

/* Whether the call can be made, with `*at` as its reading: DT_OK, or the status that it gets. */
static dt_status begin(dt_udp *u, const void *handle, uint64_t *at) {
    if (!dtu_is_usable(u)) return u->failed;
    if (handle == NULL) return DT_NOT_OPEN;
    dtu_driven_send_made(u);
    uint64_t us = dtu_clock_us();
    *at = us / 1000;
    return dtu_begin(u, us) ? DT_OK : u->failed;
}

/* (The library wants a pointer even if there are no octets. It doesn't write through it.) */
static struct iovec payload_of(const void *octets, size_t len) {
    static const uint8_t NONE;
    return (struct iovec){(void *)(uintptr_t)(octets ? octets : &NONE), octets ? len : 0};
}

/* Has an event say when there may be room again in a flow that was full. */
static void note_full(dt_udp *u, dt_status status) {
    uint64_t queued;
    if (status != DT_FULL) return;
    dtu_core_totals(&u->core, &queued, &u->settled_then);
    u->wants_room = true;
}

struct dt_send_result dt_udp_send(dt_udp *u, const struct dt_flow *flow, const void *octets, size_t len) {
    uint64_t at = 0;
    dt_status status = begin(u, u->core.node, &at);
    if (status != DT_OK) return (struct dt_send_result){.status = status};
    struct iovec payload = payload_of(octets, len);
    struct peer *peer = dtu_peers_find(&u->peers, flow->target);
    if (dtu_govern_waits(u, peer, flow, len)) {
        note_full(u, DT_FULL); /* (something is under way, so something will be settled) */
        struct dt_send_result full = {.status = DT_FULL};
        dtu_count_send(u, &full);
        return full;
    }
    struct dt_send_result sent = dtu_core_send(&u->core, at, flow, &payload);
    note_full(u, sent.status);
    dtu_judge(u);
    dtu_events_collect(u, at);
    dtu_govern_count(u, peer);
    dtu_count_send(u, &sent);
    return sent;
}

/* --- calls and replies */

/* Whether the library would take such a call, so that it may wait: what is wrong is said at once. */
static bool may_wait(const dt_udp *u, const struct dt_udp_call_options *o, size_t len, uint64_t at) {
    const struct dt_flow *flow = &o->flow;
    bool open = u->ports.open[flow->source_port / 8] >> flow->source_port % 8 & 1;
    return open && flow->source == u->options.node && flow->target != flow->source && o->timeout_ms > 0 &&
           len + 8 <= u->options.params->cap && at >= u->quiet_until;
}

static void record_call(dt_udp *u, const struct dt_udp_call_options *o, size_t len, const struct dt_call_result *made,
                        bool waits) {
    struct called it = {
        .call = made->call, .len = len, .timeout_ms = o->timeout_ms, .status = made->status, .waits = waits};
    dtu_record_call(u, &o->flow, &it);
}

struct dt_call_result dt_udp_make_call(dt_udp *u, const struct dt_udp_call_options *o, const void *octets,
                                       size_t len) {
    uint64_t at = 0;
    if (o->size != sizeof *o) return (struct dt_call_result){.status = DT_INVALID};
    dt_status status = begin(u, u->core.service, &at);
    if (status != DT_OK) return (struct dt_call_result){.status = status};
    struct iovec payload = payload_of(octets, len);
    struct peer *peer = dtu_peers_find(&u->peers, o->flow.target);
    struct dt_call_result made;
    if (may_wait(u, o, len, at) && dtu_govern_waits(u, peer, &o->flow, len)) {
        made = dtu_govern_keep_call(u, peer, o, &payload);
        dtu_count_call(u, &made);
        record_call(u, o, len, &made, true);
        return made;
    }
    made = dtu_core_make_call(&u->core, at, o, &payload);
    record_call(u, o, len, &made, false);
    if (made.status == DT_OK) u->open_calls++;
    note_full(u, made.status);
    dtu_judge(u);
    dtu_govern_count(u, peer);
    dtu_count_call(u, &made);
    (void)dtu_events_keep_up(u, at);
    return made;
}

struct dt_call_result dt_udp_call(dt_udp *u, const struct dt_flow *flow, const void *octets, size_t len,
                                  uint32_t timeout_ms) {
    struct dt_udp_call_options options = {.size = sizeof options, .timeout_ms = timeout_ms, .flow = *flow};
    return dt_udp_make_call(u, &options, octets, len);
}

struct dt_reply_result dt_udp_reply(dt_udp *u, const struct dt_token *token, const void *octets, size_t len) {
    uint64_t at = 0;
    dt_status status = begin(u, u->core.service, &at);
    if (status != DT_OK) return (struct dt_reply_result){.status = status};
    struct iovec payload = payload_of(octets, len);
    struct peer *peer = dtu_peers_find(&u->peers, token->flow.source);
    struct dt_reply_result replied;
    if (len + 8 <= u->options.params->cap && dtu_govern_waits(u, peer, &token->flow, len)) {
        replied = dtu_govern_keep_reply(u, peer, token, &payload);
        dtu_record_reply(u, token, len, replied.status);
        dtu_count_reply(u, &replied);
        return replied;
    }
    replied = dtu_core_reply(&u->core, at, token, &payload);
    dtu_record_reply(u, token, len, replied.status);
    note_full(u, replied.status);
    dtu_judge(u);
    dtu_govern_count(u, peer);
    dtu_count_reply(u, &replied);
    (void)dtu_events_keep_up(u, at);
    return replied;
}

dt_status dt_udp_forget(dt_udp *u, const struct dt_token *token) {
    uint64_t at = 0;
    dt_status status = begin(u, u->core.service, &at);
    if (status != DT_OK) return status;
    status = dtu_core_forget(&u->core, at, token);
    if (status == DT_OK) dtu_record_forgotten(u, token);
    dtu_judge(u);
    return status;
}

void dt_udp_flush(dt_udp *u) {
    if (dtu_is_usable(u)) dtu_write_all(u);
}
