/* Many events by one call: what bindings pay for a call, they pay once for all of them. */
#include "udp.h"
#include <string.h>

enum {
    TURN_MS = 5,   /* while events wait, the socket is looked at as often */
    MOST_LOOKS = 8 /* before events are handed out, of which the last one filled its batch of datagrams */
};

static bool has_room(const struct dt_udp_batch *b) {
    return b->count < b->max_items && b->size - b->used >= DT_MAX_PAYLOAD;
}

/* Adds the driver's event, whose octets are in the room already. */
static void add(dt_udp *u, struct dt_udp_batch *b) {
    const struct dt_udp_event *it = &u->event;
    bool is_request = it->kind == DT_UDP_EVENT_REQUEST;
    struct dt_udp_item *item = &b->items[b->count++];
    *item = (struct dt_udp_item){.call = is_request ? it->token.call : it->call,
                                 .at = b->used,
                                 .len = (uint32_t)it->len,
                                 .flow = is_request ? it->token.flow : it->flow,
                                 .kind = it->kind,
                                 .cause = it->cause,
                                 .user = it->user};
    if (it->peer) item->flow.target = it->peer;
    if (it->octets) b->used += (uint32_t)it->len;
}

/* Takes the events that wait. False: there may be more than there is room for. */
static bool take(dt_udp *u, struct dt_udp_batch *b) {
    if (u->core.service == NULL || b->max_items == 0) return true;
    while (has_room(b)) {
        if (!dtu_events_next(u, b->octets + b->used)) return true;
        add(u, b);
    }
    return false;
}

/* Makes the calls of the batch, up to the first one that is refused. Whether none is. */
static bool make(dt_udp *u, struct dt_udp_batch *b) {
    const uint8_t *octets = b->payloads;
    for (; b->calls_made < b->call_count; b->calls_made++) {
        const struct dt_udp_batch_call *it = &b->calls[b->calls_made];
        struct dt_udp_call_options options = {
            .size = sizeof options, .timeout_ms = it->timeout_ms, .flow = it->flow, .user = it->user};
        b->refused = dt_udp_make_call(u, &options, octets, it->len);
        if (b->refused.status != DT_OK) return false;
        octets += it->len;
    }
    return true;
}

static void tell_heard(dt_udp *u, struct dt_udp_batch *b) {
    struct driven *d = &u->driven;
    if (b->heard && d->heard_count) memcpy(b->heard, d->heard, d->heard_count * sizeof *d->heard);
    b->heard_count = d->heard_count;
    b->blocked = d->blocked;
    d->heard_count = 0;
    d->blocked = false;
    struct watch_alarm alarm = {0, 0};
    (void)dtu_watch_alarm(u, &alarm);
    b->alarm_peer = alarm.node;
    b->alarm = alarm.cause;
}

/* Looks at the socket and takes events, until there are some and the socket is empty, or the time is over. */
static void fill(dt_udp *u, uint64_t end, struct dt_udp_batch *b) {
    uint64_t now = dtu_clock_ms();
    bool has_events = u->core.service && b->max_items > 0;
    for (unsigned looks = 0;; looks++) {
        bool all = take(u, b), some = b->count > 0 || (!has_events && looks > 0);
        if (u->failed || !all || (some && looks >= MOST_LOOKS)) return;
        if (some && (looks ? !u->in.full : now - u->turned_at < TURN_MS)) return;
        if (looks > 0 && !u->in.full && (u->interrupted || now >= end)) return;
        uint64_t left = some || u->in.full || now >= end ? 0 : end - now;
        dtu_loop_turn(u, left < INT32_MAX ? (int)left : -1);
        now = dtu_clock_ms();
    }
}

dt_status dt_udp_next_batch(dt_udp *u, int wait_ms, struct dt_udp_batch *b) {
    b->count = b->used = b->heard_count = b->calls_made = b->alarm_peer = 0;
    b->blocked = false;
    b->alarm = 0;
    if (!dtu_is_usable(u)) {
        b->refused = (struct dt_call_result){.status = u->failed};
        if (!u->is_copy) (void)take(u, b); /* (what waits in a forked child is the parent's) */
        return u->failed;
    }
    if (u->core.node && !u->core.driven) return DT_INVALID;
    u->interrupted = false;
    if (!make(u, b)) wait_ms = 0; /* (first, so that what it makes has its own time) */
    dtu_driven_begin(u);
    fill(u, wait_ms < 0 ? DT_NEVER : dtu_clock_ms() + (uint64_t)wait_ms, b);
    dtu_write_all(u);
    dtu_loop_arm(u);
    dtu_count_publish(u);
    tell_heard(u, b);
    return u->failed ? u->failed : DT_OK;
}
