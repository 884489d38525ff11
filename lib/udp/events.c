/* What dt_udp_next_event returns. */
#include "udp.h"
#include <stdlib.h>
#include <string.h>

enum {
    TURN_MS = 5,         /* while events wait, the socket is looked at as often */
    FLUSH_MS = 2,        /* a program that takes so long for an event has its frames sent before the next one */
    COPIED_OCTETS = 4096 /* a message up to this is copied, so that the room for the longest one can be used again */
};

dt_status dtu_events_open(dt_udp *u) {
    if (u->options.role != DT_UDP_ROLE_SERVICE) return DT_OK;
    u->event_room = malloc(DT_MAX_PAYLOAD);
    return u->event_room ? DT_OK : DT_NO_MEMORY;
}

void dtu_events_close(dt_udp *u) {
    for (struct message *it = u->queue.first, *next; it; it = next) {
        next = it->next;
        free(it);
    }
    free(u->lent);
    free(u->spare);
    free(u->reports.all);
    free(u->event_room);
}

/* --- collecting what the node has, after each call of it */

static void keep_report(dt_udp *u, const struct dt_report *report) {
    struct reports *r = &u->reports;
    if (r->first + r->count == r->size && r->first > 0) {
        memmove(r->all, r->all + r->first, r->count * sizeof *r->all);
        r->first = 0;
    }
    if (r->count == r->size) {
        size_t size = r->size ? 2 * r->size : 64;
        struct dt_report *more = realloc(r->all, size * sizeof *more);
        if (more == NULL) {
            dtu_fail(u, DT_NO_MEMORY, 0);
            return;
        }
        r->all = more;
        r->size = size;
    }
    r->all[r->first + r->count++] = *report;
}

static void collect_reports(dt_udp *u) {
    struct dt_report it;
    while (dtu_core_next_report(&u->core, &it)) {
        if (u->options.report_kinds >> it.kind & 1) keep_report(u, &it);
        dtu_objects_report(u, &it);
        bool readable = it.kind == DT_REPORT_ACCEPTED || (it.kind == DT_REPORT_RECORD_RELEASED && !it.sending);
        if (readable && dtu_core_mark_readable(&u->core, &it.flow) != DT_OK) dtu_fail(u, DT_NO_MEMORY, 0);
    }
}

/* A message of this many octets from the spare room: a copy, or the room itself. */
static struct message *from_spare(dt_udp *u, size_t len) {
    struct message *it = len > COPIED_OCTETS ? NULL : malloc(sizeof *it + len);
    if (it) {
        memcpy(it->octets, u->spare->octets, len);
        return it;
    }
    it = u->spare;
    u->spare = NULL;
    struct message *cut = realloc(it, sizeof *it + len);
    return cut ? cut : it;
}

static void keep_message(dt_udp *u, const struct dt_message *message) {
    struct message *it = from_spare(u, message->len);
    it->next = NULL;
    it->flow = message->flow;
    it->len = message->len;
    it->gap = message->gap;
    if (u->queue.last) u->queue.last->next = it;
    else u->queue.first = it;
    u->queue.last = it;
    u->queue.octets += sizeof *it + it->len;
}

/* Takes a node's messages as they become whole, until enough wait. */
static void collect_messages(dt_udp *u, uint64_t at) {
    for (u->unread = false; !u->failed;) {
        if (u->queue.octets >= u->options.max_queued) {
            u->unread = true;
            return;
        }
        if (u->spare == NULL) u->spare = malloc(sizeof *u->spare + u->options.max_message);
        if (u->spare == NULL) {
            u->unread = true; /* (they stay in the node until there is memory) */
            return;
        }
        struct dt_message it;
        struct iovec room = {u->spare->octets, u->options.max_message};
        dt_status status = dtu_core_next_message(&u->core, at, &room, &it);
        dtu_judge(u);
        if (status == DT_OK && !dtu_objects_message(u, &it.flow, u->spare->octets, it.len)) keep_message(u, &it);
        if (status == DT_LOST) u->counts.messages_lost++;
        u->counts.messages_too_long = it.dropped_too_long;
        if (status != DT_OK && status != DT_LOST && status != DT_MORE) return;
    }
}

/* Takes what the node has to say after a call with the reading `at`. A service keeps its events itself. */
void dtu_events_collect(dt_udp *u, uint64_t at) {
    if (u->core.node == NULL || u->core.driven) return; /* (a driven node is the program's to ask) */
    collect_reports(u);
    collect_messages(u, at);
    collect_reports(u);
}

/* --- handing out */

static bool next_report(dt_udp *u) {
    struct reports *r = &u->reports;
    if (r->count == 0) return false;
    u->event.kind = DT_UDP_EVENT_REPORT;
    u->report = r->all[r->first++];
    u->event.report = &u->report;
    if (--r->count == 0) r->first = 0;
    return true;
}

static bool next_message(dt_udp *u) {
    if (u->unread && u->queue.octets <= u->options.max_queued / 2) {
        uint64_t us = dtu_clock_us();
        if (dtu_begin(u, us)) dtu_events_collect(u, us / 1000);
    }
    struct message *it = u->queue.first;
    if (it == NULL) return false;
    u->queue.first = it->next;
    if (it->next == NULL) u->queue.last = NULL;
    u->queue.octets -= sizeof *it + it->len;
    u->lent = it;
    u->event.kind = DT_UDP_EVENT_MESSAGE;
    u->event.flow = it->flow;
    u->event.octets = it->octets;
    u->event.len = it->len;
    u->event.gap = it->gap;
    return true;
}

static bool next_of_service(dt_udp *u, uint8_t *room) {
    struct dt_event it;
    if (dtu_core_next_event(&u->core, room, DT_MAX_PAYLOAD, &it) != DT_OK) return false;
    if (it.kind == DT_EVENT_REPLY_UNCERTAIN) {
        u->event.kind = DT_UDP_EVENT_REPLY_UNCERTAIN;
        u->event.flow = it.flow;
        return true;
    }
    u->event.octets = room;
    u->event.len = it.len;
    if (it.kind == DT_EVENT_REQUEST) {
        u->event.kind = DT_UDP_EVENT_REQUEST;
        u->event.token = (struct dt_token){.call = it.call, .flow = it.flow};
        return true;
    }
    u->event.kind = it.kind == DT_EVENT_ANSWERED ? DT_UDP_EVENT_ANSWERED : DT_UDP_EVENT_UNSURE;
    u->event.call = it.call;
    u->event.user = it.user;
    dtu_govern_ended(u, &u->event);
    u->event.cause = it.cause;
    u->open_calls -= u->open_calls > 0;
    return true;
}

static bool next_too_big(dt_udp *u) {
    struct peer *peer = dtu_peers_next_too_big(&u->peers);
    if (peer == NULL) return false;
    u->event.kind = DT_UDP_EVENT_TOO_BIG;
    u->event.peer = peer->node;
    u->event.len = peer->too_big;
    peer->too_big = 0;
    return true;
}

/* A flow was full, and something was acknowledged or given up since. */
static bool next_room(dt_udp *u) {
    uint64_t queued, settled;
    if (!u->wants_room) return false;
    dtu_core_totals(&u->core, &queued, &settled);
    if (settled == u->settled_then) return false;
    u->wants_room = false;
    u->event.kind = DT_UDP_EVENT_ROOM;
    return true;
}

/* Makes the next thing that happened the event, but for alarms; the octets of a service's are in the room, of
 * DT_MAX_PAYLOAD octets. False: nothing happened. */
bool dtu_events_next(dt_udp *u, uint8_t *room) {
    memset(&u->event, 0, sizeof u->event);
    bool some = next_too_big(u) || dtu_govern_event(u) || next_room(u) || next_report(u) || dtu_objects_event(u) ||
                (u->core.service ? next_of_service(u, room) : next_message(u));
    if (some) dtu_count_event(u, u->event.kind, u->event.cause, u->event.call);
    if (some) dtu_record_event(u, &u->event);
    return some;
}

static bool next_event(dt_udp *u) { return dtu_watch_event(u) || dtu_events_next(u, u->event_room); }

static bool next_failure(dt_udp *u) {
    if (u->failed == 0) return false;
    dtu_count_publish(u);
    u->event.kind = DT_UDP_EVENT_FAILED;
    u->event.cause = u->failed;
    u->event.system_error = u->system_error;
    return true;
}

/* Before events that wait are handed out: a program that is slow mustn't keep the node from its work. Returns whether
 * the socket was looked at. */
bool dtu_events_keep_up(dt_udp *u, uint64_t now) {
    if (now - u->turned_at >= TURN_MS) {
        dtu_loop_turn(u, 0);
        return true;
    }
    if (u->out.made_at != DT_NEVER && now - u->out.made_at >= FLUSH_MS) dtu_write_all(u);
    return false;
}

const struct dt_udp_event *dt_udp_next_event(dt_udp *u, int wait_ms) {
    free(u->lent);
    u->lent = NULL;
    dtu_objects_release(u);
    memset(&u->event, 0, sizeof u->event); /* (a forked child takes no event) */
    if (!dtu_is_usable(u)) { /* (what waits in a forked child is the parent's) */
        if (u->is_copy || !next_event(u)) next_failure(u);
        return &u->event;
    }
    uint64_t now = dtu_clock_ms(), end = wait_ms < 0 ? DT_NEVER : now + (uint64_t)wait_ms;
    u->interrupted = false;
    bool looked = dtu_events_keep_up(u, now);
    for (bool first = true; !next_event(u) && !next_failure(u); looked = true, first = false) {
        if (wait_ms > 0 && !first) now = dtu_clock_ms();
        if (looked && !u->in.full && (u->interrupted || now >= end)) break;
        uint64_t left = end - now;
        dtu_loop_turn(u, u->in.full || now >= end ? 0 : left < INT32_MAX ? (int)left : -1);
    }
    if (u->event.kind == DT_UDP_EVENT_NONE) {
        dtu_write_all(u);
        dtu_loop_arm(u);
        dtu_count_publish(u);
    }
    return &u->event;
}
