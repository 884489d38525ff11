/* The governor: how much is under way to each peer.
 *
 * What is handed in to the node and isn't settled stays, for each peer, within a window that follows the delay which
 * the peer's trailers say. The rules of the window (dt_watch_*) are proved; what is measured is here: the delay of a
 * round less the least of the last 8 to 16 s is the delay in queues, and it is kept at an aim. A loss alone doesn't
 * make the window smaller. The library counts for all peers together, so what an input of a peer settles is taken as
 * the peer's, and what is given up as that of the peers that were silent for longest. */
#include "udp.h"
#include <stdlib.h>
#include <string.h>

enum {
    BASE_SPAN_US = 8000000,
    LEAST_ROUND_US = 500,
    UNPACED_US = 4000, /* shorter ways than this can't be paced by a clock of milliseconds */
    HEADERS = 92, /* octets */
    BURST_SEGMENTS = 16,
    QUICK_OCTETS = 1 << 20, /* a start grows faster up to this window: of a greater one a round shows it too late */
    FIRST_ROUNDS = 3, /* in which no loss is counted */
    PROBE_ROUNDS = 64, /* beside others: after so many it is tried whether they are still there */
    LONG_LOW = 4,    /* rounds without a queue after which the window grows faster: a stall ended the start too soon */
    LONG_ABOVE = 6,  /* rounds above the aim after which others are taken to fill the queue */
    NAMED = 4096,    /* buckets */
    FLOWS = 4096,    /* buckets */
    MOST_TRIED = 16  /* flows without room that are tried again at one time */
};

/* --- what is under way */

/* So many octets with the headers of the datagrams that they leave in: of IP, UDP, the frame, and the trailer. */
static uint64_t wire_of(const dt_udp *u, uint64_t octets) {
    uint64_t seg = u->options.params->seg;
    return octets + (octets + seg - 1) / seg * HEADERS;
}

/* So many octets to a peer are settled: of their headers the share that they have on the average. */
static void settle(dt_udp *u, struct watch *it, uint64_t octets) {
    it->on_wire -= octets < it->under_way ? it->on_wire * octets / it->under_way : it->on_wire;
    it->under_way -= octets;
    u->governing.counted -= octets;
}

/* Takes off octets that were given up: first of peers from which nothing came for rto, then of any. (Seldom, so all
 * peers may be gone through.) */
static void take_off(dt_udp *u, uint64_t octets) {
    uint64_t silent_us = dtu_clock_us() - 1000 * (uint64_t)u->options.params->rto;
    for (int any = 0; any < 2 && octets; any++)
        for (size_t i = 0; i < u->peers.size && octets; i++)
            for (struct peer *peer = u->peers.buckets[i]; peer && octets; peer = peer->next) {
                struct watch *it = peer->watch;
                if (it == NULL || (!any && it->governor.heard_us > silent_us)) continue;
                uint64_t off = octets < it->under_way ? octets : it->under_way;
                settle(u, it, off);
                octets -= off;
            }
}

/* Takes over what the node's counters say after an input that a peer caused, or nobody (null). */
void dtu_govern_count(dt_udp *u, struct peer *peer) {
    struct governing *g = &u->governing;
    if (!g->on) return;
    uint64_t queued, settled;
    dtu_core_totals(&u->core, &queued, &settled);
    uint64_t more = queued - g->queued, less = settled - g->settled;
    g->queued = queued;
    g->settled = settled;
    struct watch *it = peer ? peer->watch : NULL;
    if (it) {
        it->under_way += more;
        it->on_wire += wire_of(u, more);
        g->counted += more;
        settle(u, it, less < it->under_way ? less : it->under_way);
    }
    if (g->counted > queued - settled) take_off(u, g->counted - (queued - settled));
}

/* --- the window */

static uint64_t base_of(const struct governor *g) { return g->base[0] < g->base[1] ? g->base[0] : g->base[1]; }

static uint64_t aim_of(const dt_udp *u, const struct governor *g) {
    const struct dt_params *p = u->options.params;
    return dt_watch_aim(base_of(g), 1000 * (uint64_t)p->mpl, 1000 * (uint64_t)p->rto);
}

void dtu_govern_begin(struct governor *g, uint64_t now_us) {
    *g = (struct governor){.base = {DT_NEVER, DT_NEVER}, .turned_us = now_us, .round_us = now_us, .heard_us = now_us,
                           .credit_us = now_us, .least_us = DT_NEVER, .fast = true};
}

/* The longest delay in queues that is ever let pass: half of what the life leaves, and so little that nothing goes again
 * that wasn't lost. (dt_watch_aim keeps within that.) */
static uint64_t most_target(const dt_udp *u, uint64_t base, uint64_t aim) {
    const struct dt_params *p = u->options.params;
    uint64_t budget = 1000 * (uint64_t)p->mpl, resend = 750 * (uint64_t)p->rto;
    uint64_t half = budget > base ? (budget - base) / 2 : 0, left = resend > base ? resend - base : 0;
    uint64_t most = half < left ? half : left;
    return most > aim ? most : aim;
}

/* Whether others fill the queue, by that of this round: it stayed above the aim though the window shrank. Then more and
 * more of it is let pass. */
static bool is_beside_others(const dt_udp *u, struct governor *g, uint64_t queue, uint64_t aim) {
    if (queue < aim / 2 || g->target_us < aim) {
        g->above = g->beside = 0;
        g->target_us = aim;
    }
    if (g->above < LONG_ABOVE) {
        if (queue > aim) g->above++;
        else if (g->above) g->above--; /* (another of ours shrinks too, so it isn't above for long) */
    }
    if (g->above < LONG_ABOVE) return false;
    uint64_t most = most_target(u, base_of(g), aim), more = g->target_us + g->target_us / 4;
    g->target_us = more < most ? more : most;
    g->beside++;
    return true;
}

/* How many datagrams of a round were lost, and how many left in it. */
static int lost_of(struct watch *it, uint16_t heard, uint16_t *went) {
    struct governor *g = &it->governor;
    uint16_t lost = (uint16_t)(g->sent_then - heard);
    int more = (int16_t)(lost - g->lost_before);
    *went = (uint16_t)(g->sent_then - g->sent_before);
    g->lost_before = lost;
    g->sent_before = g->sent_then;
    g->sent_then = it->sent;
    if (g->rounds == FIRST_ROUNDS) return more;
    g->rounds++; /* (what waited until its age was known wasn't counted as heard) */
    return 0;
}

/* Whether more than one of so many datagrams of a round was lost. */
static bool is_lossy(int lost, uint16_t went, int many) { return lost >= 3 && lost * many > went; }

/* A round of ours is over: what was sent in it was heard. The window follows its delay in queues. */
static void end_round(dt_udp *u, struct watch *it, uint16_t heard, uint64_t now_us) {
    struct governor *g = &it->governor;
    uint64_t base = base_of(g), mean = g->sum_us / g->count, queue = mean > base ? mean - base : 0, aim = aim_of(u, g);
    uint16_t went;
    int more = lost_of(it, heard, &went);
    bool beside = is_beside_others(u, g, queue, aim), probes = beside && g->beside % PROBE_ROUNDS < 2;
    /* what was in the queue all the round: a late wake of either end raises the mean only */
    uint64_t standing = g->least_us > base ? g->least_us - base : 0;
    /* losses without a queue aren't ours, and beside others few of them are; a short queue is empty at times */
    bool lossy = (standing > aim / 8 && is_lossy(more, went, beside ? 4 : 20)) ||
                 (queue > aim / 8 && is_lossy(more, went, beside ? 4 : 12));
    if (lossy || !g->limited || standing >= aim / 8 || queue >= aim / 2 || is_lossy(more, went, 50)) g->low = 0;
    else if (g->low < LONG_LOW) g->low++;
    /* (of two rounds in a row with half the aim one may have been a late wake, not both) */
    if (lossy || (queue > aim / 2 && (g->was_slow || standing > aim / 4))) g->fast = false;
    g->was_slow = queue > aim / 2;
    if (probes) (void)dt_watch_shrink(it->rules, 500); /* (if the queue was ours, it is empty then) */
    else if (lossy) (void)dt_watch_shrink(it->rules, (uint32_t)(more * 1000 / went));
    else if (queue > g->target_us) (void)dt_watch_shrink(it->rules, dt_watch_cut(queue, base, g->target_us));
    else if (g->limited) {
        (void)dt_watch_grow(it->rules, (g->fast && queue < aim / 2) || g->low == LONG_LOW);
        bool small = dt_watch_window(it->rules) < QUICK_OCTETS;
        if (g->fast && small && queue < aim / 4) (void)dt_watch_grow(it->rules, true);
    }
    g->sum_us = g->count = 0;
    g->least_us = DT_NEVER;
    g->limited = false;
    g->round_us = now_us;
    it->round++;
}

/* A datagram of a peer says how old one of ours was, and of which round. */
void dtu_govern_heard(dt_udp *u, struct watch *it, const struct trailer *t, uint64_t now_us) {
    struct governor *g = &it->governor;
    if (t->aged == TRAILER_NOT_AGED) return;
    uint64_t aged = 64 * (uint64_t)t->aged + 1;
    if (now_us - g->turned_us > BASE_SPAN_US) {
        g->base[1] = g->base[0];
        g->base[0] = DT_NEVER;
        g->turned_us = now_us;
    }
    if (aged < g->base[0]) g->base[0] = aged;
    uint64_t most = base_of(g) + 4 * aim_of(u, g); /* (one that was kept back is no queue) */
    g->sum_us += aged < most ? aged : most;
    if (aged < g->least_us) g->least_us = aged;
    g->count++;
    g->heard_us = now_us;
    if (t->rounded == it->round && now_us - g->round_us >= LEAST_ROUND_US) end_round(u, it, t->heard, now_us);
}

/* --- what may enter */

/* Nothing was heard for long though something is under way. */
static void halve_if_silent(struct watch *it, uint64_t now_us) {
    struct governor *g = &it->governor;
    uint64_t base = base_of(g), most = base == DT_NEVER ? 100000 : 4 * base + 30000;
    if (it->under_way == 0) g->heard_us = now_us;
    else if (now_us > g->heard_us + most) {
        (void)dt_watch_shrink(it->rules, 500);
        g->heard_us = now_us;
    }
}

/* Whether the pace lets so many octets go. */
static bool is_paced(const dt_udp *u, struct watch *it, uint64_t octets, uint64_t now_us) {
    struct governor *g = &it->governor;
    uint64_t base = base_of(g), window = dt_watch_window(it->rules);
    if (base == DT_NEVER || base <= UNPACED_US || it->under_way == 0) {
        g->credit_us = now_us;
        return true;
    }
    uint64_t least = BURST_SEGMENTS * (uint64_t)u->options.params->seg, burst = window / 8 > least ? window / 8 : least;
    uint64_t since = now_us - g->credit_us < 1000000 ? now_us - g->credit_us : 1000000;
    g->credit += (int64_t)((g->fast ? 2 * window : window + window / 4) * since / base);
    g->credit_us = now_us;
    if (g->credit > (int64_t)burst) g->credit = (int64_t)burst;
    if (g->credit <= 0) return false;
    g->credit -= (int64_t)octets;
    return true;
}

/* Whether so many octets for a peer may be handed in now. */
bool dtu_govern_admits(dt_udp *u, struct peer *peer, uint64_t octets) {
    struct watch *it = u->governing.on && peer ? dtu_watch_of(u, peer) : NULL;
    if (it == NULL) return true;
    uint64_t now_us = dtu_clock_us();
    halve_if_silent(it, now_us);
    octets = wire_of(u, octets);
    if (3 * (it->on_wire + octets) > 2 * dt_watch_window(it->rules)) it->governor.limited = true;
    return dt_watch_admits(it->rules, it->on_wire, octets) && is_paced(u, it, octets, now_us);
}

/* --- flows for which something waits */

/* Where the calls that wait of a flow are, or the replies to requests of one. */
static struct waiting_flow **flow_at(const dt_udp *u, const struct dt_flow *flow, bool has_replies) {
    uint64_t value = (uint64_t)(flow->source ^ flow->target) << 32 | (uint32_t)flow->source_port << 16 | flow->target_port;
    struct waiting_flow **it = &u->governing.flows[(value * u->peers.key >> 40) % FLOWS];
    while (*it && ((*it)->has_replies != has_replies || memcmp(&(*it)->flow, flow, sizeof *flow) != 0))
        it = &(*it)->next_there;
    return it;
}

static void append(struct waiting_flows *list, struct waiting_flow *it) {
    it->next = NULL;
    if (list->last) list->last->next = it;
    else list->first = it;
    list->last = it;
}

static struct waiting_flow *take_first(struct waiting_flows *list) {
    struct waiting_flow *it = list->first;
    list->first = it->next;
    if (it->next == NULL) list->last = NULL;
    return it;
}

static bool has_waiting(const struct watch *w) { return w->ready.first || w->full.first; }

/* The flow for which something of a peer waits, begun where there is none. Null: out of memory. */
static struct waiting_flow *flow_of(dt_udp *u, struct peer *peer, const struct dt_flow *flow, bool has_replies) {
    struct waiting_flow **place = flow_at(u, flow, has_replies), *it = *place;
    if (it || (it = calloc(1, sizeof *it)) == NULL) return it;
    it->flow = *flow;
    it->has_replies = has_replies;
    *place = it;
    if (!has_waiting(peer->watch)) {
        peer->next_waiting = u->governing.waiting;
        u->governing.waiting = peer;
    }
    append(&peer->watch->ready, it);
    u->governing.octets += sizeof *it;
    return it;
}

/* Nothing of a flow waits any more. It is in no list. */
static void drop_flow(dt_udp *u, struct waiting_flow *it) {
    *flow_at(u, &it->flow, it->has_replies) = it->next_there;
    u->governing.octets -= sizeof *it;
    free(it);
}

static void enqueue(dt_udp *u, struct waiting_flow *flow, struct waiting *it) {
    it->next = NULL;
    if (flow->last) flow->last->next = it;
    else flow->first = it;
    flow->last = it;
    u->governing.octets += sizeof *it + it->len;
}

/* --- what waits */

/* Keeps octets until they may enter, behind what waits of their flow. False: there is no room for more, and
 * DT_UDP_EVENT_ROOM is the event when there is. */
static bool keep(dt_udp *u, struct peer *peer, const struct waiting *given, const struct iovec *octets) {
    struct waiting *it = NULL;
    struct waiting_flow *flow = NULL;
    if (u->governing.octets + octets->iov_len <= u->options.max_waiting) it = malloc(sizeof *it + octets->iov_len);
    if (it) flow = flow_of(u, peer, &given->token.flow, !given->is_call);
    if (flow == NULL) {
        free(it);
        u->governing.wants_room = true;
        return false;
    }
    *it = *given;
    it->len = octets->iov_len;
    memcpy(it->octets, octets->iov_base, octets->iov_len);
    enqueue(u, flow, it);
    if (it->deadline < u->governing.next_deadline) u->governing.next_deadline = it->deadline;
    return true;
}

/* Whether a message has to wait: others of its flow wait already, or of flows that have room of their own, or it may not
 * enter. A flow that is full holds up no other. */
bool dtu_govern_waits(dt_udp *u, struct peer *peer, const struct dt_flow *flow, uint64_t octets) {
    if (!u->governing.on || peer == NULL) return false;
    struct watch *w = peer->watch;
    if (w && (w->ready.first || (w->full.first && *flow_at(u, flow, flow->source != u->options.node)))) return true;
    return !dtu_govern_admits(u, peer, octets);
}

struct dt_call_result dtu_govern_keep_call(dt_udp *u, struct peer *peer, const struct dt_udp_call_options *options,
                                           const struct iovec *octets) {
    if (u->open_calls >= u->options.max_calls) return (struct dt_call_result){.status = DT_TOO_MANY_CALLS};
    /* (no life is so great that the library would give this number) */
    struct waiting it = {.is_call = true,
                         .token = {.call = ~u->governing.numbers, .flow = options->flow},
                         .user = options->user,
                         .deadline = dtu_clock_ms() + options->timeout_ms};
    if (!keep(u, peer, &it, octets)) return (struct dt_call_result){.status = DT_FULL};
    u->governing.numbers++;
    u->open_calls++;
    return (struct dt_call_result){.status = DT_OK, .call = it.token.call};
}

struct dt_reply_result dtu_govern_keep_reply(dt_udp *u, struct peer *peer, const struct dt_token *token,
                                             const struct iovec *octets) {
    bool kept = keep(u, peer, &(struct waiting){.token = *token, .deadline = DT_NEVER}, octets);
    return (struct dt_reply_result){.status = kept ? DT_OK : DT_FULL};
}

/* --- the numbers of calls that waited */

static struct waiting **named_at(dt_udp *u, uint64_t call) {
    struct waiting **it = &u->governing.named[call % NAMED];
    while (*it && (*it)->call != call) it = &(*it)->next;
    return it;
}

/* Gives the event of the end of a call the number by which the program knows it, if it waited. */
void dtu_govern_ended(dt_udp *u, struct dt_udp_event *event) {
    if (u->governing.named == NULL) return;
    struct waiting **place = named_at(u, event->call), *it = *place;
    if (it == NULL) return;
    event->call = it->token.call;
    *place = it->next;
    free(it);
}

static void end_unsure(dt_udp *u, struct waiting *it) {
    it->next = NULL;
    if (u->governing.last_unsure) u->governing.last_unsure->next = it;
    else u->governing.first_unsure = it;
    u->governing.last_unsure = it;
}

bool dtu_govern_event(dt_udp *u) {
    struct waiting *it = u->governing.first_unsure;
    if (it) {
        u->governing.first_unsure = it->next;
        if (it->next == NULL) u->governing.last_unsure = NULL;
        u->event.kind = DT_UDP_EVENT_UNSURE;
        u->event.call = it->token.call;
        u->event.user = it->user;
        u->event.cause = DT_CAUSE_TIMEOUT;
        u->open_calls -= u->open_calls > 0;
        free(it);
        return true;
    }
    if (!u->governing.wants_room || u->governing.octets > u->options.max_waiting / 2) return false;
    u->governing.wants_room = false;
    u->event.kind = DT_UDP_EVENT_ROOM;
    return true;
}

/* --- letting in */

enum entry { ENTERED, FLOW_IS_FULL, NOT_NOW };

static enum entry enter_call(dt_udp *u, struct waiting *it, uint64_t now) {
    if (it->deadline <= now) {
        end_unsure(u, it);
        return ENTERED;
    }
    struct dt_udp_call_options options = {
        .flow = it->token.flow, .timeout_ms = (uint32_t)(it->deadline - now), .user = it->user};
    struct dt_call_result made = dtu_core_make_call(&u->core, now, &options, &(struct iovec){it->octets, it->len});
    if (made.status == DT_FULL) return FLOW_IS_FULL;
    if (made.status == DT_QUIET || made.status == DT_TOO_MANY_CALLS) return NOT_NOW;
    if (made.status != DT_OK) {
        end_unsure(u, it);
        return ENTERED;
    }
    it->call = made.call;
    dtu_record_entered(u, &it->token, made.call);
    struct waiting *named = realloc(it, sizeof *it); /* (its octets aren't needed any more) */
    if (named) it = named;
    it->next = u->governing.named[it->call % NAMED];
    u->governing.named[it->call % NAMED] = it;
    return ENTERED;
}

static enum entry enter_reply(dt_udp *u, struct waiting *it, uint64_t now) {
    struct iovec octets = {it->octets, it->len};
    if (dtu_core_reply(&u->core, now, &it->token, &octets).status == DT_FULL) return FLOW_IS_FULL;
    free(it);
    return ENTERED;
}

/* Hands in the first one that waits of a flow, if it may enter. */
static enum entry enter_first(dt_udp *u, struct peer *peer, struct waiting_flow *flow, uint64_t us) {
    struct waiting *it = flow->first, *next = it->next;
    uint64_t len = it->len, now = us / 1000;
    if (it->deadline > now && !dtu_govern_admits(u, peer, len)) return NOT_NOW;
    if (!dtu_begin(u, us)) return NOT_NOW;
    enum entry how = it->is_call ? enter_call(u, it, now) : enter_reply(u, it, now);
    dtu_judge(u);
    if (how == FLOW_IS_FULL) peer->watch->governor.credit += (int64_t)wire_of(u, len); /* (nothing left, so it takes no pace) */
    if (how != ENTERED) return how;
    flow->first = next;
    if (next == NULL) flow->last = NULL;
    u->governing.octets -= sizeof *it + len;
    dtu_govern_count(u, peer);
    return ENTERED;
}

/* Something was settled since flows were full: some of them are tried again, the one first that waited for longest. */
static void try_full(dt_udp *u, struct watch *w) {
    if (w->full.first == NULL || w->full_at == u->governing.settled) return;
    for (int i = 0; i < MOST_TRIED && w->full.first; i++) append(&w->ready, take_first(&w->full));
}

/* Hands in what waits for a peer, as much as may enter: of each flow one in its turn. False: nothing waits any more. */
static bool enter_all(dt_udp *u, struct peer *peer, uint64_t us) {
    struct watch *w = peer->watch;
    try_full(u, w);
    while (w->ready.first) {
        enum entry how = enter_first(u, peer, w->ready.first, us);
        if (how == NOT_NOW || u->failed) return true;
        struct waiting_flow *flow = take_first(&w->ready);
        if (how == FLOW_IS_FULL) {
            append(&w->full, flow);
            w->full_at = u->governing.settled;
        } else if (flow->first) append(&w->ready, flow);
        else drop_flow(u, flow);
    }
    return w->full.first != NULL;
}

/* Ends the calls of a list whose time is over, and takes out the flows of which nothing is left. */
static void end_late_of(dt_udp *u, struct waiting_flows *list, uint64_t now) {
    struct waiting_flows left = {NULL, NULL};
    while (list->first) {
        struct waiting_flow *flow = take_first(list);
        struct waiting *last = NULL;
        for (struct waiting **place = &flow->first, *it; (it = *place) != NULL;) {
            if (it->deadline > now) {
                if (it->deadline < u->governing.next_deadline) u->governing.next_deadline = it->deadline;
                last = it;
                place = &it->next;
                continue;
            }
            *place = it->next;
            u->governing.octets -= sizeof *it + it->len;
            end_unsure(u, it);
        }
        flow->last = last;
        if (last) append(&left, flow);
        else drop_flow(u, flow);
    }
    *list = left;
}

/* Ends the calls whose time is over. All that waits is looked at only when the first one is due. */
static void end_late(dt_udp *u, uint64_t now) {
    if (now < u->governing.next_deadline) return;
    u->governing.next_deadline = DT_NEVER;
    for (struct peer *it = u->governing.waiting; it; it = it->next_waiting) {
        end_late_of(u, &it->watch->ready, now);
        end_late_of(u, &it->watch->full, now);
    }
}

/* Hands in what waits and may enter now. */
void dtu_govern_release(dt_udp *u) {
    struct peer **place = &u->governing.waiting;
    if (*place == NULL || u->failed) return;
    uint64_t us = dtu_clock_us();
    end_late(u, us / 1000);
    while (*place) {
        struct peer *it = *place;
        if (enter_all(u, it, us)) place = &it->next_waiting;
        else *place = it->next_waiting;
        if (u->failed) return;
    }
}

/* Whether something waits, which the pace may let in each millisecond. */
bool dtu_govern_paces(const dt_udp *u) { return u->governing.waiting || u->governing.object_waits; }

/* When the governor wants to be called. */
uint64_t dtu_govern_wake(const dt_udp *u, uint64_t now) { return dtu_govern_paces(u) ? now + 1 : DT_NEVER; }

/* --- opening and closing */

dt_status dtu_govern_open(dt_udp *u) {
    struct governing *g = &u->governing;
    g->on = u->watching.on && !u->core.driven;
    g->next_deadline = DT_NEVER;
    if (!g->on || u->options.role != DT_UDP_ROLE_SERVICE) return DT_OK;
    g->named = calloc(NAMED, sizeof *g->named);
    g->flows = calloc(FLOWS, sizeof *g->flows);
    return g->named && g->flows ? DT_OK : DT_NO_MEMORY;
}

static void free_all(struct waiting *it) {
    for (struct waiting *next; it; it = next) {
        next = it->next;
        free(it);
    }
}

static void free_flows(struct waiting_flows *list) {
    while (list->first) {
        struct waiting_flow *it = take_first(list);
        free_all(it->first);
        free(it);
    }
}

/* Frees what waits for a peer; it is in no bucket any more, or the buckets aren't used any more. */
void dtu_govern_free(struct watch *watch) {
    free_flows(&watch->ready);
    free_flows(&watch->full);
}

/* Ends the calls that wait in a list, and drops the replies. */
static void drop_all(dt_udp *u, struct waiting_flows *list) {
    while (list->first) {
        struct waiting_flow *flow = take_first(list);
        for (struct waiting *it = flow->first, *next; it; it = next) {
            next = it->next;
            u->governing.octets -= sizeof *it + it->len;
            if (it->is_call) end_unsure(u, it);
            else free(it);
        }
        drop_flow(u, flow);
    }
}

/* A peer goes: calls that wait for it end. */
void dtu_govern_drop(dt_udp *u, struct peer *peer) {
    struct watch *w = peer->watch;
    if (w == NULL || !has_waiting(w)) return;
    struct peer **place = &u->governing.waiting;
    while (*place != peer) place = &(*place)->next_waiting;
    *place = peer->next_waiting;
    drop_all(u, &w->ready);
    drop_all(u, &w->full);
}

void dtu_govern_close(dt_udp *u) {
    for (size_t i = 0; u->governing.named && i < NAMED; i++) free_all(u->governing.named[i]);
    free(u->governing.named);
    free(u->governing.flows);
    free_all(u->governing.first_unsure);
}
