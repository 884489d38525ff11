/* Objects: more octets than a message has, in chunks over several flows, the lanes. The message of a chunk names its
 * object, its place and the object's size, so it may be sent again wherever its octets became uncertain, and the
 * receiver keeps one bit of each. A sender is done when the receiver says that the object is whole. docs/formats.md
 * has the messages. */
#include "udp.h"
#include <stdlib.h>
#include <string.h>

enum {
    CHUNK = 1,
    QUESTION = 2,
    STATE = 3, /* kinds of messages */
    HEAD = 28, /* octets of a chunk before its own; QUESTION and STATE have them too */
    WHOLE = 1,
    MISSING = 2,
    NO_ROOM = 3, /* what a STATE says */
    CHUNK_SEGMENTS = 5,
    MAX_RANGES = 128,
    MOST_WINDOW = 1 << 22,
    LEAST_WINDOW = 1 << 16,
    WINDOW_STEP = 1 << 15,
    BURST_CHUNKS = 32, /* that are made before the first of them leaves */
    REFUSE_MS = 20,    /* a sender for which there is no room is told so no more often */
    LEAST_CHUNK = 16,  /* so that the bits of an object are few */
    ASK_MS = 100,      /* a question is asked again after this, and 4 rto, at least */
    IDLE_MS = 60000,   /* a part of an object to which nothing was added for so long is dropped */
    FEWEST_LONG = 64,  /* chunks of a long object */
    MAX_FLIGHT = 64    /* chunks under way in one lane */
};

struct flight {
    uint32_t index, end;
};

/* A flow to a target. Octets are counted modulo 2^32. */
struct lane {
    struct lane *next; /* of those with room */
    uint16_t port;
    bool is_ready, is_doubtful; /* doubtful: octets of the first chunk under way became uncertain */
    uint32_t queued, ended;
    unsigned first, count;
    struct sending *of[MAX_FLIGHT];
    struct flight flights[MAX_FLIGHT];
};

/* An object that is sent. Its octets are the caller's. */
struct sending {
    struct sending *next;
    struct target *to;
    const uint8_t *octets;
    uint64_t number, len, deadline, ask_at;
    uint32_t chunk, total, begun,
        ended;       /* chunks that were sent once; that were acknowledged once, or told to be missing */
    uint32_t *again; /* chunks to send again */
    uint32_t again_count, again_size, under_way;
    uint8_t result; /* when it is over: WHOLE, NO_ROOM, or 0 */
    bool is_over;
};

struct target {
    struct target *next;
    uint32_t node;
    struct lane *ready, *last_ready;
    struct sending *first, *last;
    uint64_t under_way; /* octets of chunks, in all lanes */
    struct lane lanes[];
};

/* An object that is received, or waits to be taken. */
struct receiving {
    struct receiving *next;
    uint64_t number, len, touched_at;
    uint32_t node, chunk, total, left;
    uint8_t *octets, *bits;
};

/* --- opening */

void dtu_objects_close(dt_udp *u) {
    struct objects *o = &u->objects;
    for (struct target *it = o->targets, *next; it; it = next) {
        for (struct sending *s = it->first, *later; s; s = later) {
            later = s->next;
            free(s->again);
            free(s);
        }
        next = it->next;
        free(it);
    }
    dtu_objects_free(o->lent);
    struct receiving *lists[] = {o->parts, o->whole};
    for (int i = 0; i < 2; i++)
        for (struct receiving *it = lists[i], *next; it; it = next) {
            next = it->next;
            dtu_objects_free(it);
        }
}

void dtu_objects_free(struct receiving *it) {
    if (it == NULL) return;
    free(it->octets);
    free(it->bits);
    free(it);
}

dt_status dt_udp_open_objects(dt_udp *u, uint16_t first_port, uint16_t lanes, uint64_t max_octets) {
    struct objects *o = &u->objects;
    if (!dtu_is_usable(u)) return u->failed;
    if (u->core.node == NULL || lanes == 0 || first_port + lanes > 65535 || u->options.params->cap < HEAD + LEAST_CHUNK)
        return DT_INVALID;
    if (o->lanes) return DT_EXISTS;
    for (uint32_t i = 0; i <= lanes; i++) { /* (the first one has the questions and states) */
        dt_status status = dt_udp_open_port(u, (uint16_t)(first_port + i), 0);
        if (status != DT_OK) return status;
    }
    o->first_port = first_port;
    o->lanes = lanes;
    o->max_octets = max_octets;
    o->window = MOST_WINDOW;
    o->number = u->strangers.key; /* (random, so no two openings have one) */
    return DT_OK;
}

/* --- sending */

static struct target *target_of(dt_udp *u, uint32_t node) {
    struct objects *o = &u->objects;
    for (struct target *it = o->targets; it; it = it->next)
        if (it->node == node) return it;
    struct target *it = calloc(1, sizeof *it + o->lanes * sizeof(struct lane));
    if (it == NULL) return NULL;
    it->node = node;
    it->next = o->targets;
    o->targets = it;
    for (uint32_t i = 0; i < o->lanes; i++) it->lanes[i].port = (uint16_t)(o->first_port + 1 + i);
    return it;
}

static void make_ready(struct target *to, struct lane *lane) {
    if (lane->is_ready) return;
    lane->is_ready = true;
    lane->next = NULL;
    if (to->ready) to->last_ready->next = lane;
    else to->ready = lane;
    to->last_ready = lane;
}

struct dt_udp_put_result dt_udp_put_object(dt_udp *u, uint32_t target, const void *octets, uint64_t len,
                                           uint32_t timeout_ms) {
    struct dt_udp_put_result result = {0};
    if (!dtu_is_usable(u)) return (struct dt_udp_put_result){.status = u->failed};
    const struct dt_params *p = u->options.params;
    uint32_t chunk = CHUNK_SEGMENTS * p->seg < p->cap ? CHUNK_SEGMENTS * p->seg : p->cap;
    result.status = DT_INVALID;
    if (u->objects.lanes == 0 || target == u->options.node || chunk < HEAD + LEAST_CHUNK || len > UINT32_MAX ||
        timeout_ms == 0)
        return result;
    result.status = DT_NO_MEMORY;
    struct target *to = target_of(u, target);
    struct sending *it = to ? calloc(1, sizeof *it) : NULL;
    if (it == NULL) return result;
    *it = (struct sending){
        .to = to, .octets = octets, .number = ++u->objects.number, .len = len, .chunk = chunk - HEAD};
    it->total = (uint32_t)((len + it->chunk - 1) / it->chunk);
    it->deadline = dtu_clock_ms() + timeout_ms;
    if (u->objects.sending == 0 || it->deadline < u->objects.next_deadline) u->objects.next_deadline = it->deadline;
    if (to->first) to->last->next = it;
    else to->first = it;
    to->last = it;
    for (uint32_t i = 0; i < u->objects.lanes; i++) make_ready(to, &to->lanes[i]);
    u->objects.sending++;
    result.object = it->number;
    result.status = DT_OK;
    return result;
}

static void head_of(uint8_t *at, int kind, const struct sending *it, uint32_t index) {
    dtu_put_number(at, (uint64_t)kind << 24, 4); /* (three octets of 0 behind it) */
    dtu_put_number(at + 4, it->number, 8);
    dtu_put_number(at + 12, it->len, 8);
    dtu_put_number(at + 20, index, 4);
    dtu_put_number(at + 24, it->chunk, 4);
}

static dt_status send_on(dt_udp *u, uint32_t target, uint16_t port, const struct iovec *message) {
    uint64_t us = dtu_clock_us();
    struct dt_flow flow = {u->options.node, target, port, port};
    if (!dtu_begin(u, us)) return u->failed;
    dt_status status = dtu_core_send(&u->core, us / 1000, &flow, message).status;
    dtu_judge(u);
    dtu_govern_count(u, dtu_peers_find(&u->peers, target));
    return status;
}

static size_t chunk_len(const struct sending *it, uint32_t index) {
    uint64_t at = (uint64_t)index * it->chunk;
    return it->len - at < it->chunk ? (size_t)(it->len - at) : it->chunk;
}

/* Sends a chunk on a lane. False: the lane has no room, or the node is silent. */
static bool send_chunk(dt_udp *u, struct sending *it, struct lane *lane, uint32_t index) {
    size_t len = chunk_len(it, index);
    if (lane->count == MAX_FLIGHT || lane->queued - lane->ended + HEAD + len > u->options.params->cap) return false;
    head_of(u->objects.room, CHUNK, it, index);
    memcpy(u->objects.room + HEAD, it->octets + (uint64_t)index * it->chunk, len);
    if (send_on(u, it->to->node, lane->port, &(struct iovec){u->objects.room, HEAD + len}) != DT_OK) return false;
    lane->queued += (uint32_t)(HEAD + len);
    it->to->under_way += HEAD + len;
    unsigned place = (lane->first + lane->count++) % MAX_FLIGHT;
    lane->of[place] = it;
    lane->flights[place] = (struct flight){index, lane->queued};
    it->under_way++;
    return true;
}

/* The object of a target that has a chunk to send, or null. */
static struct sending *has_chunk(const struct target *to) {
    for (struct sending *it = to->first; it; it = it->next)
        if (!it->is_over && (it->again_count || it->begun < it->total)) return it;
    return NULL;
}

static bool all_sent(const struct sending *it) {
    return it->begun == it->total && it->again_count == 0 && it->under_way == 0;
}

/* Whether an object waits until its target has answered. A stranger's first datagrams are lost, since it has to prove
 * that it hears: of a long object that is a question alone, since a window that begins with losses grows slowly. */
static bool waits_for_answer(const dt_udp *u, const struct sending *it) {
    if (it->begun || it->is_over || it->total < FEWEST_LONG || !u->watching.on) return false;
    const struct peer *peer = dtu_peers_find(&u->peers, it->to->node);
    return peer && !peer->answered;
}

/* Whether the target is asked about an object, when its `ask_at` has come. */
static bool asks(const dt_udp *u, const struct sending *it) {
    return !it->is_over && (all_sent(it) || waits_for_answer(u, it));
}

/* Whether objects behind this one in the queue of its target can have been begun. */
static bool is_begun(const struct sending *it) { return it->begun || it->total == 0 || it->is_over; }

/* Whether a chunk of an object may be handed in now, by what is under way to its target. */
static bool may_enter(dt_udp *u, const struct sending *it) {
    if (waits_for_answer(u, it)) return false;
    bool may = dtu_govern_admits(u, dtu_peers_find(&u->peers, it->to->node), it->chunk);
    if (!may) u->governing.object_waits = true;
    return may;
}

/* Fills the lanes of a target that have room, one chunk each in turn, with at most so many chunks. */
static void fill(dt_udp *u, struct target *to, unsigned *left) {
    for (struct sending *it;
         *left > 0 && to->under_way < u->objects.window && to->ready && !u->failed && (it = has_chunk(to)) != NULL;) {
        if (!may_enter(u, it)) return;
        struct lane *lane = to->ready;
        uint32_t index = it->again_count ? it->again[it->again_count - 1] : it->begun;
        bool sent = send_chunk(u, it, lane, index);
        to->ready = lane->next;
        lane->is_ready = false;
        if (!sent && lane->count == 0) {
            make_ready(to, lane); /* (the node is silent: no report will make it ready) */
            return;
        }
        if (!sent) continue;
        make_ready(to, lane);
        --*left;
        if (it->again_count) it->again_count--;
        else it->begun++;
    }
}

/* Takes an object out of its target's queue; chunks of it may still be under way. */
static void end_sending(dt_udp *u, struct sending *it, uint8_t result) {
    it->is_over = true;
    it->result = result;
    it->again_count = 0;
    free(it->again);
    it->again = NULL;
    u->objects.ended++;
}

static void ask(dt_udp *u, struct sending *it, uint64_t now) {
    uint64_t wait = 4 * (uint64_t)u->options.params->rto;
    it->ask_at = now + (wait > ASK_MS ? wait : ASK_MS);
    head_of(u->objects.room, QUESTION, it, 0);
    (void)send_on(u, it->to->node, u->objects.first_port,
                  &(struct iovec){u->objects.room, HEAD}); /* (or it is asked again) */
}

/* Ends the objects whose time is over. All are looked at only when the first one is due. */
static void end_late(dt_udp *u, uint64_t now) {
    if (now < u->objects.next_deadline) return;
    uint64_t next = DT_NEVER;
    for (struct target *to = u->objects.targets; to; to = to->next)
        for (struct sending *it = to->first; it; it = it->next) {
            if (!it->is_over && now >= it->deadline) end_sending(u, it, 0);
            if (!it->is_over && it->deadline < next) next = it->deadline;
        }
    u->objects.next_deadline = next;
}

/* What is under way to one node stays within a window, beside that of the governor, which follows the network. If
 * this machine is too slow for it, so that datagrams are late, it is halved, since each octet under way may have to be
 * sent again at one time. */
static void adapt(dt_udp *u, uint64_t now) {
    struct objects *o = &u->objects;
    if (now < o->adapted_at + u->options.params->rto) return;
    if (u->counts.not_sent > o->not_sent) o->window = o->window / 2 > LEAST_WINDOW ? o->window / 2 : LEAST_WINDOW;
    else o->window = o->window + WINDOW_STEP < MOST_WINDOW ? o->window + WINDOW_STEP : MOST_WINDOW;
    o->not_sent = u->counts.not_sent;
    o->adapted_at = now;
}

/* Sends what there is room for, and asks about objects of which all was sent: those at the head of a target's queue,
 * up to the first one that isn't begun. True: there may be more to send, when this is on the wire. */
bool dtu_objects_send(dt_udp *u) {
    if (u->objects.sending == 0 || u->failed) return false;
    uint64_t now = dtu_clock_ms();
    unsigned left = BURST_CHUNKS;
    u->governing.object_waits = false;
    end_late(u, now);
    adapt(u, now);
    for (struct target *to = u->objects.targets; to; to = to->next) {
        fill(u, to, &left);
        for (struct sending *it = to->first; it; it = is_begun(it) ? it->next : NULL)
            if (asks(u, it) && now >= it->ask_at) ask(u, it, now);
    }
    dtu_events_collect(u, now);
    return left == 0;
}

/* When something of an object is due. */
uint64_t dtu_objects_wake(const dt_udp *u) {
    if (u->objects.sending == 0) return DT_NEVER;
    uint64_t wake = u->objects.next_deadline;
    for (const struct target *to = u->objects.targets; to; to = to->next)
        for (const struct sending *it = to->first; it; it = is_begun(it) ? it->next : NULL)
            if (it->ask_at < wake && asks(u, it)) wake = it->ask_at;
    return wake;
}

/* Keeps a chunk that has to be sent again. Without memory the receiver's answer names it again. */
static void again(struct sending *it, uint32_t index) {
    if (it->is_over) return;
    if (it->again_count == it->again_size) {
        uint32_t size = it->again_size ? 2 * it->again_size : 64;
        uint32_t *more = realloc(it->again, size * sizeof *more);
        if (more == NULL) return;
        it->again = more;
        it->again_size = size;
    }
    it->again[it->again_count++] = index;
}

/* What became of octets of a lane: acknowledged, or uncertain. */
void dtu_objects_report(dt_udp *u, const struct dt_report *report) {
    struct objects *o = &u->objects;
    uint16_t port = report->flow.source_port;
    bool ends = report->kind == DT_REPORT_ACKNOWLEDGED || report->kind == DT_REPORT_UNCERTAIN;
    if (!ends || o->lanes == 0 || port <= o->first_port || port - o->first_port > o->lanes ||
        report->flow.target_port != port)
        return;
    struct target *to = o->targets;
    while (to && to->node != report->flow.target) to = to->next;
    if (to == NULL) return;
    struct lane *lane = &to->lanes[port - o->first_port - 1];
    lane->ended += report->count;
    to->under_way -= report->count < to->under_way ? report->count : to->under_way;
    if (report->kind == DT_REPORT_UNCERTAIN) lane->is_doubtful = true;
    while (lane->count && (int32_t)(lane->ended - lane->flights[lane->first].end) >= 0) {
        struct sending *it = lane->of[lane->first];
        it->under_way--;
        if (lane->is_doubtful) again(it, lane->flights[lane->first].index);
        lane->is_doubtful = false;
        lane->first = (lane->first + 1) % MAX_FLIGHT;
        lane->count--;
    }
    make_ready(to, lane);
}

/* --- receiving */

static struct receiving *part_of(const struct objects *o, uint32_t node, uint64_t number) {
    struct receiving *it = o->parts;
    while (it && (it->node != node || it->number != number)) it = it->next;
    return it;
}

static bool was_whole(const struct objects *o, uint32_t node, uint64_t number) {
    for (int i = 0; i < PAST_OBJECTS; i++)
        if (o->past[i].number == number && o->past[i].node == node && o->past[i].some) return true;
    return false;
}

static void remove_part(struct objects *o, struct receiving *it) {
    struct receiving **link = &o->parts;
    while (*link != it) link = &(*link)->next;
    *link = it->next;
    o->part_count--;
}

/* Drops parts of objects to which nothing was added for long. */
static void drop_idle(struct objects *o, uint64_t now) {
    for (struct receiving *it = o->parts, *next; it; it = next) {
        next = it->next;
        if (now < it->touched_at + IDLE_MS) continue;
        remove_part(o, it);
        o->held_octets -= it->len;
        dtu_objects_free(it);
    }
}

/* Begins to receive an object. Null: there is no room for it. */
static struct receiving *begin_part(dt_udp *u, const struct receiving *like) {
    struct objects *o = &u->objects;
    drop_idle(o, like->touched_at);
    if (like->len > o->max_octets || o->held_octets > o->max_octets - like->len || o->part_count == MAX_PARTS)
        return NULL;
    struct receiving *it = malloc(sizeof *it);
    if (it == NULL) return NULL;
    *it = *like;
    it->total = it->left = (uint32_t)((it->len + it->chunk - 1) / it->chunk);
    it->octets = malloc(it->len ? it->len : 1);
    it->bits = calloc(it->total / 8 + 1, 1);
    if (it->octets == NULL || it->bits == NULL) return dtu_objects_free(it), NULL;
    it->next = o->parts;
    o->parts = it;
    o->part_count++;
    o->held_octets += it->len;
    return it;
}

/* Tells a sender how an object is: whole, no room for it, or which chunks are missing (the first MAX_RANGES runs of
 * them). */
static void send_state(dt_udp *u, const struct receiving *of, const struct receiving *part, uint8_t state) {
    uint8_t room[HEAD + 8 * MAX_RANGES] = {STATE, state};
    uint32_t ranges = 0;
    dtu_put_number(room + 4, of->number, 8);
    for (uint32_t i = 0; part && state == MISSING && i < part->total && ranges < MAX_RANGES; i++) {
        if (part->bits[i / 8] >> i % 8 & 1) continue;
        uint32_t begin = i;
        while (i < part->total && !(part->bits[i / 8] >> i % 8 & 1)) i++;
        dtu_put_number(room + HEAD + 8 * ranges, begin, 4);
        dtu_put_number(room + HEAD + 8 * ranges++ + 4, i - begin, 4);
    }
    if (part == NULL && state == MISSING) { /* (all of it: this end was started again) */
        dtu_put_number(room + HEAD + 4, UINT32_MAX, 4);
        ranges = 1;
    }
    (void)send_on(u, of->node, u->objects.first_port, &(struct iovec){room, HEAD + 8 * ranges});
}

static void is_whole(dt_udp *u, struct receiving *it) {
    struct objects *o = &u->objects;
    remove_part(o, it);
    o->past[o->past_at++ % PAST_OBJECTS] = (struct past){it->number, it->node, true};
    it->next = NULL;
    if (o->whole) o->last_whole->next = it;
    else o->whole = it;
    o->last_whole = it;
    send_state(u, it, NULL, WHOLE);
}

static void take_chunk(dt_udp *u, const struct receiving *like, uint32_t index, const struct iovec *octets) {
    struct receiving *it = part_of(&u->objects, like->node, like->number);
    if (it == NULL && was_whole(&u->objects, like->node, like->number)) return;
    if (it == NULL && (it = begin_part(u, like)) == NULL) {
        if (like->touched_at >= u->objects.refused_at + REFUSE_MS) send_state(u, like, NULL, NO_ROOM);
        u->objects.refused_at = like->touched_at;
        return;
    }
    uint64_t at = (uint64_t)index * it->chunk;
    if (like->len != it->len || like->chunk != it->chunk || at + octets->iov_len > it->len) return;
    size_t due = it->len - at < it->chunk ? (size_t)(it->len - at) : it->chunk;
    if (octets->iov_len != due || index >= it->total || it->bits[index / 8] >> index % 8 & 1) return;
    memcpy(it->octets + at, octets->iov_base, due);
    it->bits[index / 8] |= (uint8_t)(1u << index % 8);
    it->touched_at = like->touched_at;
    if (--it->left == 0) is_whole(u, it);
}

static void take_question(dt_udp *u, const struct receiving *like) {
    struct receiving *it = part_of(&u->objects, like->node, like->number);
    if (was_whole(&u->objects, like->node, like->number)) send_state(u, like, NULL, WHOLE);
    else if (like->len == 0 && (it = begin_part(u, like)) != NULL) is_whole(u, it); /* (it has no chunk) */
    else if (it == NULL && (like->len > u->objects.max_octets)) send_state(u, like, NULL, NO_ROOM);
    else send_state(u, like, it, MISSING);
}

/* What a receiver says of an object of ours. */
static void take_state(dt_udp *u, uint32_t node, const uint8_t *octets, size_t len) {
    uint64_t number = dtu_get_number(octets + 4, 8);
    struct sending *it = NULL;
    for (struct target *to = u->objects.targets; to && it == NULL; to = to->next)
        for (struct sending *each = to->first; each && to->node == node; each = each->next)
            if (each->number == number && !each->is_over) it = each;
    if (it == NULL) return;
    if (octets[1] != MISSING) {
        end_sending(u, it, octets[1]);
        return;
    }
    if (it->begun < it->total || it->again_count || it->under_way) return; /* (a state of before) */
    for (size_t at = HEAD; at + 8 <= len; at += 8) {
        uint64_t begin = dtu_get_number(octets + at, 4), end = begin + dtu_get_number(octets + at + 4, 4);
        for (uint64_t i = begin; i < end && i < it->total; i++) again(it, (uint32_t)i);
    }
}

/* Whether a message is one of objects; then it is handled. */
bool dtu_objects_message(dt_udp *u, const struct dt_flow *flow, const uint8_t *octets, size_t len) {
    struct objects *o = &u->objects;
    uint16_t port = flow->target_port;
    if (o->lanes == 0 || port < o->first_port || port - o->first_port > o->lanes) return false;
    if (len < HEAD) return true;
    struct receiving like = {.number = dtu_get_number(octets + 4, 8),
                             .len = dtu_get_number(octets + 12, 8),
                             .touched_at = dtu_clock_ms(),
                             .node = flow->source,
                             .chunk = (uint32_t)dtu_get_number(octets + 24, 4)};
    bool sized = like.chunk >= LEAST_CHUNK && like.len <= UINT32_MAX;
    if (octets[0] == CHUNK && sized) {
        struct iovec part = {(void *)(uintptr_t)(octets + HEAD), len - HEAD};
        take_chunk(u, &like, (uint32_t)dtu_get_number(octets + 20, 4), &part);
    } else if (octets[0] == QUESTION && sized) take_question(u, &like);
    else if (octets[0] == STATE) take_state(u, flow->source, octets, len);
    return true;
}

/* --- events */

/* Takes the first object that is over out of its queue, when nothing of it is under way any more. */
static struct sending *next_over(struct objects *o) {
    for (struct target *to = o->targets; o->ended && to; to = to->next)
        for (struct sending **link = &to->first, *before = NULL; *link; before = *link, link = &(*link)->next) {
            struct sending *it = *link;
            if (!it->is_over || it->under_way) continue;
            *link = it->next;
            if (to->last == it) to->last = before;
            o->ended--;
            o->sending--;
            return it;
        }
    return NULL;
}

bool dtu_objects_event(dt_udp *u) {
    struct objects *o = &u->objects;
    struct sending *over = next_over(o);
    if (over) {
        u->event.kind = DT_UDP_EVENT_PUT_ENDED;
        u->event.object = over->number;
        u->event.peer = over->to->node;
        u->event.cause = over->result == WHOLE ? DT_OK : over->result == NO_ROOM ? DT_FULL : DT_NONE;
        free(over);
        return true;
    }
    struct receiving *it = o->whole;
    if (it == NULL) return false;
    o->whole = it->next;
    o->lent = it;
    u->event.kind = DT_UDP_EVENT_OBJECT;
    u->event.object = it->number;
    u->event.peer = it->node;
    u->event.octets = it->octets;
    u->event.len = (size_t)it->len;
    return true;
}

/* Frees the object that the last event lent. */
void dtu_objects_release(dt_udp *u) {
    if (u->objects.lent == NULL) return;
    u->objects.held_octets -= u->objects.lent->len;
    dtu_objects_free(u->objects.lent);
    u->objects.lent = NULL;
}
