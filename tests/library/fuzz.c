/* Any octets, as a list of calls of three nodes of libdeltat; fuzz.h says how it is built and run.

   The first octet of an input says whether its network keeps the duties of deltat.h: no octet is changed, nothing is
   under way for longer than a link's charge, clocks go alike, a node starts `again`. Then what is read must be what was
   sent. In the other inputs datagrams are made up and changed, clocks leap, and nodes begin as if for the first time.
   Of both kinds an input is a fault where

   - a call answers with a status that deltat.h doesn't give it, or with another one than its arguments ask for;
   - a call that changed nothing by its status changed something: each node is there twice, the second one isn't asked
     what the first refused (but a dt_node_next_message of a spent node), and both have to go on alike;
   - a frame doesn't read, isn't the one that its report tells, or the octets behind it or behind a message changed;
   - a report has a field that its kind hasn't, or isn't of this node;
   - counts and totals aren't the sums of the reports;
   - something is due at a moment that was already told to a node whose calls all came in time;
   - what is read isn't the next of what was sent, or with a run mark some of what comes later; a message isn't one that
     was sent, whole, once and in order; more is settled than was accepted;
   - at the end, when no more is lost, octets are neither settled nor uncertain, or a last message doesn't come;
   - memory isn't given back. */
#include "fuzz.h"

enum { FLOWS = NODES * NODES * PORTS, MOST_SENT = 1 << 15, MOST_SEGMENTS = 100 };

/* --- the flows, and what is known of each */

struct mark { uint8_t octet; bool begin, end; unsigned life; };
struct span { size_t begin, end; };
struct sums { uint64_t taken, settled, uncertain, accepted, read; };

struct known {
    struct dt_flow flow;
    struct mark *sent;
    size_t sent_len;
    /* the places at which the next piece may stand, and those of whole messages that may have been the last */
    uint8_t *next, *next_span;
    struct span *spans;
    size_t span_count, floor, floor_span;
    unsigned sender_life;
    struct sums all, of_sender, of_receiver;
};

static struct known flows[FLOWS];
static uint8_t places[MOST_SENT + 1];

static size_t place_of(const struct dt_flow *f) {
    if (f->source < 1 || f->source > NODES || f->target < 1 || f->target > NODES || f->source_port >= PORTS || f->target_port != f->source_port + 20) return FLOWS;
    return ((f->source - 1) * NODES + f->target - 1) * PORTS + f->source_port;
}

/* --- the nodes */

enum { MOST_FOLLOWED = 8 };

struct node {
    dt_node *handle[2];
    struct dt_params params;
    bool is_open, is_again, is_spent, was_late, uses_inbox, has_inbox, is_guarded, has_one_port;
    uint16_t open_port;
    uint64_t greatest, until, too_long, kept_out, wake;
    struct dt_node_counts counts;
    struct { struct dt_flow flow; struct sums sums; } followed[MOST_FOLLOWED];
    size_t followed_count;
    uint64_t offset;
};

static struct node nodes[NODES];
/* what the last call told */
struct told { unsigned took, full, quiet, read, not_read, puts; uint64_t count, moment; bool begin, end, run; };

/* --- reports */

enum { F = 1, M = 2, N = 4, C = 8, W = 16, MARKS = 32, RUN = 64, SIDE = 128, MINE = 256, TO_ME = 512 };
static const unsigned FIELDS[] = {
    [DT_REPORT_SEND_QUEUED] = F | C | MINE, [DT_REPORT_SEND_QUIET] = F | M | MINE, [DT_REPORT_SEND_FULL] = F | C | MINE, [DT_REPORT_SEGMENT_SENT] = F | N | C | MARKS | RUN | MINE,
    [DT_REPORT_SEGMENT_RESENT] = F | N | C | MARKS | RUN | MINE, [DT_REPORT_PROBE_SENT] = F | N | MINE, [DT_REPORT_UNCERTAIN] = F | C | MINE, [DT_REPORT_RECORD_RELEASED] = F | SIDE, [DT_REPORT_RECORD_RENEWED] = F | MINE,
    [DT_REPORT_ACK_SENT] = F | N | W | TO_ME, [DT_REPORT_REPLY_SENT] = F | N | W | TO_ME, [DT_REPORT_ACCEPTED] = F | N | C | RUN | TO_ME, [DT_REPORT_PACKET_DROPPED] = F | N, [DT_REPORT_RUN_ENDED] = F | N | TO_ME,
    [DT_REPORT_ACKNOWLEDGED] = F | C | W | MINE, [DT_REPORT_ACK_IGNORED] = F | N | W | MINE, [DT_REPORT_PACKET_QUIET] = M, [DT_REPORT_READ] = F | MARKS | RUN | TO_ME, [DT_REPORT_READ_NONE] = F | TO_ME,
    [DT_REPORT_PACKET_OUT] = N | C, [DT_REPORT_EXPIRED_IN] = N, [DT_REPORT_EXPIRED_OUT] = N, [DT_REPORT_NO_ROUTE] = N, [DT_REPORT_LINK_FULL] = N, [DT_REPORT_PACKET_MALFORMED] = N | C,
};

static void look_at_report(const struct node *n, const struct dt_report *it) {
    uint32_t me = (uint32_t)(n - nodes) + 1;
    WANT(it->kind >= DT_REPORT_SEND_QUEUED && it->kind <= DT_REPORT_PACKET_MALFORMED);
    unsigned has = FIELDS[it->kind];
    WANT((has & F) ? !is_no_flow(&it->flow) && it->flow.source != it->flow.target : is_no_flow(&it->flow));
    WANT((has & M) || it->time == 0);
    WANT((has & N) || it->number == 0);
    WANT((has & C) || it->count == 0);
    WANT((has & W) || it->window == 0);
    WANT((has & MARKS) || (!it->begin && !it->end));
    WANT((has & RUN) || !it->run);
    WANT((has & SIDE) || !it->sending);
    WANT(!(has & MINE) || it->flow.source == me);
    WANT(!(has & TO_ME) || it->flow.target == me);
    if (it->kind == DT_REPORT_SEGMENT_SENT || it->kind == DT_REPORT_SEGMENT_RESENT) WANT(it->count >= 1 && it->count <= n->params.seg);
    if (it->kind == DT_REPORT_RECORD_RELEASED) WANT((it->sending ? it->flow.source : it->flow.target) == me);
    if (it->kind == DT_REPORT_ACCEPTED) WANT(it->count >= 1 && it->count <= n->params.rcap && (!n->has_one_port || it->flow.target_port == n->open_port));
    if (it->kind == DT_REPORT_ACKNOWLEDGED || it->kind == DT_REPORT_ACK_IGNORED) WANT(it->window <= 65536);
    if (it->kind == DT_REPORT_ACK_SENT || it->kind == DT_REPORT_REPLY_SENT) WANT(it->window <= n->params.rcap);
    if (it->kind == DT_REPORT_PACKET_MALFORMED) WANT(it->number >= DT_FAULT_SHORT && it->number <= DT_FAULT_SIZE);
    if (it->kind == DT_REPORT_SEND_QUEUED || it->kind == DT_REPORT_UNCERTAIN) WANT(it->count >= 1);
    if (it->kind == DT_REPORT_SEND_QUEUED || it->kind == DT_REPORT_ACKNOWLEDGED || it->kind == DT_REPORT_UNCERTAIN) WANT(it->count <= n->params.cap);
}

static void add(struct sums *it, const struct dt_report *told) {
    it->taken += told->kind == DT_REPORT_SEND_QUEUED ? told->count : 0;
    it->settled += told->kind == DT_REPORT_ACKNOWLEDGED ? told->count : 0;
    it->uncertain += told->kind == DT_REPORT_UNCERTAIN ? told->count : 0;
    it->accepted += told->kind == DT_REPORT_ACCEPTED ? told->count : 0;
}

static void count(struct node *n, const struct dt_report *it) {
    struct sums sums = {0, 0, 0, 0, 0};
    add(&sums, it);
    n->counts.octets_queued += sums.taken;
    n->counts.octets_acknowledged += sums.settled;
    n->counts.octets_uncertain += sums.uncertain;
    n->counts.octets_accepted += sums.accepted;
    n->counts.datagrams_out += it->kind == DT_REPORT_PACKET_OUT;
    for (size_t i = 0; i < n->followed_count; i++)
        if ((FIELDS[it->kind] & F) && is_flow(&n->followed[i].flow, &it->flow)) add(&n->followed[i].sums, it);
    size_t place = (FIELDS[it->kind] & F) ? place_of(&it->flow) : FLOWS;
    if (place == FLOWS) return;
    add(&flows[place].all, it);
    add(it->kind == DT_REPORT_ACCEPTED ? &flows[place].of_receiver : &flows[place].of_sender, it);
}

/* --- what waits at a node after a call */

static void note(struct told *told, const struct dt_report *it) {
    told->took += it->kind == DT_REPORT_SEND_QUEUED;
    told->full += it->kind == DT_REPORT_SEND_FULL;
    told->quiet += it->kind == DT_REPORT_SEND_QUIET;
    told->read += it->kind == DT_REPORT_READ;
    told->not_read += it->kind == DT_REPORT_READ_NONE;
    told->puts += it->kind == DT_REPORT_PACKET_OUT;
    if (it->kind == DT_REPORT_SEND_QUEUED || it->kind == DT_REPORT_SEND_FULL) told->count = it->count;
    if (it->kind == DT_REPORT_SEND_QUIET) told->moment = it->time;
    if (it->kind == DT_REPORT_READ) told->begin = it->begin, told->end = it->end, told->run = it->run;
}

static void hears(struct node *n, const struct dt_flow *flow) {
    uint8_t status = dt_node_mark_readable(n->handle[0], flow);
    WANT(status == DT_OK && dt_node_mark_readable(n->handle[1], flow) == DT_OK);
}

static bool is_same_report(const struct dt_report *one, const struct dt_report *other) {
    return one->kind == other->kind && is_flow(&one->flow, &other->flow) && one->time == other->time && one->number == other->number &&
           one->count == other->count && one->window == other->window && one->begin == other->begin && one->end == other->end && one->run == other->run && one->sending == other->sending;
}

/* Takes all reports and frames of both, which have to be the same. */
static struct told takes_all(struct node *n) {
    struct told told = {0, 0, 0, 0, 0, 0, 0, 0, false, false, false};
    SIZED(dt_report, one);
    SIZED(dt_report, other);
    SIZED(dt_datagram, out);
    for (;;) {
        dt_status status = dt_node_next_report(n->handle[0], &one);
        WANT(dt_node_next_report(n->handle[1], &other) == status && is_same_report(&one, &other));
        WANT(status == (n->is_open ? DT_OK : DT_NOT_OPEN) || (n->is_open && status == DT_NONE));
        if (status != DT_OK) break;
        look_at_report(n, &one);
        count(n, &one);
        note(&told, &one);
        happens(one.kind);
        if (one.kind == DT_REPORT_PACKET_OUT) {
            struct left left = takes_frame((size_t)(n - nodes));
            /* a spent node may have had memory for the report, and none for the frame */
            WANT(left.some ? one.number == left.link && one.count == left.life : n->is_spent);
        }
        if (n->has_inbox && (one.kind == DT_REPORT_ACCEPTED || one.kind == DT_REPORT_RECORD_RELEASED)) hears(n, &one.flow);
    }
    uint8_t room[1];
    WANT(dt_node_next_datagram(n->handle[0], room, 1, &out) == (n->is_open ? DT_NONE : DT_NOT_OPEN));
    WANT(dt_node_next_datagram(n->handle[1], room, 1, &out) == (n->is_open ? DT_NONE : DT_NOT_OPEN));
    return told;
}

static bool is_same_counts(const struct dt_node_counts *one, const struct dt_node_counts *other) {
    return one->datagrams_out == other->datagrams_out && one->octets_queued == other->octets_queued && one->octets_acknowledged == other->octets_acknowledged &&
           one->octets_uncertain == other->octets_uncertain && one->octets_accepted == other->octets_accepted && one->octets_read == other->octets_read;
}

static void looks_on(struct node *n) {
    n->wake = dt_node_wake(n->handle[0]);
    WANT(n->wake == dt_node_wake(n->handle[1]));
    /* a node that was called so late that a segment isn't sent again any more still has the time at which it was to be */
    WANT(n->wake == DT_NEVER || (n->is_open && !n->is_spent && (n->was_late || n->wake > n->greatest)));
    SIZED(dt_node_counts, mine);
    SIZED(dt_node_counts, twin);
    dt_status status = dt_node_get_counts(n->handle[0], &mine);
    WANT(status == (n->is_open ? DT_OK : DT_NOT_OPEN) && dt_node_get_counts(n->handle[1], &twin) == status && is_same_counts(&mine, &twin));
    struct dt_blocked_counts kept = dt_node_get_blocked_counts(n->handle[0]);
    WANT(kept.closed_port + kept.too_many_flows == n->kept_out && mine.octets_read <= mine.octets_accepted);
    if (!n->is_open || n->is_spent) return;
    WANT(mine.datagrams_in == n->counts.datagrams_in && mine.datagrams_refused == n->counts.datagrams_refused && is_same_counts(&mine, &n->counts));
    for (size_t i = 0; i < n->followed_count; i++) {
        SIZED(dt_flow_counts, all);
        const struct sums *sums = &n->followed[i].sums;
        WANT(dt_node_get_flow_counts(n->handle[0], &n->followed[i].flow, &all) == DT_OK && all.octets_queued == sums->taken);
        WANT(all.octets_acknowledged == sums->settled && all.octets_uncertain == sums->uncertain);
        WANT(all.octets_accepted == sums->accepted && (n->has_inbox || all.octets_read == sums->read));
    }
}

/* --- calls */

/* the moment of the next call of a node */
static uint64_t moment_of(const struct node *n) { return leaps ? leap : now + n->offset; }

/* what a moment counts as */
static uint64_t counted(const struct node *n, uint64_t moment) {
    moment = moment < LAST ? moment : LAST;
    return moment > n->greatest ? moment : n->greatest;
}

/* an event counts at a moment */
static void hears_moment(struct node *n, uint64_t moment) {
    n->greatest = counted(n, moment);
    n->was_late = n->was_late || n->greatest > n->wake;
}

static bool has_changed_nothing(uint8_t status) {
    return status == DT_NOT_OPEN || status == DT_INVALID || status == DT_EXISTS || status == DT_STOPPED || status == DT_MALFORMED || status == DT_EXPIRED || status == DT_BLOCKED;
}

/* Behind an event: its status, and whether memory was refused. */
static struct told event(struct node *n, uint8_t status, uint64_t moment, bool found) {
    happens(100u + status);
    WANT(found || n->is_open);
    WANT(status != DT_NO_MEMORY || !found);
    if (n->is_spent) WANT(status == DT_STOPPED || status == DT_BLOCKED);
    else WANT(status != DT_STOPPED);
    if (!n->is_open) WANT(status == DT_NOT_OPEN);
    if (!has_changed_nothing(status)) hears_moment(n, moment);
    if (status == DT_NO_MEMORY) n->is_spent = any_failed = true;
    struct told told = takes_all(n);
    looks_on(n);
    return told;
}

/* Each call below is made of both handles, of the second one where it changed something. `twin` is that call. */
#define BOTH(call, first, second, status_of, moment) \
    unsigned asked = wanted; \
    may_fail(&wanted); \
    first = call(n->handle[0]); \
    bool found = found_memory(&wanted); \
    if (!has_changed_nothing(status_of(first))) { \
        wanted = asked; \
        may_fail(&wanted); \
        second = call(n->handle[1]); \
        found_memory(&wanted); \
        WANT(status_of(first) == status_of(second)); \
    }

#define PLAIN(it) (it)
#define FIELD(it) ((it).status)

static uint8_t ticks(struct node *n) {
    uint64_t moment = moment_of(n);
#define CALL(side) dt_node_tick(side, moment)
    uint8_t one, other;
    BOTH(CALL, one, other, PLAIN, moment)
#undef CALL
    WANT(one == DT_OK || one == DT_NO_MEMORY || one == DT_NOT_OPEN || one == DT_STOPPED);
    struct told told = event(n, one, moment, found);
    WANT(told.took + told.full + told.quiet + told.read + told.not_read == 0);
    return one;
}

static uint8_t arrives(struct node *n, uint16_t link, const uint8_t *octets, size_t len, uint32_t waited) {
    uint64_t moment = moment_of(n);
    uint8_t *datagram = block(len);
    memcpy(datagram, octets, len);
#define CALL(side) dt_node_receive(side, moment, link, datagram, len, waited)
    struct dt_receive_result one, other;
    BOTH(CALL, one, other, FIELD, moment)
#undef CALL
    uint32_t value = 0;
    uint8_t status = one.status, wrong = header_fault(octets, len, &value);
    WANT(is_same(datagram, octets, len));
    free(datagram);
    if (status == DT_BLOCKED) {
        WANT(n->is_guarded && n->is_open);
        n->kept_out++;
    } else if (n->is_open && !n->is_spent) {
        uint8_t right = !has_link((size_t)(n - nodes), link) ? DT_INVALID : wrong ? DT_MALFORMED : number_at(octets + 4) <= waited ? DT_EXPIRED : DT_OK;
        WANT(status == right || (right == DT_OK && status == DT_NO_MEMORY));
        n->counts.datagrams_in += right == DT_OK;
        n->counts.datagrams_refused += right != DT_OK;
    }
    WANT(status == DT_MALFORMED ? one.fault == wrong && one.value == value : one.fault == 0 && one.value == 0);
    struct told told = event(n, status, moment, found);
    WANT(told.took + told.full + told.quiet + told.read + told.not_read == 0);
    return status;
}

/* the longest message of a node's inbox */
static size_t longest_of(size_t node) { return node == 1 ? 300 : 20000; }

/* what was taken of a flow, with its marks; a message that is longer than the longest is none */
static void took(struct known *f, size_t len, bool begin, bool end) {
    for (size_t i = 0; i < len; i++) {
        struct mark it = {octet_of((size_t)(f - flows), f->sent_len), begin && i == 0, end && i == len - 1, f->sender_life};
        f->sent[f->sent_len++] = it;
    }
    if (!end) return;
    size_t last = f->sent_len, first = last;
    while (first > 0 && f->sent[first - 1].life == f->sender_life && (first == last || !f->sent[first - 1].end)) {
        first--;
        if (f->sent[first].begin) {
            struct span it = {first, last};
            if (last - first <= longest_of(f->flow.target - 1)) f->spans[f->span_count++] = it;
            return;
        }
    }
}

static void sends(struct node *n, const struct dt_flow *flow, size_t len, bool begin, bool end) {
    uint32_t me = (uint32_t)(n - nodes) + 1;
    size_t place = place_of(flow);
    struct known *f = place < FLOWS && flow->source == me ? &flows[place] : NULL;
    if (len > (size_t)MOST_SEGMENTS * n->params.seg) len = (size_t)MOST_SEGMENTS * n->params.seg;
    if (f != NULL && f->sent_len + len > MOST_SENT) return;
    uint64_t moment = moment_of(n);
    uint8_t *octets = block(len);
    for (size_t i = 0; i < len; i++) octets[i] = f != NULL ? octet_of(place, f->sent_len + i) : (uint8_t)i;
#define CALL(side) dt_node_send(side, moment, flow, octets, len, begin, end)
    struct dt_send_result one, other;
    BOTH(CALL, one, other, FIELD, moment)
#undef CALL
    free(octets);
    uint8_t status = one.status;
    bool is_wrong = flow->source != me || flow->target == me || len == 0, is_quiet = n->is_again && counted(n, moment) < n->until;
    if (n->is_open && !n->is_spent) {
        if (is_wrong) WANT(status == DT_INVALID);
        else if (status == DT_QUIET) WANT(is_quiet && one.quiet_until == n->until);
        else if (status == DT_FULL) WANT(!is_quiet && one.free < len && one.free <= n->params.cap);
        else WANT(status == DT_NO_MEMORY || (status == DT_OK && !is_quiet && len <= n->params.cap));
    }
    WANT(status == DT_QUIET || one.quiet_until == 0);
    WANT(status == DT_FULL || one.free == 0);
    if (f != NULL && (status == DT_OK || status == DT_NO_MEMORY)) took(f, len, begin, end);
    struct told told = event(n, status, moment, found);
    if (status == DT_NO_MEMORY) return;
    WANT(told.took == (status == DT_OK) && told.full == (status == DT_FULL) && told.quiet == (status == DT_QUIET) && told.read + told.not_read == 0);
    if (status == DT_OK) WANT(told.count == len);
    if (status == DT_FULL) WANT(told.count == one.free);
    if (status == DT_QUIET) WANT(told.moment == one.quiet_until);
}

/* Whether a piece stands at a place of what was sent. */
static bool stands(const struct known *f, size_t at, const uint8_t *octets, size_t len, bool begin, bool end) {
    if (at + len > f->sent_len || f->sent[at].begin != begin || f->sent[at + len - 1].end != end) return false;
    for (size_t i = 0; i < len; i++)
        if (f->sent[at + i].octet != octets[i] || (i > 0 && (f->sent[at + i].begin || f->sent[at + i - 1].end || f->sent[at + i].life != f->sent[at].life))) return false;
    return true;
}

static void was_read(struct known *f, const uint8_t *octets, size_t len, const struct dt_read_result *piece) {
    size_t least = 0;
    bool any = false;
    memset(places, 0, f->sent_len + 1);
    for (size_t at = f->floor; at < f->sent_len; at++) {
        if ((piece->gap || f->next[at]) && stands(f, at, octets, len, piece->begin, piece->end)) {
            places[at + len] = 1;
            if (!any) least = at + len;
            any = true;
        }
    }
    WANT(any);
    memcpy(f->next, places, f->sent_len + 1);
    f->floor = least;
}

/* Octets of a flow to this node are read. Whether there were any. */
static bool reads(struct node *n, const struct dt_flow *flow, size_t room) {
    uint32_t me = (uint32_t)(n - nodes) + 1;
    size_t place = place_of(flow);
    uint64_t moment = moment_of(n);
    uint8_t *buf = block(room), *twin = block(room);

#define CALL(side) dt_node_read(side, moment, flow, side == n->handle[0] ? buf : twin, room)
    struct dt_read_result one, other = {0, 0, false, false, false};
    BOTH(CALL, one, other, FIELD, moment)
#undef CALL
    uint8_t status = one.status;
    bool is_wrong = flow->target != me || flow->source == me;
    if (n->is_open && !n->is_spent) WANT(status == (is_wrong ? DT_INVALID : room == 0 ? DT_BUFFER_TOO_SMALL : status == DT_OK || status == DT_NO_MEMORY ? status : DT_NONE));
    if (status == DT_OK) {
        WANT(one.len >= 1 && one.len <= room && other.len == one.len && is_same(buf, twin, one.len));
        WANT(one.begin == other.begin && one.end == other.end && one.gap == other.gap);
        n->counts.octets_read += one.len;
        for (size_t i = 0; i < n->followed_count; i++)
            if (is_flow(&n->followed[i].flow, flow)) n->followed[i].sums.read += one.len;
        if (keeps_duties && place < FLOWS && !n->has_inbox) was_read(&flows[place], buf, one.len, &one);
    } else WANT(one.len == 0 && !one.begin && !one.end && !one.gap);
    free(buf);
    free(twin);
    struct told told = event(n, status == DT_BUFFER_TOO_SMALL ? DT_INVALID : status, moment, found);
    if (status == DT_NO_MEMORY) return false;
    WANT(told.took + told.full + told.quiet == 0 && told.read == (status == DT_OK) && told.not_read == (status == DT_NONE));
    if (status == DT_OK) WANT(told.begin == one.begin && told.end == one.end && told.run == one.gap);
    return status == DT_OK;
}

/* A message is one of those that were sent, behind the last one; the next one, where there is no gap. */
static void was_taken(struct known *f, const uint8_t *octets, size_t len, bool gap) {
    size_t least = 0;
    bool any = false;
    memset(places, 0, f->span_count + 1);
    for (size_t at = f->floor_span; at < f->span_count; at++) {
        struct span it = f->spans[at];
        if (it.end - it.begin != len || !(gap || f->next_span[at])) continue;
        bool is_it = true;
        for (size_t i = 0; i < len && is_it; i++) is_it = f->sent[it.begin + i].octet == octets[i];
        if (!is_it) continue;
        places[at + 1] = 1;
        if (!any) least = at + 1;
        any = true;
    }
    WANT(any);
    memcpy(f->next_span, places, f->span_count + 1);
    f->floor_span = least;
}

/* A message is taken. Whether there was one. */
static bool takes(struct node *n, size_t room) {
    uint32_t me = (uint32_t)(n - nodes) + 1;
    uint64_t moment = moment_of(n);
    uint8_t *buf = block(room), *twin = block(room);
    memset(buf, 0xEE, room);
#define CALL(side) dt_node_next_message(side, moment, side == n->handle[0] ? buf : twin, room, side == n->handle[0] ? &one : &other)
    SIZED(dt_message, one);
    SIZED(dt_message, other);
    dt_status status, twin_status;
    BOTH(CALL, status, twin_status, PLAIN, moment)
#undef CALL
    /* a flow that can't be read is looked at no more */
    if (status == DT_STOPPED) WANT(dt_node_next_message(n->handle[1], moment, twin, room, &other) == DT_STOPPED);
    WANT(status == DT_OK || status == DT_NONE || status == DT_NOT_OPEN || status == DT_STOPPED || status == DT_NO_MEMORY || status == DT_BUFFER_TOO_SMALL || status == DT_LOST || status == DT_MORE);
    WANT(n->has_inbox || status == DT_NOT_OPEN);
    WANT(status != DT_LOST || !found);
    for (size_t i = status == DT_OK ? one.len : 0; i < room; i++) WANT(buf[i] == 0xEE);
    if (status != DT_NOT_OPEN) WANT(one.dropped_too_long >= n->too_long);
    if (status != DT_NOT_OPEN) n->too_long = one.dropped_too_long;
    if (status == DT_OK || status == DT_BUFFER_TOO_SMALL) {
        size_t place = place_of(&one.flow);
        WANT(one.len >= 1 && one.len <= longest_of((size_t)(n - nodes)) && other.len == one.len && is_flow(&one.flow, &other.flow) && one.gap == other.gap && one.flow.target == me);
        WANT(status == DT_OK ? one.len <= room && is_same(buf, twin, one.len) : one.len > room);
        if (status == DT_OK && keeps_duties) {
            WANT(place < FLOWS);
            was_taken(&flows[place], buf, one.len, one.gap);
        }
    }
    free(buf);
    free(twin);
    if (!n->has_inbox) {
        WANT(found);
        return false;
    }
    /* a spent node gives what waits, and then says so */
    happens(100u + status);
    if (status == DT_NO_MEMORY) n->is_spent = any_failed = true;
    any_failed = any_failed || status == DT_LOST;
    struct told told = takes_all(n);
    /* where no flow was read nothing was done */
    if (!n->is_spent && told.read + told.not_read > 0) hears_moment(n, moment);
    SIZED(dt_node_counts, counts);
    dt_node_get_counts(n->handle[0], &counts);
    n->counts.octets_read = counts.octets_read;
    looks_on(n);
    return status == DT_OK;
}

/* --- openings */

static void makes_inbox(struct node *n) {
    uint8_t right = !n->is_open ? DT_NOT_OPEN : n->has_inbox ? DT_EXISTS : DT_OK;
    WANT(dt_node_enable_messages(n->handle[0], longest_of((size_t)(n - nodes))) == right);
    if (right != DT_OK) return;
    WANT(dt_node_enable_messages(n->handle[1], longest_of((size_t)(n - nodes))) == DT_OK);
    n->has_inbox = true;
}

static void opens(struct node *n, bool again) {
    size_t me = (size_t)(n - nodes);
    struct dt_node_options options = options_of(me, now + n->offset, again);
    for (size_t i = 0; i < 2; i++) {
        struct dt_open_result it = dt_node_open(n->handle[i], &n->params, &options);
        WANT(it.status == DT_OK && it.field == 0 && it.value == 0);
    }
    WANT(dt_node_open(n->handle[0], &n->params, &options).status == DT_EXISTS);
    n->is_open = true;
    n->is_again = again;
    n->is_spent = n->was_late = n->has_inbox = n->is_guarded = n->has_one_port = false;
    n->wake = DT_NEVER;
    n->kept_out = 0;
    n->greatest = again ? counted(n, options.now) : 0;
    n->until = again ? (options.now < LAST ? options.now : LAST) + dt_params_quiet_ms(&n->params) : 0;
    n->too_long = 0;
    n->followed_count = 0;
    memset(&n->counts, 0, sizeof n->counts);
    if (n->uses_inbox) makes_inbox(n);
}

static void closes(struct node *n) {
    size_t me = (size_t)(n - nodes);
    dt_node_close(n->handle[0]);
    dt_node_close(n->handle[1]);
    n->is_open = n->is_spent = n->has_inbox = n->is_guarded = n->has_one_port = false;
    n->greatest = n->kept_out = 0;
    n->followed_count = 0;
    for (size_t i = 0; i < FLOWS; i++) {
        struct known *f = &flows[i];
        if (f->flow.source == me + 1) {
            f->sender_life++;
            memset(&f->of_sender, 0, sizeof f->of_sender);
        }
        if (f->flow.target == me + 1) {
            memset(&f->of_receiver, 0, sizeof f->of_receiver);
            /* what comes next has a run mark, so no place is the next one */
            memset(f->next, 0, f->sent_len + 1);
            memset(f->next_span, 0, f->span_count + 1);
        }
    }
    takes_all(n);
    looks_on(n);
    WANT(dt_node_tick(n->handle[0], now) == DT_NOT_OPEN);
}

/* --- what calls refuse */

static struct dt_flow flow_of(uint8_t it) { return flows[it % FLOWS].flow; }

/* a flow from or to a node */
static struct dt_flow flow_at(size_t node, uint8_t it, bool is_from) {
    uint32_t me = (uint32_t)node + 1, other = (uint32_t)(node + 1 + it % 2) % NODES + 1;
    uint16_t port = (uint16_t)(it >> 1 & 1);
    struct dt_flow flow = {is_from ? me : other, is_from ? other : me, port, (uint16_t)(port + 20)};
    return flow;
}

/* the first parameter that is out of its range, or 11 */
static unsigned out_of_range(const struct dt_params *p, uint32_t *value) {
    const uint32_t day = 86400000, all[] = {p->mpl, p->r, p->a, p->rto, p->probe, p->seg, p->cap, p->rcap, p->window, p->run_limit};
    const uint32_t least[] = {2, 1, 1, 1, 1, 1, 1, 1, 1, 1}, most[] = {day, day, day, day, day, 8192, 65536, 65536, 65536, 2147483648u};
    for (unsigned i = 0; i < 10; i++) {
        *value = all[i];
        if (all[i] < least[i] || all[i] > most[i]) return i;
        if (i == 4 && all[i] >= 3 * (uint64_t)p->mpl + p->r + p->a) return i;
    }
    return 11;
}

static void params_are_judged(const struct dt_params *p) {
    uint32_t value = 0;
    unsigned wrong = out_of_range(p, &value);
    uint64_t one = 1, other = 2;
    dt_status status = dt_params_fingerprint(p, &one);
    WANT(status == (wrong < 11 ? DT_INVALID : DT_OK) && dt_params_fingerprint(p, &other) == status && one == other && (wrong == 11 || one == 0));
    WANT(dt_params_quiet_ms(p) == (wrong < 11 ? 0 : 3 * (uint64_t)p->mpl + p->r + p->a));
    dt_node *n = (dt_node *)block(dt_node_size());
    struct dt_node_options options = node_options(1, 0, false, links[0], ROUTES[0]);
    dt_node_init(n);
    may_fail(&wanted);
    struct dt_open_result it = dt_node_open(n, p, &options);
    bool found = found_memory(&wanted);
    if (wrong < 11) WANT(it.status == DT_INVALID && it.field == wrong + 1 && it.value == value);
    else WANT((it.status == DT_OK || (it.status == DT_NO_MEMORY && !found)) && it.field == 0 && it.value == 0);
    WANT(dt_node_tick(n, 0) == (it.status == DT_OK ? DT_OK : DT_NOT_OPEN));
    dt_node_close(n);
    dt_node_close(n);
    free(n);
}

/* What is refused whatever the node holds, and changes nothing. */
static void is_refused(struct node *n, uint8_t kind, uint8_t how) {
    size_t me = (size_t)(n - nodes);
    static const uint8_t octets[40] = {1, 1, 0, 24, 0, 0, 0, 9};
    struct dt_flow wrong = flow_at(me, how, (kind & 16) != 0), self = {(uint32_t)me + 1, (uint32_t)me + 1, 1, 2};
    bool leapt = leaps;
    /* a moment that a refused call was told doesn't count */
    leaps = true;
    leap = (uint64_t)how << (how % 64);
    switch (kind % 6) {
    case 0: sends(n, &self, 1, true, true); break;
    case 1: {
        struct dt_flow other = flow_at(me, how, false);
        sends(n, &other, 1 + how, true, true);
        break;
    }
    case 2: {
        struct dt_flow mine = flow_at(me, how, true);
        sends(n, &mine, 0, true, true);
        reads(n, &mine, how);
        break;
    }
    case 3: arrives(n, (uint16_t)(3 + how), octets, how % 41, how); break;
    case 4: arrives(n, 1, octets, how % 16, 0); break;
    default: reads(n, kind & 8 ? &self : &wrong, kind & 8 ? how : 0); break;
    }
    leaps = leapt;
}

/* --- calls that are no events */

static void adds_route(struct node *n, uint8_t to, uint8_t link) {
    struct dt_route it = {(uint32_t)to % 8 + 1, (uint16_t)(link % 4)};
    may_fail(&wanted);
    uint8_t one = dt_node_add_route(n->handle[0], &it);
    bool found = found_memory(&wanted);
    WANT(one == DT_OK || one == DT_NOT_OPEN || one == DT_STOPPED || one == DT_INVALID || one == DT_EXISTS || one == DT_NO_MEMORY);
    WANT(one != DT_NO_MEMORY || !found);
    if (n->is_open && !n->is_spent) WANT(one == DT_INVALID ? !has_link((size_t)(n - nodes), it.link) : one == DT_EXISTS || has_link((size_t)(n - nodes), it.link));
    if (one == DT_OK) {
        WANT(dt_node_add_route(n->handle[1], &it) == DT_OK);
        WANT(dt_node_add_route(n->handle[0], &it) == DT_EXISTS);
    }
    takes_all(n);
    looks_on(n);
}

static void guards(struct node *n, uint8_t how, uint8_t most) {
    uint16_t ports[2] = {(uint16_t)(20 + (how & 1)), (uint16_t)(20 + (how & 1))};
    size_t count = how & 2 ? 1 + (how >> 2 & 1) : 0;
    bool all = (how & 2) == 0;
    uint32_t flow_count = how & 8 ? UINT32_MAX : most;
    may_fail(&wanted);
    uint8_t one = dt_node_set_guard(n->handle[0], ports, count, all, flow_count);
    bool found = found_memory(&wanted);
    WANT(one == (n->is_open ? one == DT_NO_MEMORY && !found ? DT_NO_MEMORY : DT_OK : DT_NOT_OPEN));
    if (one == DT_OK) {
        WANT(dt_node_set_guard(n->handle[1], ports, count, all, flow_count) == DT_OK);
        n->is_guarded = !all || flow_count != UINT32_MAX;
        n->has_one_port = !all;
        n->open_port = ports[0];
    }
    takes_all(n);
    looks_on(n);
}

static void follows(struct node *n, uint8_t which) {
    struct dt_flow flow = flow_of(which);
    SIZED(dt_flow_counts, counts);
    uint32_t me = (uint32_t)(n - nodes) + 1;
    size_t at = 0;
    while (at < n->followed_count && !is_flow(&n->followed[at].flow, &flow)) at++;
    if (at == MOST_FOLLOWED || (flow.source != me && flow.target != me)) return;
    if (n->is_open && at == n->followed_count) WANT(dt_node_get_flow_counts(n->handle[0], &flow, &counts) == DT_NONE);
    may_fail(&wanted);
    uint8_t one = dt_node_count_flow(n->handle[0], &flow);
    bool found = found_memory(&wanted);
    WANT(one == (n->is_open ? one == DT_NO_MEMORY && !found ? DT_NO_MEMORY : DT_OK : DT_NOT_OPEN));
    if (one == DT_OK) WANT(dt_node_count_flow(n->handle[1], &flow) == DT_OK);
    if (one == DT_OK && at == n->followed_count) {
        n->followed[at].flow = flow;
        memset(&n->followed[at].sums, 0, sizeof n->followed[at].sums);
        n->followed_count++;
    }
    takes_all(n);
    looks_on(n);
}

/* --- the network */

static bool is_open(size_t node) { return nodes[node].is_open; }

static void takes_in(size_t node, uint16_t link, const uint8_t *octets, size_t len, uint32_t waited) { arrives(&nodes[node], link, octets, len, waited); }

static void is_ticked(size_t node) { ticks(&nodes[node]); }

static uint64_t wake_of(size_t node) { return dt_node_wake(nodes[node].handle[0]); }

static uint64_t offset_of(size_t node) { return nodes[node].offset; }

static struct frame next_frame(size_t node, size_t side, uint8_t *buf, size_t room) {
    struct frame it;
    memset(&it, 0, sizeof it);
    it.it.size = sizeof it.it;
    it.status = dt_node_next_datagram(nodes[node].handle[side], buf, room, &it.it);
    return it;
}

static void reads_all(struct node *n, size_t room) {
    size_t me = (size_t)(n - nodes);
    if (n->has_inbox)
        while (takes(n, room)) {}
    else
        for (uint8_t i = 0; i < 4; i++) {
            struct dt_flow flow = flow_at(me, i, false);
            while (reads(n, &flow, room)) {}
        }
}

/* --- inputs that keep no duty */

static void any_octets(struct node *n, uint8_t link, uint8_t length, uint8_t seed) {
    size_t len = length < 200 ? length : (size_t)(length - 199) * 160;
    uint8_t *octets = block(len);
    for (size_t i = 0; i < len; i++) octets[i] = octet_of(seed, i);
    if (len >= 16 && seed & 1) octets[0] = (uint8_t)(1 + (seed >> 1 & 1)), octets[1] = 1, put(octets + 2, (uint32_t)len - 16, 2), put(octets + 12, (uint32_t)(n - nodes) + 1, 4);
    arrives(n, (uint16_t)(link % 3), octets, len, seed % 5 == 0 ? seed : 0);
    free(octets);
}

/* a packet of a known flow to a node */
static void made_up(struct node *n, uint8_t which, uint8_t number, uint8_t how) {
    size_t me = (size_t)(n - nodes), size = how % 4 == 0 ? CHOICE(LENGTHS, how) % 8193 : how % 16;
    uint8_t kind = (uint8_t)(1 + (which >> 4) % 4), version = (uint8_t)(size > 1024 || kind == 4 ? 2 : 1);
    if (kind != 1) size = 0;
    else if (size == 0) size = 1;
    size_t len = 30 + size;
    uint8_t *octets = block(len);
    memset(octets, how, len);
    struct dt_flow flow = flow_at(me, which, kind == 2);
    bool back = kind == 2;
    put(octets, version, 1);
    put(octets + 1, 1, 1);
    put(octets + 2, (uint32_t)len - 16, 2);
    put(octets + 4, 1000, 4);
    put(octets + 8, back ? flow.target : flow.source, 4);
    put(octets + 12, (uint32_t)me + 1, 4);
    put(octets + 16, kind, 1);
    put(octets + 17, kind == 1 ? which & 7 : 0, 1);
    put(octets + 18, back ? flow.target_port : flow.source_port, 2);
    put(octets + 20, back ? flow.source_port : flow.target_port, 2);
    put(octets + 22, number < 128 ? number : nodes[me].params.start + (number - 192u) * (how & 8 ? 1 : 100), 4);
    put(octets + 26, kind == 2 ? how * 257u : 0, 4);
    arrives(n, 1, octets, len, 0);
    free(octets);
}

/* something under way comes with other octets */
static void comes_changed(uint8_t which, uint8_t where, uint8_t how) {
    if (flight_len == 0) return;
    struct flight *it = &flight[which % flight_len];
    size_t to = it->to, len = it->len + (where == 255 ? 1 + how : 0);
    uint16_t link = it->link;
    uint8_t *octets = block(len);
    memset(octets, how, len);
    memcpy(octets, it->octets, it->len);
    if (where == 254) len = how % (it->len + 1);
    else if (where == 253 && it->len >= 30) put(octets + 22, number_at(octets + 22) + (how - 128u) * 3, 4);
    else if (where == 252 && it->len >= 30) put(octets + 22, number_at(octets + 22) ^ 1u << how % 32, 4);
    else if (where == 251 && it->len >= 16) put(octets + 2, (uint32_t)len - 16, 2), octets[0] ^= 3;
    else if (where < 251) octets[(where % 64u + (where >= 64 ? how : 0u)) % it->len] = how;
    if (where == 255 && how & 1) put(octets + 2, (uint32_t)len - 16, 2);
    arrives(&nodes[to], link, octets, len, 0);
    free(octets);
}

/* --- an input */

static void begins(struct input *in) {
    uint8_t mode = octet(in), inboxes = octet(in);
    keeps_duties = mode % 4 != 3;
    now = mode >> 4;
    leaps = any_failed = false;
    wanted = 0;
    last_happened = 0;
    struct dt_params params;
    params_of(in, &params);
    for (size_t i = 0; i < NODES; i++) {
        struct node *n = &nodes[i];
        memset(n, 0, sizeof *n);
        n->params = params;
        n->params.start += CHOICE(STARTS, octet(in));
        n->offset = CHOICE(CLOCKS, octet(in));
        n->uses_inbox = inboxes >> i & 1;
        for (size_t j = 0; j < 2; j++) {
            n->handle[j] = (dt_node *)block(dt_node_size());
            dt_node_init(n->handle[j]);
        }
    }
    uint8_t charges = octet(in), paces = octet(in);
    for (size_t i = 0; i < NODES; i++) {
        link_count[i] = i == 1 ? 2 : 1;
        for (size_t j = 0; j < link_count[i]; j++) {
            struct dt_link it = {CHOICE(CHARGES, charges + i), CHOICE(PACES, paces + i + j), (uint16_t)(j + 1), 0};
            links[i][j] = it;
        }
    }
    for (size_t i = 0; i < NODES; i++) opens(&nodes[i], inboxes >> (3 + i) & 1);
}

static void does(const uint8_t *record) {
    uint8_t a = record[1], b = record[2], c = record[3];
    struct node *n = &nodes[a % NODES];
    size_t me = (size_t)(n - nodes);
    happens(200u + record[0] % 26);
    switch (record[0] % 26) {
    case 0: now += a; break;
    case 1: {
        const struct dt_params *p = &n->params;
        const uint64_t spans[] = {p->mpl, p->r, p->a, p->rto, p->probe, dt_params_quiet_ms(p), dt_params_quiet_ms(p) - p->mpl, dt_params_quiet_ms(p) + p->r};
        now += spans[b % 8] + (c < 3 ? c - (uint64_t)1 : 0);
        break;
    }
    case 2: goes_on(b & 1); break;
    case 3: ticks(n); break;
    case 4: case 5: case 6: {
        struct dt_flow flow = flow_at(me, a / NODES, true);
        sends(n, &flow, b < 128 ? b : CHOICE(LENGTHS, b), c & 1, c & 2);
        break;
    }
    case 7: {
        struct dt_flow flow = flow_at(me, a / NODES, false);
        if (!n->has_inbox || !keeps_duties) reads(n, &flow, b < 128 ? b : CHOICE(LENGTHS, b));
        break;
    }
    case 8: reads_all(n, 1 + CHOICE(LENGTHS, b)); break;
    case 9: if (flight_len > 0) comes(a % flight_len, b & 1); break;
    case 10: if (flight_len > 0) lose(a % flight_len); break;
    case 11: all_come(b & c); break;
    case 12: if (n->has_inbox) takes(n, b < 128 ? b : CHOICE(LENGTHS, b)); break;
    case 13:
        closes(n);
        if (b & 1) opens(n, keeps_duties || c & 1);
        break;
    case 14: if (!n->is_open) opens(n, keeps_duties || c & 1); break;
    case 15: guards(n, b, c % 4); break;
    case 16: adds_route(n, b, c); break;
    case 17: follows(n, b); break;
    case 18: is_refused(n, b, c); break;
    case 19: wanted = 1 + b % 24; break;
    case 20:
        for (unsigned i = 0; i < b % 16u; i++) {
            all_come(c & (c << i));
            goes_on(false);
            if (c & 1) reads_all(&nodes[i % NODES], 20001);
        }
        break;
    case 21: {
        struct dt_params it = n->params;
        uint32_t *const fields[] = {&it.mpl, &it.r, &it.a, &it.rto, &it.probe, &it.seg, &it.cap, &it.rcap, &it.window, &it.run_limit, &it.start};
        const uint32_t values[] = {0, 1, 2, UINT32_MAX, 86400000, 86400001, 8192, 8193, 65536, 65537, 2147483648u, 2147483649u};
        *fields[b % 11] = CHOICE(values, c);
        *fields[(b >> 4) % 11] = CHOICE(values, c >> 4);
        params_are_judged(&it);
        break;
    }
    case 22: if (!keeps_duties) any_octets(n, (uint8_t)(1 + a / 64), b, c); break;
    case 23: if (!keeps_duties) made_up(n, a / NODES, b, c); break;
    case 24: if (!keeps_duties) comes_changed(a, b, c); break;
    default:
        if (!keeps_duties) {
            const uint64_t moments[] = {0, LAST, LAST - 1, UINT64_MAX, now, now + n->offset, now + 100000000, now / 2, LAST - 10000};
            leap = CHOICE(moments, b);
            leaps = c & 1;
            if (c & 2) makes_inbox(n);
        }
    }
}

/* Nothing is lost any more: all octets get their fate, and a last message comes. */
static void ends_well(void) {
    uint64_t at = 0;
    for (size_t i = 0; i < NODES; i++) {
        struct node *n = &nodes[i];
        if (n->is_spent) closes(n);
        if (!n->is_open) opens(n, true);
        guards(n, 8, 0);
    }
    bool is_still = false;
    for (unsigned step = 0; step < MOST_STEPS && !is_still; step++) {
        all_come(0);
        for (size_t i = 0; i < NODES; i++) reads_all(&nodes[i], 20001);
        is_still = flight_len == 0 && !least_wake(&at);
        if (!is_still && flight_len == 0) goes_on(true);
    }
    if (!is_still) return;
    happens(300);
    for (size_t i = 0; i < FLOWS; i++) {
        const struct known *f = &flows[i];
        WANT(any_failed || f->of_sender.taken == f->of_sender.settled + f->of_sender.uncertain);
        WANT(any_failed || f->all.settled <= f->all.accepted);
    }
    uint64_t longest = dt_params_quiet_ms(&nodes[0].params);
    now += longest;
    struct dt_flow last = flow_at(0, 0, true);
    struct known *f = &flows[place_of(&last)];
    if (f->sent_len == MOST_SENT || links[1][0].charge + 2 > nodes[0].params.mpl || links[0][0].pace > 0) return;
    size_t before = f->floor + f->floor_span;
    sends(&nodes[0], &last, 1, true, true);
    all_come(0);
    reads_all(&nodes[1], 300);
    WANT(f->floor + f->floor_span > before);
    happens(301);
}

static void ends(void) {
    while (flight_len > 0) lose(0);
    for (size_t i = 0; i < NODES; i++) {
        closes(&nodes[i]);
        free(nodes[i].handle[0]);
        free(nodes[i].handle[1]);
    }
    WANT(held == 0);
    for (size_t i = 0; i < FLOWS; i++) {
        struct known *f = &flows[i];
        memset(f->next, 0, f->sent_len + 1);
        memset(f->next_span, 0, f->span_count + 1);
        f->sent_len = f->span_count = f->floor = f->floor_span = 0;
        f->sender_life = 0;
        memset(&f->all, 0, sizeof f->all);
        memset(&f->of_sender, 0, sizeof f->of_sender);
        memset(&f->of_receiver, 0, sizeof f->of_receiver);
    }
}

static void knows_flows(void) {
    for (size_t i = 0; i < FLOWS; i++) {
        struct known *f = &flows[i];
        uint16_t port = (uint16_t)(i % PORTS);
        struct dt_flow flow = {(uint32_t)(i / PORTS / NODES) + 1, (uint32_t)(i / PORTS % NODES) + 1, port, (uint16_t)(port + 20)};
        f->flow = flow;
        f->sent = (struct mark *)calloc(MOST_SENT, sizeof *f->sent);
        f->next = (uint8_t *)calloc(MOST_SENT + 1, 1);
        f->next_span = (uint8_t *)calloc(MOST_SENT + 1, 1);
        f->spans = (struct span *)calloc(MOST_SENT, sizeof *f->spans);
        if (f->sent == NULL || f->next == NULL || f->next_span == NULL || f->spans == NULL) abort();
    }
}

int LLVMFuzzerTestOneInput(const uint8_t *data, size_t size) {
    if (flows[0].sent == NULL) knows_flows();
    struct input in = {data, size};
    WANT(dt_abi_version() == DT_ABI_VERSION && dt_node_align() <= 16);
    begins(&in);
    for (at_record = 0; in.left > 0 && at_record < MOST_OPS; at_record++) {
        uint8_t record[RECORD];
        for (size_t i = 0; i < RECORD; i++) record[i] = octet(&in);
        does(record);
    }
    leaps = false;
    wanted = 0;
    if (keeps_duties) ends_well();
    ends();
    return 0;
}

