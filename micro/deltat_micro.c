#include "deltat_micro.h"

/* string.h isn't there for every bare device */
void *memcpy(void *to, const void *from, size_t len);
void *memmove(void *to, const void *from, size_t len);

enum { HEADER = 16, PACKET = 14, BODY_1 = 1038, BODY_2 = 8206, DATA_1 = 1024, DATA_2 = 8192, MOST_WINDOW = 65536 };
enum { NO_ACT, GIVE_UP, RELEASE_SEND, RELEASE_RECEIVE, ACKNOWLEDGE, RESEND, CUT, PROBE }; /* the classes of acts */
#define LONG_AGO DTM_MAX_SLEEP /* ms; above each bound of the times */
#ifndef DTM_LIMIT_MET
#define DTM_LIMIT_MET(what) ((void)0) /* tests count them */
#endif

typedef struct dtm_node node;
typedef struct dtm_sender sender;
typedef struct dtm_receiver receiver;
typedef struct dtm_segment segment;
typedef struct dtm_queue queue;
typedef struct dtm_flow flow;

/* --- the layout */

/* The contracts of this part and of dtm_action_of are tried by Frama-C (tests/micro_contracts.py). They pin which fault is
   reported: that of the first test that fails, and none where all hold. */
/*@ logic integer two_of{L}(uint8_t *at) = at[0] * 256 + at[1];
    logic integer four_of{L}(uint8_t *at) = ((at[0] * 256 + at[1]) * 256 + at[2]) * 256 + at[3];
    predicate is_length{L}(uint8_t *octets, integer len) =
        two_of(octets + 2) == len - 16 && len - 16 <= (octets[0] == 1 ? BODY_1 : BODY_2);
    predicate is_kind(integer version, integer kind) = version == 1 ? 1 <= kind <= 3 : (kind == 1 || kind == 4);
    predicate are_flags(integer kind, integer flags) = flags <= (kind == 1 ? 7 : 0);
    predicate is_window(integer kind, integer window) = window <= (kind == 2 ? MOST_WINDOW : 0);
    predicate is_size(integer version, integer kind, integer size) =
        kind != 1 ? size == 0 : version == 1 ? 1 <= size <= DATA_1 : DATA_1 < size <= DATA_2; */
/*@ requires \valid_read(at + (0 .. 1));
    assigns \nothing;
    ensures \result == at[0] * 256 + at[1]; */
static uint32_t two(const uint8_t *at) { return at[0] * 256u + at[1]; }
/*@ requires \valid_read(at + (0 .. 3));
    assigns \nothing;
    ensures \result == ((at[0] * 256 + at[1]) * 256 + at[2]) * 256 + at[3]; */
static uint32_t four(const uint8_t *at) { return two(at) * 65536u + two(at + 2); }
static void put_two(uint8_t *at, uint32_t it) { at[0] = (uint8_t)(it >> 8), at[1] = (uint8_t)it; }
static void put_four(uint8_t *at, uint32_t it) { put_two(at, it >> 16), put_two(at + 2, it); }

/*@ requires \valid(it);
    assigns it->value;
    ensures it->value == value && \result == fault; */
static uint8_t failed(struct dtm_packet *it, uint8_t fault, uint32_t value) {
    it->value = value;
    return fault;
}

/*@ requires len < 0x7fffffff && \valid_read(octets + (0 .. len - 1));
    requires \valid(it) && \separated(it, octets + (0 .. len - 1));
    assigns *it;
    ensures \result == DTM_FAULT_SHORT <==> len < 16;
    ensures len >= 16 ==> (\result == DTM_FAULT_VERSION <==> octets[0] != 1 && octets[0] != 2);
    ensures len >= 16 && 1 <= octets[0] <= 2 ==> (\result == DTM_FAULT_LENGTH <==> !is_length(octets, len));
    ensures len >= 16 && 1 <= octets[0] <= 2 && is_length(octets, len) ==>
        \result == (four_of(octets + 4) == 0 ? DTM_FAULT_LIFETIME : 0);
    ensures \result == 0 ==> it->version == octets[0] && it->protocol == octets[1];
    ensures \result == 0 ==> it->life == ((octets[4] * 256 + octets[5]) * 256 + octets[6]) * 256 + octets[7] > 0; */
uint8_t dtm_read_deltagram(const uint8_t *octets, size_t len, struct dtm_packet *it) {
    uint32_t most;
    it->present = 0;
    if (len < HEADER) return failed(it, DTM_FAULT_SHORT, (uint32_t)len);
    it->version = octets[0];
    it->protocol = octets[1];
    if (it->version != 1 && it->version != 2) return failed(it, DTM_FAULT_VERSION, it->version);
    it->present = (uint32_t)(len - HEADER);
    most = it->version == 1 ? BODY_1 : BODY_2;
    if (two(octets + 2) != it->present || it->present > most) return failed(it, DTM_FAULT_LENGTH, two(octets + 2));
    it->life = four(octets + 4);
    it->source = four(octets + 8);
    it->target = four(octets + 12);
    return it->life == 0 ? failed(it, DTM_FAULT_LIFETIME, 0) : 0;
}

/*@ requires 16 <= len <= 16 + BODY_2 && \valid_read(frame + (0 .. len - 1));
    requires it->version == 1 || it->version == 2;
    requires \valid(it) && \separated(it, frame + (0 .. len - 1));
    assigns *it;
    ensures \result == DTM_FAULT_PROTOCOL <==> \old(it->protocol) != 1;
    ensures \old(it->protocol) == 1 ==> (\result == DTM_FAULT_SHORT <==> len < 30);
    ensures \old(it->protocol) == 1 && len >= 30 ==>
        (\result == DTM_FAULT_KIND <==> !is_kind(\old(it->version), frame[16]));
    ensures \old(it->protocol) == 1 && len >= 30 && is_kind(\old(it->version), frame[16]) ==>
        (\result == DTM_FAULT_FLAGS <==> !are_flags(frame[16], frame[17]));
    ensures \old(it->protocol) == 1 && len >= 30 && is_kind(\old(it->version), frame[16]) &&
        are_flags(frame[16], frame[17]) ==>
        (\result == DTM_FAULT_WINDOW <==>
            !is_window(frame[16], ((frame[26] * 256 + frame[27]) * 256 + frame[28]) * 256 + frame[29]));
    ensures \old(it->protocol) == 1 && len >= 30 && is_kind(\old(it->version), frame[16]) &&
        are_flags(frame[16], frame[17]) &&
        is_window(frame[16], ((frame[26] * 256 + frame[27]) * 256 + frame[28]) * 256 + frame[29]) ==>
        (\result == DTM_FAULT_SIZE <==> !is_size(\old(it->version), frame[16], len - 30));
    ensures \result <= DTM_FAULT_SIZE && \result != DTM_FAULT_VERSION && \result != DTM_FAULT_LENGTH;
    ensures \result != DTM_FAULT_LIFETIME;
    ensures \result == 0 ==> it->kind == frame[16] && it->flags == frame[17];
    ensures \result == 0 ==> it->size == len - 30 && it->octets == frame + 30;
    ensures \result == 0 ==> it->window <= MOST_WINDOW; */
uint8_t dtm_read_packet(const uint8_t *frame, size_t len, struct dtm_packet *it) {
    const uint8_t *body = frame + HEADER;
    uint32_t size = (uint32_t)(len - HEADER), least = 0, most = 0;
    bool first = it->version == 1, is_kind;
    if (it->protocol != 1) return failed(it, DTM_FAULT_PROTOCOL, it->protocol);
    if (size < PACKET) return failed(it, DTM_FAULT_SHORT, size);
    size -= PACKET;
    it->kind = body[0];
    it->flags = body[1];
    it->source_port = (uint16_t)two(body + 2);
    it->target_port = (uint16_t)two(body + 4);
    it->number = four(body + 6);
    it->window = four(body + 10);
    it->octets = body + PACKET;
    it->size = (uint16_t)size;
    is_kind = first ? it->kind >= DTM_PACKET_DATA && it->kind <= DTM_PACKET_PROBE
                    : it->kind == DTM_PACKET_DATA || it->kind == DTM_PACKET_CLOSING;
    if (!is_kind) return failed(it, DTM_FAULT_KIND, it->kind);
    if (it->flags > (it->kind == DTM_PACKET_DATA ? 7 : 0)) return failed(it, DTM_FAULT_FLAGS, it->flags);
    if (it->kind == DTM_PACKET_ACK) most = MOST_WINDOW;
    if (it->window > most) return failed(it, DTM_FAULT_WINDOW, it->window);
    most = 0;
    if (it->kind == DTM_PACKET_DATA) least = first ? 1 : DATA_1 + 1, most = first ? DATA_1 : DATA_2;
    return size < least || size > most ? failed(it, DTM_FAULT_SIZE, size) : 0;
}

/* Writes the header of a datagram and of its packet; `size` octets of data follow them. */
static void write_packet(uint8_t *at, const struct dtm_packet *it) {
    at[0] = it->size > DATA_1 ? 2 : 1;
    at[1] = 1;
    put_two(at + 2, PACKET + it->size);
    put_four(at + 4, it->life);
    put_four(at + 8, it->source);
    put_four(at + 12, it->target);
    at[16] = it->kind;
    at[17] = it->flags;
    put_two(at + 18, it->source_port);
    put_two(at + 20, it->target_port);
    put_four(at + 22, it->number);
    put_four(at + 26, it->window);
}

static struct dtm_packet packet_of(const node *n, const flow *way, uint8_t kind, uint32_t number) {
    struct dtm_packet it = {0};
    it.life = n->p.mpl;
    it.source = way->source, it.target = way->target;
    it.source_port = way->source_port, it.target_port = way->target_port;
    it.kind = kind;
    it.number = number;
    return it;
}

/* --- rings */

/* a + b in a ring; each is at most its room */
static uint32_t round_by(uint32_t a, uint32_t b, uint32_t room) {
    uint32_t it = a + b;
    return it >= room ? it - room : it;
}
static bool marked(const uint8_t *bits, uint32_t at) { return bits[at >> 3] >> (at & 7) & 1; }
static void mark(uint8_t *bits, uint32_t at, bool on) {
    uint8_t bit = (uint8_t)(1u << (at & 7));
    bits[at >> 3] = (uint8_t)(on ? bits[at >> 3] | bit : bits[at >> 3] & ~bit);
}

/* --- reports */

static bool is_same(const flow *a, const flow *b) {
    bool nodes = a->source == b->source && a->target == b->target;
    return nodes && a->source_port == b->source_port && a->target_port == b->target_port;
}

/* a place leaves a list of such an order, and has_record behind it from now on */
static void take_out(uint8_t *order, uint8_t which, uint8_t *count) {
    uint8_t place = order[which];
    --*count;
    memmove(order + which, order + which + 1, (size_t)(*count - which));
    order[*count] = place;
}

/* the fields that a report doesn't name are 0 */
#define REPORT(n, ...) report(n, &(struct dtm_report){__VA_ARGS__})
static void report(const node *n, const struct dtm_report *it) { n->callbacks.report(n->callbacks.context, it); }

/* a report with at most these fields; `way` may be NULL */
static void report_of(const node *n, uint8_t kind, const flow *way, uint32_t number, uint32_t count) {
    struct dtm_report it = {.kind = kind, .number = number, .count = count};
    if (way) it.flow = *way;
    report(n, &it);
}

/* --- the relay */

static void flush(node *n, queue *q) {
    if (q->has_last && n->now - q->last >= q->pace) q->has_last = 0;
    while (q->len > 0 && !q->has_last) {
        struct dtm_waiting *it = &q->wait[q->at];
        uint32_t life = four(it->octets + 4), charge = n->now - it->since + 1;
        q->at = (uint8_t)round_by(q->at, 1, DTM_QUEUE);
        q->len--;
        if (life <= charge) {
            report_of(n, DTM_REPORT_EXPIRED_OUT, NULL, q->link, 0);
            continue;
        }
        put_four(it->octets + 4, life - charge);
        q->last = n->now;
        q->has_last = q->pace > 0;
        report_of(n, DTM_REPORT_PACKET_OUT, NULL, q->link, life - charge);
        n->callbacks.datagram(n->callbacks.context, q->link, it->octets, it->len);
    }
}

static queue *queue_of(node *n, uint8_t link) {
    for (uint8_t i = 0; i < n->links; i++)
        if (n->queue[i].link == link) return &n->queue[i];
    return NULL;
}

/* the place of a frame for that node at the end of its link's queue, and that queue; none is advertised */
static uint8_t *enter(node *n, uint32_t to, size_t len, queue **q) {
    uint8_t i = 0;
    while (i < n->routes && n->route[i].to != to) i++;
    if (i == n->routes) {
        report_of(n, DTM_REPORT_NO_ROUTE, NULL, to, 0);
        return NULL;
    }
    *q = queue_of(n, n->route[i].link);
    if ((*q)->len == DTM_QUEUE) {
        DTM_LIMIT_MET("queue");
        report_of(n, DTM_REPORT_LINK_FULL, NULL, (*q)->link, 0);
        return NULL;
    }
    struct dtm_waiting *it = &(*q)->wait[round_by((*q)->at, (*q)->len, DTM_QUEUE)];
    (*q)->len++;
    it->since = n->now;
    it->len = (uint16_t)len;
    return it->octets;
}

/* Sends a packet without octets. */
static void send_packet(node *n, const struct dtm_packet *it) {
    queue *q;
    uint8_t *at = enter(n, it->target, HEADER + PACKET, &q);
    if (!at) return;
    write_packet(at, it);
    flush(n, q);
}

/* --- the send record */

static uint32_t next_of(const sender *s) { return s->left + s->out; }

static void begin_anew(const node *n, sender *s) {
    s->left = s->out = s->place = 0;
    s->edge = n->p.window;
    s->touched = n->now;
    s->segments = s->has_crossed = 0;
}

/* how many octets the next cut has; at most one mark ends it */
static uint32_t cut_of(const node *n, const sender *s) {
    uint32_t most = s->held - s->out, window = s->edge - next_of(s), quantum = n->quantum - s->place;
    uint32_t at = round_by(s->at, s->out, DTM_CAP);
    if (window - 1 >= 0x7fffffffu) return 0;
    if (most > window) most = window;
    if (most > quantum) most = quantum;
    if (most > n->p.seg) most = n->p.seg;
    for (uint32_t i = 0; i < most; i++) {
        if (i > 0 && marked(s->begins, at)) return i;
        if (marked(s->ends, at)) return i + 1;
        at = round_by(at, 1, DTM_CAP);
    }
    return most;
}

/* the leftmost segments go, and their octets */
static void forget(sender *s, uint8_t segments, uint32_t octets) {
    s->left += octets;
    s->out -= octets;
    s->held -= octets;
    s->at = round_by(s->at, octets, DTM_CAP);
    s->segments = (uint8_t)(s->segments - segments);
    for (uint8_t i = 0; i < s->segments; i++) s->segment[i] = s->segment[i + segments];
}

static bool may_again(const node *n, const segment *it) {
    uint32_t age = n->now - it->first, rest = n->now - it->last;
    /* from the later of now and last + rto on */
    return (rest >= n->p.rto ? age : age - rest + n->p.rto) < n->p.r;
}

/* the segment that went out longest ago of those that may go again, or `segments` */
static uint8_t late_of(const node *n, const sender *s) {
    uint8_t best = s->segments;
    uint32_t longest = 0;
    for (uint8_t i = 0; i < s->segments; i++) {
        uint32_t rest = n->now - s->segment[i].last;
        if (rest < n->p.rto || n->now - s->segment[i].first >= n->p.r) continue;
        if (best == s->segments || rest > longest) best = i, longest = rest;
    }
    return best;
}

static bool can_send(const node *n, const sender *s) {
    if (s->held == s->out || cut_of(n, s) == 0) return false;
    if (s->segments == DTM_SEGMENTS) DTM_LIMIT_MET("segments");
    return s->segments < DTM_SEGMENTS;
}
static bool is_spaced(const sender *s) { return s->place == 0 && s->has_crossed; }
/* whether the window is used up: `edge` may be below `left` */
static bool could_probe(const sender *s) {
    return s->segments == 0 && s->held > 0 && s->edge - next_of(s) - 1 >= 0x7fffffffu;
}

/* The class of the act that is due, and how long it has been; 0 where none is. */
static uint8_t send_due(const node *n, const sender *s, uint32_t *since) {
    uint8_t late;
    if (s->segments > 0) {
        *since = n->now - s->segment[0].first - n->give;
        if (n->now - s->segment[0].first >= n->give) return GIVE_UP;
    } else {
        *since = n->now - s->touched - n->send;
        if (n->now - s->touched >= n->send) return RELEASE_SEND;
    }
    late = late_of(n, s);
    if (late < s->segments) {
        *since = n->now - s->segment[late].last - n->p.rto;
        return RESEND;
    }
    if (can_send(n, s)) {
        *since = is_spaced(s) ? n->now - s->crossed - n->spacing : UINT32_MAX;
        if (!is_spaced(s) || n->now - s->crossed >= n->spacing) return CUT;
    }
    *since = n->now - s->touched - n->p.probe;
    return could_probe(s) && n->now - s->touched >= n->p.probe ? PROBE : NO_ACT;
}

/* Sends a segment that begins `offset` octets after `left`. */
static void transmit(node *n, sender *s, segment *it, uint32_t offset, uint8_t kind) {
    uint32_t at = round_by(s->at, offset, DTM_CAP), last = round_by(at, it->len - 1u, DTM_CAP), first = DTM_CAP - at;
    uint8_t begin = marked(s->begins, at) ? DTM_MARK_BEGIN : 0, end = marked(s->ends, last) ? DTM_MARK_END : 0;
    struct dtm_packet packet = packet_of(n, &s->flow, DTM_PACKET_DATA, n->p.start + s->left + offset);
    queue *q;
    packet.size = it->len;
    packet.flags = (uint8_t)((offset == 0 ? DTM_MARK_RUN : 0) | begin | end);
    it->last = s->touched = n->now;
    REPORT(n, .kind = kind, .flow = s->flow, .number = packet.number, .count = it->len, .marks = packet.flags);
    uint8_t *to = enter(n, s->flow.target, (size_t)HEADER + PACKET + it->len, &q);
    if (!to) return;
    write_packet(to, &packet);
    if (first > it->len) first = it->len;
    memcpy(to + HEADER + PACKET, s->octets + at, first);
    memcpy(to + HEADER + PACKET + first, s->octets, it->len - first);
    flush(n, q);
}

static void give_up(node *n, sender *s) {
    uint32_t len = s->segment[0].len;
    forget(s, 1, len);
    report_of(n, DTM_REPORT_UNCERTAIN, &s->flow, 0, len);
}

static void release_or_renew(node *n, uint8_t which) {
    sender *s = &n->sender[n->sender_order[which]];
    if (s->held > 0) {
        begin_anew(n, s);
        report_of(n, DTM_REPORT_SEND_RENEWED, &s->flow, 0, 0);
    } else {
        take_out(n->sender_order, which, &n->senders);
        report_of(n, DTM_REPORT_SEND_RELEASED, &s->flow, 0, 0);
    }
}

static void resend(node *n, sender *s) {
    segment *it = s->segment;
    uint32_t offset = 0;
    for (uint8_t late = late_of(n, s); late > 0; late--) offset += it++->len;
    transmit(n, s, it, offset, DTM_REPORT_SEGMENT_RESENT);
}

static void cut(node *n, sender *s) {
    segment *it = &s->segment[s->segments];
    uint32_t offset = s->out;
    it->len = (uint16_t)cut_of(n, s);
    it->first = n->now;
    if (s->place == 0) s->has_crossed = 1, s->crossed = n->now;
    s->place = round_by(s->place, it->len, n->quantum);
    s->out += it->len;
    s->segments++;
    transmit(n, s, it, offset, DTM_REPORT_SEGMENT_SENT);
}

static void probe(node *n, sender *s) {
    struct dtm_packet it = packet_of(n, &s->flow, DTM_PACKET_PROBE, n->p.start + s->left);
    s->touched = n->now;
    report_of(n, DTM_REPORT_PROBE_SENT, &s->flow, it.number, 0);
    send_packet(n, &it);
}

static void send_act(node *n, uint8_t which, uint8_t class) {
    sender *s = &n->sender[n->sender_order[which]];
    if (class == GIVE_UP) give_up(n, s);
    else if (class == RELEASE_SEND) release_or_renew(n, which);
    else if (class == RESEND) resend(n, s);
    else if (class == CUT) cut(n, s);
    else probe(n, s);
}

static sender *sender_of(node *n, const flow *way) {
    for (uint8_t i = 0; i < n->senders; i++)
        if (is_same(&n->sender[n->sender_order[i]].flow, way)) return &n->sender[n->sender_order[i]];
    return NULL;
}

static void acknowledge(node *n, const struct dtm_packet *it) {
    flow way = {it->target, it->source, it->target_port, it->source_port};
    sender *s = sender_of(n, &way);
    uint32_t octets = 0;
    for (uint8_t i = 0; s && i <= s->segments; i++) {
        if (it->number == n->p.start + s->left + octets) {
            forget(s, i, octets);
            s->edge = s->left + it->window;
            REPORT(n, .kind = DTM_REPORT_ACKNOWLEDGED, .flow = way, .count = octets, .window = it->window);
            return;
        }
        if (i < s->segments) octets += s->segment[i].len;
    }
    REPORT(n, .kind = DTM_REPORT_ACK_IGNORED, .flow = way, .number = it->number, .window = it->window);
}

/* --- the receiver */

uint8_t dtm_relation(uint32_t number, uint32_t expected) {
    uint32_t above = number - expected;
    return above == 0 ? 1 : above < 0x80000000u ? 2 : 0;
}

/*@ requires relation <= 2;
    assigns \nothing;
    ensures !has_record && !run ==> \result == DTM_ACTION_DROP;
    ensures !has_record && run && fits ==> \result == DTM_ACTION_MAKE;
    ensures !has_record && run && !fits ==> \result == DTM_ACTION_REPLY_NUMBER;
    ensures has_record && relation == 0 ==> \result == DTM_ACTION_REPLY_EXPECTED;
    ensures has_record && relation == 1 && fits ==> \result == DTM_ACTION_ACCEPT;
    ensures has_record && relation == 1 && !fits ==> \result == DTM_ACTION_REPLY_EXPECTED;
    ensures has_record && run && relation == 2 && fits ==> \result == DTM_ACTION_SKIP;
    ensures has_record && run && relation == 2 && !fits ==> \result == DTM_ACTION_REPLY_NUMBER;
    ensures has_record && !run && relation == 2 ==> \result == DTM_ACTION_REPLY_EXPECTED; */
uint8_t dtm_action_of(bool has_record, bool run, uint8_t relation, bool fits) {
    if (!has_record) return !run ? DTM_ACTION_DROP : fits ? DTM_ACTION_MAKE : DTM_ACTION_REPLY_NUMBER;
    if (relation == 1) return fits ? DTM_ACTION_ACCEPT : DTM_ACTION_REPLY_EXPECTED;
    if (relation == 0 || !run) return DTM_ACTION_REPLY_EXPECTED;
    return fits ? DTM_ACTION_SKIP : DTM_ACTION_REPLY_NUMBER;
}

static receiver *receiver_of(node *n, const flow *way) {
    for (uint8_t i = 0; i < n->receivers; i++)
        if (is_same(&n->receiver[n->receiver_order[i]].flow, way)) return &n->receiver[n->receiver_order[i]];
    return NULL;
}

static void drop_idle(node *n, receiver *r) {
    uint8_t i = 0, place = (uint8_t)(r - n->receiver);
    if (r->has_record || r->unread > 0) return;
    while (n->receiver_order[i] != place) i++;
    take_out(n->receiver_order, i, &n->receivers);
}

/* Sends an acknowledgement with the free room: `kind` is that of its report. */
static void answer(node *n, uint8_t kind, const flow *way, uint32_t number, uint32_t window) {
    flow back = {way->target, way->source, way->target_port, way->source_port};
    struct dtm_packet it = packet_of(n, &back, DTM_PACKET_ACK, number);
    it.window = window;
    REPORT(n, .kind = kind, .flow = *way, .number = number, .window = window);
    send_packet(n, &it);
}

static void reply(node *n, receiver *r, const flow *way, uint32_t number) {
    uint32_t window = r ? n->p.rcap - r->unread : n->p.rcap;
    if (r && r->has_record) {
        r->advertised = window;
        if (number == r->expected) r->owes = 0;
    }
    answer(n, DTM_REPORT_REPLY_SENT, way, number, window);
}

static void accept(node *n, receiver *r, const struct dtm_packet *it, bool run) {
    uint32_t to = round_by(r->at, r->unread, DTM_RCAP);
    if (!r->has_record) r->owes = 0, r->advertised = n->p.rcap;
    for (uint32_t i = 0; i < it->size; i++) {
        r->octets[to] = it->octets[i];
        mark(r->runs, to, run && i == 0);
        mark(r->begins, to, i == 0 && (it->flags & DTM_MARK_BEGIN));
        mark(r->ends, to, i + 1u == it->size && (it->flags & DTM_MARK_END));
        to = round_by(to, 1, DTM_RCAP);
    }
    r->unread += it->size;
    r->expected = it->number + it->size;
    r->touched = n->now;
    r->due = (it->flags & DTM_MARK_END) || r->owes ? n->now : n->now + n->p.a;
    r->has_record = r->owes = 1;
    REPORT(n, .kind = DTM_REPORT_ACCEPTED, .flow = r->flow, .number = it->number, .count = it->size,
           .marks = run ? DTM_MARK_RUN : 0);
}

static bool is_admitted(const node *n, const flow *way) {
    for (uint8_t i = 0; i < n->flows; i++)
        if (is_same(&n->flow[i], way)) return true;
    return n->flows == 0;
}

/* a receiver for a flow that has none; NULL if there is no place */
static receiver *new_receiver(node *n, const flow *way) {
    receiver *r;
    if (n->receivers == DTM_RECVS) {
        DTM_LIMIT_MET("receivers");
        return NULL;
    }
    r = &n->receiver[n->receiver_order[n->receivers++]];
    r->flow = *way;
    r->at = r->unread = 0;
    r->has_record = 0;
    return r;
}

static uint8_t receive_data(node *n, const struct dtm_packet *it, const flow *way, receiver *r) {
    bool has_record = r && r->has_record, fits = it->size <= n->p.rcap - (r ? r->unread : 0);
    uint8_t relation = has_record ? dtm_relation(it->number, r->expected) : 0;
    uint8_t act = dtm_action_of(has_record, it->flags & DTM_MARK_RUN, relation, fits);
    if (act == DTM_ACTION_MAKE && !r && !(r = new_receiver(n, way))) return DTM_LOST;
    if (act == DTM_ACTION_DROP) report_of(n, DTM_REPORT_PACKET_DROPPED, way, it->number, 0);
    else if (act == DTM_ACTION_REPLY_NUMBER) reply(n, r, way, it->number);
    else if (act == DTM_ACTION_REPLY_EXPECTED) reply(n, r, way, r->expected);
    else accept(n, r, it, act != DTM_ACTION_ACCEPT);
    return DTM_OK;
}

/* a packet of a flow to this node */
static uint8_t receive_packet(node *n, const struct dtm_packet *it) {
    flow way = {it->source, it->target, it->source_port, it->target_port};
    receiver *r = receiver_of(n, &way);
    bool has_record = r && r->has_record;
    if (!is_admitted(n, &way)) return DTM_BLOCKED;
    if (it->kind == DTM_PACKET_DATA) return receive_data(n, it, &way, r);
    if (it->kind == DTM_PACKET_PROBE) reply(n, r, &way, has_record ? r->expected : it->number);
    else if (has_record && it->number == r->expected) report_of(n, DTM_REPORT_RUN_ENDED, &way, it->number, 0);
    else report_of(n, DTM_REPORT_PACKET_DROPPED, &way, it->number, 0);
    return DTM_OK;
}

static uint8_t receive_due(const node *n, const receiver *r, uint32_t *since) {
    if (!r->has_record) return NO_ACT;
    *since = n->now - r->touched - n->receive;
    if (n->now - r->touched >= n->receive) return RELEASE_RECEIVE;
    *since = n->now - r->due;
    return r->owes && *since < 0x80000000u ? ACKNOWLEDGE : NO_ACT;
}

static void receive_act(node *n, receiver *r, uint8_t class) {
    if (class == RELEASE_RECEIVE) {
        r->has_record = r->owes = 0;
        drop_idle(n, r);
        report_of(n, DTM_REPORT_RECEIVE_RELEASED, &r->flow, 0, 0);
    } else {
        r->owes = 0;
        r->advertised = n->p.rcap - r->unread;
        answer(n, DTM_REPORT_ACK_SENT, &r->flow, r->expected, r->advertised);
    }
}

/* --- the node */

static bool is_next(uint8_t class, uint8_t best, uint32_t since, uint32_t longest) {
    return class && (!best || class < best || (class == best && since > longest));
}

/* One act: of the least class, in it what has been due longest, of equals the record that was made first. */
static bool act(node *n) {
    uint8_t best = NO_ACT, which = 0;
    uint32_t longest = 0, since;
    for (uint8_t i = 0; i < n->senders; i++) {
        uint8_t class = send_due(n, &n->sender[n->sender_order[i]], &since);
        if (is_next(class, best, since, longest)) best = class, which = i, longest = since;
    }
    for (uint8_t i = 0; i < n->receivers; i++) {
        uint8_t class = receive_due(n, &n->receiver[n->receiver_order[i]], &since);
        if (is_next(class, best, since, longest)) best = class, which = i, longest = since;
    }
    if (best == RELEASE_RECEIVE || best == ACKNOWLEDGE) receive_act(n, &n->receiver[n->receiver_order[which]], best);
    else if (best) send_act(n, which, best);
    return best != 0;
}

/* moments stay near enough for 32 bits */
static void keep_near(node *n) {
    for (uint8_t i = 0; i < n->senders; i++) {
        sender *s = &n->sender[n->sender_order[i]];
        if (n->now - s->crossed > LONG_AGO) s->crossed = n->now - LONG_AGO;
    }
    for (uint8_t i = 0; i < n->links; i++)
        for (uint8_t j = 0; j < n->queue[i].len; j++) {
            struct dtm_waiting *it = &n->queue[i].wait[round_by(n->queue[i].at, j, DTM_QUEUE)];
            uint32_t life = four(it->octets + 4);
            if (n->now - it->since <= LONG_AGO) continue;
            it->since += LONG_AGO;
            put_four(it->octets + 4, life > LONG_AGO ? life - LONG_AGO : 0);
        }
}

static void settle(node *n) {
    for (uint8_t i = 0; i < n->links; i++) flush(n, &n->queue[i]);
    while (act(n)) {}
    keep_near(n);
}

static void begin(node *n, uint32_t now) {
    if (now - n->now < 0x80000000u) n->now = now;
    if (n->is_quiet && n->now - n->opened >= n->send) n->is_quiet = 0;
    settle(n);
}

void dtm_tick(node *n, uint32_t now) { begin(n, now); }

/* puts octets that fit behind those that the record holds */
static void put_octets(sender *s, const struct dtm_message *it) {
    uint32_t at = round_by(s->at, s->held, DTM_CAP);
    for (size_t i = 0; i < it->len; i++) {
        s->octets[at] = it->octets[i];
        mark(s->begins, at, i == 0 && (it->marks & DTM_MARK_BEGIN));
        mark(s->ends, at, i + 1 == it->len && (it->marks & DTM_MARK_END));
        at = round_by(at, 1, DTM_CAP);
    }
    s->held += (uint32_t)it->len;
}

static sender *new_sender(node *n, const flow *way) {
    sender *s;
    if (n->senders == DTM_SENDS) {
        DTM_LIMIT_MET("senders");
        return NULL;
    }
    s = &n->sender[n->sender_order[n->senders++]];
    s->flow = *way;
    s->at = s->held = 0;
    s->crossed = n->now;
    begin_anew(n, s);
    return s;
}

uint8_t dtm_send(node *n, uint32_t now, const struct dtm_message *message) {
    const flow *way = &message->flow;
    if (way->source != n->me || way->target == n->me || message->len == 0) return DTM_INVALID;
    begin(n, now);
    sender *s = sender_of(n, way);
    uint32_t free = s ? n->p.cap - s->held : n->p.cap;
    if (n->is_quiet) {
        report_of(n, DTM_REPORT_SEND_QUIET, way, 0, n->send - (n->now - n->opened));
        return DTM_QUIET;
    }
    if (message->len > free) {
        report_of(n, DTM_REPORT_SEND_FULL, way, 0, free);
        return DTM_FULL;
    }
    if (!s && !(s = new_sender(n, way))) return DTM_NO_RECORD;
    put_octets(s, message);
    report_of(n, DTM_REPORT_SEND_QUEUED, way, 0, (uint32_t)message->len);
    settle(n);
    return DTM_OK;
}

/* takes a piece of the unread octets: up to a gap or the end of a message */
static struct dtm_read_result take_piece(receiver *r, uint8_t *to, size_t room) {
    struct dtm_read_result it = {0, DTM_OK, 0};
    it.marks = (uint8_t)((marked(r->runs, r->at) ? DTM_MARK_RUN : 0) | (marked(r->begins, r->at) ? DTM_MARK_BEGIN : 0));
    while (it.len < room && r->unread > 0 && !(it.marks & DTM_MARK_END)) {
        if (it.len > 0 && (marked(r->runs, r->at) || marked(r->begins, r->at))) break;
        if (marked(r->ends, r->at)) it.marks |= DTM_MARK_END;
        to[it.len++] = r->octets[r->at];
        r->at = round_by(r->at, 1, DTM_RCAP);
        r->unread--;
    }
    return it;
}

struct dtm_read_result dtm_read(node *n, uint32_t now, const flow *way, uint8_t *octets, size_t room) {
    struct dtm_read_result it = {0, DTM_NONE, 0};
    begin(n, now);
    receiver *r = receiver_of(n, way);
    if (!r || r->unread == 0 || room == 0) {
        report_of(n, DTM_REPORT_READ_NONE, way, 0, 0);
        return it;
    }
    uint32_t least = n->p.seg < n->p.rcap ? n->p.seg : n->p.rcap, before = n->p.rcap - r->unread;
    it = take_piece(r, octets, room);
    if (r->has_record && before < least && before + it.len >= least && r->advertised < least)
        r->owes = 1, r->due = n->now;
    drop_idle(n, r);
    REPORT(n, .kind = DTM_REPORT_READ, .flow = *way, .count = it.len, .marks = it.marks);
    settle(n);
    return it;
}

static uint8_t malformed(node *n, uint8_t fault, const struct dtm_packet *it) {
    REPORT(n, .kind = DTM_REPORT_PACKET_MALFORMED, .number = fault, .count = it->value, .window = it->present);
    return DTM_MALFORMED;
}

/* a datagram for another node, of that lifetime */
static void relay(node *n, const struct dtm_arrival *arrival, uint32_t to, uint32_t life) {
    queue *q;
    uint8_t *at = enter(n, to, arrival->len, &q);
    if (!at) return;
    memcpy(at, arrival->octets, arrival->len);
    put_four(at + 4, life);
    flush(n, q);
}

uint8_t dtm_receive(node *n, uint32_t now, const struct dtm_arrival *arrival) {
    struct dtm_packet it;
    const queue *q = queue_of(n, arrival->link);
    uint8_t status = DTM_OK, fault;
    if (!q) return DTM_INVALID;
    fault = dtm_read_deltagram(arrival->octets, arrival->len, &it);
    if (fault) return malformed(n, fault, &it);
    if (it.life <= arrival->waited_ms) return DTM_EXPIRED;
    it.life -= arrival->waited_ms;
    if (arrival->len > DTM_MAX_DATAGRAM) {
        DTM_LIMIT_MET("datagram");
        return DTM_LOST;
    }
    begin(n, now);
    if (it.life <= q->charge) report_of(n, DTM_REPORT_EXPIRED_IN, NULL, q->link, 0);
    else if (it.target != n->me) relay(n, arrival, it.target, it.life - q->charge);
    else if ((fault = dtm_read_packet(arrival->octets, arrival->len, &it)) != 0) status = malformed(n, fault, &it);
    else if (n->is_quiet) report_of(n, DTM_REPORT_PACKET_QUIET, NULL, 0, n->send - (n->now - n->opened));
    else if (it.kind == DTM_PACKET_ACK) acknowledge(n, &it);
    else status = receive_packet(n, &it);
    settle(n);
    return status;
}

static void sooner(uint32_t *least, uint32_t age, uint32_t bound) {
    uint32_t it = age >= bound ? 0 : bound - age;
    if (it < *least) *least = it;
}

uint32_t dtm_wake(const node *n) {
    uint32_t it = DTM_NEVER;
    for (uint8_t i = 0; i < n->senders; i++) {
        const sender *s = &n->sender[n->sender_order[i]];
        if (s->segments > 0) sooner(&it, n->now - s->segment[0].first, n->give);
        else sooner(&it, n->now - s->touched, n->send);
        for (uint8_t j = 0; j < s->segments; j++)
            if (may_again(n, &s->segment[j])) sooner(&it, n->now - s->segment[j].last, n->p.rto);
        if (can_send(n, s)) sooner(&it, n->now - s->crossed, is_spaced(s) ? n->spacing : 0);
        if (could_probe(s)) sooner(&it, n->now - s->touched, n->p.probe);
    }
    for (uint8_t i = 0; i < n->receivers; i++) {
        const receiver *r = &n->receiver[n->receiver_order[i]];
        if (r->has_record) sooner(&it, n->now - r->touched, n->receive);
        if (r->has_record && r->owes && r->due - n->now < it) it = r->due - n->now;
    }
    for (uint8_t i = 0; i < n->links; i++)
        if (n->queue[i].len > 0) sooner(&it, n->now - n->queue[i].last, n->queue[i].has_last ? n->queue[i].pace : 0);
    return it;
}

uint32_t dtm_deadline(const node *n) {
    uint32_t it = dtm_wake(n);
    return n->now + (it < DTM_MAX_SLEEP ? it : DTM_MAX_SLEEP);
}

bool dtm_is_idle(const node *n) {
    bool waits = n->senders > 0 || n->receivers > 0 || n->is_quiet;
    for (uint8_t i = 0; i < n->links; i++) waits = waits || n->queue[i].len > 0;
    return !waits;
}

/* --- the opening */

int dtm_params_check(const struct dtm_params *p) {
    enum { DAY = 86400000 };
    const uint32_t at[] = {p->mpl, p->r, p->a, p->rto, p->probe, p->seg, p->cap, p->rcap, p->window, p->run_limit};
    static const uint32_t most[] = {DAY, DAY, DAY, DAY, DAY, DTM_SEG, DTM_CAP, DTM_RCAP, MOST_WINDOW, 0x80000000u};
    for (int i = 0; i < 10; i++)
        if (at[i] < (i == 0 ? 2u : 1u) || at[i] > most[i] || (i == 4 && at[i] >= 3 * p->mpl + p->r + p->a))
            return i + 1;
    return 0;
}

static bool open_lists(node *n, const struct dtm_options *o) {
    if (o->link_count > DTM_LINKS || o->route_count > DTM_ROUTES || o->flow_count > DTM_FLOWS) return false;
    for (size_t i = 0; i < o->link_count; i++) {
        queue *q = &n->queue[i];
        if (queue_of(n, o->links[i].number)) return false;
        q->charge = o->links[i].charge;
        q->pace = o->links[i].pace;
        q->link = o->links[i].number;
        q->last = n->now;
        q->has_last = q->at = q->len = 0;
        n->links++;
    }
    for (size_t i = 0; i < o->route_count; i++) {
        if (o->routes[i].to == n->me || !queue_of(n, o->routes[i].link)) return false;
        n->route[i] = o->routes[i];
        n->routes++;
    }
    for (size_t i = 0; i < o->flow_count; i++) {
        if (o->flows[i].target != n->me || o->flows[i].source == n->me) return false;
        n->flow[i] = o->flows[i];
        n->flows++;
    }
    return true;
}

uint8_t dtm_open(node *n, const struct dtm_options *options, uint32_t now) {
    const struct dtm_params *p = &options->params;
    if (dtm_params_check(p)) return DTM_INVALID;
    n->p = *p;
    n->receive = p->mpl + p->r + p->a;
    n->give = n->receive + p->mpl;
    n->send = n->give + p->mpl;
    n->spacing = n->send + p->r;
    n->quantum = p->run_limit < 0x20000000u ? p->run_limit : 0x20000000u;
    n->me = options->node;
    n->now = n->opened = now;
    n->callbacks = options->callbacks;
    n->is_quiet = options->again;
    n->links = n->routes = n->flows = n->senders = n->receivers = 0;
    for (size_t i = 0; i < DTM_SENDS; i++) n->sender_order[i] = (uint8_t)i;
    for (size_t i = 0; i < DTM_RECVS; i++) n->receiver_order[i] = (uint8_t)i;
    return open_lists(n, options) ? DTM_OK : DTM_INVALID;
}
