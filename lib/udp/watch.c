/* The watch: how old each datagram is that arrives, by the receiver's own clock.
 *
 * Each datagram that leaves has a trailer with a reading of the receiver's clock that had surely passed when it was
 * made. What follows from that is computed by the library (dt_watch_*, whose contracts are proved; docs/watch.md says
 * what they say together). Here is what is kept of each peer, what is written into a trailer, and what becomes of a
 * datagram whose age isn't known yet: it waits, and its sender is asked. */
#include "udp.h"
#include <errno.h>
#include <stdlib.h>
#include <string.h>
#include <sys/random.h>
#include <time.h>

enum {
    DRIFT = 101,          /* each clock is within 100 parts in a million of the true time */
    GRAIN_US = 3,         /* and is read in steps of one microsecond */
    PING_US = 2000,       /* a peer is asked no sooner again */
    SILENCE_US = 24000000, /* after this what was heard of clocks is forgotten */
    MOST_SLOW = 2,        /* answers that are left out at first, since they were slow */
    AGED_UNIT_US = 64,
    MOST_KEPT = 256,      /* datagrams that wait until their age is known */
    BARE = 4,             /* octets of a datagram that is no frame, before its trailer */
    LEAST_SEGMENTS = 8
};

static const uint64_t MOST_UNDER_WAY = 64000000;

/* A datagram that waits until it is known how old it is. */
struct kept {
    struct kept *next;
    struct address from;
    struct arrival arrival; /* (its octets are those below) */
    uint8_t octets[];
};

/* --- of the driver */

static uint64_t wall_ms(void) {
    struct timespec it = {0, 0};
    (void)clock_gettime(CLOCK_REALTIME, &it);
    return (uint64_t)it.tv_sec * 1000 + (uint64_t)it.tv_nsec / 1000000;
}

/* Names this opening: 32 bits of the wall clock, and 16 random ones. */
static bool name_opening(struct watching *w) {
    uint16_t drawn = 0;
    ssize_t got;
    do got = getrandom(&drawn, sizeof drawn, 0);
    while (got < 0 && errno == EINTR);
    w->opening = (wall_ms() & UINT32_MAX) << 16 | drawn;
    if (w->opening == 0) w->opening = 1;
    return got == (ssize_t)sizeof drawn;
}

dt_status dtu_watch_open(dt_udp *u) {
    struct watching *w = &u->watching;
    w->on = !(u->options.flags & DT_UDP_FLAG_WITHOUT_WATCH);
    if (!w->on) return DT_OK;
    uint64_t print = 0;
    if (dt_params_fingerprint(u->options.params, &print) != DT_OK) return DT_OK; /* (the opening of the node says why) */
    w->print = (uint32_t)(print >> 32);
    return name_opening(w) ? DT_OK : DT_NOT_OPEN;
}

static void drop_first(struct watching *w) {
    struct kept *it = w->kept;
    w->kept = it->next;
    if (w->kept == NULL) w->last_kept = NULL;
    w->kept_count--;
    free(it);
}

void dtu_watch_close(dt_udp *u) {
    while (u->watching.kept) drop_first(&u->watching);
}

dt_status dt_udp_params_for(const struct dt_network *network, struct dt_params *params, uint32_t *charge) {
    struct dt_network it = *network;
    if (it.mtu >= TRAILER_LEN) it.mtu -= TRAILER_LEN;
    if (it.hops) it.delay_us += 2 * (it.round_trip_us / it.hops + 1);
    return dt_params_for(&it, params, charge);
}

/* --- of a peer */

/* What is known of a peer, from now on. Null: out of memory. */
static struct watch *new_watch(dt_udp *u, uint64_t now) {
    size_t align = dt_watch_align(), head = (sizeof(struct watch) + align - 1) / align * align;
    struct watch *it = calloc(1, head + dt_watch_size());
    if (it == NULL) return NULL;
    it->rules = (dt_watch *)(void *)((uint8_t *)it + head);
    dt_watch_init(it->rules);
    /* (at a neighbour's address one node after another may begin, each with a number that nobody had) */
    uint64_t gap = u->core.driven ? 0 : (dtu_core_quiet_ms(u->options.params) - u->options.params->mpl) * 1000;
    struct dt_watch_options options = {.size = sizeof options,
                                       .fingerprint = u->watching.print,
                                       .now = now,
                                       .gap = gap,
                                       .most = MOST_UNDER_WAY,
                                       .drift = DRIFT,
                                       .grain = GRAIN_US,
                                       .segment = u->options.params->seg};
    it->aged = TRAILER_NOT_AGED;
    dtu_govern_begin(&it->governor, now);
    if (dt_watch_open(it->rules, &options) == DT_OK) return it;
    free(it);
    return NULL;
}

/* What is known of the peer at `*place`, begun where there is nothing yet. Null: out of memory. */
static struct watch *watch_at(dt_udp *u, struct watch **place, uint64_t now) {
    if (*place == NULL) *place = new_watch(u, now);
    return *place;
}

/* What is known of a peer. Null: out of memory. */
struct watch *dtu_watch_of(dt_udp *u, struct peer *peer) { return watch_at(u, &peer->watch, dtu_clock_us()); }

void dtu_watch_free(struct watch *watch) {
    if (watch) dtu_govern_free(watch);
    free(watch);
}

/* --- trailers of datagrams that leave */

/* Which of the two clocks a datagram to the peer refers to: those of the present opening, or of one that isn't proved
 * while there is none. */
static bool usual_clocks(const struct watch *it) { return it->present ? it->second : !it->second; }

static void stamp(dt_udp *u, const struct watch *it, bool second, struct trailer *t) {
    t->print = u->watching.print;
    t->opening = u->watching.opening;
    t->wall = (uint32_t)(wall_ms() & 0xffffff);
    t->aged = TRAILER_NOT_AGED;
    if (it == NULL) return;
    uint64_t name = second == it->second ? it->present : it->next;
    t->sure = name ? dt_watch_sure(it->rules, second, t->made) : 0;
    if (t->sure >> 48) t->sure = 0;
    t->of = (uint16_t)name;
    t->aged = it->aged;
    t->round = it->round;
    t->rounded = it->its_round;
    t->heard = it->its_heard;
}

/* Writes the trailer of a frame to a peer behind it. */
void dtu_watch_stamp(dt_udp *u, struct peer *peer, struct iovec *frame) {
    if (!u->watching.on) return;
    struct trailer t = {.kind = TRAILER_FRAME, .made = u->out.made_us};
    stamp(u, peer->watch, peer->watch && usual_clocks(peer->watch), &t);
    dtu_trailer_write((uint8_t *)frame->iov_base + frame->iov_len, &t);
    frame->iov_len += TRAILER_LEN;
    if (peer->watch) peer->watch->sent++;
}

/* Writes the trailer of one of the driver's own datagrams behind it; how many octets it has then. `it`: what is known
 * of the peer, or null. */
size_t dtu_watch_stamp_own(dt_udp *u, const struct watch *it, uint8_t *octets, size_t len) {
    if (!u->watching.on) return len;
    struct trailer t = {.kind = TRAILER_FRAME, .made = dtu_clock_us()};
    stamp(u, it, it && usual_clocks(it), &t);
    dtu_trailer_write(octets + len, &t);
    return len + TRAILER_LEN;
}

/* Sends a datagram without a frame, which says of the clocks of that opening. */
static void send_bare(dt_udp *u, const struct watch *it, const struct arrival *to, int kind, bool second) {
    uint8_t octets[BARE + TRAILER_LEN];
    struct trailer t = {.kind = (uint8_t)kind, .made = dtu_clock_us()};
    dtu_put_number(octets, u->options.node, BARE);
    stamp(u, it, second, &t);
    dtu_trailer_write(octets + BARE, &t);
    dtu_write_control(u, to, octets, sizeof octets);
}

static void ping(dt_udp *u, struct watch *it, const struct arrival *to, bool second) {
    if (it->pinged_us && to->at_us < it->pinged_us + PING_US) return;
    it->pinged_us = to->at_us;
    u->counts.pings_out++;
    send_bare(u, it, to, TRAILER_PING, second);
}

/* --- datagrams that arrive */

/* Takes the trailer off a datagram. False: it has none, and is dropped. */
bool dtu_watch_strip(dt_udp *u, struct arrival *it) {
    if (!u->watching.on) return true;
    if (it->len < BARE + TRAILER_LEN || !dtu_trailer_read(it->octets + it->len - TRAILER_LEN, &it->trailer)) {
        u->counts.without_trailer++;
        return false;
    }
    it->len -= TRAILER_LEN;
    return true;
}

/* Whether a datagram of an end that has no watch is a frame with a trailer behind it. */
bool dtu_watch_has_trailer(const struct arrival *it) {
    struct trailer t;
    return it->len > HEADER + TRAILER_LEN && it->octets[0] <= 2 &&
           HEADER + dtu_get_number(it->octets + 2, 2) + TRAILER_LEN == it->len &&
           dtu_trailer_read(it->octets + it->len - TRAILER_LEN, &t);
}

/* Whether a datagram is bare: its sender asks or answers, and there is no frame. */
bool dtu_watch_is_bare(const dt_udp *u, const struct arrival *it) {
    return u->watching.on && it->trailer.kind != TRAILER_FRAME;
}

static void ring(dt_udp *u, uint32_t node, uint8_t cause) {
    dtu_count_alarm(u, cause);
    struct watching *w = &u->watching;
    if (w->alarm_count == MAX_ALARMS) return; /* (the counters have them) */
    w->alarms[(w->first_alarm + w->alarm_count++) % MAX_ALARMS] = (struct watch_alarm){node, cause};
}

static void alarm_of(dt_udp *u, struct watch *it, uint32_t node, uint8_t cause) {
    if (it->alarms >> cause & 1) return; /* (once for each opening) */
    it->alarms |= (uint8_t)(1 << cause);
    ring(u, node, cause);
}

/* Of this end and the peer, one has a watch and the other hasn't. */
void dtu_watch_differs(dt_udp *u, struct peer *peer) {
    if (peer->differs) return;
    peer->differs = true;
    ring(u, peer->node, DT_UDP_ALARM_WATCH);
}

/* Takes the alarm that waits for longest. False: there is none. */
bool dtu_watch_alarm(dt_udp *u, struct watch_alarm *out) {
    struct watching *w = &u->watching;
    if (w->alarm_count == 0) return false;
    *out = w->alarms[w->first_alarm];
    w->first_alarm = (w->first_alarm + 1) % MAX_ALARMS;
    w->alarm_count--;
    return true;
}

bool dtu_watch_event(dt_udp *u) {
    struct watch_alarm it;
    if (!dtu_watch_alarm(u, &it)) return false;
    u->event.kind = DT_UDP_EVENT_ALARM;
    u->event.peer = it.node;
    u->event.cause = it.cause;
    return true;
}

/* The reading of this clock that the datagram's maker knew to have passed; 0: none of this opening. */
static uint64_t sure_of(const dt_udp *u, const struct trailer *t) {
    return t->of == (uint16_t)u->watching.opening ? t->sure : 0;
}

static dt_status judge(dt_udp *u, struct watch *it, const struct arrival *a, bool is_frame) {
    return dt_watch_judge(it->rules, &(struct dt_arrival){.opening = a->trailer.opening,
                                                          .sure = sure_of(u, &a->trailer),
                                                          .came = a->came_us,
                                                          .fingerprint = a->trailer.print,
                                                          .is_frame = is_frame});
}

/* What the peer says of what it heard of this end, for its round and for ours. */
static void note_rounds(struct watch *it, const struct trailer *t) {
    it->heard++;
    if (it->its_round != t->round || it->its_heard == 0) it->its_heard = it->heard;
    it->its_round = t->round;
}

/* The clocks of an opening are heard for the first time. */
static void begin_clocks(struct watch *it, bool second, uint64_t came_us) {
    it->began_us[second] = it->last_us[second] = came_us;
    it->measured[second] = false;
    it->slow[second] = 0;
}

/* What is heard of the clocks of an opening by a datagram. The width of the first exchange is counted into each age for
 * half a second, so an exchange that a busy end held up would make everything too old: its reading of our clock isn't
 * heard, as if the datagram had been lost, and the peer is asked (again). A path that is so slow is heard then. */
static struct dt_passage passage_of(const dt_udp *u, struct watch *it, const struct arrival *a, bool second) {
    const struct trailer *t = &a->trailer;
    struct dt_passage passage = {.made = t->made, .sure = sure_of(u, t), .came = a->came_us};
    if (a->came_us > it->last_us[second] + SILENCE_US) begin_clocks(it, second, a->came_us);
    it->last_us[second] = a->came_us;
    if (it->measured[second] || passage.sure == 0) return passage;
    uint64_t life_us = 1000 * (uint64_t)u->options.params->mpl;
    bool slow = passage.sure <= passage.came && passage.came - passage.sure > life_us / 3;
    if (slow && it->slow[second] < MOST_SLOW && a->came_us < it->began_us[second] + 4 * life_us) {
        it->slow[second] += t->kind == TRAILER_PONG;
        passage.sure = 0;
    } else it->measured[second] = true;
    return passage;
}

/* Hears what a datagram says of clocks and openings. `*second` is where the clocks of its opening are. */
static enum watched hear(dt_udp *u, struct watch *it, const struct arrival *a, bool is_frame, bool *second) {
    const struct trailer *t = &a->trailer;
    if (t->print != u->watching.print) {
        u->counts.other_parameters++;
        alarm_of(u, it, a->hop, DT_UDP_ALARM_PARAMETERS);
        return WATCHED_DROPPED;
    }
    bool known = t->opening == it->present;
    *second = known ? it->second : !it->second;
    if (!known && t->opening != it->next) {
        (void)dt_watch_begin(it->rules, *second, a->came_us);
        begin_clocks(it, *second, a->came_us);
        it->next = t->opening;
    }
    struct dt_passage passage = passage_of(u, it, a, *second);
    if (dt_watch_hear(it->rules, *second, &passage) != DT_OK) {
        u->counts.clock_alarms++;
        if (known) alarm_of(u, it, a->hop, DT_UDP_ALARM_CLOCK);
        return WATCHED_DROPPED;
    }
    dt_status judged = judge(u, it, a, is_frame);
    if (judged == DT_JUDGED_UNPROVED) return WATCHED_UNPROVED;
    if (judged == DT_JUDGED_FORMER) u->counts.former_openings++;
    if (judged != DT_JUDGED_PRESENT && judged != DT_JUDGED_EARLY) return WATCHED_DROPPED;
    if (!known) {
        u->counts.openings_proved++;
        it->second = *second;
        it->present = t->opening;
        it->next = 0;
        it->alarms = 0;
    }
    note_rounds(it, t);
    dtu_govern_heard(u, it, t, a->came_us);
    if (judged == DT_JUDGED_EARLY) u->counts.early_openings++;
    return judged == DT_JUDGED_EARLY ? WATCHED_DROPPED : WATCHED_PRESENT;
}

/* Computes how old a datagram of the present opening is. False: that isn't known. */
static bool age(dt_udp *u, struct watch *it, struct arrival *a) {
    uint64_t sure = sure_of(u, &a->trailer);
    if (!it->measured[it->second]) return false;
    if (sure == 0) sure = dt_watch_around(it->rules, it->second, a->trailer.made);
    if (sure == 0 || sure > a->came_us) return false;
    uint64_t aged = (a->came_us - sure) / AGED_UNIT_US;
    dtu_count_age(u, a->came_us - sure);
    it->aged = aged < TRAILER_NOT_AGED ? (uint16_t)aged : TRAILER_NOT_AGED - 1;
    a->waited_ms = dt_watch_waited_ms(dt_watch_age(it->rules, it->second, a->at_us, sure), a->charge);
    return true;
}

/* Keeps a frame until its sender has said how old it is. The oldest one goes for it. */
static void keep(dt_udp *u, const struct arrival *a) {
    struct watching *w = &u->watching;
    struct kept *it = malloc(sizeof *it + a->len);
    u->counts.ages_unknown++;
    if (it == NULL) return;
    if (w->kept_count == MOST_KEPT) drop_first(w);
    it->next = NULL;
    it->from = *a->from;
    it->arrival = *a;
    it->arrival.from = &it->from;
    it->arrival.octets = it->octets;
    memcpy(it->octets, a->octets, a->len);
    if (w->last_kept) w->last_kept->next = it;
    else w->kept = it;
    w->last_kept = it;
    w->kept_count++;
}

/* Passes in the frames of a peer that waited until their age was known. */
static void release(dt_udp *u, struct peer *peer, uint64_t now_us) {
    struct watching *w = &u->watching;
    struct kept *it = w->kept, *next;
    w->kept = w->last_kept = NULL;
    w->kept_count = 0;
    for (; it; it = next) {
        next = it->next;
        if (it->arrival.hop != peer->node) {
            it->next = NULL;
            if (w->last_kept) w->last_kept->next = it;
            else w->kept = it;
            w->last_kept = it;
            w->kept_count++;
            continue;
        }
        struct arrival *a = &it->arrival;
        a->at_us = now_us;
        a->at = now_us / 1000;
        bool present = a->trailer.opening == peer->watch->present &&
                       judge(u, peer->watch, a, true) == DT_JUDGED_PRESENT && age(u, peer->watch, a);
        if (present) dtu_take_frame(u, peer, a);
        free(it);
    }
}

/* Whether a frame of a peer may be passed in now, with its age in `waited_ms`. If its age isn't known, it is kept and
 * its sender is asked. */
bool dtu_watch_takes(dt_udp *u, struct watch **place, struct arrival *a) {
    if (!u->watching.on) return true;
    bool second, known = false;
    struct watch *it = watch_at(u, place, a->came_us);
    enum watched heard = it ? hear(u, it, a, true, &second) : WATCHED_DROPPED;
    if (heard == WATCHED_PRESENT) known = age(u, it, a);
    if (heard == WATCHED_DROPPED || known) return known;
    keep(u, a);
    ping(u, it, a, second);
    return false;
}

/* Asks a peer whose frame was too old: if it only looked old, since what the two ends know of each other's clocks rests
 * on datagrams that were slow, the answer brings better readings. */
void dtu_watch_ask(dt_udp *u, struct peer *peer, const struct arrival *a) {
    if (u->watching.on && peer->watch) ping(u, peer->watch, a, peer->watch->second);
}

/* Hears what one of a peer's own datagrams says of clocks. */
void dtu_watch_hear(dt_udp *u, struct watch **place, const struct arrival *a) {
    bool second;
    if (u->watching.on && watch_at(u, place, a->came_us)) (void)hear(u, *place, a, false, &second);
}

/* A peer asks, or answers. */
void dtu_watch_bare(dt_udp *u, struct peer *peer, const struct arrival *a) {
    bool second;
    struct watch *it = watch_at(u, &peer->watch, a->came_us);
    if (it == NULL) return;
    enum watched heard = hear(u, it, a, false, &second);
    if (heard == WATCHED_DROPPED) return;
    peer->heard = true; /* (so no other address of its name is tried) */
    if (a->trailer.kind == TRAILER_PING) {
        u->counts.pings_in++;
        send_bare(u, it, a, TRAILER_PONG, second);
    }
    if (heard != WATCHED_PRESENT || u->watching.kept_count == 0) return;
    if (it->measured[it->second]) release(u, peer, a->at_us);
    else if (a->trailer.kind == TRAILER_PONG) ping(u, it, a, second);
}
