/* The counters file: what an operator asks of a living node, in a small file that is mapped (docs/formats.md).
 *
 * It is written by plain stores, without locks and without system calls, and a reader needs nothing of the driver:
 * WORD_BEGUN is raised before the words of a look are stored and WORD_ENDED after them, so a reader that finds both
 * equal has all of one look. The next opening of the node opens the file again, and counts on from what it finds. So
 * no counter ever falls, unless the file itself is lost.
 *
 * What struct dt_udp_counts and the node don't count is counted here, by the datagrams that pass: the node's reports
 * are of no help, since a service has none and those of a driven node are the program's. */
#include "udp.h"
#include <errno.h>
#include <fcntl.h>
#include <stdatomic.h>
#include <stdlib.h>
#include <string.h>
#include <sys/file.h>
#include <sys/mman.h>
#include <sys/stat.h>
#include <unistd.h>

_Static_assert(sizeof(struct dt_udp_counts) == COUNT_OF_DRIVER * sizeof(uint64_t), "a place for each count");
_Static_assert(FIRST_COUNTER + (int)COUNTS <= FIRST_GAUGE, "the counters have room");
_Static_assert(ATOMIC_LLONG_LOCK_FREE == 2 && sizeof(_Atomic uint64_t) == sizeof(uint64_t), "no locks");

enum {
    OCTETS = COUNTERS_WORDS * 8,
    FLOW_SETS = 1024, /* a power of 2, of WAYS flows each */
    WAYS = 4,
    MOST_CALLS = 65536,
    KEEP_UP_US = 1000,
    PROBES = 8,
    /* a packet in a frame: docs/formats.md */
    MAKER_AT = 8,
    TARGET_AT = 12,
    FROM_PORT_AT = 2,
    TO_PORT_AT = 4,
    NUMBER_AT = 6,
    PACKET_HEADER = 14,
    PROTOCOL = 1
};

enum packet_kind { PACKET_DATA = 1, PACKET_ACKNOWLEDGEMENT = 2, PACKET_PROBE = 3 };

static const char MAGIC[8] = {'d', 'e', 'l', 't', 'a', 't', 'C', 'F'};
static const uint64_t VERSION = 1;

static const uint32_t BOUND_US[BOUNDS] = {100,   200,    500,    1000,   2000,    5000,    10000,   20000,
                                          50000, 100000, 200000, 500000, 1000000, 2000000, 5000000, 10000000};

/* --- the file */

static uint64_t get(const struct counting *c, int at) {
    return atomic_load_explicit(c->words + at, memory_order_relaxed);
}

static void put(struct counting *c, int at, uint64_t value) {
    atomic_store_explicit(c->words + at, value, memory_order_relaxed);
}

static uint64_t wall_ns(const dt_udp *u, uint64_t boot_us) { return boot_us * 1000 + (uint64_t)u->ahead_ns; }

/* From here on until `end_look` a reader sees that the words are being written. */
static void begin_look(struct counting *c) {
    put(c, WORD_BEGUN, get(c, WORD_BEGUN) + 1);
    atomic_thread_fence(memory_order_release);
}

static void end_look(struct counting *c) {
    atomic_store_explicit(c->words + WORD_ENDED, get(c, WORD_BEGUN), memory_order_release);
}

/* Makes an empty file one of ours. */
static void begin_file(const dt_udp *u, struct counting *c) {
    uint64_t magic;
    memcpy(&magic, MAGIC, sizeof magic);
    put(c, WORD_VERSION, VERSION);
    put(c, WORD_COUNT, COUNTERS_WORDS);
    put(c, WORD_NODE, u->options.node);
    put(c, WORD_CREATED, (uint64_t)dtu_clock_reading().wall);
    atomic_store_explicit(c->words + WORD_MAGIC, magic, memory_order_release); /* (last: a reader waits for it) */
}

/* Takes over what earlier openings counted. */
static dt_status continue_file(const dt_udp *u, struct counting *c, struct dt_udp_error *error) {
    const char *path = u->options.counters;
    uint64_t magic = get(c, WORD_MAGIC);
    if (magic == 0) begin_file(u, c);
    else if (memcmp(&magic, MAGIC, sizeof magic) != 0 || get(c, WORD_VERSION) != VERSION ||
             get(c, WORD_COUNT) != COUNTERS_WORDS)
        return dtu_refuse(error, DT_INVALID, 0,
                          "%s isn't a counters file of version 1; remove it, or choose another path", path);
    if (get(c, WORD_NODE) != u->options.node)
        return dtu_refuse(error, DT_INVALID, 0, "%s has the counters of another node; choose another path", path);
    for (int i = 0; i < COUNTERS_WORDS; i++) c->base[i] = get(c, i);
    return DT_OK;
}

/* Opens, locks and maps the file. Its blocks are reserved: a store into it must not find a full disk. */
static dt_status open_file(const dt_udp *u, struct counting *c, struct dt_udp_error *error) {
    const char *path = u->options.counters;
    struct stat is;
    c->file = open(path, O_RDWR | O_CREAT | O_CLOEXEC | O_NONBLOCK, 0644);
    if (c->file < 0 || fstat(c->file, &is) != 0)
        return dtu_refuse(error, DT_NOT_OPEN, errno, "the counters file %s can't be opened", path);
    if (!S_ISREG(is.st_mode) || (is.st_size != 0 && is.st_size != OCTETS))
        return dtu_refuse(error, DT_INVALID, 0, "%s isn't a counters file; remove it, or choose another path", path);
    if (flock(c->file, LOCK_EX | LOCK_NB) != 0)
        return dtu_refuse(error, errno == EWOULDBLOCK ? DT_EXISTS : DT_NOT_OPEN, errno,
                          "another process has the counters file %s", path);
    int why = posix_fallocate(c->file, 0, OCTETS);
    if (why != 0) return dtu_refuse(error, DT_NOT_OPEN, why, "the counters file %s can't be made", path);
    void *words = mmap(NULL, OCTETS, PROT_READ | PROT_WRITE, MAP_SHARED, c->file, 0);
    if (words == MAP_FAILED) return dtu_refuse(error, DT_NOT_OPEN, errno, "the counters file %s can't be mapped", path);
    c->words = words;
    return continue_file(u, c, error);
}

static void free_counting(struct counting *c) {
    if (c->words) (void)munmap((void *)c->words, OCTETS);
    if (c->file >= 0) close(c->file);
    free(c->flows);
    free(c->calls);
    free(c);
}

/* Opens the counters file that the options name, if they name one. */
dt_status dtu_count_open(dt_udp *u, struct dt_udp_error *error) {
    if (u->options.counters == NULL) return DT_OK;
    struct counting *c = calloc(1, sizeof *c);
    if (c == NULL) return dtu_refuse(error, DT_NO_MEMORY, 0, "out of memory");
    c->file = -1;
    for (c->call_places = 16; c->call_places < 2 * (size_t)u->options.max_calls && c->call_places < MOST_CALLS;)
        c->call_places *= 2;
    c->flows = calloc((size_t)FLOW_SETS * WAYS, sizeof *c->flows);
    c->calls = calloc(c->call_places, sizeof *c->calls);
    dt_status status = c->flows && c->calls ? open_file(u, c, error)
                                            : dtu_refuse(error, DT_NO_MEMORY, 0, "out of memory");
    if (status == DT_OK) u->counting = c;
    else free_counting(c);
    return status;
}

/* The driver is open: this opening counts. */
void dtu_count_begin(dt_udp *u) {
    struct counting *c = u->counting;
    if (c == NULL) return;
    begin_look(c);
    put(c, WORD_OPENINGS, c->base[WORD_OPENINGS] + 1);
    put(c, WORD_LIFE, u->options.life);
    put(c, WORD_PROCESS, (uint64_t)getpid());
    put(c, WORD_OPENED, (uint64_t)u->opened.wall / 1000000);
    end_look(c);
    dtu_count_publish(u);
}

/* Before anything is closed. A forked child leaves the file to its parent. */
void dtu_count_close(dt_udp *u) {
    struct counting *c = u->counting;
    if (c == NULL) return;
    if (!u->is_copy && (u->core.node || u->core.service)) {
        dtu_count_publish(u);
        begin_look(c);
        put(c, WORD_PROCESS, 0);
        put(c, WORD_QUIET_UNTIL, 0);
        for (int i = GAUGE_OCTETS_OPEN; i <= GAUGE_FRAMES_KEPT; i++) put(c, FIRST_GAUGE + i, 0);
        end_look(c);
    }
    u->counting = NULL;
    free_counting(c);
}

/* --- publishing */

static void publish_counts(dt_udp *u, struct counting *c) {
    uint64_t all[COUNTS];
    memcpy(all, &u->counts, sizeof u->counts);
    memcpy(all + COUNT_OWN, c->own + COUNT_OWN, (COUNTS - COUNT_OWN) * sizeof *all);
    dtu_core_counts(&u->core, all);
    for (int i = 0; i < COUNTS; i++) put(c, FIRST_COUNTER + i, c->base[FIRST_COUNTER + i] + all[i]);
    put(c, FIRST_GAUGE + GAUGE_OCTETS_OPEN,
        all[COUNT_OCTETS_QUEUED] - all[COUNT_OCTETS_ACKNOWLEDGED] - all[COUNT_OCTETS_UNCERTAIN]);
    for (int k = 0; k < HISTOGRAMS; k++)
        for (int i = 0; i < HISTOGRAM_WORDS; i++) {
            int at = FIRST_HISTOGRAM + k * HISTOGRAM_WORDS + i;
            put(c, at, c->base[at] + c->histograms[k][i]);
        }
}

/* When the node's silence ends, in ms of CLOCK_BOOTTIME; 0: not known, or there is none. */
static uint64_t quiet_until(const dt_udp *u, const struct counting *c) {
    if (u->quiet_until) return u->quiet_until;
    return u->keeper ? u->keeper->since : c->quiet_until;
}

/* Writes what was counted until now. */
void dtu_count_publish(dt_udp *u) {
    struct counting *c = u->counting;
    if (c == NULL || u->is_copy || (u->core.node == NULL && u->core.service == NULL)) return;
    uint64_t now_us = dtu_clock_us(), quiet = quiet_until(u, c);
    begin_look(c);
    publish_counts(u, c);
    put(c, FIRST_GAUGE + GAUGE_CALLS_OPEN, u->open_calls);
    put(c, FIRST_GAUGE + GAUGE_OCTETS_WAITING, u->governing.octets);
    put(c, FIRST_GAUGE + GAUGE_PEERS, u->peers.count);
    put(c, FIRST_GAUGE + GAUGE_FRAMES_KEPT, u->watching.kept_count);
    put(c, FIRST_GAUGE + GAUGE_FAILED, u->failed);
    put(c, WORD_QUIET_UNTIL, quiet ? wall_ns(u, quiet * 1000) / 1000000 : 0);
    put(c, WORD_WRITTEN, wall_ns(u, now_us) / 1000000);
    end_look(c);
    c->published_us = now_us;
}

/* Writes it if that wasn't done for a while: for a program that never waits. */
void dtu_count_keep_up(dt_udp *u, uint64_t now_us) {
    if (u->counting && now_us > u->counting->published_us + KEEP_UP_US) dtu_count_publish(u);
}

static void measured(struct counting *c, enum histogram which, uint64_t us) {
    int i = 0;
    while (i < BOUNDS && us > BOUND_US[i]) i++;
    c->histograms[which][i]++;
    c->histograms[which][BOUNDS + 1] += us;
}

/* --- what the program asks, and what is handed out */

/* Counts a refusal, and returns whether there was one. */
static bool is_refused(struct counting *c, dt_status status, uint64_t until) {
    static const uint8_t CAUSES[] = {[DT_QUIET] = COUNT_REFUSED_QUIET,
                                     [DT_FULL] = COUNT_REFUSED_FULL,
                                     [DT_TOO_MANY_CALLS] = COUNT_REFUSED_TOO_MANY_CALLS,
                                     [DT_LIFE_USED_UP] = COUNT_REFUSED_LIFE_USED_UP,
                                     [DT_INVALID] = COUNT_REFUSED_INVALID,
                                     [DT_GONE] = COUNT_REFUSED_GONE};
    if (status == DT_OK) return false;
    uint8_t cause = status < sizeof CAUSES ? CAUSES[status] : 0;
    c->own[cause ? cause : COUNT_REFUSED_OTHER]++;
    if (status == DT_QUIET) c->quiet_until = until;
    return true;
}

void dtu_count_send(dt_udp *u, const struct dt_send_result *it) {
    struct counting *c = u->counting;
    if (c && !is_refused(c, it->status, it->quiet_until)) c->own[COUNT_SENDS]++;
}

void dtu_count_reply(dt_udp *u, const struct dt_reply_result *it) {
    struct counting *c = u->counting;
    if (c && !is_refused(c, it->status, 0)) c->own[COUNT_REPLIES]++;
}

/* The place of a call, or null. Numbers that are given one after another have places one after another; those of calls
 * that waited in the driver are a series of their own. */
static struct counted_call *call_at(const struct counting *c, uint64_t number, bool is_new) {
    for (size_t i = 0; i < PROBES; i++) {
        struct counted_call *it = &c->calls[((number ^ number >> 32) + i) & (c->call_places - 1)];
        if (is_new ? it->us == 0 : it->us && it->number == number) return it;
    }
    return NULL;
}

void dtu_count_call(dt_udp *u, const struct dt_call_result *it) {
    struct counting *c = u->counting;
    if (c == NULL || is_refused(c, it->status, it->quiet_until)) return;
    struct counted_call *place = call_at(c, it->call, true);
    if (place) *place = (struct counted_call){.number = it->call, .us = dtu_clock_us()};
    else c->own[COUNT_UNMEASURED_CALLS]++;
    c->own[COUNT_CALLS]++;
}

static void end_call(struct counting *c, uint64_t number, bool answered) {
    struct counted_call *place = call_at(c, number, false);
    if (place == NULL) return;
    if (answered) measured(c, HISTOGRAM_CALL, dtu_clock_us() - place->us);
    place->us = 0;
}

/* Counts an event of a service as it is handed out. */
void dtu_count_event(dt_udp *u, uint8_t kind, uint8_t cause, uint64_t call) {
    struct counting *c = u->counting;
    if (c == NULL) return;
    if (kind == DT_UDP_EVENT_REQUEST) c->own[COUNT_REQUESTS]++;
    if (kind == DT_UDP_EVENT_REPLY_UNCERTAIN) c->own[COUNT_REPLIES_UNCERTAIN]++;
    if (kind == DT_UDP_EVENT_ANSWERED) c->own[COUNT_ANSWERED]++;
    if (kind == DT_UDP_EVENT_UNSURE && cause >= DT_CAUSE_GIVEN_UP && cause <= DT_CAUSE_STOPPED)
        c->own[COUNT_UNSURE_GIVEN_UP + cause - DT_CAUSE_GIVEN_UP]++;
    if (kind == DT_UDP_EVENT_ANSWERED || kind == DT_UDP_EVENT_UNSURE)
        end_call(c, call, kind == DT_UDP_EVENT_ANSWERED);
}

void dtu_count_alarm(dt_udp *u, uint8_t cause) {
    if (u->counting) u->counting->own[COUNT_ALARM_CLOCK + cause - DT_UDP_ALARM_CLOCK]++;
}

/* A frame of the present opening of a peer arrives, so old at most. */
void dtu_count_age(dt_udp *u, uint64_t us) {
    if (u->counting) measured(u->counting, HISTOGRAM_AGE, us);
}

/* --- frames that pass */

/* A packet of a frame, as far as it is looked at. */
struct packet {
    const uint8_t *octets;
    uint32_t maker, target, number, len;
    uint16_t from_port, to_port;
    uint8_t kind;
};

/* Reads a frame's headers. False: it has no packet. */
static bool read_packet(const uint8_t *frame, size_t len, struct packet *it) {
    if (len < HEADER + PACKET_HEADER || frame[1] != PROTOCOL) return false;
    const uint8_t *body = frame + HEADER;
    it->maker = (uint32_t)dtu_get_number(frame + MAKER_AT, 4);
    it->target = (uint32_t)dtu_get_number(frame + TARGET_AT, 4);
    it->kind = body[0];
    it->from_port = (uint16_t)dtu_get_number(body + FROM_PORT_AT, 2);
    it->to_port = (uint16_t)dtu_get_number(body + TO_PORT_AT, 2);
    it->number = (uint32_t)dtu_get_number(body + NUMBER_AT, 4);
    it->len = (uint32_t)(len - HEADER - PACKET_HEADER);
    return true;
}

static bool is_at(const struct counted_flow *it, uint32_t peer, uint16_t own_port, uint16_t peer_port) {
    return it->sent_us && it->peer == peer && it->own_port == own_port && it->peer_port == peer_port;
}

static struct counted_flow *set_of(const struct counting *c, uint32_t peer, uint16_t own_port, uint16_t peer_port) {
    uint64_t key = ((uint64_t)peer << 32 | (uint64_t)own_port << 16 | peer_port) * UINT64_C(0x9e3779b97f4a7c15);
    return &c->flows[(key >> 40 & (FLOW_SETS - 1)) * WAYS];
}

static struct counted_flow *find_flow(const struct counting *c, uint32_t peer, uint16_t own_port, uint16_t peer_port) {
    struct counted_flow *set = set_of(c, peer, own_port, peer_port);
    for (int i = 0; i < WAYS; i++)
        if (is_at(set + i, peer, own_port, peer_port)) return set + i;
    return NULL;
}

/* The place of a flow on which a packet leaves; that of the flow that was idle for longest goes for it. */
static struct counted_flow *flow_of(struct counting *c, const struct packet *p, uint64_t now_us, uint64_t r_us) {
    struct counted_flow *it = find_flow(c, p->target, p->from_port, p->to_port);
    if (it) return it;
    struct counted_flow *set = set_of(c, p->target, p->from_port, p->to_port);
    it = set;
    for (int i = 1; i < WAYS; i++)
        if (set[i].sent_us < it->sent_us) it = set + i;
    if (it->sent_us && now_us - it->sent_us <= r_us) c->own[COUNT_UNMEASURED_FLOWS]++;
    *it = (struct counted_flow){
        .peer = p->target, .own_port = p->from_port, .peer_port = p->to_port, .next = p->number};
    return it;
}

/* A segment leaves: it is sent again if its first octet was sent before. Nothing is sent again for longer than r after
 * it was sent first, so after such a time a record of the node has begun anew, and its numbers too. */
static void count_segment(dt_udp *u, struct counting *c, const struct packet *p) {
    uint64_t now_us = dtu_clock_us(), r_us = (uint64_t)u->options.params->r * 1000;
    struct counted_flow *it = flow_of(c, p, now_us, r_us);
    if (it->sent_us && now_us - it->sent_us > r_us) {
        it->next = p->number;
        it->sample_us = 0;
    }
    bool again = (int32_t)(p->number - it->next) < 0;
    it->sent_us = now_us;
    c->own[again ? COUNT_SEGMENTS_RESENT : COUNT_SEGMENTS_SENT]++;
    c->own[again ? COUNT_OCTETS_RESENT : COUNT_OCTETS_SENT] += p->len;
    if (again) {
        if ((int32_t)(p->number - it->sample_end) < 0) it->sample_us = 0; /* (whose answer comes, isn't known) */
        return;
    }
    it->next = p->number + p->len;
    if (it->sample_us) return;
    it->sample_us = now_us;
    it->sample_end = it->next;
}

/* A frame leaves, without its trailer. */
void dtu_count_out(dt_udp *u, const struct iovec *frame) {
    struct counting *c = u->counting;
    struct packet p;
    if (c == NULL || !read_packet(frame->iov_base, frame->iov_len, &p)) return;
    if (p.maker != u->options.node) c->own[COUNT_RELAYED]++;
    else if (p.kind == PACKET_DATA) count_segment(u, c, &p);
    else if (p.kind == PACKET_ACKNOWLEDGEMENT) c->own[COUNT_ACKNOWLEDGEMENTS_OUT]++;
    else if (p.kind == PACKET_PROBE) c->own[COUNT_PROBES_OUT]++;
}

/* A frame was passed to the node, with this answer. */
void dtu_count_in(dt_udp *u, const struct arrival *a, dt_status status) {
    struct counting *c = u->counting;
    struct packet p;
    if (c == NULL) return;
    if (status == DT_MALFORMED) c->own[COUNT_MALFORMED]++;
    if (status == DT_EXPIRED) c->own[COUNT_EXPIRED]++;
    if (status == DT_BLOCKED) c->own[COUNT_BLOCKED]++;
    if (status != DT_OK || !read_packet(a->octets, a->len, &p) || p.target != u->options.node) return;
    if (p.kind != PACKET_ACKNOWLEDGEMENT) return;
    c->own[COUNT_ACKNOWLEDGEMENTS_IN]++;
    struct counted_flow *it = find_flow(c, p.maker, p.to_port, p.from_port);
    if (it == NULL || it->sample_us == 0 || (int32_t)(p.number - it->sample_end) < 0) return;
    uint64_t now_us = dtu_clock_us();
    measured(c, HISTOGRAM_ROUND_TRIP, now_us - it->sample_us);
    it->sample_us = 0;
}
