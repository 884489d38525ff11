/* The micro node on a desk: `desk frames`, `desk retrace`, `desk replay`, `desk make N` (conformance/README.md), and
   `desk loose` for schedules that are drawn without a look at the log. Inputs are taken to be well formed; only parameters
   are tested. It has the greatest limits; with -DDTM_SMALL it has those of the header, or of other -D, and `retrace` ends
   with 77 where one of them was met.

   The node's clock has 32 bits and starts near their end; the log's moments have 64. A step of more than 2^30 ms is one of
   2^30 for the records, which compare no greater ages; datagrams that wait lose the rest of it from their lifetime. */
#ifndef DTM_SMALL
#define DTM_SENDS 64
#define DTM_RECVS 64
#define DTM_SEGMENTS 64
#define DTM_CAP 65536
#define DTM_RCAP 65536
#define DTM_SEG 8192
#define DTM_LINKS 64
#define DTM_ROUTES 64
#define DTM_QUEUE 64
#endif
#ifdef DTM_SMALL
static int limits_met;
#define DTM_LIMIT_MET(what) (limits_met++)
#endif
#include "deltat_micro.c"
#include <inttypes.h>
#include <stdio.h>
#include <stdlib.h>
#include <string.h>

enum { FINE = 0, STRANGE = 2, INPUT = 3, NO_MEMORY = 4, WIRE = 5, STILL = 6, LIMIT = 77, MOST_EQUAL = 100000 };
static const uint64_t LAST = (uint64_t)1 << 62;

static void strange(const char *what) {
    fprintf(stderr, "desk: %s\n", what);
    exit(STRANGE);
}

/* --- words */

static char *word(char **line) {
    char *it = *line;
    if (it == NULL) strange("a line ends too early");
    *line = strchr(it, ' ');
    if (*line != NULL) *(*line)++ = '\0';
    return it;
}
static uint64_t number(char **line) { return strtoull(word(line), NULL, 10); }
static flow flow_word(char **line) {
    flow it;
    if (sscanf(word(line), "%" SCNu32 ":%" SCNu16 ">%" SCNu32 ":%" SCNu16, &it.source, &it.source_port, &it.target, &it.target_port) != 4) strange("no flow");
    return it;
}
static unsigned digit(char it) { return it <= '9' ? (unsigned)(it - '0') : (unsigned)((it | 32) - 'a') + 10; }
/* in an allocation of exactly that size, so that a sanitizer sees who reads beyond */
static uint8_t *octets_word(const char *hex, size_t *len) {
    *len = strlen(hex) / 2;
    uint8_t *at = malloc(*len ? *len : 1);
    for (size_t i = 0; i < *len; i++) at[i] = (uint8_t)(16 * digit(hex[2 * i]) + digit(hex[2 * i + 1]));
    return at;
}
static uint8_t marks_word(const char *it) { return (uint8_t)((strchr(it, 'b') ? DTM_MARK_BEGIN : 0) | (strchr(it, 'e') ? DTM_MARK_END : 0)); }
static char *read_all(void) {
    char *text = NULL;
    size_t len = 0, room = 0, got = 1;
    while (got > 0) {
        if (room - len < 65536) text = realloc(text, room = 2 * room + 131072);
        got = fread(text + len, 1, room - len - 1, stdin);
        len += got;
    }
    text[len] = '\0';
    return text;
}
static char *line_of(char **text) {
    char *it = *text, *end = strchr(it, '\n');
    if (end) *end++ = '\0';
    *text = end ? end : it + strlen(it);
    return it;
}

/* --- a station: a node, and its clock of 64 bits */

struct station {
    struct dtm_node *node;
    uint64_t own, zero;
    uint32_t clock, lives, me;
    struct dtm_link links[64];
    struct dtm_route routes[64];
    size_t link_count, route_count;
    struct dtm_params params;
    bool has_params; /* of its own */
};

struct take { uint8_t *octets; size_t len; uint64_t link; bool found, failed; };
struct copy { uint8_t link, lost; uint8_t *octets; size_t len; uint64_t at; };
struct world_link { uint32_t from, to, charge, pace; uint8_t link; };
struct totals { flow way; uint64_t taken, acked, uncertain, given, read; };

static struct station stations[64];
static size_t station_count;
static bool in_world;
static uint64_t moment, gives;
static struct copy *copies;
static size_t copy_count;
static struct world_link world_links[256];
static size_t world_link_count;
static struct totals totals[4096];
static size_t totals_count;
static uint64_t *failing;
static size_t failing_count, next_failing;
static uint8_t room[65536];
static uint32_t wake_tells; /* reports of a tick that wake said nothing of */

static const char *const FAULTS[] = {"", "short", "version", "length", "dead", "protocol", "kind", "flags", "window", "size"};

static struct totals *totals_of(const flow *way) {
    size_t i = 0;
    while (i < totals_count && !is_same(&totals[i].way, way)) i++;
    if (i == totals_count) totals[totals_count++].way = *way;
    return &totals[i];
}

static void begun(const struct station *s, const char *what) { printf("%" PRIu64 " %" PRIu32 " %s", moment, s->me, what); }
static void about(const struct station *s, const char *what, const struct dtm_report *it) {
    begun(s, what);
    printf(" %" PRIu32 ":%u>%" PRIu32 ":%u", it->flow.source, it->flow.source_port, it->flow.target, it->flow.target_port);
}
static void letters(uint8_t marks, char run) {
    putchar(' ');
    if (marks & DTM_MARK_RUN) putchar(run);
    if (marks & DTM_MARK_BEGIN) putchar('b');
    if (marks & DTM_MARK_END) putchar('e');
    if (!marks) putchar('-');
}

static void reported(void *with, const struct dtm_report *it) {
    struct station *s = with;
    wake_tells++;
    switch (it->kind) {
    case DTM_REPORT_SEND_QUEUED: about(s, "took", it), printf(" %" PRIu32, it->count), totals_of(&it->flow)->taken += it->count; break;
    case DTM_REPORT_SEND_QUIET: about(s, "refused", it), printf(" quiet %" PRIu64, s->own + it->count); break;
    case DTM_REPORT_SEND_FULL: about(s, "refused", it), printf(" full %" PRIu32, it->count); break;
    case DTM_REPORT_SEGMENT_SENT:
    case DTM_REPORT_SEGMENT_RESENT: about(s, it->kind == DTM_REPORT_SEGMENT_SENT ? "sent" : "resent", it), printf(" %" PRIu32 " %" PRIu32, it->number, it->count), letters(it->marks, 'd'); break;
    case DTM_REPORT_PROBE_SENT: about(s, "met", it), printf(" %" PRIu32, it->number); break;
    case DTM_REPORT_UNCERTAIN: about(s, "uncertain", it), printf(" %" PRIu32, it->count), totals_of(&it->flow)->uncertain += it->count; break;
    case DTM_REPORT_SEND_RELEASED: about(s, "released", it), printf(" send"); break;
    case DTM_REPORT_RECEIVE_RELEASED: about(s, "released", it), printf(" receive"); break;
    case DTM_REPORT_SEND_RENEWED: about(s, "renewed", it); break;
    case DTM_REPORT_ACK_SENT: about(s, "acked", it), printf(" %" PRIu32 " %" PRIu32, it->number, it->window); break;
    case DTM_REPORT_REPLY_SENT: about(s, "replied", it), printf(" %" PRIu32 " %" PRIu32, it->number, it->window); break;
    case DTM_REPORT_ACCEPTED:
        about(s, "accepted", it), printf(" %" PRIu32 " %" PRIu32 " %s", it->number, it->count, it->marks ? "run" : "on");
        if (in_world) totals_of(&it->flow)->given += it->count;
        break;
    case DTM_REPORT_PACKET_DROPPED: about(s, "dropped", it), printf(" %" PRIu32, it->number); break;
    case DTM_REPORT_RUN_ENDED: about(s, "closing", it), printf(" %" PRIu32, it->number); break;
    case DTM_REPORT_ACKNOWLEDGED: about(s, "settled", it), printf(" %" PRIu32 " %" PRIu32, it->count, it->window), totals_of(&it->flow)->acked += it->count; break;
    case DTM_REPORT_ACK_IGNORED: about(s, "ignored", it), printf(" %" PRIu32 " %" PRIu32, it->number, it->window); break;
    case DTM_REPORT_PACKET_QUIET: begun(s, "quiet"), printf(" %" PRIu64, s->own + it->count); break;
    case DTM_REPORT_READ:
        about(s, "read", it), letters(it->marks, 'r'), putchar(' ');
        for (uint32_t i = 0; i < it->count; i++) printf("%02x", room[i]);
        if (in_world) totals_of(&it->flow)->read += it->count;
        break;
    case DTM_REPORT_READ_NONE: about(s, "nothing", it); break;
    case DTM_REPORT_PACKET_OUT: begun(s, "put"), printf(" %" PRIu32 " %" PRIu32, it->number, it->count); return; /* dtm_put ends the line */
    case DTM_REPORT_EXPIRED_IN: begun(s, "expired in"), printf(" %" PRIu32, it->number); break;
    case DTM_REPORT_EXPIRED_OUT: begun(s, "expired out"), printf(" %" PRIu32, it->number); break;
    case DTM_REPORT_NO_ROUTE: begun(s, "noroute"), printf(" %" PRIu32, it->number); break;
    case DTM_REPORT_LINK_FULL: begun(s, "full"), printf(" %" PRIu32, it->number); break;
    case DTM_REPORT_PACKET_MALFORMED:
        begun(s, "bad"), printf(" %s", FAULTS[it->number]);
        if (it->number != DTM_FAULT_LIFETIME) printf(" %" PRIu32, it->count);
        if (it->number == DTM_FAULT_LENGTH) printf(" %" PRIu32, it->window);
        break;
    default: strange("a report of another kind");
    }
    putchar('\n');
}

static void taken_out(void *with, uint8_t link, const uint8_t *frame, size_t len) {
    struct station *s = with;
    if (in_world) {
        if ((copy_count & (copy_count + 1)) == 0) copies = realloc(copies, 2 * (copy_count + 1) * sizeof *copies);
        struct copy *it = &copies[copy_count];
        it->link = link, it->lost = 0, it->len = len, it->at = moment;
        memcpy(it->octets = malloc(len), frame, len);
        printf(" as %zu\n", copy_count++);
        return;
    }
    putchar('\n');
    gives++;
    while (next_failing < failing_count && failing[next_failing] < gives) next_failing++;
    if (next_failing < failing_count && failing[next_failing] == gives) begun(s, "unsent"), printf(" %u\n", link);
}

/* The node's reading of its clock at a moment of its own. */
static uint32_t reading(struct station *s, uint64_t own) {
    uint64_t by = own > s->own ? own - s->own : 0;
    if (by > LONG_AGO) {
        uint64_t rest = by - LONG_AGO;
        for (uint8_t i = 0; i < s->node->links; i++)
            for (uint8_t j = 0; j < s->node->queue[i].len; j++) {
                uint8_t *at = s->node->queue[i].wait[round_by(s->node->queue[i].at, j, DTM_QUEUE)].octets + 4;
                uint32_t life = four(at);
                put_four(at, life > rest ? (uint32_t)(life - rest) : 0);
            }
        by = LONG_AGO;
    }
    if (own > s->own) s->own = own;
    return s->clock += (uint32_t)by;
}

static int opened(struct station *s, const struct dtm_params *p, uint64_t own, bool again) {
    struct dtm_options o = {.params = s->has_params ? s->params : *p, .node = s->me, .again = again};
    o.links = s->links, o.link_count = s->link_count;
    o.routes = s->routes, o.route_count = s->route_count;
    o.callbacks = (struct dtm_callbacks){reported, taken_out, s};
    if (!s->node) s->node = malloc(sizeof *s->node);
    if (!s->node) exit(NO_MEMORY);
    /* what a node doesn't set may be anything */
    memset(s->node, 0xa5, sizeof *s->node < 4096 ? sizeof *s->node : 4096);
    s->own = own;
    s->clock = 0xfffff000u; /* wraps around soon */
    return dtm_open(s->node, &o, s->clock);
}

static void arrives(struct station *s, uint32_t now, const struct take *it) {
    struct dtm_arrival arrival = {it->octets, it->len, 0, (uint8_t)it->link};
    dtm_receive(s->node, now, &arrival);
}

static void read_params(char *line, struct dtm_params *p) {
    uint32_t *const fields[] = {&p->mpl, &p->r, &p->a, &p->rto, &p->probe, &p->seg, &p->cap, &p->rcap, &p->window, &p->run_limit, &p->start};
    memset(p, 0, sizeof *p);
    for (size_t i = 0; i < 11 && line != NULL; i++) *fields[i] = (uint32_t)number(&line);
}

static int out_of_range(const struct dtm_params *p, size_t line) {
    static const char *const names[] = {"", "mpl", "r", "a", "rto", "probe", "seg", "cap", "rcap", "window", "run_limit"};
    const uint32_t at[] = {0, p->mpl, p->r, p->a, p->rto, p->probe, p->seg, p->cap, p->rcap, p->window, p->run_limit};
    int field = dtm_params_check(p);
    if (field) printf("line %zu: param %s %" PRIu32 "\n", line, names[field], at[field]);
    return field;
}

/* --- retrace */

struct command { uint64_t at; flow way; uint8_t *octets; size_t len, most; uint8_t marks; };
static struct command *commands;
static struct take *takes;
static uint64_t *readings, stop;
static size_t command_count, take_count, reading_count;
#define GROWN(list, count) ((count) % 256 == 0 ? (list) = realloc((list), ((count) + 256) * sizeof *(list)) : (list))

static void script_line(struct station *s, struct dtm_params *p, bool *again, char *line) {
    const char *first = word(&line);
    if (!*first || *first == '#' || !strcmp(first, "local") || !strcmp(first, "go")) return;
    if (!strcmp(first, "params")) read_params(line, p);
    else if (!strcmp(first, "me")) s->me = (uint32_t)number(&line), *again = !strcmp(word(&line), "again");
    else if (!strcmp(first, "peer")) {
        struct dtm_link *it = &s->links[s->link_count++];
        it->number = (uint8_t)number(&line);
        word(&line);
        it->charge = (uint32_t)number(&line), it->pace = (uint32_t)number(&line);
    } else if (!strcmp(first, "route")) {
        struct dtm_route *it = &s->routes[s->route_count++];
        it->to = (uint32_t)number(&line), it->link = (uint8_t)number(&line);
    } else if (!strcmp(first, "at")) {
        GROWN(commands, command_count);
        struct command *it = &commands[command_count];
        memset(it, 0, sizeof *it);
        it->at = number(&line);
        const char *what = word(&line);
        if (!strcmp(what, "stop")) {
            stop = it->at;
            return;
        }
        command_count++;
        it->way = flow_word(&line);
        if (!strcmp(what, "read")) it->most = (size_t)number(&line);
        else it->marks = marks_word(word(&line)), it->octets = octets_word(word(&line), &it->len);
    } else strange(first);
}

static void trace_line(char *line) {
    const char *first = word(&line);
    if (*first == '@') GROWN(readings, reading_count)[reading_count] = number(&line), reading_count++;
    else if (*first == '!') GROWN(failing, failing_count)[failing_count] = number(&line), failing_count++;
    else {
        GROWN(takes, take_count);
        struct take *it = &takes[take_count++];
        memset(it, 0, sizeof *it);
        const char *second = word(&line);
        it->failed = *second == 'x';
        it->found = !it->failed && *second != '-';
        if (it->found) it->link = strtoull(second, NULL, 10), it->octets = octets_word(line ? line : "", &it->len);
    }
}

static uint64_t traced_reading(size_t at) {
    uint64_t it = reading_count == 0 ? 0 : readings[at < reading_count ? at : reading_count - 1];
    return it < LAST ? it : LAST;
}

static int retrace(void) {
    char *text = read_all();
    struct station *s = &stations[0];
    struct dtm_params p;
    bool again = false, is_traced = false;
    size_t at = 1, params_line = 1, next = 0, turn = 0;
    for (; *text; at++) {
        char *line = line_of(&text);
        if (!strncmp(line, "params ", 7)) params_line = at;
        if (is_traced) trace_line(line);
        else if (!strcmp(line, "trace")) is_traced = true;
        else script_line(s, &p, &again, line);
    }
    if (!is_traced) strange("no trace");
    if (out_of_range(&p, params_line)) return INPUT;
    if (opened(s, &p, 0, again)) strange("the node isn't opened");
    if (failing_count > 0 && failing[0] == 0) return WIRE;
    uint64_t first = traced_reading(0), greatest = first;
    uint32_t equal = 1;
    struct take came;
    memset(&came, 0, sizeof came);
    for (;; turn++) {
        moment = greatest - first;
        uint32_t before = dtm_wake(s->node);
        uint64_t passed = moment - s->own;
        uint32_t now = reading(s, moment);
        /* what is due is due by wake, and not before */
        wake_tells = 0;
        if (passed < LONG_AGO && before != DTM_NEVER && passed < before) {
            dtm_tick(s->node, now);
            if (wake_tells) strange("something happened before the wake");
        }
        if (came.found && came.link <= UINT8_MAX) arrives(s, now, &came);
        for (; next < command_count && commands[next].at <= moment; next++) {
            struct command *it = &commands[next];
            struct dtm_message message = {it->way, it->octets, it->len, it->marks};
            if (it->octets) dtm_send(s->node, now, &message);
            else dtm_read(s->node, now, &it->way, room, it->most);
        }
        if (stop <= moment) {
            printf("end %" PRIu64 "\n", moment);
            return FINE;
        }
        dtm_tick(s->node, now);
        if (dtm_wake(s->node) == 0) strange("something is due after a tick");
        memset(&came, 0, sizeof came);
        if (turn < take_count) came = takes[turn];
        if (came.failed) return WIRE;
        if (equal == MOST_EQUAL) return STILL;
        uint64_t later = traced_reading(turn + 1);
        equal = later > greatest ? 1 : equal + 1;
        if (later > greatest) greatest = later;
    }
}

/* --- replay */

static struct station *station_of(uint32_t me) {
    for (size_t i = 0; i < station_count; i++)
        if (stations[i].me == me) return &stations[i];
    strange("no station");
    return NULL;
}

/* loose: for schedules that are drawn without a look at the log. `arrive K` and `lose K` are of the copy that was put K
   copies ago; where it isn't there, was lost or is too late, nothing happens. What a compiled limit refuses is no fault. */
static int replay(bool loose) {
    char *text = read_all();
    struct dtm_params p;
    in_world = true;
    for (size_t at = 1; *text; at++) {
        char *line = line_of(&text);
        const char *first = word(&line);
        if (!*first || *first == '#') continue;
        if (!strcmp(first, "params")) {
            read_params(line, &p);
            if (out_of_range(&p, at)) return INPUT;
        } else if (!strcmp(first, "station")) {
            struct station *s = &stations[station_count++];
            s->me = (uint32_t)number(&line), s->zero = number(&line);
        } else if (!strcmp(first, "own")) { /* `own N` and parameters: those of a station, where they aren't the world's */
            struct station *s = station_of((uint32_t)number(&line));
            read_params(line, &s->params), s->has_params = true;
        } else if (!strcmp(first, "link")) {
            struct world_link *it = &world_links[world_link_count++];
            it->link = (uint8_t)number(&line), it->from = (uint32_t)number(&line), it->to = (uint32_t)number(&line);
            it->charge = (uint32_t)number(&line), it->pace = (uint32_t)number(&line);
            /* of a station a link is one way: it leaves by it with its pace, and comes by it with its charge */
            struct dtm_link one = {it->charge, it->pace, it->link};
            struct station *from = station_of(it->from), *to = station_of(it->to);
            from->links[from->link_count++] = one;
            to->links[to->link_count++] = one;
        } else if (!strcmp(first, "route")) {
            struct station *s = station_of((uint32_t)number(&line));
            struct dtm_route it;
            it.to = (uint32_t)number(&line), it.link = (uint8_t)number(&line);
            s->routes[s->route_count++] = it;
        } else if (!strcmp(first, "go")) {
            for (size_t i = 0; i < station_count; i++)
                if (opened(&stations[i], &p, stations[i].zero, false)) strange("a station isn't opened");
        } else if (!strcmp(first, "pass")) moment += number(&line);
        else if (!strcmp(first, "send")) {
            flow way = flow_word(&line);
            struct station *s = station_of(way.source);
            uint8_t marks = marks_word(word(&line));
            size_t len;
            uint8_t *octets = octets_word(word(&line), &len);
            struct dtm_message message = {way, octets, len, marks};
            dtm_send(s->node, reading(s, moment + s->zero), &message);
            free(octets);
        } else if (!strcmp(first, "read")) {
            flow way = flow_word(&line);
            struct station *s = station_of(way.target);
            dtm_read(s->node, reading(s, moment + s->zero), &way, room, (size_t)number(&line));
        } else if (!strcmp(first, "tick")) {
            struct station *s = station_of((uint32_t)number(&line));
            dtm_tick(s->node, reading(s, moment + s->zero));
        } else if (!strcmp(first, "arrive")) {
            size_t c = (size_t)number(&line), i = 0;
            if (loose && c >= copy_count) continue;
            struct copy it = copies[loose ? copy_count - 1 - c : c];
            while (world_links[i].link != it.link) i++;
            if (loose && (it.lost || moment - it.at > world_links[i].charge)) continue;
            struct station *s = station_of(world_links[i].to);
            struct take came = {it.octets, it.len, it.link, true, false};
            arrives(s, reading(s, moment + s->zero), &came);
        } else if (!strcmp(first, "lose")) {
            size_t i = (size_t)number(&line);
            if (loose && i >= copy_count) continue;
            if (loose) i = copy_count - 1 - i;
            if (copies[i].lost) continue;
            copies[i].lost = 1;
            printf("%" PRIu64 " lost %zu\n", moment, i);
        } else if (!strcmp(first, "restart")) {
            struct station *s = station_of((uint32_t)number(&line));
            opened(s, &p, moment + s->zero, true);
            begun(s, "restarted");
            printf(" %" PRIu32 "\n", ++s->lives);
        } else strange(first);
    }
    for (size_t i = 0; i < totals_count; i++) {
        struct totals *it = &totals[i];
        if (it->taken == 0) continue;
        printf("flow %" PRIu32 ":%u>%" PRIu32 ":%u taken %" PRIu64 " acked %" PRIu64 " uncertain %" PRIu64 " open %" PRIu64 " given %" PRIu64 " read %" PRIu64 "\n", it->way.source,
               it->way.source_port, it->way.target, it->way.target_port, it->taken, it->acked, it->uncertain, it->taken - it->acked - it->uncertain, it->given, it->read);
    }
    printf("end %" PRIu64 "\n", moment);
    return FINE;
}

static int make(uint32_t count) {
    uint32_t x = 1, copy = 0;
    printf("params 1000 3000 200 500 800 100 4096 4096 512 2147483648\nstation 1 0\nstation 2 0\nlink 1 1 2 50 0\nlink 2 2 1 50 0\nroute 1 2 1\nroute 2 1 2\ngo\n");
    for (uint32_t i = 0; i < count; i++) {
        x = (x * 1103515245u + 12345u) & 0x7fffffffu;
        uint32_t q = x >> 16, len = 1 + q / 4 % 16, kind = q % 4;
        printf("send 1:10>2:20 be ");
        for (uint32_t j = 0; j < len; j++) printf("%02x", (unsigned)((i + j) % 256));
        if (kind == 2) printf("\nlose %u\npass 500\ntick 1\npass 10\narrive %u\npass 10\narrive %u\n", copy, copy + 1, copy + 2);
        else if (kind == 3) printf("\npass 10\narrive %u\narrive %u\npass 10\narrive %u\narrive %u\n", copy, copy, copy + 2, copy + 1);
        else printf("\npass 10\narrive %u\npass 10\narrive %u\n", copy, copy + 1);
        printf("read 1:10>2:20 65536\n");
        copy += kind < 2 ? 2 : 3;
    }
    return FINE;
}

/* --- frames */

static int frames(void) {
    static const char *const names[] = {"", "data", "ack", "rendezvous", "closing"};
    for (char *text = read_all(); *text;) {
        size_t len;
        uint8_t *octets = octets_word(line_of(&text), &len);
        struct dtm_packet it;
        uint8_t fault = dtm_read_deltagram(octets, len, &it);
        if (!fault) fault = dtm_read_packet(octets, len, &it);
        if (fault) {
            printf("bad %s", FAULTS[fault]);
            if (fault != DTM_FAULT_LIFETIME) printf(" %" PRIu32, it.value);
            if (fault == DTM_FAULT_LENGTH) printf(" %" PRIu32, it.present);
        } else {
            printf("%s %" PRIu32 " %" PRIu32 ":%u>%" PRIu32 ":%u %" PRIu32, names[it.kind], it.life, it.source, it.source_port, it.target, it.target_port, it.number);
            if (it.kind == DTM_PACKET_ACK) printf(" %" PRIu32, it.window);
            if (it.kind == DTM_PACKET_DATA) {
                letters(it.flags, 'd'), putchar(' ');
                for (uint32_t i = 0; i < it.size; i++) printf("%02x", it.octets[i]);
            }
        }
        putchar('\n');
        free(octets);
    }
    return FINE;
}

int main(int count, char **words) {
    if (count == 2 && !strcmp(words[1], "frames")) return frames();
    if (count == 2 && !strcmp(words[1], "retrace")) {
        int status = retrace();
#ifdef DTM_SMALL
        if (limits_met) return LIMIT; /* the log may differ */
#endif
        return status;
    }
    if (count == 2 && !strcmp(words[1], "replay")) return replay(false);
    if (count == 2 && !strcmp(words[1], "loose")) return replay(true);
    if (count == 3 && !strcmp(words[1], "make")) return make((uint32_t)strtoul(words[2], NULL, 10));
    return STRANGE;
}
