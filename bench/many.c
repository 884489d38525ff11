/* What a turn of a node or a service costs beside what is open. Two handles in one process, datagrams carried in memory.
 *
 * Usage: many ROW N. Each row prints lines `NAME VALUE UNIT`; bench/many.py runs them and compares. */
#define _POSIX_C_SOURCE 200809L
#include "deltat.h"
#include <malloc.h>
#include <stdio.h>
#include <stdlib.h>
#include <string.h>
#include <time.h>

enum { LINK = 1, CHARGE = 294, TURNS = 200, TIMEOUT = 3600000, MOST_LIVE = 4096, MOST_CHUNK = 65536, MORE_LINKS = 64,
       SHELF = 256 };
static const struct dt_params RULES = {
    .size = sizeof RULES, .mpl = 482, .r = 450, .a = 5, .rto = 90, .probe = 180, .seg = 1442,
    .cap = 65536, .rcap = 65536, .window = 65536, .run_limit = 2147483648u};

struct pair { dt_service *a, *b; uint64_t now; };
struct plain { dt_node *a, *b; uint64_t now; };

static void die(const char *what, long number) {
    fprintf(stderr, "many: %s: %ld\n", what, number);
    exit(1);
}

static void must(const char *what, dt_status status) {
    if (status != DT_OK) die(what, status);
}

static void *owned(void *p) {
    if (p == NULL) die("out of memory", 0);
    return p;
}

/* an older library has no shelf; then losses are measured without */
extern __typeof__(dt_node_set_shelf) dt_node_set_shelf __attribute__((weak));
extern __typeof__(dt_service_set_shelf) dt_service_set_shelf __attribute__((weak));

static double us(void) {
    struct timespec t;
    clock_gettime(CLOCK_MONOTONIC, &t);
    return (double)t.tv_sec * 1e6 + (double)t.tv_nsec / 1e3;
}

static int in_order(const void *a, const void *b) {
    double x = *(const double *)a, y = *(const double *)b;
    return x < y ? -1 : x > y;
}

static void show_median(const char *name, double *values, int n) {
    qsort(values, (size_t)n, sizeof *values, in_order);
    printf("%s %.2f us\n", name, values[n / 2]);
}

static struct dt_node_options options(uint32_t node, uint64_t now, struct dt_link *link, struct dt_route *route) {
    *link = (struct dt_link){.charge = CHARGE, .number = LINK};
    *route = (struct dt_route){.to = 3 - node, .link = LINK};
    return (struct dt_node_options){.size = sizeof(struct dt_node_options), .node = node, .now = now, .links = link,
                                    .link_count = 1, .routes = route, .route_count = 1, .start_as = DT_START_FIRST};
}

static dt_service *service(uint32_t node, uint64_t now, uint32_t most) {
    dt_service *it = owned(dt_service_new());
    struct dt_link link;
    struct dt_route route;
    struct dt_node_options said = options(node, now, &link, &route);
    struct dt_service_options limits = {.size = sizeof limits, .life = 1, .max_calls = most, .max_requests = most,
                                        .max_requests_per_flow = most};
    must("dt_service_open", dt_service_open(it, &RULES, &said, &limits).status);
    return it;
}

static dt_node *node(uint32_t number, uint64_t now, const struct dt_params *rules) {
    dt_node *it = owned(dt_node_new());
    struct dt_link link;
    struct dt_route route;
    struct dt_node_options said = options(number, now, &link, &route);
    must("dt_node_open", dt_node_open(it, rules, &said).status);
    must("dt_node_enable_messages", dt_node_enable_messages(it, 65536));
    return it;
}

static long carry(dt_service *from, dt_service *to, uint64_t now) {
    uint8_t out[DT_MAX_DATAGRAM];
    struct dt_datagram datagram = {.size = sizeof datagram};
    long count = 0;
    for (; dt_service_next_datagram(from, out, sizeof out, &datagram) == DT_OK; count++)
        must("dt_service_receive", dt_service_receive(to, now, LINK, out, datagram.len, 0).status);
    return count;
}

static void both(struct pair *it) {
    carry(it->a, it->b, it->now);
    carry(it->b, it->a, it->now);
}

static void tick(struct pair *it, uint64_t by) {
    it->now += by;
    must("dt_service_tick", dt_service_tick(it->b, it->now));
    must("dt_service_tick", dt_service_tick(it->a, it->now));
    both(it);
}

static struct pair services(uint32_t most) {
    struct pair it = {service(1, 1000, most), service(2, 1000, most), 1000};
    must("dt_service_set_port", dt_service_set_port(it.a, 1, DT_PORT_CALLER));
    must("dt_service_set_port", dt_service_set_port(it.a, 2, DT_PORT_CALLER));
    must("dt_service_set_port", dt_service_set_port(it.b, 20, DT_PORT_SERVICE));
    must("dt_service_set_port", dt_service_set_port(it.b, 21, DT_PORT_SERVICE));
    return it;
}

static void close_services(struct pair *it) {
    dt_service_free(it->a);
    dt_service_free(it->b);
}

static void call(struct pair *it, uint16_t from, uint16_t to) {
    struct dt_flow flow = {1, 2, from, to};
    uint8_t payload = 7;
    must("dt_service_call", dt_service_call(it->a, it->now, &flow, &payload, 1, TIMEOUT, 0).status);
}

static struct dt_event next_event(dt_service *from) {
    static uint8_t payload[DT_MAX_PAYLOAD];
    struct dt_event event = {.size = sizeof event};
    dt_status status = dt_service_next_event(from, payload, sizeof payload, &event);
    if (status != DT_OK && status != DT_NONE) die("dt_service_next_event", status);
    if (status == DT_NONE) event.kind = 0;
    return event;
}

/* n calls on one flow, whose requests the other end takes (`taken`), or leaves in its queue */
static double open_calls(struct pair *it, long n, bool taken) {
    double begun = us();
    for (long i = 0; i < n; i++) {
        call(it, 1, 20);
        if (i % 256 != 255 && i != n - 1) continue;
        for (int k = 0; k < 6; k++) {
            both(it);
            while (taken && next_event(it->b).kind != 0) continue;
            tick(it, 3);
        }
    }
    double took = us() - begun;
    tick(it, 5);
    tick(it, 5);
    return took;
}

struct turn { double call[TURNS], request[TURNS], reply[TURNS], answer[TURNS], tick[TURNS]; };

static void one_turn(struct pair *it, struct turn *took, int i) {
    double x = us();
    must("dt_service_tick", dt_service_tick(it->a, it->now));
    took->tick[i] = us() - x;
    x = us();
    call(it, 2, 21);
    took->call[i] = us() - x;
    x = us();
    carry(it->a, it->b, it->now);
    took->request[i] = us() - x;
    struct dt_event event = next_event(it->b);
    if (event.kind != DT_EVENT_REQUEST) die("no request but", event.kind);
    struct dt_token token = {event.call, event.flow};
    uint8_t payload = 7;
    x = us();
    must("dt_service_reply", dt_service_reply(it->b, it->now, &token, &payload, 1).status);
    took->reply[i] = us() - x;
    x = us();
    long count = carry(it->b, it->a, it->now);
    took->answer[i] = (us() - x) / (double)(count ? count : 1);
    if (next_event(it->a).kind != DT_EVENT_ANSWERED) die("no answer", i);
    tick(it, 1);
    both(it);
}

static void turns(struct pair *it) {
    struct turn *took = owned(calloc(1, sizeof *took));
    for (int i = 0; i < TURNS; i++) one_turn(it, took, i);
    show_median("call", took->call, TURNS);
    show_median("request-arrives", took->request, TURNS);
    show_median("reply", took->reply, TURNS);
    show_median("answer-arrives", took->answer, TURNS);
    show_median("tick", took->tick, TURNS);
    free(took);
}

/* a turn beside n calls that wait for answers, and n requests that the service has and hasn't answered */
static void row_calls(long n) {
    struct pair it = services((uint32_t)n + 1000);
    printf("making-n-calls %.0f ms\n", open_calls(&it, n, true) / 1e3);
    turns(&it);
    close_services(&it);
}

/* an arrival beside n requests that the service's program hasn't taken */
static void row_untaken(long n) {
    struct pair it = services((uint32_t)n + 1000);
    static double took[TURNS];
    open_calls(&it, n, false);
    for (int i = 0; i < TURNS; i++) {
        call(&it, 2, 21);
        double x = us();
        carry(it.a, it.b, it.now);
        took[i] = us() - x;
        tick(&it, 6);
    }
    show_median("request-arrives", took, TURNS);
    close_services(&it);
}

/* a call beside n answers that the caller's program hasn't taken */
static void row_answers(long n) {
    struct pair it = services((uint32_t)n + 1000);
    static double took[TURNS];
    for (long i = 0; i < n + TURNS; i++) {
        double x = us();
        call(&it, 1, 20);
        if (i >= n) took[i - n] = us() - x;
        carry(it.a, it.b, it.now);
        struct dt_event event = next_event(it.b);
        struct dt_token token = {event.call, event.flow};
        uint8_t payload = 7;
        must("dt_service_reply", dt_service_reply(it.b, it.now, &token, &payload, 1).status);
        carry(it.b, it.a, it.now);
        if (i % 16 == 0) tick(&it, 6);
    }
    show_median("call", took, TURNS);
    close_services(&it);
}

/* a turn beside n ports that have a kind */
static void row_ports(long n) {
    struct pair it = services(10000);
    for (long i = 0; i < n && i < 60000; i++) {
        must("dt_service_set_port", dt_service_set_port(it.a, (uint16_t)(1000 + i), DT_PORT_CALLER));
        must("dt_service_set_port", dt_service_set_port(it.b, (uint16_t)(1000 + i), DT_PORT_SERVICE));
    }
    turns(&it);
    close_services(&it);
}

/* ---- plain nodes ---- */

static struct dt_params small_rules(void) {
    struct dt_params it = RULES;
    it.cap = it.rcap = it.window = 4096;
    return it;
}

static void mark_all(dt_node *it, double *took, long *count) {
    struct dt_report report = {.size = sizeof report};
    while (dt_node_next_report(it, &report) == DT_OK) {
        bool is_end = report.kind == DT_REPORT_RECORD_RELEASED && !report.sending;
        if (report.kind != DT_REPORT_ACCEPTED && !is_end) continue;
        double x = us();
        must("dt_node_mark_readable", dt_node_mark_readable(it, &report.flow));
        *took += us() - x;
        *count += 1;
    }
}

static void carry_plain(dt_node *from, dt_node *to, uint64_t now) {
    uint8_t out[DT_MAX_DATAGRAM];
    struct dt_datagram datagram = {.size = sizeof datagram};
    while (dt_node_next_datagram(from, out, sizeof out, &datagram) == DT_OK)
        must("dt_node_receive", dt_node_receive(to, now, LINK, out, datagram.len, 0).status);
}

static void forget_reports(dt_node *it) {
    struct dt_report report = {.size = sizeof report};
    while (dt_node_next_report(it, &report) == DT_OK) continue;
}

static dt_status take(struct plain *it) {
    static uint8_t buf[65536];
    struct dt_message message = {.size = sizeof message};
    return dt_node_next_message(it->b, it->now, buf, sizeof buf, &message);
}

static void send_on(struct plain *it, struct dt_flow flow, bool ends) {
    static const uint8_t payload[10];
    must("dt_node_send", dt_node_send(it->a, it->now, &flow, payload, sizeof payload, true, ends).status);
    forget_reports(it->a);
}

/* n flows that have each sent 10 octets, of a message that has an end or not */
static struct plain flows(long n, bool end) {
    struct dt_params rules = small_rules();
    struct plain it = {node(1, 1000, &rules), node(2, 1000, &rules), 1000};
    double took = 0;
    long count = 0;
    for (long i = 0; i < n; i++) {
        send_on(&it, (struct dt_flow){1, 2, (uint16_t)(i % 50000), (uint16_t)(i / 50000)}, end);
        carry_plain(it.a, it.b, it.now);
        mark_all(it.b, &took, &count);
        while (take(&it) == DT_OK) mark_all(it.b, &took, &count);
        mark_all(it.b, &took, &count);
        carry_plain(it.b, it.a, it.now);
        forget_reports(it.a);
    }
    return it;
}

/* marking and taking beside n flows whose message isn't whole */
static void row_unfinished(long n) {
    struct plain it = flows(n, false);
    static double takes[TURNS];
    double marked = 0;
    long count = 0;
    for (int i = 0; i < TURNS; i++) {
        send_on(&it, (struct dt_flow){1, 2, 55000, 7}, true);
        carry_plain(it.a, it.b, it.now);
        mark_all(it.b, &marked, &count);
        double x = us();
        if (take(&it) != DT_OK) die("no message", i);
        takes[i] = us() - x;
        mark_all(it.b, &marked, &count);
        while (take(&it) == DT_OK) continue;
        carry_plain(it.b, it.a, it.now);
        forget_reports(it.a);
    }
    show_median("next-message", takes, TURNS);
    printf("mark-readable %.2f us\n", count ? marked / (double)count : 0);
    dt_node_free(it.a);
    dt_node_free(it.b);
}

/* how long the longest tick is that releases the records of n flows */
static void row_release(long n) {
    struct plain it = flows(n, true);
    double longest = 0, all = us();
    for (it.now += 3000; dt_node_wake(it.b) <= it.now;) {
        double x = us();
        must("dt_node_tick", dt_node_tick(it.b, it.now));
        if (us() - x > longest) longest = us() - x;
    }
    printf("longest-tick %.2f ms\nall %.2f ms\n", longest / 1e3, (us() - all) / 1e3);
    dt_node_free(it.a);
    dt_node_free(it.b);
}

/* the heap that a node with so many links takes, where segments have at most n octets */
static long held(long n, size_t links, uint32_t pace) {
    struct dt_params rules = RULES;
    rules.seg = (uint32_t)n;
    struct dt_link link[1 + MORE_LINKS];
    for (size_t i = 0; i < links; i++)
        link[i] = (struct dt_link){.charge = CHARGE, .pace = pace, .number = (uint16_t)(LINK + i)};
    struct dt_node_options said = {.size = sizeof said, .node = 1, .now = 1000, .links = link, .link_count = links,
                                   .start_as = DT_START_FIRST};
    dt_node *it = owned(dt_node_new());
    struct mallinfo2 before = mallinfo2();
    must("dt_node_open", dt_node_open(it, &rules, &said).status);
    struct mallinfo2 after = mallinfo2();
    dt_node_free(it);
    return (long)(after.uordblks + after.hblkhd) - (long)(before.uordblks + before.hblkhd);
}

/* the heap that each further link takes, with and without a pace: the mean of many, since what malloc keeps of freed
 * blocks counts as held */
static void row_link(long n) {
    for (uint32_t pace = 0; pace < 2; pace++) {
        long one = held(n, 1, pace), all = held(n, 1 + MORE_LINKS, pace);
        printf("%s %ld octets\n", pace ? "with-a-pace" : "without-a-pace", (all - one) / MORE_LINKS);
    }
}

/* ---- a wire with losses and a delay, in steps of a millisecond ---- */

struct packet { uint64_t at; size_t len; bool to_b; uint8_t octets[DT_MAX_DATAGRAM]; };
struct wire { struct packet *ring; size_t first, count; unsigned loss; uint64_t delay; unsigned long seed; };

static struct wire wire_of(unsigned loss, uint64_t delay) {
    return (struct wire){owned(malloc(MOST_LIVE * sizeof(struct packet))), 0, 0, loss, delay, 88172645463325252ul};
}

static bool is_lost(struct wire *it) {
    it->seed ^= it->seed << 13;
    it->seed ^= it->seed >> 7;
    it->seed ^= it->seed << 17;
    return it->seed % 1000 < it->loss;
}

/* where the next datagram goes, or null where it is lost */
static struct packet *place_for(struct wire *it, bool to_b, uint64_t now) {
    if (is_lost(it)) return NULL;
    if (it->count == MOST_LIVE) die("too many datagrams under way", MOST_LIVE);
    struct packet *at = &it->ring[(it->first + it->count++) % MOST_LIVE];
    at->at = now + it->delay;
    at->to_b = to_b;
    return at;
}

static struct packet *due(struct wire *it, uint64_t now) {
    if (it->count == 0 || it->ring[it->first].at > now) return NULL;
    struct packet *at = &it->ring[it->first];
    it->first = (it->first + 1) % MOST_LIVE;
    it->count--;
    return at;
}

static void leave(struct wire *it, dt_service *from, bool to_b, uint64_t now) {
    uint8_t out[DT_MAX_DATAGRAM];
    struct dt_datagram datagram = {.size = sizeof datagram};
    while (dt_service_next_datagram(from, out, sizeof out, &datagram) == DT_OK) {
        struct packet *at = place_for(it, to_b, now);
        if (at == NULL) continue;
        memcpy(at->octets, out, at->len = datagram.len);
    }
}

static void step(struct pair *it, struct wire *over) {
    for (struct packet *at; (at = due(over, it->now)) != NULL;) {
        dt_service *to = at->to_b ? it->b : it->a;
        must("dt_service_receive", dt_service_receive(to, it->now, LINK, at->octets, at->len, 0).status);
        leave(over, to, !at->to_b, it->now);
    }
    must("dt_service_tick", dt_service_tick(it->b, it->now));
    must("dt_service_tick", dt_service_tick(it->a, it->now));
}

/* n calls under way on one flow, 5 % of datagrams lost, 2 ms each way, for 20 s of the wire's time */
static void row_lossy(long n) {
    enum { SECONDS = 20, PATIENCE = 3000 };
    struct pair it = services((uint32_t)n + 10);
    if (dt_service_set_shelf != NULL) {
        must("dt_service_set_shelf", dt_service_set_shelf(it.a, SHELF, SHELF));
        must("dt_service_set_shelf", dt_service_set_shelf(it.b, SHELF, SHELF));
    }
    struct wire over = wire_of(50, 2);
    long open = 0, answered = 0, unsure = 0;
    for (; it.now < 1000 + SECONDS * 1000; it.now++) {
        step(&it, &over);
        for (struct dt_event e; (e = next_event(it.b)).kind == DT_EVENT_REQUEST;) {
            struct dt_token token = {e.call, e.flow};
            uint8_t payload = 7;
            if (dt_service_reply(it.b, it.now, &token, &payload, 1).status == DT_STOPPED) die("stopped", 0);
        }
        for (struct dt_event e; (e = next_event(it.a)).kind != 0; open--) {
            answered += e.kind == DT_EVENT_ANSWERED;
            unsure += e.kind == DT_EVENT_UNSURE;
        }
        for (; open < n; open++) {
            struct dt_flow flow = {1, 2, 1, 20};
            static const uint8_t payload[50];
            if (dt_service_call(it.a, it.now, &flow, payload, sizeof payload, PATIENCE, 0).status != DT_OK) break;
        }
        leave(&over, it.b, false, it.now);
        leave(&over, it.a, true, it.now);
    }
    printf("answered %ld a-second\nunsure %.1f percent\n", answered / SECONDS,
           100.0 * (double)unsure / (double)(answered + unsure ? answered + unsure : 1));
    free(over.ring);
    close_services(&it);
}

static void leave_plain(struct wire *it, dt_node *from, bool to_b, uint64_t now) {
    uint8_t out[DT_MAX_DATAGRAM];
    struct dt_datagram datagram = {.size = sizeof datagram};
    while (dt_node_next_datagram(from, out, sizeof out, &datagram) == DT_OK) {
        struct packet *at = place_for(it, to_b, now);
        if (at == NULL) continue;
        memcpy(at->octets, out, at->len = datagram.len);
    }
}

/* hands in what is due, and reads it: at once where `at_once`, else after all of this moment's arrivals. Returns the
 * octets that were read. */
static size_t step_plain(struct plain *it, struct wire *over, bool at_once) {
    static uint8_t buf[65536];
    struct dt_flow flow = {1, 2, 1, 20};
    size_t octets = 0;
    for (bool more = true; more;) {
        struct packet *at = due(over, it->now);
        more = at != NULL;
        if (more) {
            dt_node *to = at->to_b ? it->b : it->a;
            must("dt_node_receive", dt_node_receive(to, it->now, LINK, at->octets, at->len, 0).status);
        }
        for (struct dt_read_result got; (!more || at_once) &&
             (got = dt_node_read(it->b, it->now, &flow, buf, sizeof buf)).status == DT_OK;)
            octets += got.len;
        leave_plain(over, it->b, false, it->now);
        leave_plain(over, it->a, true, it->now);
    }
    must("dt_node_tick", dt_node_tick(it->b, it->now));
    must("dt_node_tick", dt_node_tick(it->a, it->now));
    leave_plain(over, it->b, false, it->now);
    leave_plain(over, it->a, true, it->now);
    forget_reports(it->a);
    forget_reports(it->b);
    return octets;
}

/* sends what fits of the octets from `sent` on, `chunk` at a time, and returns what is sent then; the buffer is filled to
 * its end only by chunks as long as it is */
static size_t send_more(struct plain *it, size_t sent, size_t total, size_t chunk) {
    static const uint8_t payload[MOST_CHUNK];
    struct dt_flow flow = {1, 2, 1, 20};
    while (sent < total) {
        size_t len = total - sent < chunk ? total - sent : chunk;
        struct dt_send_result result = dt_node_send(it->a, it->now, &flow, payload, len, true, true);
        if (result.status == DT_FULL && result.free > 0 && chunk == MOST_CHUNK)
            result = dt_node_send(it->a, it->now, &flow, payload, len = result.free, true, true);
        if (result.status != DT_OK) break;
        sent += len;
    }
    return sent;
}

/* how long it takes until `total` octets have come on one flow, 20 ms each way, in the wire's time; 0 if they don't come
 * within 10 minutes */
static uint64_t transfer(size_t total, size_t chunk, unsigned loss, bool at_once) {
    enum { DELAY = 20, MOST_MS = 600000 };
    struct plain it = {node(1, 1000, &RULES), node(2, 1000, &RULES), 1000};
    if (dt_node_set_shelf != NULL) must("dt_node_set_shelf", dt_node_set_shelf(it.b, SHELF, SHELF));
    struct wire over = wire_of(loss, DELAY);
    size_t sent = 0, came = 0;
    uint64_t took = 0;
    for (; it.now < 1000 + MOST_MS && took == 0; it.now++) {
        sent = send_more(&it, sent, chunk == MOST_CHUNK ? SIZE_MAX : total, chunk);
        came += step_plain(&it, &over, at_once);
        if (came >= total) took = it.now - 1000;
    }
    free(over.ring);
    dt_node_free(it.a);
    dt_node_free(it.b);
    return took;
}

/* until 4 MiB have come on one flow, at n per mille of loss; what is given up isn't sent again, other octets are */
static void row_transfer(long n) {
    printf("4-MiB %.1f s\n", (double)transfer(4u << 20, MOST_CHUNK, (unsigned)n, true) / 1e3);
}

/* twice n octets, where n fit a window: read at once, or after each batch of arrivals. The acknowledgement of the first
 * n says how much room there is for the others. */
static void row_window(long n) {
    printf("read-at-once %lu ms\n", (unsigned long)transfer(2 * (size_t)n, (size_t)n, 0, true));
    printf("read-after-a-batch %lu ms\n", (unsigned long)transfer(2 * (size_t)n, (size_t)n, 0, false));
}

static const struct { const char *name; void (*run)(long); } ROWS[] = {
    {"calls", row_calls}, {"untaken", row_untaken}, {"answers", row_answers}, {"ports", row_ports},
    {"unfinished", row_unfinished}, {"release", row_release}, {"link", row_link}, {"lossy", row_lossy},
    {"transfer", row_transfer}, {"window", row_window}};

int main(int argc, char **argv) {
    char *end = NULL;
    long n = argc == 3 ? strtol(argv[2], &end, 10) : -1;
    if (n < 0 || *end != 0) {
        fprintf(stderr, "usage: many ROW N\n");
        return 2;
    }
    for (size_t i = 0; i < sizeof ROWS / sizeof ROWS[0]; i++)
        if (strcmp(ROWS[i].name, argv[1]) == 0) {
            ROWS[i].run(n);
            return 0;
        }
    fprintf(stderr, "many: there is no row %s\n", argv[1]);
    return 2;
}
