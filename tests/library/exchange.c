/* Two nodes in memory: a message goes from one to the other over links that lose and repeat datagrams, and is read
   back; and each call tells why it refuses. Ends with 0 where all is as deltat.h says, else it prints the line that
   isn't and ends with 1. */
#include "calls.h"
#include <stdio.h>
#include <stdlib.h>
#include <string.h>

#define WANT(truth) \
    do { \
        if (!(truth)) { \
            fprintf(stderr, "exchange.c:%d: %s\n", __LINE__, #truth); \
            exit(1); \
        } \
    } while (0)

enum { SIZE = 20000, LINK = 7 };

static uint8_t message[SIZE], came[SIZE], frame[DT_MAX_DATAGRAM];
static uint32_t state = 1;
static unsigned lost, repeated;

/* a number below n, drawn */
static uint32_t drawn(uint32_t n) {
    state = state * 1664525u + 1013904223u;
    return (state >> 8) % n;
}

static const struct dt_params params = {sizeof params, 1000, 8000, 200, 200, 800, 1000, 65536, 65536, 16384, 2147483648u, 0};
static const struct dt_flow flow = {1, 2, 10, 20};

static dt_node *fresh(void) {
    WANT(dt_node_align() <= 16);
    dt_node *n = (dt_node *)malloc(dt_node_size());
    WANT(n != NULL);
    dt_node_init(n);
    return n;
}

static void opens(dt_node *n, uint32_t me, uint32_t other, bool again) {
    const struct dt_link link = {50, 0, LINK, 0};
    const struct dt_route route = {other, LINK};
    struct dt_node_options options = node_options(me, 0, again, &link, &route);
    WANT(dt_node_open(n, &params, &options).status == DT_OK);
}

/* Each frame that waits at one is lost, or comes to the other once or twice. */
static void carry(dt_node *from, dt_node *to, uint32_t other, uint64_t now) {
    SIZED(dt_datagram, out);
    dt_status status;
    while ((status = dt_node_next_datagram(from, frame, sizeof frame, &out)) != DT_NONE) {
        WANT(status == DT_OK && out.link == LINK && out.to == other && out.len <= sizeof frame);
        uint32_t times = drawn(100) < 20 ? 0 : drawn(100) < 20 ? 2 : 1;
        if (times == 0) lost++;
        if (times == 2) repeated++;
        for (; times > 0; times--) WANT(dt_node_receive(to, now, LINK, frame, out.len, 3).status == DT_OK);
    }
}

static void a_message_comes_whole(void) {
    dt_node *one = fresh(), *two = fresh();
    size_t had = 0, sent = 0;
    bool ended = false;
    opens(one, 1, 2, false);
    opens(two, 2, 1, false);
    for (size_t i = 0; i < SIZE; i++) message[i] = (uint8_t)drawn(256);
    for (uint64_t now = 0; now < 60000 && !ended; now += 10) {
        WANT(dt_node_tick(one, now) == DT_OK && dt_node_tick(two, now) == DT_OK);
        if (sent < SIZE) {
            size_t part = SIZE - sent < 5000 ? SIZE - sent : 5000;
            struct dt_send_result answer = dt_node_send(one, now, &flow, message + sent, part, sent == 0, sent + part == SIZE);
            WANT(answer.status == DT_OK || answer.status == DT_FULL);
            if (answer.status == DT_OK) sent += part;
        }
        carry(one, two, 2, now);
        carry(two, one, 1, now);
        for (;;) {
            struct dt_read_result piece = dt_node_read(two, now, &flow, came + had, SIZE - had + (had == SIZE));
            if (piece.status == DT_NONE) break;
            WANT(piece.status == DT_OK && piece.len <= SIZE - had);
            WANT(piece.begin == (had == 0) && piece.gap == (had == 0));
            had += piece.len;
            WANT(piece.end == (had == SIZE));
            if (piece.end) {
                ended = true;
                break;
            }
        }
    }
    WANT(ended && had == SIZE && memcmp(message, came, SIZE) == 0);
    WANT(lost > 0 && repeated > 0);
    WANT(dt_node_wake(one) != DT_NEVER && dt_node_wake(two) != DT_NEVER);
    dt_node_close(one);
    dt_node_close(two);
    WANT(dt_node_wake(one) == DT_NEVER && dt_node_tick(one, 0) == DT_NOT_OPEN);
    opens(one, 1, 2, true);
    WANT(dt_node_send(one, 0, &flow, message, 1, true, true).status == DT_QUIET);
    dt_node_close(one);
    free(one);
    free(two);
}

/* Takes all reports. Whether one is of the kind, and about the flow. */
static bool reported(dt_node *n, uint8_t kind) {
    bool found = false;
    SIZED(dt_report, report);
    for (;;) {
        dt_status status = dt_node_next_report(n, &report);
        if (status == DT_NONE) return found;
        WANT(status == DT_OK && report.kind >= DT_REPORT_SEND_QUEUED && report.kind <= DT_REPORT_PACKET_MALFORMED);
        if (report.kind != kind) continue;
        WANT(report.flow.source == 1 && report.flow.target == 2 && report.flow.source_port == 10 && report.flow.target_port == 20);
        WANT(report.count == 5);
        found = true;
    }
}

static void a_closed_handle_says_so(dt_node *n) {
    const struct dt_route closed_route = {3, LINK};
    SIZED(dt_report, report);
    SIZED(dt_datagram, out);
    SIZED(dt_message, it);
    SIZED(dt_node_counts, counts);
    SIZED(dt_flow_counts, octets);
    WANT(dt_node_next_report(n, &report) == DT_NOT_OPEN);
    WANT(dt_node_tick(n, 5) == DT_NOT_OPEN);
    WANT(dt_node_receive(n, 5, LINK, frame, 3, 0).status == DT_NOT_OPEN);
    WANT(dt_node_send(n, 5, &flow, message, 1, true, true).status == DT_NOT_OPEN);
    WANT(dt_node_read(n, 5, &flow, came, 1).status == DT_NOT_OPEN);
    WANT(dt_node_get_counts(n, &counts) == DT_NOT_OPEN && dt_node_add_route(n, &closed_route) == DT_NOT_OPEN);
    WANT(dt_node_count_flow(n, &flow) == DT_NOT_OPEN && dt_node_get_flow_counts(n, &flow, &octets) == DT_NOT_OPEN);
    WANT(dt_node_enable_messages(n, 5) == DT_NOT_OPEN && dt_node_mark_readable(n, &flow) == DT_NOT_OPEN && dt_node_next_message(n, 5, came, 1, &it) == DT_NOT_OPEN);
    WANT(dt_node_next_datagram(n, frame, sizeof frame, &out) == DT_NOT_OPEN);
    WANT(dt_node_wake(n) == DT_NEVER);
}

/* An opening is refused for a struct of another size, for a start that isn't named, and for what is reserved. */
static void unfit_options_are_refused(dt_node *n) {
    const struct dt_link link = {50, 0, LINK, 0}, reserved = {50, 0, LINK, 1};
    const struct dt_route route = {2, LINK};
    const struct dt_node_options fit = node_options(1, 0, false, &link, &route);
    struct dt_node_options options = fit;
    struct dt_params other = params;
    uint64_t fingerprint = 1;
    for (uint32_t size = 0; size < 2 * sizeof params; size++) {
        other.size = size;
        if (size == sizeof params) continue;
        struct dt_open_result opened = dt_node_open(n, &other, &fit);
        WANT(opened.status == DT_INVALID && opened.field == 0 && opened.value == 0 && dt_params_quiet_ms(&other) == 0);
        WANT(dt_params_fingerprint(&other, &fingerprint) == DT_INVALID && fingerprint == 0);
    }
    for (uint32_t size = 0; size < 2 * sizeof options; size++) {
        options.size = size;
        WANT(size == sizeof options || dt_node_open(n, &params, &options).status == DT_INVALID);
    }
    options = fit;
    for (unsigned start = 0; start < 256; start++) {
        options.start_as = (uint8_t)start;
        WANT(start == DT_START_FIRST || start == DT_START_AGAIN || dt_node_open(n, &params, &options).status == DT_INVALID);
    }
    options = node_options(1, 0, false, &reserved, &route);
    WANT(dt_node_open(n, &params, &options).status == DT_INVALID);
    other = params;
    other.seg = 8193;
    struct dt_open_result opened = dt_node_open(n, &other, &fit);
    WANT(opened.status == DT_INVALID && opened.field == 6 && opened.value == 8193);
    a_closed_handle_says_so(n);
}

/* A struct that is too short isn't filled, and one that is longer is filled as far as the header knows it. */
static void sizes_are_looked_at(dt_node *n) {
    struct { struct dt_node_counts it; uint8_t more[8]; } longer;
    SIZED(dt_report, report);
    SIZED(dt_node_counts, counts);
    memset(&longer, 0xEE, sizeof longer);
    longer.it.size = sizeof longer;
    counts.size = sizeof counts - 1;
    counts.datagrams_out = 7;
    WANT(dt_node_get_counts(n, &counts) == DT_INVALID && counts.datagrams_out == 7);
    WANT(dt_node_get_counts(n, &longer.it) == DT_OK && longer.it.size == sizeof longer && longer.it.reserved == 0xEEEEEEEEu);
    WANT(longer.it.datagrams_in == 0 && longer.more[0] == 0xEE && longer.more[7] == 0xEE);
    report.size = 0;
    WANT(dt_node_next_report(n, &report) == DT_INVALID);
}

/* What is sent and counted at one node, of which the frame of `len` octets is left in `frame`. */
static size_t a_send_is_counted(dt_node *n) {
    const struct dt_flow back = {2, 1, 20, 10};
    SIZED(dt_node_counts, counts);
    SIZED(dt_flow_counts, octets);
    SIZED(dt_datagram, out);
    WANT(dt_node_get_flow_counts(n, &flow, &octets) == DT_NONE);
    WANT(dt_node_count_flow(n, &flow) == DT_OK && dt_node_get_flow_counts(n, &flow, &octets) == DT_OK && octets.octets_queued == 0);
    WANT(dt_node_send(n, 0, &flow, (const uint8_t *)"hello", 5, true, true).status == DT_OK);
    WANT(dt_node_count_flow(n, &flow) == DT_OK && dt_node_get_flow_counts(n, &flow, &octets) == DT_OK && octets.octets_queued == 5);
    WANT(dt_node_get_flow_counts(n, &back, &octets) == DT_NONE && octets.octets_queued == 5);
    WANT(dt_node_get_counts(n, &counts) == DT_OK && counts.datagrams_in == 0 && counts.datagrams_refused == 2);
    WANT(counts.datagrams_out == 1 && counts.octets_queued == 5 && counts.octets_acknowledged == 0 && counts.octets_uncertain == 0);
    WANT(counts.octets_accepted == 0 && counts.octets_read == 0);
    WANT(dt_node_next_datagram(n, frame, 4, &out) == DT_BUFFER_TOO_SMALL && out.len > 5 && out.to == 2 && out.link == LINK);
    size_t wanted = out.len;
    WANT(reported(n, DT_REPORT_SEND_QUEUED));
    WANT(dt_node_next_datagram(n, frame, wanted, &out) == DT_OK && out.len == wanted);
    return wanted;
}

/* The frame of `wanted` octets comes to node 2, and is counted there. */
static void a_datagram_is_received(dt_node *n, size_t wanted) {
    SIZED(dt_node_counts, counts);
    SIZED(dt_flow_counts, octets);
    opens(n, 2, 1, false);
    WANT(dt_node_receive(n, 0, LINK, frame, wanted, 86400000).status == DT_EXPIRED);
    WANT(dt_node_count_flow(n, &flow) == DT_OK);
    WANT(dt_node_receive(n, 0, LINK, frame, wanted, 0).status == DT_OK);
    WANT(reported(n, DT_REPORT_ACCEPTED));
    struct dt_read_result piece = dt_node_read(n, 0, &flow, came, 5);
    WANT(piece.status == DT_OK && piece.len == 5 && piece.begin && piece.end && memcmp(came, "hello", 5) == 0);
    WANT(dt_node_get_counts(n, &counts) == DT_OK && dt_node_get_flow_counts(n, &flow, &octets) == DT_OK);
    WANT(octets.octets_accepted == 5 && octets.octets_read == 5 && octets.octets_queued == 0 && octets.octets_acknowledged == 0);
    WANT(counts.datagrams_in == 1 && counts.datagrams_refused == 1 && counts.octets_accepted == 5 && counts.octets_read == 5 && counts.octets_queued == 0);
    dt_node_close(n);
}

static void refusals_say_why(void) {
    dt_node *n = fresh();
    const struct dt_link link = {50, 0, LINK, 0};
    const struct dt_route route = {2, LINK}, other = {3, LINK}, known = {2, LINK}, strange = {4, LINK + 1};
    const struct dt_flow back = {2, 1, 20, 10};
    struct dt_node_options options = node_options(1, 0, false, &link, &route);
    SIZED(dt_datagram, out);
    a_closed_handle_says_so(n);
    unfit_options_are_refused(n);
    opens(n, 1, 2, false);
    WANT(dt_node_open(n, &params, &options).status == DT_EXISTS);
    sizes_are_looked_at(n);
    struct dt_receive_result fault = dt_node_receive(n, 0, LINK, frame, 3, 0);
    WANT(fault.status == DT_MALFORMED && fault.fault == DT_FAULT_SHORT && fault.value == 3);
    WANT(dt_node_receive(n, 0, 8, frame, 3, 0).status == DT_INVALID);
    WANT(dt_node_send(n, 0, &back, message, 1, true, true).status == DT_INVALID);
    WANT(dt_node_send(n, 0, &flow, message, 0, true, true).status == DT_INVALID);
    WANT(dt_node_read(n, 0, &flow, came, 1).status == DT_INVALID);
    WANT(dt_node_read(n, 0, &back, came, 0).status == DT_BUFFER_TOO_SMALL);
    WANT(dt_node_read(n, 0, &back, came, 1).status == DT_NONE);
    WANT(dt_node_next_datagram(n, frame, sizeof frame, &out) == DT_NONE);
    WANT(dt_node_add_route(n, &strange) == DT_INVALID && dt_node_add_route(n, &known) == DT_EXISTS);
    WANT(dt_node_add_route(n, &other) == DT_OK && dt_node_add_route(n, &other) == DT_EXISTS);
    size_t wanted = a_send_is_counted(n);
    dt_node_close(n);
    a_datagram_is_received(n, wanted);
    free(n);
}

/* The texts for logs, and handles that the library places. */
static void helpers_help(void) {
    char line[DT_MAX_REPORT_LINE];
    SIZED(dt_report, report);
    report.flow = flow;
    report.kind = DT_REPORT_ACCEPTED;
    report.count = 5;
    report.run = true;
    WANT(!strcmp(dt_version(), DELTAT_VERSION));
    WANT(!strcmp(dt_status_name(DT_FULL), "DT_FULL") && !strcmp(dt_status_name(10), "unknown status"));
    WANT(!strcmp(dt_report_name(report.kind), "DT_REPORT_ACCEPTED") && !strcmp(dt_report_name(0), "unknown report") && !strcmp(dt_fault_name(DT_FAULT_SIZE), "DT_FAULT_SIZE"));
    WANT(dt_report_line(&report, 120, 2, line, sizeof line) == 32 && !strcmp(line, "120 2 accepted 1:10>2:20 0 5 run"));
    WANT(dt_report_line(&report, 120, 2, line, 6) == 32 && !strcmp(line, "120 2"));
    line[0] = 'x';
    WANT(dt_report_line(&report, 120, 2, line, 0) == 32 && line[0] == 'x');
    dt_node *n = dt_node_new();
    dt_service *s = dt_service_new();
    WANT(n != NULL && s != NULL);
    WANT(dt_service_tick(s, 0) == DT_NOT_OPEN);
    opens(n, 1, 2, false);
    dt_node_free(n);
    dt_service_free(s);
    dt_node_free(NULL);
    dt_service_free(NULL);
}

/* The numbers of `tools/params.py 250 50 --shelf 2`. */
static void parameters_are_computed(void) {
    struct dt_network network = DT_NETWORK(250000, 50000);
    SIZED(dt_params, found);
    uint32_t charge = 0;
    network.shelf = 2;
    WANT(dt_params_for(&network, &found, &charge) == DT_OK && charge == 294);
    WANT(found.mpl == 482 && found.r == 450 && found.a == 5 && found.rto == 90 && found.probe == 180 && found.seg == 1442);
    WANT(found.cap == 65536 && found.rcap == 65536 && found.window == 65536 && found.run_limit == 2147483648u && found.start == 0);
    network.mtu = 58;
    WANT(dt_params_for(&network, &found, &charge) == DT_INVALID && found.mpl == 482 && charge == 294);
    network.mtu = 59;
    network.delay_us = UINT64_C(86400000000);
    WANT(dt_params_for(&network, &found, &charge) == DT_NONE && found.mpl == 482 && charge == 294);
    network.size--;
    WANT(dt_params_for(&network, &found, &charge) == DT_INVALID);
}

int main(void) {
    struct dt_params bad = params;
    uint64_t fingerprint = 0;
    WANT(dt_abi_version() == DT_ABI_VERSION);
    WANT(dt_params_quiet_ms(&params) == 3 * 1000 + 8000 + 200);
    bad.mpl = 1;
    WANT(dt_params_quiet_ms(&bad) == 0);
    /* as Python's hashlib has it */
    WANT(dt_params_fingerprint(&params, &fingerprint) == DT_OK && fingerprint == UINT64_C(0x0277617b6e6fb6f4));
    WANT(dt_params_fingerprint(&bad, &fingerprint) == DT_INVALID && fingerprint == 0);
    a_message_comes_whole();
    refusals_say_why();
    helpers_help();
    parameters_are_computed();
    printf("lost %u, repeated %u: the message came whole\n", lost, repeated);
    return 0;
}
