/* What no trace of the program shows of the micro node: admitted flows, `waited_ms`, deadlines, and what dtm_open refuses.
   Ends with 1 at the first that fails, and names its line. */
#include "deltat_micro.h"

#include <stdio.h>
#include <stdlib.h>
#include <string.h>

#define CHECK(it) ((it) ? (void)0 : (printf("parts.c:%d: %s\n", __LINE__, #it), exit(1)))

#define START 0xfffffff0u /* ms; the clock wraps around soon */
enum { HEADER = 30 };
static const struct dtm_params PARAMS = {1000, 3000, 200, 500, 800, 128, 512, 512, 512, 2147483648u, 0};
static const struct dtm_link LINK = {50, 0, 1};
static const struct dtm_route ROUTE = {2, 1};
static const struct dtm_flow IN = {2, 1, 20, 10}, OUT = {1, 2, 10, 20};

struct seen { unsigned reports, datagrams, kinds[32]; uint32_t life; uint8_t last[DTM_MAX_DATAGRAM]; size_t len; };

static void reported(void *context, const struct dtm_report *it) {
    struct seen *seen = context;
    seen->reports++, seen->kinds[it->kind]++;
}

static void left(void *context, uint8_t link, const uint8_t *octets, size_t len) {
    struct seen *seen = context;
    CHECK(link == 1 && len <= sizeof seen->last);
    seen->datagrams++;
    memcpy(seen->last, octets, len), seen->len = len;
}

static struct dtm_options options(struct seen *seen) {
    struct dtm_options o = {.params = PARAMS, .node = 1, .links = &LINK, .link_count = 1, .routes = &ROUTE, .route_count = 1};
    o.callbacks.report = reported, o.callbacks.datagram = left, o.callbacks.context = seen;
    return o;
}

static void open_node(struct dtm_node *node, struct seen *seen, const struct dtm_flow *flows, size_t count) {
    struct dtm_options o = options(seen);
    o.flows = flows, o.flow_count = count;
    memset(seen, 0, sizeof *seen);
    memset(node, 0xa5, sizeof *node);
    CHECK(dtm_open(node, &o, START) == DTM_OK);
}

/* data of `len` octets from node 2, in the layout of docs/formats.md */
static uint8_t hand_in(struct dtm_node *node, uint32_t now, uint16_t port, size_t len, uint32_t waited) {
    uint8_t it[HEADER + 200] = {1, 1};
    struct dtm_arrival arrival = {it, HEADER + len, waited, 1};
    it[3] = (uint8_t)(14 + len);
    it[6] = 999 >> 8, it[7] = 999 & 255;
    it[11] = 2, it[15] = 1;
    it[16] = DTM_PACKET_DATA, it[17] = DTM_MARK_RUN | DTM_MARK_BEGIN | DTM_MARK_END;
    it[18] = (uint8_t)(port >> 8), it[19] = (uint8_t)port, it[21] = 10;
    return dtm_receive(node, now, &arrival);
}

/* two stray flows would take both records of a node that admits all */
static void admitted(void) {
    static struct dtm_node node;
    struct seen seen;
    uint8_t octets[8];
    open_node(&node, &seen, &IN, 1);
    for (uint16_t port = 30; port < 40; port++) CHECK(hand_in(&node, START, port, 5, 0) == DTM_BLOCKED);
    CHECK(seen.reports == 0 && seen.datagrams == 0 && dtm_is_idle(&node) && dtm_wake(&node) == DTM_NEVER);
    CHECK(hand_in(&node, START, 20, 5, 0) == DTM_OK && seen.kinds[DTM_REPORT_ACCEPTED] == 1);
    CHECK(dtm_read(&node, START, &IN, octets, sizeof octets).len == 5);
    open_node(&node, &seen, NULL, 0);
    for (uint16_t port = 30; port < 30 + DTM_RECVS; port++) CHECK(hand_in(&node, START, port, 5, 0) == DTM_OK);
    CHECK(hand_in(&node, START, 20, 5, 0) == DTM_LOST);
}

/* what it waited is taken off the lifetime 999, before the charge 50 */
static void waited(void) {
    static struct dtm_node node;
    struct seen seen;
    open_node(&node, &seen, NULL, 0);
    CHECK(hand_in(&node, 0, 20, 5, 999) == DTM_EXPIRED && seen.reports == 0);
    CHECK(hand_in(&node, 0, 20, 5, UINT32_MAX) == DTM_EXPIRED && seen.reports == 0);
    CHECK(hand_in(&node, 0, 20, 5, 949) == DTM_OK && seen.reports == 1 && seen.kinds[DTM_REPORT_EXPIRED_IN] == 1);
    CHECK(hand_in(&node, 0, 20, 5, 948) == DTM_OK && seen.kinds[DTM_REPORT_ACCEPTED] == 1);
}

/* sleeps from deadline to deadline, over the end of the clock: what happens is at its time, and nothing before */
static void deadlines(void) {
    static struct dtm_node node;
    struct dtm_message message = {OUT, (const uint8_t *)"hello", 5, DTM_MARK_BEGIN | DTM_MARK_END};
    struct seen seen;
    uint32_t now = START, at;
    open_node(&node, &seen, NULL, 0);
    CHECK(dtm_deadline(&node) == now + DTM_MAX_SLEEP);
    CHECK(dtm_send(&node, now, &message) == DTM_OK && seen.datagrams == 1 && !dtm_is_idle(&node));
    for (unsigned count = 1; !dtm_is_idle(&node); count++) {
        unsigned before = seen.reports;
        at = dtm_deadline(&node);
        CHECK(at - now == dtm_wake(&node) && at - now > 0 && count < 20);
        dtm_tick(&node, at - 1);
        CHECK(seen.reports == before && dtm_deadline(&node) == at);
        dtm_tick(&node, at);
        CHECK(seen.reports > before);
        now = at;
    }
    /* again at 500 to 2500, uncertain 5200 after the first, released 6200 after the last */
    CHECK(seen.datagrams == 6 && seen.kinds[DTM_REPORT_UNCERTAIN] == 1 && now == START + 2500 + 6200);
}

static void refused(void) {
    static struct dtm_node node;
    static const struct dtm_link twice[2] = {{50, 0, 1}, {50, 0, 1}};
    static const struct dtm_route own = {1, 1}, nowhere = {2, 7};
    struct seen seen = {0};
    struct dtm_message message = {OUT, (const uint8_t *)"x", 1, 0};
    struct dtm_options o = options(&seen);
    o.links = twice, o.link_count = 2;
    CHECK(dtm_open(&node, &o, 0) == DTM_INVALID);
    o = options(&seen), o.routes = &own;
    CHECK(dtm_open(&node, &o, 0) == DTM_INVALID);
    o = options(&seen), o.routes = &nowhere;
    CHECK(dtm_open(&node, &o, 0) == DTM_INVALID);
    o = options(&seen), o.flows = &OUT, o.flow_count = 1;
    CHECK(dtm_open(&node, &o, 0) == DTM_INVALID);
    o = options(&seen), o.flows = &IN, o.flow_count = DTM_FLOWS + 1;
    CHECK(dtm_open(&node, &o, 0) == DTM_INVALID);
    o = options(&seen), o.params.seg = DTM_SEG + 1;
    CHECK(dtm_open(&node, &o, 0) == DTM_INVALID && dtm_params_check(&o.params) == 6);
    o = options(&seen), o.params.run_limit = 2147483648u;
    CHECK(dtm_open(&node, &o, 0) == DTM_OK && node.quantum == 536870912); /* to be seen from outside it takes as many octets */
    o = options(&seen), o.again = true;
    CHECK(dtm_open(&node, &o, 7) == DTM_OK && !dtm_is_idle(&node));
    CHECK(dtm_send(&node, 7, &message) == DTM_QUIET && dtm_send(&node, 6206, &message) == DTM_QUIET);
    CHECK(dtm_send(&node, 6207, &message) == DTM_OK);
    message.flow.source_port = 11;
    for (unsigned i = 1; i < DTM_SENDS; i++, message.flow.source_port++) CHECK(dtm_send(&node, 6207, &message) == DTM_OK);
    CHECK(dtm_send(&node, 6207, &message) == DTM_NO_RECORD);
    message.flow = IN;
    CHECK(dtm_send(&node, 6207, &message) == DTM_INVALID);
}

int main(void) {
    admitted();
    waited();
    deadlines();
    refused();
    return 0;
}
