/* A device with the node of micro/: node 1, whose one link is a UART. It sends 60 messages on 1:10>2:20, and what arrives on
   2:20>1:10 it sends back on 1:11>2:21. Its log has the lines of `deltat node`, so tools/fieldaudit.py judges it. */
#include "board.h"
#include "line.h"
#include "log.h"

#ifndef SECONDS
#define SECONDS 30
#endif
#define FIRST_NUMBER 4294967000u /* so numbers wrap around early */
enum { NODE = 1, PEER = 2, LINK = 1, MESSAGES = 60, EVERY = 150, LONGEST = 200 };

static const struct dtm_flow UP = {NODE, PEER, 10, 20}, DOWN = {PEER, NODE, 20, 10}, BACK = {NODE, PEER, 11, 21};
static const struct dtm_link LINKS[] = {{.charge = 200, .pace = 0, .number = LINK}};
static const struct dtm_route ROUTES[] = {{.to = PEER, .link = LINK}};

struct device {
    struct dtm_node node;
    struct line line;
    struct log log;
    uint8_t octets[DTM_RCAP]; /* what was read, until it is sent back */
    size_t len;
    uint8_t marks;
    uint32_t sent, next, lost, tried;
};
static struct device device;

static void reported(void *context, const struct dtm_report *it) {
    struct device *d = context;
    if (it->kind != DTM_REPORT_READ_NONE) log_report(&d->log, &d->node, it, d->octets);
}

static void leaves(void *context, uint8_t link, const uint8_t *octets, size_t len) {
    (void)context, (void)link;
    line_send(octets, len, board_send);
}

/* what the UART has; one datagram at a time, each with its own reading of the clock */
static void receive(struct device *d) {
    uint8_t octet;
    while (board_receive(&octet)) {
        struct dtm_arrival it = {d->line.octets, line_take(&d->line, octet), 0, LINK};
        if (it.len > 0 && dtm_receive(&d->node, board_now(), &it) == DTM_LOST) d->lost++;
    }
}

static void send_next(struct device *d, uint32_t now) {
    uint8_t octets[LONGEST];
    struct dtm_message it = {UP, octets, 1 + d->sent * 37 % LONGEST, DTM_MARK_BEGIN | DTM_MARK_END};
    if (d->sent == MESSAGES || (int32_t)(now - d->next) < 0) return;
    for (size_t i = 0; i < it.len; i++) octets[i] = (uint8_t)(d->sent + i);
    if (dtm_send(&d->node, now, &it) == DTM_OK) d->sent++;
    d->next = now + EVERY;
}

static void send_back(struct device *d, uint32_t now) {
    if (d->len == 0) {
        struct dtm_read_result it = dtm_read(&d->node, now, &DOWN, d->octets, sizeof d->octets);
        if (it.status == DTM_OK) d->len = it.len, d->marks = it.marks & (DTM_MARK_BEGIN | DTM_MARK_END);
    }
    if (d->len == 0 || now == d->tried) return; /* a refusal is a line of the log: one a ms */
    d->tried = now;
    struct dtm_message it = {BACK, d->octets, d->len, d->marks};
    if (dtm_send(&d->node, now, &it) == DTM_OK) d->len = 0;
}

int run(void);
int run(void) {
    struct device *d = &device;
    /* by the counter in flash: the number is new at the first start, and at every other one something may be left */
    struct dtm_options o = {.params = {1000, 3000, 50, 300, 800, DTM_SEG, DTM_CAP, DTM_RCAP, DTM_RCAP, 2147483648u, FIRST_NUMBER}, .node = NODE};
    o.again = board_starts() > 0;
    o.links = LINKS, o.link_count = 1, o.routes = ROUTES, o.route_count = 1, o.flows = &DOWN, o.flow_count = 1;
    o.callbacks = (struct dtm_callbacks){reported, leaves, d};
    d->log.put = board_log;
    d->next = 100;
    if (dtm_open(&d->node, &o, board_now()) != DTM_OK) return 1;
    for (uint32_t now = board_now(); now < SECONDS * 1000u; now = board_now()) {
        receive(d);
        now = board_now();
        dtm_tick(&d->node, now);
        send_next(d, now);
        send_back(d, now);
    }
    log_text(&d->log, "end"), log_number(&d->log, d->node.now), log_end(&d->log);
    log_text(&d->log, "# spoilt"), log_number(&d->log, d->line.spoilt), log_text(&d->log, " lost"), log_number(&d->log, d->lost);
    log_text(&d->log, " sent"), log_number(&d->log, d->sent), log_text(&d->log, " again"), log_number(&d->log, o.again);
    log_text(&d->log, " stack"), log_number(&d->log, board_stack()), log_end(&d->log);
    return 0;
}
