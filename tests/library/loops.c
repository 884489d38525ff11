/* The loops of deltat.h, as they stand in its comments: tests/library.py writes their text into node_functions.inc,
   node_loop.inc and service_loop.inc. A node and a service run by them, beside a peer in memory, over a wire that loses
   datagrams, with a clock that goes on between any two calls, and stops of the program. Ends with 0 if all messages and
   calls came through, and no datagram was taken for younger than it was. */
#include "calls.h"
#include <stdio.h>
#include <stdlib.h>

#define WANT(truth) \
    do { \
        if (!(truth)) { \
            fprintf(stderr, "loops.c:%d: at %llu ms: %s\n", __LINE__, (unsigned long long)moment, #truth); \
            exit(1); \
        } \
    } while (0)

enum { LINK = 1, MESSAGES = 40, CALLS = 20, MOST = 3000, QUEUE = 256, END = 120000, CHARGE = 400 };

static const struct dt_params PARAMS = {sizeof PARAMS, 2000, 8000, 50, 200, 800, 1000, 65536, 65536, 65536, 2147483648u, 0};
static const struct dt_flow FLOW = {1, 2, 10, 20}, BACK = {2, 1, 11, 21};

/* a datagram that has arrived at the program's socket, and when */
struct arrival { uint16_t link; size_t len; uint64_t since; uint8_t octets[DT_MAX_DATAGRAM]; };

static struct arrival queue[QUEUE];
static size_t queued;
static uint64_t moment;
static uint32_t state = 7;
static unsigned sent, taken, longer_buffers, stops, served, ended, stopped;
static dt_node *peer;
static dt_service *caller, *service;

static uint32_t drawn(uint32_t below) {
    state = state * 1664525u + 1013904223u;
    return (state >> 8) % below;
}

static size_t length_of(unsigned number) { return 1 + number * 733u % MOST; }

/* each look at the clock takes time */
static uint64_t now(void) {
    moment += drawn(3) == 0;
    return moment;
}

static void arrives(const uint8_t *octets, const struct dt_datagram *datagram) {
    if (drawn(10) == 0 || queued == QUEUE) return;
    queue[queued].link = LINK;
    queue[queued].len = datagram->len;
    queue[queued].since = moment;
    memcpy(queue[queued++].octets, octets, datagram->len);
}

/* What waits at the peer arrives at the program's socket. */
static void peer_sends(void) {
    uint8_t octets[DT_MAX_DATAGRAM];
    SIZED(dt_datagram, out);
    while (peer != NULL && dt_node_next_datagram(peer, octets, sizeof octets, &out) == DT_OK) arrives(octets, &out);
    while (caller != NULL && dt_service_next_datagram(caller, octets, sizeof octets, &out) == DT_OK) arrives(octets, &out);
}

static void put_on_wire(const uint8_t *octets, const struct dt_datagram *datagram) {
    WANT(datagram->to == 1 && datagram->link == LINK);
    if (drawn(10) == 0) return;
    if (peer != NULL) dt_node_receive(peer, moment, LINK, octets, datagram->len, 0);
    if (caller != NULL) dt_service_receive(caller, moment, LINK, octets, datagram->len, 0);
    peer_sends();
}

/* Time goes on, and the peer does what is due and what its program wants. */
static void peer_turns(uint64_t until) {
    static uint8_t message[MOST];
    static const uint8_t ask[1] = {9};
    for (; moment < until; moment++) {
        if (peer != NULL) {
            dt_node_tick(peer, moment);
            if (sent < MESSAGES && moment % 50 == 0) {
                memset(message, (int)sent, sizeof message);
                sent += dt_node_send(peer, moment, &FLOW, message, length_of(sent), true, true).status == DT_OK;
            }
        } else {
            uint8_t octets[16];
            SIZED(dt_event, event);
            dt_service_tick(caller, moment);
            if (sent < CALLS && moment % 50 == 0) sent += dt_service_call(caller, moment, &FLOW, ask, 1, 20000, 0).status == DT_OK;
            while (dt_service_next_event(caller, octets, sizeof octets, &event) == DT_OK) {
                struct dt_token token = {event.call, event.flow};
                if (event.kind == DT_EVENT_REQUEST) WANT(dt_service_reply(caller, moment, &token, octets, event.len).status == DT_OK);
                else {
                    WANT(event.kind == DT_EVENT_ANSWERED && event.len == 1);
                    served++;
                }
            }
        }
        peer_sends();
    }
}

static void wait_for_datagram(uint64_t wake) {
    uint64_t until = wake > moment + 20 ? moment + 20 : wake > moment ? wake : moment + 1;
    WANT(moment < END);
    peer_turns(until);
    if (peer != NULL && taken == MESSAGES) stopped = 1;
    if (caller != NULL && served == CALLS && ended == 1) {
        const uint8_t ask[1] = {8};
        if (!stopped) WANT(dt_service_call(service, moment, &BACK, ask, 1, 20000, 0).status == DT_OK && dt_service_stop(service) == DT_OK);
        stopped = 1;
    }
}

static bool receive_datagram(struct arrival *in) {
    if (queued == 0) {
        /* the program stops right after it has found nothing, and datagrams arrive meanwhile */
        if (drawn(5) == 0) peer_turns(moment + 100), stops++;
        return false;
    }
    *in = queue[0];
    memmove(queue, queue + 1, --queued * sizeof *queue);
    return true;
}

/* the measure of the program is never less than the wait; here there is no stamp */
static uint32_t waited_ms(const struct arrival *in, uint64_t most) {
    WANT(most >= moment - in->since);
    return (uint32_t)(moment - in->since);
}

static void mark_later(const struct dt_flow *flow) { WANT(flow == NULL); }

static void log_loss(const struct dt_flow *flow) { WANT(flow == NULL); }

static uint8_t *longer(uint8_t *buf, size_t len) {
    longer_buffers++;
    buf = (uint8_t *)realloc(buf, len);
    WANT(buf != NULL);
    return buf;
}

static void use(const struct dt_message *message, const uint8_t *buf) {
    WANT(message->len == length_of(taken) && buf[0] == (uint8_t)taken && buf[message->len - 1] == (uint8_t)taken);
    taken++;
}

static void serve(const struct dt_token *token, const uint8_t *payload, size_t len) {
    WANT(dt_service_reply(service, moment, token, payload, len).status == DT_OK);
}

static void call_has_ended(const struct dt_event *event, const uint8_t *answer) {
    WANT(event->kind == (ended == 0 ? DT_EVENT_ANSWERED : DT_EVENT_UNSURE) && (ended > 0 || answer[0] == 8));
    ended++;
}

#include "node_functions.inc"

static void send_service_datagrams(dt_service *it) {
    uint8_t out[DT_MAX_DATAGRAM];
    SIZED(dt_datagram, datagram);
    while (dt_service_next_datagram(it, out, sizeof out, &datagram) == DT_OK) put_on_wire(out, &datagram);
}

static dt_node *node_of(uint32_t number) {
    const struct dt_link link = {CHARGE, 0, LINK, 0};
    const struct dt_route route = {3 - number, LINK};
    struct dt_node_options options = node_options(number, 0, false, &link, &route);
    dt_node *it = dt_node_new();
    WANT(it != NULL && dt_node_open(it, &PARAMS, &options).status == DT_OK && dt_node_enable_messages(it, MOST) == DT_OK);
    return it;
}

static dt_service *service_of(uint32_t number, uint16_t caller_port, uint16_t service_port) {
    const struct dt_link link = {CHARGE, 0, LINK, 0};
    const struct dt_route route = {3 - number, LINK};
    const struct dt_service_options limits = {sizeof limits, 1, 50, 50, 50};
    struct dt_node_options options = node_options(number, 0, false, &link, &route);
    dt_service *it = dt_service_new();
    WANT(it != NULL && dt_service_open(it, &PARAMS, &options, &limits).status == DT_OK);
    WANT(dt_service_set_port(it, caller_port, DT_PORT_CALLER) == DT_OK && dt_service_set_port(it, service_port, DT_PORT_SERVICE) == DT_OK);
    return it;
}

/* the loop ends when the node is closed */
static void runs_node(void) {
    static struct arrival in;
    dt_node *node = node_of(2);
    SIZED(dt_report, report);
    SIZED(dt_message, message);
    uint64_t empty_at, looked_at, at;
    dt_status status;
    size_t room = 1;
    uint8_t *buf = (uint8_t *)malloc(room);
    peer = node_of(1);
#define wait_for_datagram(wake) (wait_for_datagram(wake), stopped ? dt_node_close(node) : (void)0)
#include "node_loop.inc"
#undef wait_for_datagram
    WANT(taken == MESSAGES && longer_buffers > 1 && stops > 10 && dt_node_tick(node, moment) == DT_NOT_OPEN);
    dt_node_free(node);
    dt_node_free(peer);
    peer = NULL;
    free(buf);
}

static void runs_service(void) {
    static struct arrival in;
    static uint8_t buf[DT_MAX_PAYLOAD];
    const uint8_t ask[1] = {8};
    SIZED(dt_event, event);
    uint64_t empty_at, looked_at, at;
    bool is_running;
    moment = queued = sent = stopped = 0;
    service = service_of(2, 11, 20);
    caller = service_of(1, 10, 21);
    WANT(dt_service_call(service, 0, &BACK, ask, 1, 20000, 0).status == DT_OK);
#include "service_loop.inc"
    WANT(served == CALLS && ended == 2 && stopped);
    dt_service_free(service);
    dt_service_free(caller);
}

int main(void) {
    runs_node();
    runs_service();
    return 0;
}
