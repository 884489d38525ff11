/* Nodes of libdeltat over the driver, libdeltat-udp: each request is a message, or an object where it is longer than
 * one. peer.h says how it is run. DELAY_MS and RTO_MS are what the nodes' parameters allow for; with SEGMENTS the
 * system cuts and joins datagrams; AGAIN lets the server be opened again, and MANY_FLOWS gives each flow of either end
 * a room of 4,096 octets. And what the library takes by itself:
 *
 *   library ask - 0 memory COUNT OCTETS 0     two nodes in one thread, with no socket between them: COUNT requests of
 *                                   so many octets, each answered. Prints `done EVENTS SECONDS`: a call that sends,
 *                                   takes in a datagram, reads or ticks is an event
 */
#include "peer.h"
#include "deltat_udp.h"

enum { SERVER = 1, CLIENT = 1000, LINK = 1, PORT = 20, CALLER = 10, FIRST_FLOW = 100, LATE = 20, MOST = 65536 };

/* datagrams that are handed in before they leave */
enum { HELD = 32 };

/* objects: their first port, how many flows, and octets that are kept at one time */
enum { OBJECTS = 5000, LANES = 512, KEPT = 1 << 25 };

static uint32_t setting(const char *name, uint32_t usual) {
    const char *it = getenv(name);
    return it == NULL ? usual : (uint32_t)strtoul(it, NULL, 0);
}

static struct dt_params params_of(void) {
    uint32_t charge = setting("DELAY_MS", 1) + 2 * LATE, rto = setting("RTO_MS", 40);
    uint32_t room = getenv("MANY_FLOWS") == NULL ? MOST : 4096;
    return (struct dt_params){.size = sizeof(struct dt_params), .mpl = 2 * charge, .r = 20 * rto, .a = 5, .rto = rto,
                              .probe = 2 * rto, .seg = 1400, .cap = room, .rcap = room, .window = room,
                              .run_limit = 2147483648u, .start = 0};
}

/* --- over a socket */

/* An answer that isn't sent yet: to whom, and the number of its request. */
struct answer {
    struct dt_flow flow;
    unsigned char number[NUMBER];
};

struct end {
    dt_udp *udp;
    uint32_t node;
    unsigned char asked[NUMBER]; /* of a client, the number of the request that waits for its answer */
    bool is_object, is_open;     /* it is one; it wasn't given up */
    uint64_t object;             /* the driver has its octets, or 0 */
    double since;                /* when it was handed in, or when the object was whole at the server */
    struct answer answers[MOST_FLOWS]; /* of the server, a ring */
    size_t first, count;
};

static struct end *opened(uint32_t node, const char *host, int port) {
    struct end *it = calloc(1, sizeof *it);
    if (it == NULL) fail("out of memory");
    char word[16];
    snprintf(word, sizeof word, "%d", port);
    struct dt_params params = params_of();
    bool again = node == SERVER && getenv("AGAIN") != NULL;
    struct dt_udp_options options = {
        .size = sizeof options, .node = node, .host = host, .port = word, .params = &params, .charge = params.mpl / 2,
        .link = LINK, .role = DT_UDP_ROLE_NODE, .start_as = again ? DT_UDP_START_AGAIN : DT_UDP_START_FIRST,
        .max_peers = node == SERVER ? 64 : 0, .report_kinds = 1u << DT_REPORT_UNCERTAIN,
        .flags = DT_UDP_FLAG_ALL_PORTS | (getenv("SEGMENTS") ? 0 : DT_UDP_FLAG_WITHOUT_SEGMENTS)};
    struct dt_udp_error error;
    it->udp = dt_udp_open(&options, &error);
    if (it->udp == NULL) fail(error.text);
    it->node = node;
    /* (where a flow has little room there are no objects) */
    if (dt_udp_open_objects(it->udp, OBJECTS, LANES, KEPT) != DT_OK) fail("there are no objects");
    return it;
}

static const struct dt_udp_event *next(struct end *it, int wait_ms) {
    const struct dt_udp_event *event = dt_udp_next_event(it->udp, wait_ms);
    if (event->kind == DT_UDP_EVENT_FAILED) fail("the driver failed");
    return event;
}

/* Sends the answers that there is room for. */
static void answer_all(struct end *it) {
    unsigned char octets[ANSWER] = {0};
    for (; it->count > 0; it->first = (it->first + 1) % MOST_FLOWS, it->count--) {
        const struct answer *one = &it->answers[it->first];
        memcpy(octets, one->number, NUMBER);
        dt_status status = dt_udp_send(it->udp, &one->flow, octets, ANSWER).status;
        if (status == DT_FULL || status == DT_QUIET) return;
        if (it->count % HELD == 0) dt_udp_flush(it->udp);
    }
}

static void serve_one(struct end *it, const struct dt_udp_event *event) {
    const unsigned char *number = event->octets + HEAD;
    struct dt_flow back = {SERVER, event->peer, PORT, CALLER};
    if (event->len < HEAD + NUMBER || it->count == MOST_FLOWS) return;
    served(number);
    if (event->kind == DT_UDP_EVENT_MESSAGE)
        back = (struct dt_flow){SERVER, event->flow.source, event->flow.target_port, event->flow.source_port};
    struct answer *one = &it->answers[(it->first + it->count++) % MOST_FLOWS];
    one->flow = back;
    memcpy(one->number, number, NUMBER);
}

static void serve(const char *address, int port) {
    struct end *it = opened(SERVER, address, port);
    for (;;) {
        const struct dt_udp_event *event = next(it, it->count > 0 ? 1 : -1);
        if (event->kind == DT_UDP_EVENT_MESSAGE || event->kind == DT_UDP_EVENT_OBJECT) serve_one(it, event);
        answer_all(it);
    }
}

/* Hands a request in. False: there is no room for it now. */
static bool hand_in(struct end *it, uint16_t port, const unsigned char *octets, size_t len) {
    struct dt_flow flow = {it->node, SERVER, port, PORT};
    struct dt_udp_put_result put = {.object = 0};
    it->is_object = len > MOST;
    if (it->is_object) put = dt_udp_put_object(it->udp, SERVER, octets, len, 60000);
    else put.status = dt_udp_send(it->udp, &flow, octets, len).status;
    if (put.status != DT_OK && put.status != DT_FULL && put.status != DT_QUIET) fail("a request is refused");
    it->object = put.object;
    it->since = now();
    return put.status == DT_OK;
}

/* Takes an event: whether the answer that is waited for came. */
static bool takes(struct end *it, int wait_ms) {
    const struct dt_udp_event *event = next(it, wait_ms);
    if (event->kind == DT_UDP_EVENT_REPORT && !it->is_object) it->is_open = false;
    if (event->kind == DT_UDP_EVENT_PUT_ENDED && event->object == it->object) {
        it->object = 0;
        it->since = now();
        it->is_open = event->cause == DT_OK;
    }
    return event->kind == DT_UDP_EVENT_MESSAGE && event->len == ANSWER && memcmp(event->octets, it->asked, NUMBER) == 0;
}

/* One request on a flow of its own port, and its answer. If octets of it were given up, or its answer doesn't come
 * while its server may still send it, it isn't known whether it was served, and it is made once more, as a call of its
 * own. */
static bool exchange(struct end *it, uint16_t port, uint32_t octets, double until) {
    double patience = 0.001 * (2 * 12 * setting("RTO_MS", 40));
    bool answered = false;
    unsigned char *sent = NULL;
    it->is_open = false;
    while (!answered && now() < until) {
        if (it->object == 0 && (!it->is_open || now() - it->since > patience)) {
            free(sent);
            sent = request(octets);
            memcpy(it->asked, sent + HEAD, NUMBER);
            it->is_open = hand_in(it, port, sent, HEAD + (size_t)octets);
        }
        answered = takes(it, it->is_open ? 100 : 1);
    }
    while (answered && it->object != 0 && now() < until) takes(it, 10);
    if (it->object == 0) free(sent); /* (else the driver has them yet, and the process ends) */
    return answered;
}

static void ask_flows(struct end *it, const struct question *asked, double until) {
    unsigned char *sent = request(asked->octets);
    double begun = now(), last = begun;
    memcpy(it->asked, sent + HEAD, NUMBER);
    int answered = 0, made = 0;
    while (answered < asked->count && now() < until) {
        /* (a link of the node holds 64 datagrams: more would be lost) */
        for (int i = 0; i < HELD && made < asked->count; i++, made++)
            if (!hand_in(it, (uint16_t)(FIRST_FLOW + made), sent, HEAD + (size_t)asked->octets)) break;
        if (!takes(it, made < asked->count ? 0 : 100)) continue;
        answered++;
        last = now();
    }
    done((uint32_t)answered, answered == asked->count ? last - begun : now() - begun);
    free(sent);
}

static void ask_flow(struct end *it, const struct question *asked, double until) {
    bool is_message = strcmp(asked->what, "message") == 0;
    bool is_long = is_message && asked->octets > MOST; /* (it goes as an object) */
    uint32_t most = MOST - HEAD, octets = asked->octets > most && !is_long ? most : asked->octets;
    if (!exchange(it, CALLER, NUMBER, until)) return;
    uint32_t count = 0;
    double begun = now();
    if (!is_message) {
        while (now() < until && exchange(it, CALLER, octets, until)) count++;
        done(count, now() - begun);
        return;
    }
    for (int i = 0; i < asked->count; i++, begun = now()) {
        if (!exchange(it, CALLER, octets, until)) return;
        done(octets, now() - begun);
    }
}

/* --- without a socket */

struct alone {
    dt_node *node;
    uint64_t events;
};

static void must(dt_status status, const char *what) {
    if (status == DT_NO_MEMORY || status == DT_STOPPED || status == DT_NOT_OPEN || status == DT_INVALID) fail(what);
}

static struct alone opened_alone(uint32_t node) {
    struct dt_params params = params_of();
    struct dt_link link = {.charge = params.mpl / 2, .number = LINK};
    struct dt_route route = {node == SERVER ? CLIENT : SERVER, LINK};
    struct dt_node_options options = {.size = sizeof options, .node = node, .now = 1, .links = &link, .link_count = 1,
                                      .routes = &route, .route_count = 1, .start_as = DT_START_FIRST};
    struct alone it = {.node = dt_node_new()};
    if (it.node == NULL) fail("out of memory");
    if (dt_node_open(it.node, &params, &options).status != DT_OK) fail("no node");
    return it;
}

/* hands what left one node to the other. How many datagrams. */
static int carry(struct alone *from, struct alone *to, uint64_t at) {
    unsigned char frame[DT_MAX_DATAGRAM];
    struct dt_datagram out = {.size = sizeof out};
    int count = 0;
    while (dt_node_next_datagram(from->node, frame, sizeof frame, &out) == DT_OK) {
        must(dt_node_receive(to->node, at, LINK, frame, out.len, 0).status, "a datagram");
        to->events++;
        count++;
    }
    return count;
}

/* Reads what is unread of a flow, to the end of a message at most. Whether one ended. */
static bool message_ended(struct alone *it, const struct dt_flow *flow, uint64_t at) {
    static unsigned char octets[MOST];
    struct dt_read_result piece = {.end = false};
    while (!piece.end && (piece = dt_node_read(it->node, at, flow, octets, sizeof octets)).status == DT_OK) continue;
    return piece.end;
}

/* takes what a node reported, and answers the messages where it serves. How many ended. */
static int messages(struct alone *it, uint64_t at, bool serves) {
    static const unsigned char answer[ANSWER];
    struct dt_report report = {.size = sizeof report};
    int count = 0;
    while (dt_node_next_report(it->node, &report) == DT_OK) {
        if (report.kind != DT_REPORT_ACCEPTED) continue;
        it->events++;
        if (!message_ended(it, &report.flow, at)) continue;
        count++;
        if (!serves) continue;
        const struct dt_flow *flow = &report.flow;
        struct dt_flow back = {flow->target, flow->source, flow->target_port, flow->source_port};
        must(dt_node_send(it->node, at, &back, answer, ANSWER, true, true).status, "an answer");
        it->events++;
    }
    return count;
}

/* The nodes have a clock of their own, which is moved on where a flow has no room: what was sent before is acknowledged
   `a` ms later. */
static void in_memory(uint32_t count, uint32_t octets) {
    struct alone client = opened_alone(CLIENT), server = opened_alone(SERVER);
    struct dt_flow flow = {CLIENT, SERVER, CALLER, PORT};
    unsigned char *sent = request(octets - HEAD);
    double begun = now();
    uint64_t at = 1;
    for (uint32_t i = 0; i < count; i++) {
        while (dt_node_send(client.node, at, &flow, sent, octets, true, true).status != DT_OK) {
            must(dt_node_tick(server.node, ++at), "a tick");
            server.events++;
            carry(&server, &client, at);
            messages(&client, at, false);
        }
        client.events++;
        int answered = 0;
        while (carry(&client, &server, at) + carry(&server, &client, at) > 0) {
            messages(&server, at, true);
            answered += messages(&client, at, false);
        }
        answered += messages(&client, at, false);
        if (answered != 1) fail("a request isn't answered");
    }
    done((uint32_t)(client.events + server.events), now() - begun);
    free(sent);
    dt_node_free(client.node);
    dt_node_free(server.node);
}

static void ask(const char *address, int port, const struct question *asked) {
    if (strcmp(asked->what, "memory") == 0) {
        in_memory((uint32_t)asked->count, asked->octets);
        return;
    }
    char word[16];
    snprintf(word, sizeof word, "%d", port);
    struct end *it = opened(dt_udp_fresh_number(), NULL, 0);
    struct dt_udp_error error;
    if (dt_udp_set_peer(it->udp, SERVER, address, word, &error) != DT_OK) fail(error.text);
    double until = now() + asked->seconds, begun = now();
    if (strcmp(asked->what, "flows") == 0) ask_flows(it, asked, until);
    else if (strcmp(asked->what, "first") == 0) {
        for (int i = 0; i < asked->count && now() < until; i++, begun = now())
            if (exchange(it, (uint16_t)(FIRST_FLOW + i), asked->octets, until)) done(1, now() - begun);
    } else ask_flow(it, asked, until);
    dt_udp_close(it->udp);
    free(it);
}
