/* The driver over UDP, libdeltat-udp, as a peer (peer.h). Environment: CALLS=1, calls of a service, else messages of
 * a node; FLAGS, those of dt_udp_options; MANY, so many requests under way at once of `answers`. */
#include "deltat_udp.h"
#include "peer.h"

enum { SERVER = 1, PORT = 20, CALLER = 10, MOST_MANY = 4096, RTO_MS = 40 };

static uint32_t setting(const char *name, uint32_t usual) {
    const char *it = getenv(name);
    return it == NULL ? usual : (uint32_t)strtoul(it, NULL, 0);
}

struct end {
    dt_udp *udp;
    uint32_t node;
    bool calls;
};

static struct end opened(uint32_t node, const char *host, const char *port) {
    bool calls = setting("CALLS", 0);
    struct dt_udp_options options = {
        .size = sizeof options,
        .node = node,
        .host = host,
        .port = port,
        .charge = 41,
        .max_peers = node == SERVER ? 64 : 0,
        .params = &(struct dt_params){
            .size = sizeof(struct dt_params), .mpl = 82, .r = 20 * RTO_MS, .a = 5, .rto = RTO_MS,
            .probe = 2 * RTO_MS, .seg = 1400, .cap = 65536, .rcap = 65536, .window = 65536,
            .run_limit = 2147483648u, .start = 0},
        .life = (uint32_t)time(NULL),
        .start_as = DT_UDP_START_FIRST,
        .role = calls ? DT_UDP_ROLE_SERVICE : DT_UDP_ROLE_NODE,
        .flags = setting("FLAGS", 0) | DT_UDP_FLAG_ALL_PORTS,
        .max_calls = 2 * MOST_MANY,
        .max_requests = 2 * MOST_MANY,
        .max_requests_per_flow = 2 * MOST_MANY,
        .report_kinds = calls ? 0 : 1u << DT_REPORT_UNCERTAIN};
    struct dt_udp_error error;
    struct end it = {dt_udp_open(&options, &error), node, calls};
    if (it.udp == NULL) fail(error.text);
    bool serves = node == SERVER;
    dt_udp_open_port(it.udp, serves ? PORT : CALLER, !calls ? 0 : serves ? DT_PORT_SERVICE : DT_PORT_CALLER);
    return it;
}

static void serve(const char *address, int port) {
    char word[16];
    snprintf(word, sizeof word, "%d", port);
    struct end it = opened(SERVER, address, word);
    static unsigned char answer[ANSWER];
    for (;;) {
        const struct dt_udp_event *event = dt_udp_next_event(it.udp, -1);
        if (event->kind == DT_UDP_EVENT_FAILED) fail("the service failed");
        if (event->kind != DT_UDP_EVENT_MESSAGE && event->kind != DT_UDP_EVENT_REQUEST) continue;
        memcpy(answer, event->octets + HEAD, NUMBER);
        served(event->octets + HEAD);
        struct dt_flow back = {.source = event->flow.target,
                                   .target = event->flow.source,
                                   .source_port = event->flow.target_port,
                                   .target_port = event->flow.source_port};
        if (it.calls) dt_udp_reply(it.udp, &event->token, answer, ANSWER);
        else dt_udp_send(it.udp, &back, answer, ANSWER);
    }
}

static bool asks(struct end *it, const struct dt_flow *flow, const unsigned char *octets, size_t len) {
    uint8_t status = it->calls ? dt_udp_call(it->udp, flow, octets, len, 5000).status
                               : dt_udp_send(it->udp, flow, octets, len).status;
    if (status == DT_INVALID) fail("a request is refused");
    return status == DT_OK;
}

/* One request and its answer: asked again where it was given up. */
static bool exchange(struct end *it, uint32_t octets, double until) {
    unsigned char *sent = request(octets);
    struct dt_flow flow = {it->node, SERVER, CALLER, PORT};
    bool answered = false, asked = false;
    double patience = 0.001 * 24 * RTO_MS, at = 0;
    while (!answered && now() < until) {
        if (!asked || (!it->calls && now() - at > patience))
            asked = asks(it, &flow, sent, HEAD + (size_t)octets), at = now();
        const struct dt_udp_event *event = dt_udp_next_event(it->udp, asked ? 100 : 1);
        if (event->kind == DT_UDP_EVENT_FAILED) fail("the client failed");
        if (event->kind == DT_UDP_EVENT_UNSURE || event->kind == DT_UDP_EVENT_REPORT) asked = false;
        if (event->kind == DT_UDP_EVENT_ANSWERED) answered = true;
        if (event->kind == DT_UDP_EVENT_MESSAGE) answered = memcmp(event->octets, sent + HEAD, NUMBER) == 0;
    }
    free(sent);
    return answered;
}

/* Answers with `many` requests under way: of a node each on a flow of its own. */
static uint32_t answers_at_once(struct end *it, uint32_t octets, uint32_t many, double until) {
    unsigned char *sent = request(octets);
    static bool is_open[MOST_MANY];
    uint32_t count = 0;
    for (uint32_t open = 0; now() < until;) {
        for (uint32_t i = 0; i < many && open < many; i++) {
            if (!it->calls && is_open[i]) continue;
            struct dt_flow flow = {it->node, SERVER, (uint16_t)(it->calls ? CALLER : 100 + i), PORT};
            if (!asks(it, &flow, sent, HEAD + (size_t)octets)) break;
            open++, is_open[i] = true;
        }
        const struct dt_udp_event *event = dt_udp_next_event(it->udp, 100);
        for (; event->kind != DT_UDP_EVENT_NONE && open > 0; event = dt_udp_next_event(it->udp, 0)) {
            if (event->kind == DT_UDP_EVENT_FAILED) fail("the client failed");
            if (event->kind == DT_UDP_EVENT_MESSAGE) open--, count++, is_open[event->flow.target_port - 100] = false;
            if (event->kind == DT_UDP_EVENT_ANSWERED || event->kind == DT_UDP_EVENT_UNSURE)
                open--, count += event->kind == DT_UDP_EVENT_ANSWERED;
        }
    }
    free(sent);
    return count;
}

static void ask(const char *address, int port, const struct question *it) {
    char word[16];
    snprintf(word, sizeof word, "%d", port);
    struct end end = opened(1000 + (uint32_t)getpid() % 60000, address, NULL);
    struct dt_udp_error error;
    if (dt_udp_set_peer(end.udp, SERVER, address, word, &error) != DT_OK) fail(error.text);
    uint32_t most = 65536 - HEAD - (end.calls ? 8 : 0), octets = it->octets > most ? most : it->octets,
             many = setting("MANY", 1), count = 0;
    double until = now() + it->seconds;
    if (!exchange(&end, NUMBER, until)) fail("nobody answers");
    double begun = now();
    if (strcmp(it->what, "answers") == 0) {
        if (many > 1) count = answers_at_once(&end, octets, many > MOST_MANY ? MOST_MANY : many, until);
        else
            while (now() < until && exchange(&end, octets, until)) count++;
        done(count, now() - begun);
    }
    for (int i = 0; strcmp(it->what, "message") == 0 && i < it->count; i++, begun = now()) {
        if (!exchange(&end, octets, until)) return;
        done(octets, now() - begun);
    }
    dt_udp_close(end.udp);
}
