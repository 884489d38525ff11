/* The calls of a gateway.
 *
 * THE RULE. A call that ends unsure is made again on its own flow until it is answered, and the client gets no answer
 * before. Requests of a flow are handed out in the order of their calls, at most once, over all restarts, and the
 * server does each before the next of its flow is handed out. So once the repeat is answered, no earlier copy of it
 * can be done any more. Only then may the client write there again: old copies < repeat < answer < newer write. */
#include "flows.h"
#include "common.h"

enum { WAIT_MS = 16 }; /* for each call under way: so long a part may wait for another to pass */

struct demand *flows_add(struct flows *flows, void *client, const bool *is_gone, const struct request *request) {
    size_t len = has_data(request) ? request->length : 0;
    uint32_t parts = len ? (uint32_t)(len - 1) / MAX_PART + 1 : 1;
    struct demand *it = memory(malloc(sizeof *it + len));
    *it = (struct demand){
        .client = client, .is_gone = is_gone, .request = *request, .parts = parts, .writes = flows->writes};
    *(flows->first ? &flows->last->next : &flows->first) = it;
    return flows->last = it;
}

/* What is asked on a flow. The write of a client that is gone isn't made again: a hello in its place is answered once
 * that write was done, or never will be. */
static struct request asked(const struct flows *flows, const struct flow *flow) {
    struct request it = flow->demand->request;
    uint32_t from = flow->part * MAX_PART;
    if (*flow->demand->is_gone && flow->tries > 0) it = (struct request){.op = OP_HELLO};
    if (has_data(&it)) it.length = it.length - from < MAX_PART ? it.length - from : MAX_PART;
    it.version = VERSION;
    it.generation = flows->generation;
    it.offset += from;
    return it;
}

/* (If there is no room, an event says when there is. An event says what else failed.) */
static void call(struct flows *flows, struct flow *flow) {
    struct request it = asked(flows, flow);
    size_t len = it.op == OP_WRITE ? it.length : 0;
    uint16_t at = (uint16_t)(flow - flows->all);
    uint32_t patience = flows->timeout_ms << (flow->tries < 5 ? flow->tries : 5);
    struct dt_udp_call_options options = {.size = sizeof options,
                                          .timeout_ms = patience + flows->busy * WAIT_MS,
                                          .flow = {flows->node, SERVER, FIRST_PORT + at, SERVICE_PORT},
                                          .user = ++flow->calls * FLOWS + at};
    request_turn(&it);
    memcpy(flows->octets, &it, HEADER);
    memcpy(flows->octets + HEADER, flow->demand->data + flow->part * MAX_PART, len);
    flow->under_way = dt_udp_make_call(flows->udp, &options, flows->octets, HEADER + len).status == DT_OK;
}

/* If the server is another process now, the calls that its last one had are made again, behind themselves. */
static void watch_server(struct flows *flows) {
    uint64_t openings = dt_udp_get_counts(flows->udp)->openings_proved;
    bool is_new = flows->openings > 0 && openings > flows->openings;
    flows->openings = openings;
    for (struct flow *flow = flows->all; is_new && flow < flows->all + FLOWS; flow++)
        if (flow->under_way) flow->tries++, call(flows, flow);
}

static struct flow *free_flow(struct flows *flows) {
    for (unsigned i = 0; i < FLOWS; i++) {
        struct flow *flow = &flows->all[flows->turn++ % FLOWS];
        if (flow->demand == NULL) return flow;
    }
    return NULL;
}

/* A part of a demand is done, or never will be called. */
static void count_part(struct flows *flows, struct demand *demand) {
    if (++demand->answered < demand->parts) return;
    demand->next = flows->done;
    flows->done = demand;
}

void flows_go(struct flows *flows) {
    watch_server(flows);
    for (struct demand *it; (it = flows->first) != NULL;) {
        struct flow none = {.calls = 0}, *flow = *it->is_gone ? &none : free_flow(flows);
        if (flow == NULL) return;
        *flow = (struct flow){.demand = it, .part = it->called++, .calls = flow->calls};
        if (it->called == it->parts) flows->first = it->next;
        if (flow == &none) count_part(flows, it);
        else flows->busy++, call(flows, flow);
    }
}

/* Which writes a flush covers: all that were answered before it was asked, if the server's machine kept its cache
 * since. Each answer names the boot of that machine. */
static void note_boot(struct flows *flows, struct demand *demand, const struct answer *answer) {
    uint8_t op = demand->request.op;
    bool is_lost = answer->boot != flows->boot && flows->writes > flows->flushed;
    bool is_flushed = op == OP_FLUSH && answer->error == 0 && demand->writes > flows->flushed;
    flows->losses += is_lost;
    flows->flushed = is_lost ? flows->writes : is_flushed ? demand->writes : flows->flushed;
    flows->writes += op == OP_WRITE || op == OP_TRIM || op == OP_ZERO;
    flows->boot = answer->boot;
    demand->losses = flows->losses;
}

static void note_answer(struct flows *flows, const struct flow *flow, const struct dt_udp_event *event) {
    struct demand *demand = flow->demand;
    size_t len = event->len - HEADER;
    struct answer it;
    memcpy(&it, event->octets, HEADER);
    answer_turn(&it);
    note_boot(flows, demand, &it);
    flows->size = it.size;
    if (is_barrier(&demand->request)) flows->generation = it.generation;
    bool is_read = demand->request.op == OP_READ && it.error == 0;
    if (is_read && len != asked(flows, flow).length) it.error = EIO;
    else if (is_read) memcpy(demand->data + flow->part * MAX_PART, event->octets + HEADER, len);
    if (it.error) demand->error = it.error;
}

void flows_take(struct flows *flows, const struct dt_udp_event *event) {
    struct flow *flow = &flows->all[event->user % FLOWS];
    bool is_answer = event->kind == DT_UDP_EVENT_ANSWERED, is_end = is_answer || event->kind == DT_UDP_EVENT_UNSURE;
    bool is_last = is_end && event->user / FLOWS == flow->calls; /* (the end of one that was made again is none) */
    if (is_last) flow->under_way = false;
    if (is_last && is_answer && event->len >= HEADER) {
        struct demand *demand = flow->demand;
        if (!*demand->is_gone) note_answer(flows, flow, event);
        flow->demand = NULL;
        flows->busy--;
        count_part(flows, demand);
    } else if (is_last) flow->tries++, call(flows, flow);
    for (flow = flows->all; event->kind == DT_UDP_EVENT_ROOM && flow < flows->all + FLOWS; flow++)
        if (flow->demand && !flow->under_way) call(flows, flow);
}
