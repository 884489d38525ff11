/* All calls of deltat.h: a node or a service behind one set of functions. */
#include "udp.h"

/* Keeps a status after which nothing works any more. */
static dt_status kept(struct core *core, dt_status status) {
    if (status == DT_NO_MEMORY || status == DT_STOPPED || status == DT_NOT_OPEN) core->stopped = status;
    return status;
}

bool dtu_core_is_known(void) { return dt_abi_version() == DT_ABI_VERSION; }

uint64_t dtu_core_quiet_ms(const struct dt_params *params) { return dt_params_quiet_ms(params); }

static struct dt_open_result open_service(struct core *core, const struct dt_udp_options *options,
                                          const struct dt_node_options *node) {
    struct dt_service_options limits = {.size = sizeof limits,
                                        .life = options->life,
                                        .max_calls = options->max_calls,
                                        .max_requests = options->max_requests,
                                        .max_requests_per_flow = options->max_requests_per_flow};
    core->service = dt_service_new();
    if (core->service == NULL) return (struct dt_open_result){.status = DT_NO_MEMORY};
    return dt_service_open(core->service, options->params, node, &limits);
}

static struct dt_open_result open_node(struct core *core, const struct dt_udp_options *options,
                                       const struct dt_node_options *node) {
    core->node = dt_node_new();
    if (core->node == NULL) return (struct dt_open_result){.status = DT_NO_MEMORY};
    struct dt_open_result it = dt_node_open(core->node, options->params, node);
    if (it.status == DT_OK) it.status = dt_node_enable_messages(core->node, options->max_message);
    return it;
}

struct dt_open_result dtu_core_open(struct core *core, const struct dt_udp_options *options, uint64_t now) {
    struct dt_link link = {.charge = options->charge, .pace = options->pace, .number = options->link};
    struct dt_route none = {.to = 0}; /* (the library wants a pointer even if there are no routes) */
    struct dt_node_options node = {.size = sizeof node,
                                   .node = options->node,
                                   .now = now,
                                   .links = &link,
                                   .link_count = 1,
                                   .routes = &none,
                                   .start_as = options->start_as == DT_UDP_START_FIRST ? DT_START_FIRST
                                                                                       : DT_START_AGAIN};
    core->link = options->link;
    return options->role == DT_UDP_ROLE_SERVICE ? open_service(core, options, &node) : open_node(core, options, &node);
}

void dtu_core_close(struct core *core) {
    if (!core->driven) {
        dt_node_free(core->node);
        dt_service_free(core->service);
    }
    core->node = NULL;
    core->service = NULL;
}

dt_status dtu_core_tick(struct core *core, uint64_t now) {
    if (core->hooks) return kept(core, core->hooks->tick(core->hooks->user, now));
    return kept(core, core->node ? dt_node_tick(core->node, now) : dt_service_tick(core->service, now));
}

dt_status dtu_core_receive(struct core *core, uint64_t now, const uint8_t *octets, size_t len, uint32_t waited_ms) {
    if (core->hooks) {
        struct dt_udp_datagram given = {octets, len, now, waited_ms, core->link};
        return core->received = kept(core, core->hooks->receive(core->hooks->user, &given));
    }
    struct dt_receive_result it = core->node
                                      ? dt_node_receive(core->node, now, core->link, octets, len, waited_ms)
                                      : dt_service_receive(core->service, now, core->link, octets, len, waited_ms);
    return core->received = kept(core, it.status);
}

/* Takes the next datagram that is to be sent, of at most DT_MAX_DATAGRAM octets. */
bool dtu_core_next_datagram(struct core *core, uint8_t *room, size_t *len, uint32_t *to) {
    struct dt_datagram it = {.size = sizeof it};
    dt_status status = core->hooks  ? core->hooks->next_datagram(core->hooks->user, room, &it)
                       : core->node ? dt_node_next_datagram(core->node, room, DT_MAX_DATAGRAM, &it)
                                    : dt_service_next_datagram(core->service, room, DT_MAX_DATAGRAM, &it);
    *len = it.len;
    *to = it.to;
    core->link_out = it.link;
    return status == DT_OK;
}

bool dtu_core_next_report(struct core *core, struct dt_report *report) {
    *report = (struct dt_report){.size = sizeof *report};
    return core->node && dt_node_next_report(core->node, report) == DT_OK;
}

/* DT_NEVER: nothing is due. */
uint64_t dtu_core_wake(struct core *core) {
    if (core->hooks) return core->hooks->wake(core->hooks->user);
    return core->node ? dt_node_wake(core->node) : dt_service_wake(core->service);
}

/* Datagrams for a node leave on the link. A node that has a route keeps it. */
dt_status dtu_core_add_route(struct core *core, uint32_t to) {
    struct dt_route route = {.to = to, .link = core->link};
    dt_status status =
        core->node ? dt_node_add_route(core->node, &route) : dt_service_add_route(core->service, &route);
    return status == DT_EXISTS ? DT_OK : status;
}

dt_status dtu_core_set_guard(struct core *core, const struct ports *ports, bool all, uint32_t max_flows) {
    uint16_t none = 0;
    const uint16_t *list = ports->count ? ports->list : &none;
    return core->node ? dt_node_set_guard(core->node, list, ports->count, all, max_flows)
                      : dt_service_set_guard(core->service, list, ports->count, all, max_flows);
}

/* Of a flow a window of whole segments is held at most, and of all flows what fits SHELF_OCTETS. */
dt_status dtu_core_set_shelf(struct core *core, const struct dt_params *params) {
    enum { SHELF_OCTETS = 1 << 20 };
    uint32_t of_flow = params->window / params->seg + 1;
    uint32_t all = of_flow > SHELF_OCTETS / params->seg ? of_flow : SHELF_OCTETS / params->seg;
    return core->node ? dt_node_set_shelf(core->node, all, of_flow) : dt_service_set_shelf(core->service, all, of_flow);
}

dt_status dtu_core_set_port(struct core *core, uint16_t port, uint8_t kind) {
    if (core->node) return kind == 0 ? DT_OK : DT_INVALID;
    return dt_service_set_port(core->service, port, kind);
}

dt_status dtu_core_mark_readable(struct core *core, const struct dt_flow *flow) {
    return dt_node_mark_readable(core->node, flow);
}

/* Fills `out`, whatever is returned. */
dt_status dtu_core_next_message(struct core *core, uint64_t now, const struct iovec *room, struct dt_message *out) {
    *out = (struct dt_message){.size = sizeof *out};
    return kept(core, dt_node_next_message(core->node, now, room->iov_base, room->iov_len, out));
}

dt_status dtu_core_next_event(struct core *core, uint8_t *room, size_t size, struct dt_event *out) {
    *out = (struct dt_event){.size = sizeof *out};
    return dt_service_next_event(core->service, room, size, out);
}

struct dt_send_result dtu_core_send(struct core *core, uint64_t now, const struct dt_flow *flow,
                                    const struct iovec *octets) {
    struct dt_send_result it = dt_node_send(core->node, now, flow, octets->iov_base, octets->iov_len, true, true);
    kept(core, it.status);
    return it;
}

struct dt_call_result dtu_core_make_call(struct core *core, uint64_t now, const struct dt_udp_call_options *options,
                                         const struct iovec *octets) {
    struct dt_call_result it = dt_service_call(core->service, now, &options->flow, octets->iov_base, octets->iov_len,
                                               options->timeout_ms, options->user);
    kept(core, it.status);
    return it;
}

struct dt_reply_result dtu_core_reply(struct core *core, uint64_t now, const struct dt_token *token,
                                      const struct iovec *octets) {
    struct dt_reply_result it = dt_service_reply(core->service, now, token, octets->iov_base, octets->iov_len);
    kept(core, it.status);
    return it;
}

dt_status dtu_core_forget(struct core *core, uint64_t now, const struct dt_token *token) {
    return kept(core, dt_service_forget(core->service, now, token));
}

static struct dt_node_counts counts_of(struct core *core) {
    struct dt_node_counts it = {.size = sizeof it};
    (void)(core->node ? dt_node_get_counts(core->node, &it) : dt_service_get_counts(core->service, &it));
    return it; /* (of a handle that isn't open all are 0) */
}

/* How many octets of other nodes were accepted. */
uint64_t dtu_core_accepted(struct core *core) { return counts_of(core).octets_accepted; }

/* How many octets were sent and are neither acknowledged nor uncertain. */
uint64_t dtu_core_outstanding(struct core *core) {
    struct dt_node_counts it = counts_of(core);
    return it.octets_queued - it.octets_acknowledged - it.octets_uncertain;
}

/* How many octets were sent, and how many of them are acknowledged or uncertain. */
void dtu_core_totals(struct core *core, uint64_t *queued, uint64_t *settled) {
    struct dt_node_counts it = counts_of(core);
    *queued = it.octets_queued;
    *settled = it.octets_acknowledged + it.octets_uncertain;
}

static struct dt_blocked_counts blocked_of(struct core *core) {
    return core->node ? dt_node_get_blocked_counts(core->node) : dt_service_get_blocked_counts(core->service);
}

/* Puts what the library counts into the places of a counters file. */
void dtu_core_counts(struct core *core, uint64_t *all) {
    struct dt_node_counts it = counts_of(core);
    struct dt_blocked_counts blocked = blocked_of(core);
    struct dt_call_counts calls = {.size = sizeof calls};
    if (core->service) (void)dt_service_get_call_counts(core->service, &calls);
    all[COUNT_FRAMES_IN] = it.datagrams_in;
    all[COUNT_FRAMES_REFUSED] = it.datagrams_refused;
    all[COUNT_FRAMES_OUT] = it.datagrams_out;
    all[COUNT_OCTETS_QUEUED] = it.octets_queued;
    all[COUNT_OCTETS_ACKNOWLEDGED] = it.octets_acknowledged;
    all[COUNT_OCTETS_UNCERTAIN] = it.octets_uncertain;
    all[COUNT_OCTETS_ACCEPTED] = it.octets_accepted;
    all[COUNT_OCTETS_READ] = it.octets_read;
    all[COUNT_BLOCKED_PORT] = blocked.closed_port;
    all[COUNT_BLOCKED_FLOWS] = blocked.too_many_flows;
    all[COUNT_LATE_REPLIES] = calls.late_replies;
    all[COUNT_OLD_REPLIES] = calls.old_replies;
    all[COUNT_UNKNOWN_REPLIES] = calls.unknown_replies;
    all[COUNT_REUSED_REQUESTS] = calls.reused_requests;
    all[COUNT_CUT_MESSAGES] = calls.cut;
}
