/* Options, opening and closing. */
#include "udp.h"
#include <errno.h>
#include <stdlib.h>
#include <string.h>
#include <sys/mman.h>
#include <unistd.h>

uint32_t dt_udp_abi_version(void) { return DT_UDP_ABI_VERSION; }

/* --- a forked child has a copy of the node, which would be a second node with the same number */

/* A page that the kernel zeroes in a forked child tells the two apart without a system call. */
static void mark_owner(dt_udp *u) {
    u->owner = getpid();
    size_t size = (size_t)sysconf(_SC_PAGESIZE);
    void *page = mmap(NULL, size, PROT_READ | PROT_WRITE, MAP_PRIVATE | MAP_ANONYMOUS, -1, 0);
    if (page == MAP_FAILED) return;
    if (madvise(page, size, MADV_WIPEONFORK) != 0) {
        (void)munmap(page, size);
        return;
    }
    u->fork_mark = page;
    *u->fork_mark = 1;
}

static bool is_owner(const dt_udp *u) { return u->fork_mark ? *u->fork_mark == 1 : getpid() == u->owner; }

/* --- what ends the driver */

void dtu_fail(dt_udp *u, dt_status status, int system_error) {
    if (u->failed) return;
    u->failed = status;
    u->system_error = system_error;
}

/* Takes over what stopped the node. */
void dtu_judge(dt_udp *u) {
    if (u->core.stopped) dtu_fail(u, u->core.stopped, 0);
}

/* Begins an input of the node with this reading, in us: what it makes counts as made at the oldest reading, and the
 * state folder knows of it before it is done. False: the input must not be given to the node. */
bool dtu_begin(dt_udp *u, uint64_t us) {
    uint64_t at = us / 1000;
    if (u->failed) return false;
    if (!dtu_keep(u->keeper, at)) {
        dtu_fail(u, DT_NOT_OPEN, errno);
        return false;
    }
    if (u->out.made_at == DT_NEVER) {
        u->out.made_at = at;
        u->out.made_us = us;
    }
    if (at > u->input_at) u->input_at = at;
    return true;
}

/* Whether the driver may be used: it didn't fail, and this is the process that opened it. */
bool dtu_is_usable(dt_udp *u) {
    if (!is_owner(u)) {
        u->is_copy = true;
        u->failed = DT_NOT_OPEN;
        u->system_error = 0;
    }
    return u->failed == 0;
}

/* --- options */

static uint32_t or_usual(uint32_t value, uint32_t usual) { return value ? value : usual; }

/* Takes over the options, with the usual values in place of zeros. A caller with an older header has fewer of them. */
static dt_status take_options(dt_udp *u, const struct dt_udp_options *given, struct dt_udp_error *error) {
    struct dt_udp_options *o = &u->options;
    if (given->size < sizeof(uint32_t) || given->size > sizeof *o)
        return dtu_refuse(error, DT_INVALID, 0, "options.size is %u; set it to sizeof(struct dt_udp_options)",
                          given->size);
    memcpy(o, given, given->size);
    if (o->role == 0) o->role = DT_UDP_ROLE_NODE;
    if (o->role != DT_UDP_ROLE_NODE && o->role != DT_UDP_ROLE_SERVICE)
        return dtu_refuse(error, DT_INVALID, 0, "options.role is %u; use enum dt_udp_role", o->role);
    if (o->state && o->start_as == DT_UDP_START_FIRST)
        return dtu_refuse(error, DT_INVALID, 0,
                          "options.start_as is DT_UDP_START_FIRST, and the state folder knows better; leave it 0");
    if (o->start_as > DT_UDP_START_AGAIN || (o->start_as == DT_UDP_START_BY_STATE && o->state == NULL))
        return dtu_refuse(error, DT_INVALID, 0,
                          "options.start_as is %u; use DT_UDP_START_AGAIN unless the number is new", o->start_as);
    if (o->flags >> 6) return dtu_refuse(error, DT_INVALID, 0, "options.flags is %u; use enum dt_udp_flag", o->flags);
    if (o->params == NULL || o->params->size != sizeof *o->params)
        return dtu_refuse(error, DT_INVALID, 0, "options.params is null, or its size isn't sizeof(struct dt_params)");
    u->params = *o->params;
    o->params = &u->params;
    o->link = o->link ? o->link : 1;
    o->max_calls = or_usual(o->max_calls, 1000);
    o->max_requests = or_usual(o->max_requests, 1000);
    o->max_requests_per_flow = or_usual(o->max_requests_per_flow, 1000);
    o->max_message = or_usual(o->max_message, 65536);
    o->max_queued = or_usual(o->max_queued, 1 << 20);
    o->max_flows = or_usual(o->max_flows, 4096);
    o->max_waiting = or_usual(o->max_waiting, 1 << 24);
    return DT_OK;
}

/* --- opening */

static dt_status refuse_params(const struct dt_open_result *it, struct dt_udp_error *error) {
    static const char *const FIELDS[] = {"size", "mpl", "r",    "a",      "rto",       "probe",
                                         "seg",  "cap", "rcap", "window", "run_limit", "start"};
    dt_status status = dtu_refuse(error, DT_INVALID, 0, "params.%s is %u; its range is in deltat.h",
                                  it->field < 12 ? FIELDS[it->field] : "?", it->value);
    if (error) error->field = it->field;
    return status;
}

/* Opens the folder of options.state, if there is one, and takes over how the node starts, its life, and `*now`, the
 * reading at which it is opened. (Parameters that aren't a network's are refused by the node.) */
static dt_status open_state(dt_udp *u, uint64_t *now, struct dt_udp_error *error) {
    struct dt_udp_options *o = &u->options;
    struct dt_udp_error own = {.status = DT_OK};
    if (o->state == NULL || dtu_core_quiet_ms(o->params) == 0) return DT_OK;
    const struct dt_udp_state_options of = {.size = sizeof of,
                                            .node = o->node,
                                            .params = o->params,
                                            .folder = o->state,
                                            .start_as = o->start_as,
                                            .params_changed = o->flags & DT_UDP_FLAG_PARAMS_CHANGED};
    u->state = dt_udp_state_open(&of, &own);
    if (u->state && dt_udp_state_begin(u->state, dtu_clock_ms(), now) != DT_OK) /* (the opening may have waited) */
        (void)dtu_refuse(&own, DT_NOT_OPEN, dt_udp_state_system_error(u->state), "%s/last can't be written", o->state);
    if (own.status != DT_OK) {
        if (error) *error = own;
        return own.status;
    }
    u->keeper = dt_udp_state_keeper(u->state);
    o->life = dt_udp_state_get_start(u->state)->life;
    bool again = dt_udp_state_get_start(u->state)->start == DT_START_AGAIN;
    o->start_as = again ? DT_UDP_START_AGAIN : DT_UDP_START_FIRST;
    return DT_OK;
}

static dt_status open_core(dt_udp *u, struct dt_udp_error *error) {
    uint64_t now = dtu_clock_ms_of(&u->opened);
    dt_status status = open_state(u, &now, error);
    if (status != DT_OK) return status;
    struct dt_open_result it = dtu_core_open(&u->core, &u->options, now);
    status = it.status;
    if (u->options.start_as == DT_UDP_START_AGAIN) u->quiet_until = now + dtu_core_quiet_ms(u->options.params);
    if (status == DT_INVALID) return refuse_params(&it, error);
    if (status == DT_OK)
        status = dtu_core_set_guard(&u->core, &u->ports, u->options.flags & DT_UDP_FLAG_ALL_PORTS,
                                    u->options.max_flows);
    if (status == DT_OK) status = dtu_core_set_shelf(&u->core, u->options.params);
    return status == DT_OK ? status : dtu_refuse(error, status, 0, "out of memory");
}

static dt_status open_all(dt_udp *u, const struct dt_udp_options *options, struct dt_udp_error *error) {
    if (!dtu_core_is_known())
        return dtu_refuse(error, DT_INVALID, 0, "libdeltat has another interface than deltat.h; build both anew");
    if (!dtu_clock_works()) return dtu_refuse(error, DT_NOT_OPEN, errno, "the machine has no CLOCK_BOOTTIME");
    dt_status status = take_options(u, options, error);
    if (status != DT_OK) return status;
    mark_owner(u);
    if (dtu_peers_open(&u->peers) != DT_OK || dtu_events_open(u) != DT_OK)
        return dtu_refuse(error, DT_NO_MEMORY, 0, "out of memory");
    if ((status = dtu_socket_open(u, error)) != DT_OK) return status;
    if (dtu_reading_open(u) != DT_OK || dtu_writing_open(u) != DT_OK)
        return dtu_refuse(error, DT_NO_MEMORY, 0, "out of memory");
    if ((status = dtu_strangers_open(u)) != DT_OK || (status = dtu_watch_open(u)) != DT_OK ||
        (status = dtu_govern_open(u)) != DT_OK)
        return dtu_refuse(error, status, errno, "no memory, or no random octets");
    u->opened = dtu_clock_reading();
    dtu_clock_was_empty(u, &u->opened);
    u->ahead_ns = u->opened.wall - u->opened.boot;
    u->driven.drained_us = (uint64_t)u->opened.boot / 1000;
    if ((status = dtu_count_open(u, error)) != DT_OK) return status;
    if (!u->core.driven) status = open_core(u, error);
    if (status == DT_OK) dtu_count_begin(u);
    u->options.host = u->options.port = u->options.state = u->options.counters = NULL; /* (they are the caller's) */
    return status;
}

/* `driven`: the node that the program opened, or null. */
dt_udp *dtu_open(const struct dt_udp_driven *driven, const struct dt_udp_options *options,
                 struct dt_udp_error *error) {
    if (error) memset(error, 0, sizeof *error);
    dt_udp *u = calloc(1, sizeof *u);
    if (u == NULL) return (void)dtu_refuse(error, DT_NO_MEMORY, 0, "out of memory"), NULL;
    if (driven) {
        u->core = (struct core){
            .node = driven->node, .service = driven->service, .hooks = driven->hooks, .driven = true};
        u->keeper = driven->keeper;
        u->driven.links = driven->links;
        u->driven.link_count = driven->link_count;
    }
    u->socket = u->epoll = u->timer = -1;
    u->armed_at = u->out.made_at = DT_NEVER;
    if (open_all(u, options, error) == DT_OK) return u;
    dt_udp_close(u);
    return NULL;
}

dt_udp *dt_udp_open(const struct dt_udp_options *options, struct dt_udp_error *error) {
    return dtu_open(NULL, options, error);
}

void dt_udp_close(dt_udp *u) {
    if (u == NULL) return;
    (void)dtu_is_usable(u);
    dtu_count_close(u);
    dtu_record_close(u);
    dtu_core_close(&u->core);
    if (u->state) (void)dt_udp_state_close(u->state);
    dt_udp_state_free(u->state);
    dtu_events_close(u);
    dtu_objects_close(u);
    dtu_reading_close(u);
    dtu_writing_close(u);
    dtu_strangers_close(u);
    dtu_watch_close(u);
    dtu_govern_close(u);
    dtu_driven_close(u);
    dtu_peers_close(&u->peers);
    dtu_loop_close(u);
    free(u->ports.list);
    if (u->socket >= 0) close(u->socket);
    if (u->fork_mark) (void)munmap(u->fork_mark, (size_t)sysconf(_SC_PAGESIZE));
    free(u);
}

/* --- what is asked of the whole driver */

uint16_t dt_udp_local_port(dt_udp *u) {
    struct address it = {.len = sizeof it.name};
    if (getsockname(u->socket, &it.name.any, &it.len) != 0) return 0;
    return ntohs(it.name.any.sa_family == AF_INET ? it.name.v4.sin_port : it.name.v6.sin6_port);
}

uint64_t dt_udp_silent_ms(dt_udp *u) {
    uint64_t now = dtu_clock_ms();
    return u->quiet_until > now ? u->quiet_until - now : 0;
}
uint32_t dt_udp_life(dt_udp *u) { return u->options.life; }

const struct dt_udp_counts *dt_udp_get_counts(dt_udp *u) { return &u->counts; }
dt_node *dt_udp_node(dt_udp *u) { return u->core.node; }
dt_service *dt_udp_service(dt_udp *u) { return u->core.service; }
