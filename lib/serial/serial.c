/* The driver: its opening, the node's messages and reports, the wait. */
#include "serial.h"

#include <errno.h>
#include <poll.h>
#include <stdio.h>
#include <stdlib.h>
#include <string.h>
#include <unistd.h>

enum { USUAL_RATE = 115200, USUAL_FLOWS = 64, BITS = 10, ON_THIS_MACHINE = 20, ROUNDED = 3, MOST_WAIT = 10 };

/* ms that so many octets take on the line, rounded up */
static uint32_t takes(const struct dt_serial_options *o, size_t octets) {
    uint32_t rate = o->rate ? o->rate : USUAL_RATE;
    return (uint32_t)(((uint64_t)octets * BITS * 1000 + rate - 1) / rate);
}

static uint32_t longest(const struct dt_serial_options *o) { return takes(o, framing_room(HEADERS + o->params.seg)); }

uint32_t dt_serial_charge(const struct dt_serial_options *o) {
    return longest(o) + (o->max_late ? o->max_late : USUAL_LATE) + o->turnaround + ON_THIS_MACHINE + ROUNDED;
}

/* the usual values where there are zeros */
static void complete(struct dt_serial_options *o) {
    if (!o->rate) o->rate = USUAL_RATE;
    if (!o->max_late) o->max_late = USUAL_LATE;
    if (!o->pace) o->pace = longest(o);
    if (!o->charge) o->charge = dt_serial_charge(o);
    if (!o->max_under_way) o->max_under_way = o->params.rto / (2 * o->pace);
    if (!o->max_under_way) o->max_under_way = 1;
    if (o->max_under_way > MOST_SENT) o->max_under_way = MOST_SENT;
    if (!o->max_message) o->max_message = LONGEST_MESSAGE;
    if (!o->report_kinds) o->report_kinds = 1u << DT_REPORT_UNCERTAIN;
    if (!o->max_flows) o->max_flows = USUAL_FLOWS;
}

static bool said(struct dt_serial_error *error, dt_status status, int system_error, const char *what) {
    error->status = status;
    error->system_error = system_error;
    if (system_error) snprintf(error->text, sizeof error->text, "%s: %s", what, strerror(system_error));
    else snprintf(error->text, sizeof error->text, "%s", what);
    return false;
}

static bool open_node(dt_serial *it, struct dt_serial_error *error) {
    const struct dt_serial_options *o = &it->options;
    struct dt_link link = {.charge = o->charge, .pace = o->pace, .number = LINK};
    struct dt_node_options options = {.size = sizeof options, .node = o->node, .now = serial_now(), .start_as = o->start_as};
    struct dt_route *routes = calloc(o->other_count + 1, sizeof *routes);
    struct dt_params params = o->params;
    struct dt_open_result got;
    if (!routes) return said(error, DT_NO_MEMORY, 0, "out of memory");
    routes[0] = (struct dt_route){o->peer, LINK};
    for (size_t i = 0; i < o->other_count; i++) routes[i + 1] = (struct dt_route){o->others[i], LINK};
    options.links = &link, options.link_count = 1;
    options.routes = routes, options.route_count = o->other_count + 1;
    params.size = sizeof params;
    got = dt_node_open(it->node, &params, &options);
    free(routes);
    if (got.status == DT_NO_MEMORY) return said(error, DT_NO_MEMORY, 0, "out of memory");
    if (got.status != DT_OK) {
        snprintf(error->text, sizeof error->text, "options: parameter %u is %u, or start_as is wrong; see struct dt_params", got.field, got.value);
        error->status = DT_INVALID, error->system_error = 0;
        return false;
    }
    if (dt_node_enable_messages(it->node, o->max_message) != DT_OK) return said(error, DT_NO_MEMORY, 0, "out of memory");
    if (dt_node_set_guard(it->node, o->ports, o->port_count, o->port_count == 0, o->max_flows) != DT_OK)
        return said(error, DT_NO_MEMORY, 0, "out of memory");
    return true;
}

static bool opened(dt_serial *it, struct dt_serial_error *error) {
    size_t room = framing_room(HEADERS + it->options.params.seg);
    if (dt_abi_version() != DT_ABI_VERSION) return said(error, DT_INVALID, 0, "libdeltat has another interface; compile anew");
    it->in_room = room;
    it->in = malloc(room), it->out = malloc(room), it->message = malloc(it->options.max_message), it->node = dt_node_new();
    if (!it->in || !it->out || !it->message || !it->node) return said(error, DT_NO_MEMORY, 0, "out of memory");
    it->line = serial_open_line(it->options.path, it->options.rate);
    if (it->line < 0) return said(error, errno == EINVAL ? DT_INVALID : DT_NOT_OPEN, errno, it->options.path);
    it->empty_at = it->heard_at = serial_now();
    return open_node(it, error);
}

dt_serial *dt_serial_open(const struct dt_serial_options *options, struct dt_serial_error *error) {
    dt_serial *it;
    memset(error, 0, sizeof *error);
    if (options->size != sizeof *options || !options->path || options->node == options->peer || options->params.seg == 0 || options->params.seg > 8192) {
        said(error, DT_INVALID, 0, "options: size, path, node, peer or params.seg is wrong");
        return NULL;
    }
    it = calloc(1, sizeof *it);
    if (!it) {
        said(error, DT_NO_MEMORY, 0, "out of memory");
        return NULL;
    }
    it->options = *options;
    it->line = -1;
    it->pending_since = UINT64_MAX;
    complete(&it->options);
    it->longest = longest(&it->options);
    if (opened(it, error)) return it;
    dt_serial_close(it);
    return NULL;
}

void dt_serial_close(dt_serial *it) {
    if (!it) return;
    dt_node_free(it->node);
    if (it->line >= 0) close(it->line);
    free(it->in), free(it->out), free(it->message);
    free(it);
}

/* so many of the first octets of a flow that were under way aren't any more */
static void forget(dt_serial *it, const struct dt_flow *flow, uint32_t octets) {
    size_t to = 0;
    for (size_t i = 0; i < it->sent_count; i++) {
        struct sent one = it->sent[i];
        if (memcmp(&one.flow, flow, sizeof *flow) == 0) {
            uint32_t gone = one.left < octets ? one.left : octets;
            one.left -= gone, octets -= gone;
        }
        if (one.left > 0) it->sent[to++] = one;
    }
    it->sent_count = to;
}

/* the datagrams that carry what is under way, at the least */
static size_t datagrams(const dt_serial *it) {
    size_t count = 0;
    for (size_t i = 0; i < it->sent_count; i++) count += (it->sent[i].left + it->options.params.seg - 1) / it->options.params.seg;
    return count;
}

/* the next report that is an event; every report is taken, and what arrived is marked readable */
static bool next_report(dt_serial *it) {
    struct dt_report *report = &it->event.report;
    report->size = sizeof *report;
    while (dt_node_next_report(it->node, report) == DT_OK) {
        bool is_readable = report->kind == DT_REPORT_ACCEPTED || (report->kind == DT_REPORT_RECORD_RELEASED && !report->sending);
        if (report->kind == DT_REPORT_ACKNOWLEDGED || report->kind == DT_REPORT_UNCERTAIN) forget(it, &report->flow, report->count);
        if (is_readable && dt_node_mark_readable(it->node, &report->flow) != DT_OK) return serial_failed(it, 0);
        if (it->options.report_kinds >> report->kind & 1) {
            it->event.kind = DT_SERIAL_EVENT_REPORT;
            it->event.flow = report->flow;
            return true;
        }
    }
    return false;
}

static bool next_message(dt_serial *it) {
    struct dt_message message = {.size = sizeof message};
    dt_status status;
    do status = dt_node_next_message(it->node, serial_now(), it->message, it->options.max_message, &message);
    while (status == DT_MORE || status == DT_LOST);
    if (status == DT_OK) {
        it->event.kind = DT_SERIAL_EVENT_MESSAGE;
        it->event.octets = it->message, it->event.len = message.len;
        it->event.flow = message.flow, it->event.gap = message.gap;
        return true;
    }
    return status == DT_NONE ? false : serial_failed(it, 0);
}

/* does all that is due; false: nothing came of it that is an event */
static bool turn(dt_serial *it) {
    memset(&it->event, 0, sizeof it->event);
    if (it->has_failed || !serial_receive(it)) return false;
    if (dt_node_tick(it->node, serial_now()) != DT_OK) return serial_failed(it, 0);
    if (!serial_flush(it)) return false;
    if (next_report(it) || it->has_failed) return !it->has_failed;
    if (next_message(it)) return serial_flush(it);
    return false;
}

int dt_serial_wake_ms(dt_serial *it) {
    uint64_t wake = dt_node_wake(it->node), now = serial_now();
    if (it->out_len > 0 || it->pending_since != UINT64_MAX) return 1;
    if (wake == DT_NEVER) return -1;
    /* a wake that has passed may have nothing due */
    return wake <= now ? 1 : wake - now > 1000 ? 1000 : (int)(wake - now);
}

const struct dt_serial_event *dt_serial_next(dt_serial *it, int wait_ms) {
    uint64_t begun = serial_now();
    for (;;) {
        uint64_t passed;
        struct pollfd line = {it->line, POLLIN, 0};
        int wait;
        int system_error = it->event.system_error;
        if (turn(it)) return &it->event;
        if (it->has_failed) {
            if (!it->event.system_error) it->event.system_error = system_error;
            it->event.kind = DT_SERIAL_EVENT_FAILED;
            return &it->event;
        }
        passed = serial_now() - begun;
        if (wait_ms >= 0 && passed >= (uint64_t)wait_ms) return &it->event;
        /* what arrives during the wait counts as waiting since its begin, so it is short */
        wait = dt_serial_wake_ms(it);
        if (wait < 0 || wait > MOST_WAIT) wait = MOST_WAIT;
        if (wait_ms >= 0 && (uint64_t)wait > (uint64_t)wait_ms - passed) wait = (int)((uint64_t)wait_ms - passed);
        if (poll(&line, 1, wait) < 0 && errno != EINTR) serial_failed(it, errno);
    }
}

uint64_t dt_serial_under_way(dt_serial *it) {
    struct dt_node_counts counts = {.size = sizeof counts};
    if (dt_node_get_counts(it->node, &counts) != DT_OK) return 0;
    return counts.octets_queued - counts.octets_acknowledged - counts.octets_uncertain;
}

dt_status dt_serial_send(dt_serial *it, const struct dt_flow *flow, const void *octets, size_t len) {
    size_t under_way = datagrams(it);
    struct dt_send_result got;
    if (it->has_failed) return DT_STOPPED;
    if (len > it->options.params.cap) return DT_INVALID;
    if (it->sent_count == MOST_SENT) return DT_FULL;
    if (under_way > 0 && under_way + (len + it->options.params.seg - 1) / it->options.params.seg > it->options.max_under_way) return DT_FULL;
    got = dt_node_send(it->node, serial_now(), flow, octets, len, true, true);
    if (got.status == DT_NO_MEMORY) serial_failed(it, 0);
    if (got.status != DT_OK) return got.status;
    it->sent[it->sent_count++] = (struct sent){*flow, (uint32_t)len};
    serial_flush(it);
    return DT_OK;
}

struct dt_serial_counts dt_serial_get_counts(const dt_serial *it) { return it->counts; }
int dt_serial_fd(const dt_serial *it) { return it->line; }
