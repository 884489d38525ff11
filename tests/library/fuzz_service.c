/* Any octets, as a list of calls of three services of libdeltat, each a client and a server; fuzz.h says how it is built and run.

   The first octet of an input says whether its network keeps the duties of deltat.h: no octet is changed, nothing is under
   way for longer than a link's charge, a node starts `again`, and its life is one that it never had. Of both kinds an input
   is a fault where

   - a call answers with a status that deltat.h doesn't give it, or with another one than its arguments ask for;
   - a call that changed nothing by its status changed something: each service is there twice, the second one isn't asked
     what the first refused, and both have to go on alike;
   - a frame doesn't read, or the octets behind it or behind a payload changed;
   - a call has two ends or, where its node lives, none when its patience is over; or an end is told for another cause than
     the one that it names;
   - memory isn't given back;

   and where duties are kept also where

   - a request is handed out that no call made, twice, with other octets, before one of an earlier call of its flow that comes
     later, or though the call was declined; or more of them are open than the service has room for;
   - an answer isn't what the service gave for that very call;
   - a message is called strange, used before, too long or too short;
   - at the end, when no more is lost, a call is still waiting. */
#include "fuzz.h"

/* NAME: the octets of a message in front of its payload */
enum { MOST_CALLS = 500, MOST_PAYLOAD = 9000, CALLER_PORT = 0, SERVICE_PORT = 20, NAME = 8 };
enum fate { WAITS, ANSWERED, UNSURE, /* its node was closed by its program */ FORGOTTEN };

/* a call, and what became of it */
struct call {
    struct dt_flow flow;
    uint64_t number, due;
    size_t len, reply_len;
    enum fate fate;
    /* which opening of its node made it, and which of the server's handed it out */
    unsigned made_by, served_by;
    /* in_doubt: its node found no memory, and doesn't tell whether it was made */
    bool in_doubt, was_handed_out, was_replied, is_token;
};

static struct call calls[MOST_CALLS];
static size_t call_count;

struct node {
    dt_service *handle[2];
    struct dt_params params;
    struct dt_service_options limits;
    bool is_open, is_again, is_spent, was_late, is_lazy, is_guarded;
    unsigned openings;
    uint32_t life, count;
    /* judged: the greatest moment at which a turn ended calls, which one that is no event does too */
    uint64_t greatest, judged, until, wake, offset;
};

static struct node nodes[NODES];

static size_t index_of(const struct node *n) { return (size_t)(n - nodes); }

static uint32_t name_of(const struct node *n) { return (uint32_t)index_of(n) + 1; }

/* the moment of the next call of a node, and what it counts as */
static uint64_t moment_of(const struct node *n) { return leaps ? leap : now + n->offset; }

static uint64_t counted(const struct node *n, uint64_t moment) {
    moment = moment < LAST ? moment : LAST;
    return moment > n->greatest ? moment : n->greatest;
}

/* what a call's payload has at a place, and what its reply has */
static uint8_t asked_octet(size_t call, size_t at) { return octet_of(2 * call, at); }

static uint8_t given_octet(size_t call, size_t at) { return octet_of(2 * call + 1, at); }

static struct call *call_of(const struct dt_flow *flow, uint64_t number) {
    for (size_t i = call_count; i-- > 0;)
        if (calls[i].number == number && is_flow(&calls[i].flow, flow)) return &calls[i];
    return NULL;
}

/* what is passed with a call */
static uint64_t user_of(size_t call) { return 0xFEDCBA9800000001u + 7 * (uint64_t)call; }

/* a call of this opening of a node */
static struct call *own_call(const struct node *n, uint64_t number) {
    for (size_t i = call_count; i-- > 0;)
        if (calls[i].number == number && calls[i].flow.source == name_of(n) && calls[i].made_by == n->openings) return &calls[i];
    return NULL;
}

static bool is_of(const struct call *it, const struct node *n) { return it->flow.source == name_of(n) && it->made_by == n->openings; }

static bool is_token_of(const struct call *it, const struct node *n) { return it->is_token && it->flow.target == name_of(n) && it->served_by == n->openings; }

static size_t waiting(const struct node *n) {
    size_t count = 0;
    for (size_t i = 0; i < call_count; i++) count += is_of(&calls[i], n) && calls[i].fate == WAITS && !calls[i].in_doubt;
    return count;
}

static size_t tokens(const struct node *n, const struct dt_flow *flow) {
    size_t count = 0;
    for (size_t i = 0; i < call_count; i++) count += is_token_of(&calls[i], n) && (flow == NULL || is_flow(&calls[i].flow, flow));
    return count;
}

/* --- what was told */

static void is_handed_out(struct node *n, const struct dt_event *it, const uint8_t *octets) {
    struct call *call = call_of(&it->flow, it->call);
    WANT(it->flow.target == name_of(n) && it->flow.source != it->flow.target && it->cause == 0 && it->user == 0);
    if (!keeps_duties) {
        /* a payload that was changed may have the name of any call */
        if (call != NULL) call->was_handed_out = call->is_token = true, call->served_by = n->openings;
        return;
    }
    WANT(call != NULL && !call->was_handed_out && call->len == it->len);
    for (size_t i = 0; i < it->len; i++) WANT(octets[i] == asked_octet((size_t)(call - calls), i));
    for (const struct call *later = call + 1; later < calls + call_count; later++) WANT(!later->was_handed_out || !is_flow(&later->flow, &call->flow));
    call->was_handed_out = call->is_token = true;
    call->served_by = n->openings;
    WANT(tokens(n, NULL) <= n->limits.max_requests && tokens(n, &it->flow) <= n->limits.max_requests_per_flow);
}

static void is_answered(struct node *n, const struct dt_event *it, const uint8_t *octets) {
    struct call *call = own_call(n, it->call);
    WANT(call != NULL && call->fate == WAITS && is_no_flow(&it->flow) && it->cause == 0 && it->user == user_of((size_t)(call - calls)));
    call->fate = ANSWERED;
    if (!keeps_duties) return;
    WANT(call->was_replied && call->reply_len == it->len);
    for (size_t i = 0; i < it->len; i++) WANT(octets[i] == given_octet((size_t)(call - calls), i));
}

static void is_unsure(struct node *n, const struct dt_event *it) {
    struct call *call = own_call(n, it->call);
    WANT(call != NULL && call->fate == WAITS && is_no_flow(&it->flow) && it->len == 0 && it->user == user_of((size_t)(call - calls)));
    WANT(it->cause == DT_CAUSE_GIVEN_UP || it->cause == DT_CAUSE_TIMEOUT || it->cause == DT_CAUSE_STOPPED);
    if (it->cause == DT_CAUSE_TIMEOUT) WANT(n->judged >= call->due);
    WANT((it->cause == DT_CAUSE_STOPPED) <= n->is_spent);
    call->fate = UNSURE;
}

/* The next event of both sides, into memory of exactly its size. Whether there was one. */
static bool takes_event(struct node *n) {
    uint8_t *small = block(0);
    SIZED(dt_event, one);
    SIZED(dt_event, other);
    dt_status status = dt_service_next_event(n->handle[0], small, 0, &one);
    if (status == DT_NONE || status == DT_NOT_OPEN) {
        WANT(status == (n->is_open ? DT_NONE : DT_NOT_OPEN) && dt_service_next_event(n->handle[1], small, 0, &other) == status);
        free(small);
        return false;
    }
    free(small);
    WANT(status == DT_OK || (status == DT_BUFFER_TOO_SMALL && one.len >= 1 && one.len <= DT_MAX_PAYLOAD));
    WANT(status == DT_OK || (one.kind == 0 && one.call == 0 && one.user == 0 && is_no_flow(&one.flow)));
    size_t len = one.len;
    uint8_t *octets = block(len + BEHIND), *twin = block(len);
    memset(octets, 0xEE, len + BEHIND);
    if (status != DT_OK) WANT(dt_service_next_event(n->handle[0], octets, len + BEHIND, &one) == DT_OK);
    WANT(dt_service_next_event(n->handle[1], twin, len, &other) == DT_OK && one.len == len && other.len == len && is_same(octets, twin, len));
    WANT(one.call == other.call && one.user == other.user && one.kind == other.kind && one.cause == other.cause && is_flow(&one.flow, &other.flow));
    for (size_t i = len; i < len + BEHIND; i++) WANT(octets[i] == 0xEE);
    happens(one.kind * 4u + one.cause);
    if (one.kind == DT_EVENT_REQUEST) is_handed_out(n, &one, octets);
    else if (one.kind == DT_EVENT_ANSWERED) is_answered(n, &one, octets);
    else if (one.kind == DT_EVENT_REPLY_UNCERTAIN) WANT(one.flow.target == name_of(n) && one.flow.source != one.flow.target && one.call == 0 && one.user == 0 && one.len == 0);
    else {
        WANT(one.kind == DT_EVENT_UNSURE);
        is_unsure(n, &one);
    }
    free(octets);
    free(twin);
    return true;
}

/* Takes all that was told; then no call is left that should have ended. */
static void takes_events(struct node *n) {
    while (takes_event(n)) {}
    for (size_t i = 0; i < call_count; i++) {
        struct call *it = &calls[i];
        if (!is_of(it, n) || it->fate != WAITS || !n->is_open) continue;
        WANT(it->in_doubt || (!n->is_spent && n->greatest < it->due));
    }
}

static bool is_same_dropped(const struct dt_call_counts *one, const struct dt_call_counts *other) {
    return one->late_replies == other->late_replies && one->old_replies == other->old_replies && one->unknown_replies == other->unknown_replies &&
           one->reused_requests == other->reused_requests && one->cut == other->cut && one->too_long == other->too_long && one->too_short == other->too_short;
}

static bool is_same_counts(const struct node *n) {
    SIZED(dt_node_counts, one);
    SIZED(dt_node_counts, other);
    SIZED(dt_call_counts, mine);
    SIZED(dt_call_counts, twin);
    dt_status status = n->is_open ? DT_OK : DT_NOT_OPEN;
    WANT(dt_service_get_counts(n->handle[0], &one) == status && dt_service_get_counts(n->handle[1], &other) == status);
    WANT(dt_service_get_call_counts(n->handle[0], &mine) == status && dt_service_get_call_counts(n->handle[1], &twin) == status);
    struct dt_blocked_counts kept = dt_service_get_blocked_counts(n->handle[0]);
    WANT(n->is_guarded || kept.closed_port + kept.too_many_flows == 0);
    if (keeps_duties) WANT(mine.unknown_replies == 0 && mine.reused_requests == 0 && mine.too_long == 0 && mine.too_short == 0);
    /* what the second one isn't asked isn't counted there */
    return one.datagrams_out == other.datagrams_out && one.octets_queued == other.octets_queued && one.octets_acknowledged == other.octets_acknowledged &&
           one.octets_uncertain == other.octets_uncertain && one.octets_accepted == other.octets_accepted && one.octets_read == other.octets_read &&
           is_same_dropped(&mine, &twin);
}

static void looks_on(struct node *n) {
    while (takes_frame(index_of(n)).some) {}
    if (!n->is_lazy || !n->is_open) takes_events(n);
    n->wake = dt_service_wake(n->handle[0]);
    WANT(n->wake == dt_service_wake(n->handle[1]));
    /* a node that was called so late that a segment isn't sent again any more still has the time at which it was to be */
    WANT(n->wake == DT_NEVER || (n->is_open && !n->is_spent && (n->was_late || n->wake > n->greatest)));
    if (!n->is_lazy && n->is_open && !n->is_spent)
        for (size_t i = 0; i < call_count; i++) WANT(!is_of(&calls[i], n) || calls[i].fate != WAITS || n->wake <= calls[i].due);
    WANT(is_same_counts(n));
}

/* --- calls */

static bool has_changed_nothing(uint8_t status) {
    return status == DT_NOT_OPEN || status == DT_INVALID || status == DT_EXISTS || status == DT_STOPPED || status == DT_MALFORMED || status == DT_EXPIRED || status == DT_BLOCKED || status == DT_TOO_MANY_CALLS ||
           status == DT_LIFE_USED_UP || status == DT_GONE;
}

/* A turn that changed something judges the calls at its moment. */
static void judges(struct node *n, uint8_t status, uint64_t moment) {
    if (!has_changed_nothing(status) && counted(n, moment) > n->judged) n->judged = counted(n, moment);
}

/* Behind a turn: its status, and whether memory was refused. */
static void turned(struct node *n, uint8_t status, uint64_t moment, bool found) {
    happens(100u + status);
    WANT(found || n->is_open);
    WANT(status != DT_NO_MEMORY || !found);
    WANT(status != DT_STOPPED || n->is_spent);
    WANT((status == DT_NOT_OPEN) == !n->is_open);
    if (n->is_spent) WANT(has_changed_nothing(status));
    judges(n, status, moment);
    if (!has_changed_nothing(status)) {
        n->greatest = counted(n, moment);
        n->was_late = n->was_late || n->greatest > n->wake;
    }
    if (status == DT_NO_MEMORY) n->is_spent = any_failed = true;
    looks_on(n);
}

/* A call of both sides, of the second one where it changed something; each lacks the same memory. */
#define BOTH(call, first, second, status_of) \
    unsigned asked = wanted; \
    may_fail(&wanted); \
    first = call(n->handle[0]); \
    bool found = found_memory(&wanted); \
    if (!has_changed_nothing(status_of(first))) { \
        wanted = asked; \
        may_fail(&wanted); \
        second = call(n->handle[1]); \
        found_memory(&wanted); \
        WANT(status_of(first) == status_of(second)); \
    }

#define PLAIN(it) (it)
#define FIELD(it) ((it).status)

static void ticks(struct node *n) {
    uint64_t moment = moment_of(n);
#define CALL(side) dt_service_tick(side, moment)
    uint8_t one, other;
    BOTH(CALL, one, other, PLAIN)
#undef CALL
    WANT(one == DT_OK || one == DT_NO_MEMORY || one == DT_NOT_OPEN || one == DT_STOPPED);
    turned(n, one, moment, found);
}

static void arrives(struct node *n, uint16_t link, const uint8_t *octets, size_t len, uint32_t waited) {
    uint64_t moment = moment_of(n);
    uint8_t *datagram = block(len);
    memcpy(datagram, octets, len);
#define CALL(side) dt_service_receive(side, moment, link, datagram, len, waited)
    struct dt_receive_result one, other;
    BOTH(CALL, one, other, FIELD)
#undef CALL
    uint32_t value = 0;
    uint8_t status = one.status, wrong = header_fault(octets, len, &value);
    WANT(is_same(datagram, octets, len));
    free(datagram);
    if (status == DT_BLOCKED) WANT(n->is_guarded && n->is_open);
    else if (n->is_open && !n->is_spent) {
        uint8_t right = !has_link(index_of(n), link) ? DT_INVALID : wrong ? DT_MALFORMED : number_at(octets + 4) <= waited ? DT_EXPIRED : DT_OK;
        WANT(status == right || (right == DT_OK && status == DT_NO_MEMORY));
    }
    WANT(status == DT_MALFORMED ? one.fault == wrong && one.value == value : one.fault == 0 && one.value == 0);
    turned(n, status, moment, found);
}

/* the most octets of a payload */
static size_t longest(const struct node *n) { return n->params.cap < NAME ? 0 : (n->params.cap < 65536 ? n->params.cap : 65536) - NAME; }

static bool is_caller(const struct dt_flow *flow) { return flow->source_port < PORTS; }

static bool is_stopped(dt_service *s, uint64_t moment) {
    const struct dt_token nobody = {0, {0, 0, 0, 0}};
    return dt_service_reply(s, moment, &nobody, NULL, 0).status == DT_STOPPED;
}

static void makes_call(struct node *n, const struct dt_flow *flow, size_t len, uint32_t timeout) {
    if (call_count == MOST_CALLS) return;
    size_t pending = waiting(n);
    uint64_t moment = moment_of(n);
    uint8_t *payload = block(len);
    for (size_t i = 0; i < len; i++) payload[i] = asked_octet(call_count, i);
    uint64_t user = user_of(call_count);
#define CALL(side) dt_service_call(side, moment, flow, payload, len, timeout, user)
    struct dt_call_result one, other = {0, 0, 0, 0, 0};
    BOTH(CALL, one, other, FIELD)
#undef CALL
    free(payload);
    uint8_t status = one.status;
    if (has_changed_nothing(status)) {
        /* each call sees to it that there is room for `user`, one that is refused too: so the second side gets one that is refused for another reason */
        wanted = asked;
        may_fail(&wanted);
        dt_service_call(n->handle[1], moment, flow, NULL, 0, 0, 0);
        found_memory(&wanted);
    }
    if (status == DT_NO_MEMORY && !is_stopped(n->handle[0], moment)) {
        /* there was no memory for `user`: nothing changed */
        WANT(!found && n->is_open && !n->is_spent && one.call == 0);
        looks_on(n);
        return;
    }
    bool is_wrong = flow->source != name_of(n) || flow->target == flow->source, is_long = n->params.cap < NAME || len > longest(n), is_quiet = n->is_again && counted(n, moment) < n->until;
    const bool whys[] = {[0] = false, [DT_INVALID_FLOW] = is_wrong, [DT_INVALID_PORT] = !is_caller(flow), [DT_INVALID_LENGTH] = is_long, [DT_INVALID_TIMEOUT] = timeout == 0, [DT_INVALID_TOTAL] = false};
    WANT(status == DT_INVALID ? one.invalid >= DT_INVALID_FLOW && one.invalid <= DT_INVALID_TOTAL && whys[one.invalid] : one.invalid == 0);
    WANT(status == DT_QUIET ? is_quiet && one.quiet_until == n->until : one.quiet_until == 0);
    WANT(status == DT_FULL ? !is_quiet && one.free < len + NAME && one.free <= n->params.cap : one.free == 0);
    WANT(status != DT_TOO_MANY_CALLS || pending == n->limits.max_calls);
    if (status == DT_OK || status == DT_QUIET || status == DT_FULL) {
        WANT(!is_wrong && !is_long && is_caller(flow) && timeout > 0 && pending < n->limits.max_calls);
        WANT((status == DT_QUIET) == is_quiet);
    } else WANT(has_changed_nothing(status) || status == DT_NO_MEMORY);
    uint64_t number = (uint64_t)n->life << 32 | n->count;
    WANT(status == DT_OK ? one.call == number && other.call == number : one.call == 0);
    if (status == DT_OK || status == DT_NO_MEMORY) {
        struct call it = {.flow = *flow, .number = number, .due = counted(n, moment) + timeout, .len = len, .made_by = n->openings, .in_doubt = status == DT_NO_MEMORY};
        calls[call_count++] = it;
        n->count++;
    }
    turned(n, status, moment, found);
}

/* Some call's request gets a reply, whether its name is a token here or not. */
static void replies(struct node *n, struct call *call, size_t len) {
    struct dt_token token = {call->number, call->flow};
    uint64_t moment = moment_of(n);
    /* a token is open before its request is taken, and what isn't taken isn't known here */
    takes_events(n);
    uint8_t *payload = block(len);
    for (size_t i = 0; i < len; i++) payload[i] = given_octet((size_t)(call - calls), i);
#define CALL(side) dt_service_reply(side, moment, &token, payload, len)
    struct dt_reply_result one, other;
    BOTH(CALL, one, other, FIELD)
#undef CALL
    free(payload);
    uint8_t status = one.status;
    bool is_token = is_token_of(call, n), is_long = n->params.cap < NAME || len > longest(n);
    WANT(status == DT_OK || status == DT_FULL || status == DT_NOT_OPEN || status == DT_GONE || status == DT_STOPPED || status == DT_INVALID || status == DT_NO_MEMORY);
    WANT(status == DT_INVALID ? one.invalid == DT_INVALID_LENGTH && is_long : one.invalid == 0);
    WANT(status == DT_FULL ? one.free < len + NAME && one.free <= n->params.cap : one.free == 0);
    if (n->is_open && !n->is_spent && keeps_duties) WANT(is_token ? status != DT_GONE : status == DT_GONE || status == DT_INVALID);
    if (status == DT_OK || status == DT_NO_MEMORY) call->was_replied = true, call->reply_len = len;
    if (status == DT_OK) call->is_token = false;
    turned(n, status, moment, found);
}

static void forgets(struct node *n, struct call *call) {
    struct dt_token token = {call->number, call->flow};
    uint64_t moment = moment_of(n);
    takes_events(n);
#define CALL(side) dt_service_forget(side, moment, &token)
    uint8_t one, other;
    BOTH(CALL, one, other, PLAIN)
#undef CALL
    WANT(one == DT_OK || one == DT_NOT_OPEN || one == DT_GONE || one == DT_STOPPED || one == DT_NO_MEMORY);
    if (n->is_open && !n->is_spent && keeps_duties) WANT((one == DT_GONE) == !is_token_of(call, n));
    if (one == DT_OK) call->is_token = false;
    /* no event of the node: what is due at that moment may be due yet, but one that reads may have come too late */
    n->was_late = n->was_late || (!has_changed_nothing(one) && counted(n, moment) > n->wake);
    judges(n, one, moment);
    turned(n, one, n->greatest, found);
}

/* a life that the node had never, or the one that it has */
static void raises(struct node *n, bool is_new) {
    uint32_t life = is_new ? n->life + 1 : n->life;
    uint8_t one = dt_service_set_life(n->handle[0], life);
    WANT(one == (!n->is_open ? DT_NOT_OPEN : is_new ? DT_OK : DT_EXISTS));
    if (one == DT_OK) {
        WANT(dt_service_set_life(n->handle[1], life) == DT_OK);
        n->life = life;
        n->count = 0;
    }
    looks_on(n);
}

static void stops(struct node *n) {
    uint8_t one = dt_service_stop(n->handle[0]);
    WANT(one == (n->is_open ? DT_OK : DT_NOT_OPEN) && dt_service_stop(n->handle[1]) == one);
    n->is_spent = n->is_open;
    looks_on(n);
}

static void guards(struct node *n, bool all, uint32_t flow_count) {
    const uint16_t ports[] = {0, 1, SERVICE_PORT};
    may_fail(&wanted);
    uint8_t one = dt_service_set_guard(n->handle[0], ports, all ? 0 : 3, all, flow_count);
    bool found = found_memory(&wanted);
    WANT(one == (n->is_open ? one == DT_NO_MEMORY && !found ? DT_NO_MEMORY : DT_OK : DT_NOT_OPEN));
    if (one == DT_OK) {
        WANT(dt_service_set_guard(n->handle[1], ports, all ? 0 : 3, all, flow_count) == DT_OK);
        n->is_guarded = true;
    }
    looks_on(n);
}

/* --- openings */

/* A port has its kind for good. Where there is no memory nothing changed, and it goes again. */
static void has_port(struct node *n, uint16_t port, uint8_t kind) {
    for (size_t i = 0; i < 2; i++) {
        may_fail(&wanted);
        uint8_t one = dt_service_set_port(n->handle[i], port, kind);
        bool found = found_memory(&wanted);
        if (one == DT_NO_MEMORY) {
            WANT(!found);
            one = dt_service_set_port(n->handle[i], port, kind);
        }
        WANT(one == DT_OK);
    }
    WANT(dt_service_set_port(n->handle[0], port, DT_PORT_CALLER) == DT_EXISTS && dt_service_set_port(n->handle[0], port, 3) == DT_INVALID);
}

static void opens(struct node *n, bool again, bool new_life) {
    size_t me = index_of(n);
    n->life += new_life;
    n->limits.life = n->life;
    struct dt_node_options options = options_of(me, now + n->offset, again);
    for (size_t i = 0; i < 2; i++) {
        struct dt_open_result it = dt_service_open(n->handle[i], &n->params, &options, &n->limits);
        WANT(it.status == DT_OK && it.field == 0 && it.value == 0);
    }
    WANT(dt_service_open(n->handle[0], &n->params, &options, &n->limits).status == DT_EXISTS);
    WANT(dt_service_add_route(n->handle[0], &ROUTES[me][0]) == DT_EXISTS);
    n->openings++;
    n->count = 0;
    n->is_open = true;
    n->is_again = again;
    n->is_spent = n->was_late = n->is_guarded = false;
    n->wake = DT_NEVER;
    n->greatest = n->judged = again ? counted(n, options.now) : 0;
    n->until = again ? (options.now < LAST ? options.now : LAST) + dt_params_quiet_ms(&n->params) : 0;
    for (uint16_t i = 0; i < PORTS; i++) {
        has_port(n, CALLER_PORT + i, DT_PORT_CALLER);
        has_port(n, SERVICE_PORT + i, DT_PORT_SERVICE);
    }
    looks_on(n);
}

static void closes(struct node *n) {
    dt_service_close(n->handle[0]);
    dt_service_close(n->handle[1]);
    for (size_t i = 0; i < call_count; i++)
        if (is_of(&calls[i], n) && calls[i].fate == WAITS) calls[i].fate = FORGOTTEN;
    n->is_open = n->is_spent = n->is_guarded = false;
    n->greatest = 0;
    looks_on(n);
    WANT(dt_service_tick(n->handle[0], now) == DT_NOT_OPEN);
}

/* --- the network */

static bool is_open(size_t node) { return nodes[node].is_open; }

static void takes_in(size_t node, uint16_t link, const uint8_t *octets, size_t len, uint32_t waited) { arrives(&nodes[node], link, octets, len, waited); }

static void is_ticked(size_t node) { ticks(&nodes[node]); }

static uint64_t wake_of(size_t node) { return dt_service_wake(nodes[node].handle[0]); }

static uint64_t offset_of(size_t node) { return nodes[node].offset; }

static struct frame next_frame(size_t node, size_t side, uint8_t *buf, size_t room) {
    struct frame it;
    memset(&it, 0, sizeof it);
    it.it.size = sizeof it.it;
    it.status = dt_service_next_datagram(nodes[node].handle[side], buf, room, &it.it);
    return it;
}

/* something under way comes with another octet, or the number of its call is another one */
static void comes_changed(uint8_t which, uint8_t where, uint8_t how) {
    if (flight_len == 0) return;
    struct flight *it = &flight[which % flight_len];
    size_t to = it->to, len = where == 254 ? how % (it->len + 1) : it->len;
    uint16_t link = it->link;
    uint8_t *octets = block(it->len);
    memcpy(octets, it->octets, it->len);
    if (where < 254) octets[where < 128 && it->len > 38 ? 30 + where % (it->len - 30) : where % it->len] = how;
    arrives(&nodes[to], link, octets, len, 0);
    free(octets);
}

/* --- an input */

static const uint32_t PATIENCE[] = {1000, 1, 5, 50, 300, 3000, 20000, 86400000, 4294967295u, 2};
static const uint32_t PLACES[] = {8, 1, 2, 3, 16, 100};

static void begins(struct input *in) {
    uint8_t mode = octet(in), lazy = octet(in);
    keeps_duties = mode % 4 != 3;
    now = mode >> 4;
    leaps = any_failed = false;
    wanted = 0;
    last_happened = 0;
    call_count = 0;
    struct dt_params params;
    params_of(in, &params);
    for (size_t i = 0; i < NODES; i++) {
        struct node *n = &nodes[i];
        memset(n, 0, sizeof *n);
        n->params = params;
        n->params.start += CHOICE(STARTS, octet(in));
        n->offset = CHOICE(CLOCKS, octet(in));
        n->is_lazy = lazy >> i & 1;
        n->limits.size = sizeof n->limits;
        n->limits.max_calls = CHOICE(PLACES, lazy >> 3);
        n->limits.max_requests = CHOICE(PLACES, (lazy >> 4) + i);
        n->limits.max_requests_per_flow = CHOICE(PLACES, (lazy >> 5) + i);
        for (size_t j = 0; j < 2; j++) {
            n->handle[j] = (dt_service *)block(dt_service_size());
            dt_service_init(n->handle[j]);
        }
    }
    uint8_t charges = octet(in), paces = octet(in);
    for (size_t i = 0; i < NODES; i++) {
        link_count[i] = i == 1 ? 2 : 1;
        for (size_t j = 0; j < link_count[i]; j++) {
            struct dt_link it = {CHOICE(CHARGES, charges + i), CHOICE(PACES, paces + i + j), (uint16_t)(j + 1), 0};
            links[i][j] = it;
        }
    }
    for (size_t i = 0; i < NODES; i++) opens(&nodes[i], paces >> (5 + i) & 1, true);
}

/* a flow of a caller of a node, or with `it` above 191 one that isn't */
static struct dt_flow flow_from(const struct node *n, uint8_t it) {
    uint32_t me = name_of(n), other = (me + it % 2) % NODES + 1;
    uint16_t port = (uint16_t)(it >> 1 & 1);
    struct dt_flow flow = {me, it < 252 ? other : me, it < 248 ? port : SERVICE_PORT, (uint16_t)(SERVICE_PORT + (it >> 2 & 1))};
    if (it >= 254) flow.source = other;
    return flow;
}

/* some call whose request is open at a node, or where none is, any one */
static struct call *some_call(const struct node *n, uint8_t which, bool any) {
    size_t count = any ? 0 : tokens(n, NULL);
    if (count == 0) return call_count == 0 ? NULL : &calls[which % call_count];
    count = which % count;
    for (size_t i = 0; i < call_count; i++)
        if (is_token_of(&calls[i], n) && count-- == 0) return &calls[i];
    return NULL;
}

static size_t length_of(const struct node *n, uint8_t it) {
    size_t len = it < 128 ? it : CHOICE(LENGTHS, it);
    return len > MOST_PAYLOAD && len <= longest(n) ? MOST_PAYLOAD : len;
}

/* All requests that are open at a node are replied to. */
static void replies_all(struct node *n, uint8_t len) {
    for (size_t i = 0; i < call_count; i++)
        if (is_token_of(&calls[i], n)) replies(n, &calls[i], len);
}

static void goes_round(uint8_t count, uint8_t lost) {
    for (unsigned i = 0; i < count; i++) {
        all_come(lost & (lost << i));
        goes_on(false);
        for (size_t j = 0; j < NODES; j++) {
            takes_events(&nodes[j]);
            if (lost & 1) replies_all(&nodes[j], lost);
        }
    }
}

static void does(const uint8_t *record) {
    uint8_t a = record[1], b = record[2], c = record[3];
    struct node *n = &nodes[a % NODES];
    struct call *call;
    happens(200u + record[0] % 22);
    switch (record[0] % 22) {
    case 0: now += a; break;
    case 1: {
        const struct dt_params *p = &n->params;
        const uint64_t spans[] = {p->mpl, p->r, p->a, p->rto, p->probe, dt_params_quiet_ms(p), dt_params_quiet_ms(p) - p->mpl, dt_params_quiet_ms(p) + p->r};
        now += spans[b % 8] + (c < 3 ? c - (uint64_t)1 : 0);
        break;
    }
    case 2: goes_on(b & 1); break;
    case 3: ticks(n); break;
    case 4: case 5: case 6: {
        struct dt_flow flow = flow_from(n, a / NODES + (c == 255 ? 170 : 0));
        makes_call(n, &flow, length_of(n, b), c == 254 ? 0 : CHOICE(PATIENCE, c));
        break;
    }
    case 7: case 8:
        if ((call = some_call(n, b, c % 8 == 7)) != NULL) replies(n, call, length_of(n, c));
        break;
    case 9: if (flight_len > 0) comes(a % flight_len, b & 1); break;
    case 10: if (flight_len > 0) lose(a % flight_len); break;
    case 11: all_come(b & c); break;
    case 12: takes_events(n); break;
    case 13:
        closes(n);
        if (b & 1) opens(n, keeps_duties || c & 1, keeps_duties || c & 2);
        break;
    case 14: if (!n->is_open) opens(n, keeps_duties || c & 1, keeps_duties || c & 2); break;
    case 15: guards(n, b & 1, c & 1 ? UINT32_MAX : c % 4); break;
    case 16: if ((call = some_call(n, b, c % 8 == 7)) != NULL) forgets(n, call); break;
    case 17: raises(n, keeps_duties ? b % 4 > 0 : b & 1); break;
    case 18: if (b % 4 == 0) stops(n); break;
    case 19: wanted = 1 + b % 24; break;
    case 20: goes_round(b % 16, c); break;
    default:
        if (keeps_duties) replies_all(n, b);
        else if (b & 1) comes_changed(a, b, c);
        else {
            const uint64_t moments[] = {0, LAST, LAST - 1, UINT64_MAX, now, now + n->offset, now + 100000000, now / 2, LAST - 10000};
            leap = CHOICE(moments, b / 2);
            leaps = c & 1;
        }
    }
}

/* Nothing is lost any more, and time goes on: each call has its end. */
static void ends_well(void) {
    uint64_t at = 0;
    for (size_t i = 0; i < NODES; i++)
        if (nodes[i].is_open && !nodes[i].is_spent) guards(&nodes[i], true, UINT32_MAX);
    bool is_still = false;
    for (unsigned step = 0; step < MOST_STEPS && !is_still; step++) {
        all_come(0);
        for (size_t i = 0; i < NODES; i++) {
            takes_events(&nodes[i]);
            replies_all(&nodes[i], (uint8_t)step);
        }
        is_still = flight_len == 0 && !least_wake(&at);
        if (!is_still && flight_len == 0) goes_on(true);
    }
    if (!is_still) return;
    happens(300);
    for (size_t i = 0; i < NODES; i++) {
        takes_events(&nodes[i]);
        WANT(waiting(&nodes[i]) == 0);
    }
}

static void ends(void) {
    while (flight_len > 0) lose(0);
    for (size_t i = 0; i < NODES; i++) {
        closes(&nodes[i]);
        free(nodes[i].handle[0]);
        free(nodes[i].handle[1]);
    }
    WANT(held == 0);
}

int LLVMFuzzerTestOneInput(const uint8_t *data, size_t size) {
    struct input in = {data, size};
    WANT(dt_abi_version() == DT_ABI_VERSION && dt_service_align() <= 16);
    begins(&in);
    for (at_record = 0; in.left > 0 && at_record < MOST_OPS; at_record++) {
        uint8_t record[RECORD];
        for (size_t i = 0; i < RECORD; i++) record[i] = octet(&in);
        does(record);
    }
    leaps = false;
    wanted = 0;
    if (keeps_duties) ends_well();
    ends();
    return 0;
}
