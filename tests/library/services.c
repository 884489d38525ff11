/* Request and reply: a client and a service in memory. Each answer of the calls comes as deltat.h says, and then each
   request for memory fails in turn: a call that can't do without says so once, from then on the service is closed, and
   each call that was made has exactly one end. In the end all memory was given back. It is linked in place of lib/heap.c. */
#include "calls.h"
#include <stdio.h>
#include <stdlib.h>
#include <string.h>

#define WANT(truth) \
    do { \
        if (!(truth)) { \
            fprintf(stderr, "services.c:%d: at request %lu: %s\n", __LINE__, fail_at, #truth); \
            exit(1); \
        } \
    } while (0)

struct tried { bool ok; uint8_t *p; };
#ifdef __cplusplus
extern "C" {
#endif
struct tried rattle_alloc(size_t size, size_t align);
struct tried rattle_realloc(uint8_t *p, size_t kept, size_t size, size_t align);
void rattle_dealloc(uint8_t *p);
#ifdef __cplusplus
}
#endif

static unsigned long fail_at, requests, goes_on;
static long held;

static struct tried tried(void *p) {
    struct tried t = {p != NULL, (uint8_t *)p};
    return t;
}

struct tried rattle_alloc(size_t size, size_t align) {
    (void)align;
    if (++requests == fail_at) return tried(NULL);
    held++;
    return tried(malloc(size > 0 ? size : 1));
}

struct tried rattle_realloc(uint8_t *p, size_t kept, size_t size, size_t align) {
    (void)kept;
    (void)align;
    if (++requests == fail_at) return tried(NULL);
    return tried(realloc(p, size > 0 ? size : 1));
}

void rattle_dealloc(uint8_t *p) {
    held--;
    free(p);
}

enum { LINK = 7, CALLS = 6, MOST = 3000 };

/* what is passed with the call of a count */
static uint64_t user_of(uint32_t count) { return 0xFEDCBA9800000001u + 7 * (uint64_t)count; }

static const struct dt_params params = {sizeof params, 1000, 3000, 200, 500, 800, 1000, 4096, 4096, 4096, 2147483648u, 0};
static const struct dt_flow flow = {1, 2, 10, 20};
static const struct dt_link links[1] = {{0, 0, LINK, 0}};
static const struct dt_call_counts none = {sizeof none, 0, 0, 0, 0, 0, 0, 0, 0};
static uint8_t payload[MOST], came[MOST + 1], frame[DT_MAX_DATAGRAM];

static uint8_t opens(dt_service *s, uint32_t me, bool again) {
    const struct dt_service_options more = {sizeof more, 5, 2, 8, 8};
    const struct dt_route route = {3 - me, LINK};
    struct dt_node_options options = node_options(me, 100, again, links, &route);
    return dt_service_open(s, &params, &options, &more).status;
}

/* Gives the ports of both their kinds. Where there is no memory it says so, and goes again. */
static void ports(dt_service *s) {
    uint8_t status;
    while ((status = dt_service_set_port(s, 10, DT_PORT_CALLER)) == DT_NO_MEMORY) {}
    WANT(status == DT_OK && dt_service_set_port(s, 10, DT_PORT_SERVICE) == DT_EXISTS && dt_service_set_port(s, 11, 3) == DT_INVALID);
    while ((status = dt_service_set_port(s, 20, DT_PORT_SERVICE)) == DT_NO_MEMORY) {}
    WANT(status == DT_OK);
}

/* an event, or the status with which none was handed out */
struct next { struct dt_event event; dt_status status; };

static struct next next(dt_service *s) {
    struct next it;
    memset(came, 0xEE, sizeof came);
    memset(&it, 0, sizeof it);
    it.event.size = sizeof it.event;
    it.status = dt_service_next_event(s, came, MOST, &it.event);
    return it;
}

/* Whether what was handed out is that, and the rest of the buffer is as it was. */
static bool carries(const struct next *it, const uint8_t *octets, size_t len) {
    for (size_t i = len; i < sizeof came; i++)
        if (came[i] != 0xEE) return false;
    return it->status == DT_OK && it->event.len == len && memcmp(came, octets, len) == 0;
}

/* What waits at one comes to the other. Whether it found no memory. */
static bool carry(dt_service *from, dt_service *to, uint64_t now) {
    SIZED(dt_datagram, out);
    for (;;) {
        dt_status status = dt_service_next_datagram(from, frame, sizeof frame, &out);
        if (status == DT_NONE) return false;
        WANT(status == DT_OK);
        status = dt_service_receive(to, now, LINK, frame, out.len, 0).status;
        WANT(status == DT_OK || status == DT_NO_MEMORY);
        if (status == DT_NO_MEMORY) return true;
    }
}

static bool is_unsure(dt_service *s, uint64_t call, uint8_t cause, uint64_t user) {
    struct next it = next(s);
    return it.event.kind == DT_EVENT_UNSURE && it.event.call == call && it.event.cause == cause && it.event.user == user && carries(&it, came, 0);
}

static struct dt_call_result calls(dt_service *s, uint64_t now, size_t len, uint32_t timeout, uint64_t user) {
    return dt_service_call(s, now, &flow, payload, len, timeout, user);
}

static void a_closed_handle_says_so(dt_service *s) {
    SIZED(dt_node_counts, counts);
    SIZED(dt_call_counts, dropped);
    WANT(dt_service_tick(s, 0) == DT_NOT_OPEN && dt_service_set_port(s, 10, DT_PORT_CALLER) == DT_NOT_OPEN);
    WANT(calls(s, 0, 1, 9, 1).status == DT_NOT_OPEN && next(s).status == DT_NOT_OPEN);
    WANT(dt_service_get_call_counts(s, &dropped) == DT_NOT_OPEN && dt_service_get_counts(s, &counts) == DT_NOT_OPEN);
    WANT(dt_service_set_life(s, 6) == DT_NOT_OPEN && dt_service_stop(s) == DT_NOT_OPEN && dt_service_wake(s) == DT_NEVER);
}

/* Opens both, the client again: it is silent. Returns the time at which the silence ends. */
static uint64_t both_open(dt_service *client, dt_service *server) {
    const struct dt_route route = {2, LINK};
    const struct dt_service_options short_ones = {sizeof short_ones - 1, 5, 2, 8, 8};
    struct dt_node_options options = node_options(1, 100, true, links, &route);
    a_closed_handle_says_so(client);
    WANT(dt_service_open(client, &params, &options, &short_ones).status == DT_INVALID);
    WANT(opens(client, 1, true) == DT_OK && opens(client, 1, false) == DT_EXISTS && opens(server, 2, false) == DT_OK);
    ports(client);
    ports(server);
    struct dt_call_result made = calls(client, 100, 1, 300, 1);
    WANT(made.status == DT_QUIET && made.quiet_until == 100 + dt_params_quiet_ms(&params) && made.call == 0);
    return made.quiet_until;
}

/* Each cause for which a call isn't made, and two calls that are. */
static void calls_are_made_or_declined(dt_service *client, uint64_t now) {
    const uint64_t first = (uint64_t)5 << 32;
    const struct dt_flow back = {2, 1, 20, 10}, plain = {1, 2, 11, 20};
    WANT(dt_service_call(client, now, &back, payload, 1, 9, 2).invalid == DT_INVALID_FLOW);
    WANT(dt_service_call(client, now, &plain, payload, 1, 9, 3).invalid == DT_INVALID_PORT);
    WANT(dt_service_call(client, now, &flow, frame, 4089, 9, 4).invalid == DT_INVALID_LENGTH);
    struct dt_call_result made = calls(client, now, 1, 0, 5);
    WANT(made.status == DT_INVALID && made.invalid == DT_INVALID_TIMEOUT);
    made = calls(client, now, MOST, 3000, user_of(0));
    WANT(made.status == DT_OK && made.call == first);
    made = calls(client, now, MOST, 3000, 6);
    WANT(made.status == DT_FULL && made.free == 4096 - 8 - MOST);
    WANT(calls(client, now, 1, 300, user_of(1)).status == DT_OK);
    WANT(calls(client, now, 1, 300, 7).status == DT_TOO_MANY_CALLS);
}

/* The first request is answered, and the second one is forgotten. */
static void requests_are_served(dt_service *server, uint64_t now) {
    struct dt_token token = {(uint64_t)5 << 32, flow};
    SIZED(dt_event, event);
    WANT(dt_service_next_event(server, came, MOST - 1, &event) == DT_BUFFER_TOO_SMALL && event.len == MOST && event.user == 0);
    event.size--;
    WANT(dt_service_next_event(server, came, MOST, &event) == DT_INVALID);
    struct next it = next(server);
    WANT(it.event.kind == DT_EVENT_REQUEST && it.event.call == token.call && it.event.user == 0 && carries(&it, payload, MOST));
    WANT(it.event.flow.source == 1 && it.event.flow.target_port == 20);
    WANT(dt_service_reply(server, now, &token, frame, 4089).invalid == DT_INVALID_LENGTH);
    WANT(dt_service_reply(server, now, &token, payload, 7).status == DT_OK && dt_service_reply(server, now, &token, payload, 7).status == DT_GONE);
    it = next(server);
    WANT(it.event.call == token.call + 1);
    token.call++;
    WANT(dt_service_forget(server, now, &token) == DT_OK && next(server).status == DT_NONE);
}

/* The life is set, and the service stopped: the call that waits has its end. */
static void a_stop_ends_calls(dt_service *client, uint64_t now) {
    SIZED(dt_node_counts, counts);
    SIZED(dt_call_counts, dropped);
    WANT(dt_service_set_life(client, 5) == DT_EXISTS && dt_service_set_life(client, 6) == DT_OK);
    struct dt_call_result made = calls(client, now, 1, 300, 8);
    WANT(made.call == (uint64_t)6 << 32 && dt_service_set_life(client, 6) == DT_EXISTS && dt_service_stop(client) == DT_OK);
    WANT(is_unsure(client, made.call, DT_CAUSE_STOPPED, 8) && next(client).status == DT_NONE);
    WANT(dt_service_tick(client, now) == DT_STOPPED && calls(client, now, 1, 9, 9).status == DT_STOPPED);
    WANT(dt_service_get_call_counts(client, &dropped) == DT_OK && memcmp(&dropped, &none, sizeof none) == 0);
    WANT(dt_service_get_counts(client, &counts) == DT_OK && counts.datagrams_refused == 0);
    WANT(dt_service_get_blocked_counts(client).closed_port == 0 && dt_service_wake(client) == DT_NEVER);
}

/* Without want of memory: each answer once. */
static void answers(dt_service *client, dt_service *server) {
    const uint64_t first = (uint64_t)5 << 32;
    const struct dt_token token = {first, flow};
    uint64_t now = both_open(client, server);
    calls_are_made_or_declined(client, now);
    WANT(dt_service_reply(server, now, &token, payload, 1).status == DT_GONE && dt_service_forget(server, now, &token) == DT_GONE);
    WANT(!carry(client, server, now));
    requests_are_served(server, now);
    WANT(!carry(server, client, now));
    struct next it = next(client);
    WANT(it.event.kind == DT_EVENT_ANSWERED && it.event.call == first && it.event.user == user_of(0) && carries(&it, payload, 7));
    WANT(next(client).status == DT_NONE && dt_service_wake(client) <= now + 300);
    WANT(dt_service_tick(client, now + 299) == DT_OK && next(client).status == DT_NONE);
    WANT(dt_service_tick(client, now + 300) == DT_OK && is_unsure(client, first + 1, DT_CAUSE_TIMEOUT, user_of(1)));
    a_stop_ends_calls(client, now + 300);
}

/* What waits at one is lost. */
static void lose(dt_service *from) {
    SIZED(dt_datagram, out);
    while (dt_service_next_datagram(from, frame, sizeof frame, &out) == DT_OK) {}
}

/* Replies that are lost are given up: the service reports the flow of their requests, once for both. */
static void replies_are_uncertain(dt_service *client, dt_service *server) {
    uint64_t now = 100;
    struct next it;
    WANT(opens(client, 1, false) == DT_OK && opens(server, 2, false) == DT_OK);
    ports(client);
    ports(server);
    for (unsigned i = 0; i < 2; i++) WANT(calls(client, now, 1, 60000, i + 1).status == DT_OK);
    WANT(!carry(client, server, now));
    while ((it = next(server)).status == DT_OK) {
        struct dt_token token = {it.event.call, it.event.flow};
        WANT(it.event.kind == DT_EVENT_REQUEST && dt_service_reply(server, now, &token, payload, 1).status == DT_OK);
    }
    for (; now < 6000; now += 100) {
        WANT(dt_service_tick(server, now) == DT_OK);
        lose(server);
    }
    it = next(server);
    WANT(it.event.kind == DT_EVENT_REPLY_UNCERTAIN && it.event.call == 0 && it.event.user == 0 && it.event.cause == 0 && carries(&it, came, 0));
    WANT(it.event.flow.source == 1 && it.event.flow.target == 2 && it.event.flow.source_port == 10 && it.event.flow.target_port == 20);
    WANT(next(server).status == DT_NONE && dt_service_tick(server, now) == DT_OK && next(server).status == DT_NONE);
    WANT(dt_service_stop(client) == DT_OK && dt_service_stop(server) == DT_OK);
}

/* The ends that a service reports: those of the calls that were made, each once. A call that found no memory may have one. */
static void ends(dt_service *s, bool *has_end, unsigned made, bool broke) {
    struct next it;
    while ((it = next(s)).status == DT_OK) {
        if (it.event.kind == DT_EVENT_REQUEST || it.event.kind == DT_EVENT_REPLY_UNCERTAIN) continue;
        uint32_t count = (uint32_t)it.event.call;
        WANT(count < made + broke && !has_end[count] && it.event.user == user_of(count));
        has_end[count] = true;
    }
    WANT(it.status == DT_NONE);
}

/* Replies to what the server is asked. Whether a reply found no memory. */
static bool replies_fail(dt_service *server, uint64_t now, bool has_failed) {
    bool fails = false;
    struct next it;
    while ((it = next(server)).status == DT_OK) {
        struct dt_token token = {it.event.call, it.event.flow};
        WANT(it.event.kind == DT_EVENT_REQUEST);
        dt_status status = dt_service_reply(server, now, &token, payload, 700).status;
        WANT(status == DT_OK || status == DT_NO_MEMORY || ((fails || has_failed) && (status == DT_STOPPED || status == DT_GONE)));
        fails = fails || status == DT_NO_MEMORY;
    }
    return fails;
}

static bool is_stopped(dt_service *s, uint64_t now) {
    const struct dt_token other = {0, flow};
    return dt_service_reply(s, now, &other, payload, 1).status == DT_STOPPED;
}

/* Makes a call. Where there is no memory for its user alone nothing changed, and it is made when it is asked again. */
static dt_status call_made(dt_service *s, uint64_t now, unsigned made) {
    SIZED(dt_node_counts, before);
    SIZED(dt_node_counts, after);
    WANT(dt_service_get_counts(s, &before) == DT_OK);
    struct dt_call_result it = calls(s, now, 500, 900, user_of(made));
    if (it.status != DT_NO_MEMORY || is_stopped(s, now)) return it.status;
    goes_on++;
    WANT(it.call == 0 && dt_service_get_counts(s, &after) == DT_OK && memcmp(&before, &after, sizeof before) == 0);
    it = calls(s, now, 500, 900, user_of(made));
    WANT(it.status == DT_OK && it.call == ((uint64_t)5 << 32 | made));
    return it.status;
}

/* Calls and replies, until a service finds no memory. Whether one did: then it is closed. */
static bool exchange_fails(dt_service *client, dt_service *server) {
    bool has_end[CALLS + 1] = {false};
    unsigned made = 0;
    dt_status first = opens(client, 1, false), second = opens(server, 2, false);
    WANT((first == DT_OK || first == DT_NO_MEMORY) && (second == DT_OK || second == DT_NO_MEMORY));
    if (first != DT_OK || second != DT_OK) return true;
    ports(client);
    ports(server);
    bool fails = false;
    for (uint64_t now = 100; now < 3000 && !fails; now += 100) {
        dt_status status = made < CALLS ? call_made(client, now, made) : (dt_status)DT_TOO_MANY_CALLS;
        WANT(status == DT_OK || status == DT_TOO_MANY_CALLS || status == DT_NO_MEMORY);
        made += status == DT_OK;
        fails = status == DT_NO_MEMORY || carry(client, server, now);
        fails = replies_fail(server, now, fails) || fails;
        if (!fails) fails = carry(server, client, now);
        if (!fails) fails = dt_service_tick(client, now) != DT_OK || dt_service_tick(server, now) != DT_OK;
        if (!fails) ends(client, has_end, made, false);
    }
    if (!fails) WANT(made == CALLS && dt_service_stop(client) == DT_OK);
    if (dt_service_tick(client, 3000) == DT_OK) WANT(dt_service_stop(client) == DT_OK);
    ends(client, has_end, made, fails);
    for (unsigned i = 0; i < made; i++) WANT(has_end[i]);
    WANT(dt_service_tick(client, 3000) == DT_STOPPED && dt_service_wake(client) == DT_NEVER);
    return fails;
}

int main(void) {
    dt_service *client = (dt_service *)malloc(dt_service_size()), *server = (dt_service *)malloc(dt_service_size());
    unsigned long told = 0;
    WANT(client != NULL && server != NULL && dt_service_align() <= 16);
    for (size_t i = 0; i < sizeof payload; i++) payload[i] = (uint8_t)(i * 31 + i / 256);
    dt_service_init(client);
    dt_service_init(server);
    answers(client, server);
    dt_service_close(client);
    dt_service_close(server);
    WANT(held == 0 && dt_service_tick(client, 0) == DT_NOT_OPEN);
    dt_service_init(client);
    dt_service_init(server);
    replies_are_uncertain(client, server);
    dt_service_close(client);
    dt_service_close(server);
    WANT(held == 0);
    do {
        fail_at++;
        requests = 0;
        dt_service_init(client);
        dt_service_init(server);
        if (exchange_fails(client, server)) told++;
        dt_service_close(client);
        dt_service_close(server);
        WANT(held == 0);
    } while (requests >= fail_at);
    printf("each of %lu requests for memory failed in turn, and %lu were told\n", fail_at - 1, told);
    WANT(told > 10 && goes_on > 0);
    free(client);
    free(server);
    return 0;
}
