/* Services that a program opened by deltat.h, and the driver drives: a client makes calls, many under way, and a
 * service answers them, both by dt_udp_next_batch, in one thread. `driven CALLS`; prints `answered CALLS`, and how many
 * events one batch had at most. The keeper and the hooks are called, and what can't be done is refused. If the system
 * refuses a call it ends with 1 and says why a driver isn't opened, or with 3 and says why one failed. */
#include "deltat_udp.h"
#include <stdio.h>
#include <stdlib.h>
#include <string.h>
#include <time.h>

#define WANT(truth) \
    do { \
        if (!(truth)) fprintf(stderr, "driven.c:%d: %s\n", __LINE__, #truth), exit(1); \
    } while (0)

static const struct dt_link LINKS[] = {{.charge = 294, .number = 7}};

enum { ITEMS = 64, ROOM = 2 * DT_MAX_PAYLOAD, UNDER_WAY = 100, LINK = 7 };

static const struct dt_params PARAMS = {.size = sizeof PARAMS, .mpl = 4000, .r = 9000, .a = 5, .rto = 90,
                                        .probe = 180, .seg = 1442, .cap = 65536, .rcap = 65536, .window = 65536,
                                        .run_limit = 2147483648u};

/* One end: its service, and what its batches are read into. */
struct end {
    dt_service *service;
    dt_udp *udp;
    struct dt_udp_keeper keeper;
    struct dt_udp_hooks hooks;
    struct dt_udp_batch batch;
    struct dt_udp_item items[ITEMS];
    uint8_t octets[ROOM];
    uint32_t heard[DT_UDP_MAX_HEARD];
    unsigned extended, received, most;
    bool full; /* the keeper's folder can't be written any more */
};

static uint64_t now_ms(void) {
    struct timespec it;
    WANT(clock_gettime(CLOCK_BOOTTIME, &it) == 0);
    return (uint64_t)it.tv_sec * 1000 + (uint64_t)it.tv_nsec / 1000000;
}

static bool extend(void *user, uint64_t at) {
    struct end *it = user;
    it->extended++;
    if (!it->full) it->keeper.until = at + 1000;
    return !it->full;
}

static dt_status receive(void *user, const struct dt_udp_datagram *it) {
    struct end *end = user;
    end->received++;
    WANT(it->link == LINK);
    return dt_service_receive(end->service, it->now, it->link, it->octets, it->len, it->waited_ms).status;
}

static dt_status tick(void *user, uint64_t now) { return dt_service_tick(((struct end *)user)->service, now); }
static uint64_t wake(void *user) { return dt_service_wake(((struct end *)user)->service); }
static void not_sent(void *user) { (void)user; }

static dt_status next_datagram(void *user, void *room, struct dt_datagram *out) {
    return dt_service_next_datagram(((struct end *)user)->service, room, DT_MAX_DATAGRAM, out);
}

static struct dt_udp_options options_of(uint32_t node) {
    return (struct dt_udp_options){
        .size = sizeof(struct dt_udp_options), .node = node, .host = "127.0.0.1", .params = &PARAMS};
}

static void open_service(struct end *it, uint32_t node, uint16_t port, uint8_t kind) {
    struct dt_route route = {.to = 3 - node, .link = LINK};
    struct dt_node_options options = {.size = sizeof options, .node = node, .now = now_ms(), .links = LINKS,
                                      .link_count = 1, .routes = &route, .route_count = 1,
                                      .start_as = DT_START_FIRST};
    struct dt_service_options limits = {
        .size = sizeof limits, .life = 1, .max_calls = 1000, .max_requests = 1000, .max_requests_per_flow = 1000};
    it->service = dt_service_new();
    WANT(it->service && dt_service_open(it->service, &PARAMS, &options, &limits).status == DT_OK);
    WANT(dt_service_set_port(it->service, port, kind) == DT_OK);
}

static void drive(struct end *it, uint32_t node, bool hooked) {
    struct dt_udp_options options = options_of(node);
    struct dt_udp_error error;
    it->keeper = (struct dt_udp_keeper){.extend = extend, .user = it};
    it->hooks = (struct dt_udp_hooks){receive, tick, wake, next_datagram, not_sent, it};
    struct dt_udp_driven driven = {.size = sizeof driven, .service = it->service, .keeper = &it->keeper,
                                   .links = LINKS, .link_count = 1,
                                   .hooks = hooked ? &it->hooks : NULL};
    it->udp = dt_udp_drive(&driven, &options, &error);
    if (it->udp == NULL) fprintf(stderr, "driven: %s\n", error.text), exit(1);
    it->batch = (struct dt_udp_batch){
        .items = it->items, .octets = it->octets, .max_items = ITEMS, .size = ROOM, .heard = it->heard};
}

static void join(struct end *it, const struct end *to, uint32_t node) {
    char port[8];
    struct dt_udp_error error;
    struct dt_route route = {.to = node, .link = LINK};
    snprintf(port, sizeof port, "%u", dt_udp_local_port(to->udp));
    WANT(dt_udp_set_neighbour(it->udp, &route, "127.0.0.1", port, &error) == DT_OK);
    WANT(dt_udp_set_neighbour(it->udp, &route, "127.0.0.1", port, &error) == DT_OK); /* (again: it stays) */
}

/* Ends the program if a driver failed. */
static void check(struct end *it, dt_status status) {
    if (status == DT_OK) return;
    WANT(status == DT_NOT_OPEN || status == DT_NO_MEMORY || status == DT_STOPPED);
    fprintf(stderr, "driven: failed: status %u, %s\n", status, strerror(dt_udp_system_error(it->udp)));
    exit(3);
}

/* One batch of the service: each request is answered by its own octets. */
static void serve(struct end *it) {
    check(it, dt_udp_next_batch(it->udp, 1, &it->batch));
    if (it->batch.count > it->most) it->most = it->batch.count;
    for (uint32_t i = 0; i < it->batch.count; i++) {
        const struct dt_udp_item *item = &it->items[i];
        struct dt_token token = {.call = item->call, .flow = item->flow};
        if (item->kind == DT_UDP_EVENT_TOO_BIG) continue;
        WANT(item->kind == DT_UDP_EVENT_REQUEST && item->at + item->len <= it->batch.used);
        check(it, dt_udp_reply(it->udp, &token, it->octets + item->at, item->len).status);
    }
}

/* Calls that are under way: the number of each one's octets. */
struct waiting {
    uint64_t call;
    uint32_t number;
};

static unsigned ended(struct end *it, struct waiting *all, unsigned count) {
    check(it, dt_udp_next_batch(it->udp, 1, &it->batch));
    for (uint32_t i = 0; i < it->batch.count; i++) {
        uint32_t number;
        if (it->items[i].kind == DT_UDP_EVENT_TOO_BIG) continue; /* (a system call that was made to fail) */
        WANT(it->batch.heard_count > 0 && it->heard[0] == 2);
        WANT(it->items[i].kind == DT_UDP_EVENT_ANSWERED && it->items[i].len == sizeof number);
        memcpy(&number, it->octets + it->items[i].at, sizeof number);
        unsigned k = 0;
        while (k < count && all[k].call != it->items[i].call) k++;
        WANT(k < count && all[k].number == number);
        all[k] = all[--count];
    }
    return count;
}

static void exchange(struct end *client, struct end *service, uint32_t calls) {
    struct waiting all[UNDER_WAY];
    struct dt_flow flow = {.source = 1, .target = 2, .source_port = 10, .target_port = 20};
    unsigned count = 0;
    uint64_t end = now_ms() + 50000;
    for (uint32_t made = 0; made < calls || count > 0;) {
        for (; made < calls && count < UNDER_WAY; made++, count++) {
            struct dt_call_result it = dt_udp_call(client->udp, &flow, &made, sizeof made, 30000);
            check(client, it.status);
            all[count] = (struct waiting){it.call, made};
        }
        count = ended(client, all, count);
        serve(service);
        WANT(now_ms() < end);
    }
}

/* What isn't a driven node is refused, and nothing of it stays open. */
static void refusals(struct end *client) {
    struct dt_udp_options options = options_of(9);
    struct dt_udp_error error;
    struct dt_route route = {.to = 1, .link = LINK};
    struct dt_udp_driven none = {.size = sizeof none}, small = {.size = 4, .service = client->service};
    WANT(dt_udp_drive(&none, &options, &error) == NULL && error.status == DT_INVALID);
    WANT(dt_udp_drive(&small, &options, &error) == NULL && error.status == DT_INVALID);
    options.size = 4;
    small.size = sizeof small;
    WANT(dt_udp_drive(&small, &options, &error) == NULL && error.status == DT_INVALID);
    options = options_of(9);
    options.start_as = DT_UDP_START_FIRST;
    dt_udp *own = dt_udp_open(&options, &error);
    WANT(own && dt_udp_set_neighbour(own, &route, "127.0.0.1", "1", &error) == DT_INVALID);
    WANT(dt_udp_next_batch(own, 0, &client->batch) == DT_INVALID && client->batch.count == 0);
    dt_udp_close(own);
    WANT(dt_udp_set_neighbour(client->udp, &route, "no.such.name.invalid", "1", &error) == DT_INVALID);
}

/* A keeper that refuses ends the driver before the input. */
static void refused_by_keeper(struct end *client) {
    struct dt_flow flow = {.source = 1, .target = 2, .source_port = 10, .target_port = 20};
    client->full = true;
    client->keeper.until = 0;
    WANT(dt_udp_call(client->udp, &flow, "x", 1, 1000).status == DT_NOT_OPEN);
    WANT(dt_udp_next_batch(client->udp, 0, &client->batch) == DT_NOT_OPEN && client->batch.count == 0);
    WANT(dt_udp_system_error(client->udp) == 0);
    struct dt_node_counts counts = {.size = sizeof counts};
    WANT(dt_service_get_counts(client->service, &counts) == DT_OK); /* (the handle is the program's still) */
}

int main(int count, char **words) {
    WANT(count == 2);
    uint32_t calls = (uint32_t)strtoul(words[1], NULL, 10);
    struct end *client = calloc(1, sizeof *client), *service = calloc(1, sizeof *service);
    WANT(client && service);
    open_service(client, 1, 10, DT_PORT_CALLER);
    open_service(service, 2, 20, DT_PORT_SERVICE);
    drive(client, 1, false);
    drive(service, 2, true);
    join(client, service, 2);
    join(service, client, 1);
    exchange(client, service, calls);
    WANT(client->keeper.noted > 0 && client->keeper.noted <= client->keeper.until && service->received > 0);
    WANT(service->extended > 0 && client->extended > 0);
    printf("answered %u most %u\n", calls, service->most);
    refusals(client);
    refused_by_keeper(client);
    for (struct end **it = (struct end *[]){client, service, NULL}; *it; it++) {
        dt_udp_close((*it)->udp);
        dt_service_free((*it)->service);
        free(*it);
    }
    return 0;
}
