/* What there is room for: calls, messages and objects are refused when their settings are reached, an event says when
 * there is room again, and a drain waits until nothing is outstanding.
 *
 *   room PORT    both ends in this process, at PORT and PORT + 1; prints `calls N waited N refused N` and so on */
#include "deltat_udp.h"
#include <inttypes.h>
#include <stdio.h>
#include <stdlib.h>
#include <string.h>
#include <time.h>

#define WANT(truth) \
    do { \
        if (!(truth)) fprintf(stderr, "room.c:%d: %s\n", __LINE__, #truth), exit(1); \
    } while (0)

enum { CALLS = 200, OCTETS = 3000, MOST_WAITING = 60000, MESSAGES = 60, MOST_OBJECTS = 100000, PATIENCE_MS = 30000 };

static uint64_t milliseconds(void) {
    struct timespec it;
    clock_gettime(CLOCK_MONOTONIC, &it);
    return (uint64_t)it.tv_sec * 1000 + (uint64_t)it.tv_nsec / 1000000;
}

static dt_udp *opened(uint32_t node, int port, uint8_t role) {
    char at[8], its[8];
    snprintf(at, sizeof at, "%d", port + (int)node - 1);
    snprintf(its, sizeof its, "%d", port + 2 - (int)node);
    struct dt_udp_options options = {
        .size = sizeof options,
        .node = node,
        .host = "127.0.0.1",
        .port = at,
        .charge = 294,
        .params = &(struct dt_params){
            .size = sizeof(struct dt_params), .mpl = 482, .r = 2000, .a = 5, .rto = 90, .probe = 180, .seg = 1408,
            .cap = 65536, .rcap = 65536, .window = 65536, .run_limit = 2147483648u, .start = 0},
        .start_as = DT_UDP_START_FIRST,
        .life = 1,
        .role = role,
        .max_waiting = MOST_WAITING};
    struct dt_udp_error error;
    dt_udp *udp = dt_udp_open(&options, &error);
    WANT(udp && dt_udp_set_peer(udp, 3 - node, "127.0.0.1", its, &error) == DT_OK);
    return udp;
}

/* --- calls: some enter, some wait in the driver, and then they are refused until there is room */

struct calls {
    uint32_t made, waited, refused, rooms, answered;
    bool ended[CALLS + 1];
};

static void answer_all(dt_udp *service) {
    for (const struct dt_udp_event *event; (event = dt_udp_next_event(service, 0))->kind != DT_UDP_EVENT_NONE;) {
        WANT(event->kind == DT_UDP_EVENT_REQUEST || event->kind == DT_UDP_EVENT_ROOM);
        if (event->kind == DT_UDP_EVENT_REQUEST)
            WANT(dt_udp_reply(service, &event->token, event->octets, 4).status == DT_OK);
    }
}

static void take_end(struct calls *it, const struct dt_udp_event *event) {
    uint32_t number = 0;
    if (event->kind == DT_UDP_EVENT_ROOM) it->rooms++;
    if (event->kind == DT_UDP_EVENT_NONE || event->kind == DT_UDP_EVENT_ROOM) return;
    WANT(event->kind == DT_UDP_EVENT_ANSWERED && event->len == 4);
    memcpy(&number, event->octets, 4);
    WANT(number == event->user && number <= CALLS && !it->ended[number]);
    it->ended[number] = true;
    it->answered++;
}

/* Makes calls until one is refused. A number beyond those of the library is of one that waits. */
static void make(dt_udp *client, struct calls *it) {
    static uint8_t octets[OCTETS];
    while (it->made < CALLS) {
        uint32_t number = it->made + 1;
        struct dt_udp_call_options options = {
            .size = sizeof options, .timeout_ms = PATIENCE_MS, .flow = {1, 2, 10, 20}, .user = number};
        memcpy(octets, &number, 4);
        struct dt_call_result made = dt_udp_make_call(client, &options, octets, OCTETS);
        if (made.status == DT_FULL) {
            it->refused++;
            return;
        }
        WANT(made.status == DT_OK);
        it->made++;
        it->waited += made.call >> 63;
    }
}

static void calls(int port) {
    dt_udp *client = opened(1, port, DT_UDP_ROLE_SERVICE), *service = opened(2, port, DT_UDP_ROLE_SERVICE);
    WANT(dt_udp_open_port(client, 10, DT_PORT_CALLER) == DT_OK);
    WANT(dt_udp_open_port(service, 20, DT_PORT_SERVICE) == DT_OK);
    struct calls it = {0};
    struct dt_udp_call_options wrong = {.size = 1, .timeout_ms = 1};
    WANT(dt_udp_make_call(client, &wrong, NULL, 0).status == DT_INVALID);
    make(client, &it);
    WANT(it.refused == 1 && it.waited > 0 && it.made < CALLS);
    WANT(dt_udp_drain(client, 0) == DT_NONE);
    bool may = false;
    for (uint64_t end = milliseconds() + PATIENCE_MS; it.answered < CALLS && milliseconds() < end;) {
        uint32_t rooms = it.rooms;
        take_end(&it, dt_udp_next_event(client, 1));
        may = may || it.rooms > rooms;
        if (may && it.made < CALLS) {
            uint32_t refused = it.refused;
            make(client, &it);
            may = it.refused == refused;
        }
        answer_all(service);
    }
    WANT(it.answered == CALLS && it.rooms > 0 && it.rooms <= it.refused);
    printf("calls %u waited %u refused %u rooms %u\n", it.answered, it.waited, it.refused, it.rooms);
    dt_udp_close(client);
    dt_udp_close(service);
}

/* --- messages, and the drain */

static void messages(int port) {
    dt_udp *one = opened(1, port, DT_UDP_ROLE_NODE), *two = opened(2, port, DT_UDP_ROLE_NODE);
    WANT(dt_udp_open_port(one, 20, 0) == DT_OK && dt_udp_open_port(two, 20, 0) == DT_OK);
    static uint8_t octets[OCTETS];
    uint32_t sent = 0, got = 0, refused = 0, rooms = 0;
    WANT(dt_udp_drain(one, 0) == DT_OK);
    bool may = true;
    for (uint64_t end = milliseconds() + PATIENCE_MS; got < MESSAGES && milliseconds() < end;) {
        while (may && sent < MESSAGES) {
            octets[0] = (uint8_t)sent;
            dt_status status = dt_udp_send(one, &(struct dt_flow){1, 2, 20, 20}, octets, OCTETS).status;
            WANT(status == DT_OK || status == DT_FULL);
            may = status == DT_OK;
            sent += may;
            refused += !may;
        }
        if (dt_udp_next_event(one, 1)->kind == DT_UDP_EVENT_ROOM) rooms++, may = true;
        for (const struct dt_udp_event *event; (event = dt_udp_next_event(two, 0))->kind != DT_UDP_EVENT_NONE;) {
            WANT(event->kind == DT_UDP_EVENT_MESSAGE && event->len == OCTETS && event->octets[0] == (uint8_t)got);
            got++;
        }
    }
    WANT(got == MESSAGES && refused > 0 && rooms > 0);
    dt_udp_close(two);
    /* nobody acknowledges the last one: it is uncertain after r, and then nothing is outstanding */
    WANT(dt_udp_send(one, &(struct dt_flow){1, 2, 20, 20}, octets, OCTETS).status == DT_OK);
    uint64_t begun = milliseconds();
    WANT(dt_udp_drain(one, 300) == DT_NONE && milliseconds() - begun >= 300);
    WANT(dt_udp_drain(one, PATIENCE_MS) == DT_OK && dt_udp_drain(one, 0) == DT_OK);
    printf("messages %u refused %u rooms %u\n", got, refused, rooms);
    dt_udp_close(one);
}

/* --- objects: one that is greater than the setting is refused, and one that was taken leaves its room */

static uint8_t put(dt_udp *from, dt_udp *to, size_t len, uint32_t *taken) {
    static uint8_t octets[MOST_OBJECTS + 1];
    struct dt_udp_put_result made = dt_udp_put_object(from, 2, octets, len, PATIENCE_MS);
    WANT(made.status == DT_OK);
    for (uint64_t end = milliseconds() + PATIENCE_MS; milliseconds() < end;) {
        const struct dt_udp_event *event = dt_udp_next_event(from, 1);
        if (event->kind == DT_UDP_EVENT_PUT_ENDED && event->object == made.object) return event->cause;
        *taken += dt_udp_next_event(to, 0)->kind == DT_UDP_EVENT_OBJECT;
    }
    return DT_NONE;
}

static void objects(int port) {
    dt_udp *one = opened(1, port, DT_UDP_ROLE_NODE), *two = opened(2, port, DT_UDP_ROLE_NODE);
    uint32_t taken = 0;
    WANT(dt_udp_put_object(one, 2, "x", 1, 1000).status == DT_INVALID);
    WANT(dt_udp_open_objects(one, 100, 4, 0) == DT_OK && dt_udp_open_objects(two, 100, 4, MOST_OBJECTS) == DT_OK);
    WANT(dt_udp_open_objects(two, 100, 4, 1) == DT_EXISTS);
    WANT(put(one, two, MOST_OBJECTS + 1, &taken) == DT_FULL && taken == 0);
    for (uint32_t i = 1; i <= 5; i++) WANT(put(one, two, MOST_OBJECTS, &taken) == DT_OK && taken == i);
    WANT(put(one, two, MOST_OBJECTS + 1, &taken) == DT_FULL && taken == 5);
    printf("objects %u\n", taken);
    dt_udp_close(one);
    dt_udp_close(two);
}

int main(int count, char **words) {
    WANT(count == 2);
    int port = atoi(words[1]);
    calls(port);
    messages(port);
    objects(port);
    return 0;
}
