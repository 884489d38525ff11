/* Two drivers in two threads of one process, at the same time: a service and its client. `threads COUNT` prints
 * `answered N`. Built with the thread sanitizer. */
#include "deltat_udp.h"
#include <pthread.h>
#include <stdatomic.h>
#include <stdio.h>
#include <stdlib.h>

struct end {
    dt_udp *udp;
    atomic_bool over;
    uint32_t count, answered;
};

static struct end ends[2];

static void die(const char *why) {
    fprintf(stderr, "threads: %s\n", why);
    exit(1);
}

static dt_udp *opened(uint32_t node, uint8_t kind, uint16_t port) {
    struct dt_udp_options options = {
        .size = sizeof options, .node = node, .host = "127.0.0.1", .role = DT_UDP_ROLE_SERVICE, .charge = 294,
        .life = 1,
        .params = &(struct dt_params){
            .size = sizeof(struct dt_params), .mpl = 482, .r = 3000, .a = 5, .rto = 90, .probe = 180,
            .seg = 1408, .cap = 65536, .rcap = 65536, .window = 65536, .run_limit = 2147483648u,
            .start = 0}, .start_as = DT_UDP_START_FIRST,
        .max_peers = node == 2};
    struct dt_udp_error error;
    dt_udp *udp = dt_udp_open(&options, &error);
    if (udp == NULL) die(error.text);
    if (dt_udp_open_port(udp, port, kind) != DT_OK) die("no port");
    return udp;
}

static void *serve(void *data) {
    struct end *it = data;
    while (!atomic_load(&it->over)) {
        const struct dt_udp_event *event = dt_udp_next_event(it->udp, 50);
        if (event->kind == DT_UDP_EVENT_FAILED) die("the service failed");
        if (event->kind == DT_UDP_EVENT_REQUEST) dt_udp_reply(it->udp, &event->token, event->octets, event->len);
    }
    return NULL;
}

static void *ask(void *data) {
    struct end *it = data;
    struct dt_flow flow = {1, 2, 10, 20};
    for (uint32_t i = 0; i < it->count; i++) {
        if (dt_udp_call(it->udp, &flow, &i, sizeof i, 10000).status != DT_OK) die("a call is declined");
        const struct dt_udp_event *event = dt_udp_next_event(it->udp, -1);
        if (event->kind == DT_UDP_EVENT_ANSWERED && event->len == sizeof i) it->answered++;
    }
    return NULL;
}

int main(int count, char **words) {
    struct dt_udp_error error;
    char port[8];
    pthread_t serving, asking;
    ends[0].udp = opened(2, DT_PORT_SERVICE, 20);
    ends[1].udp = opened(1, DT_PORT_CALLER, 10);
    ends[1].count = count > 1 ? (uint32_t)atoi(words[1]) : 100;
    snprintf(port, sizeof port, "%u", dt_udp_local_port(ends[0].udp));
    if (dt_udp_set_peer(ends[1].udp, 2, "127.0.0.1", port, &error) != DT_OK) die(error.text);
    if (pthread_create(&serving, NULL, serve, &ends[0]) || pthread_create(&asking, NULL, ask, &ends[1]))
        die("no thread");
    pthread_join(asking, NULL);
    atomic_store(&ends[0].over, true);
    pthread_join(serving, NULL);
    dt_udp_close(ends[0].udp);
    dt_udp_close(ends[1].udp);
    printf("answered %u\n", ends[1].answered);
    return 0;
}
