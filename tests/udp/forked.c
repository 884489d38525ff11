/* A driver in a forked child: every call is refused there, and the parent's goes on. Both ends are in this program.
 * `forked PORT PORT`; prints `refused` for the child and `answered` for the parent. */
#include "deltat_udp.h"
#include <stdio.h>
#include <stdlib.h>
#include <string.h>
#include <sys/wait.h>
#include <unistd.h>

#define WANT(truth) \
    do { \
        if (!(truth)) fprintf(stderr, "forked.c:%d: %s\n", __LINE__, #truth), _exit(1); \
    } while (0)

static dt_udp *opened(uint32_t node, const char *port, uint32_t peer, const char *peer_port) {
    struct dt_udp_options options = {.size = sizeof options,
                                     .node = node,
                                     .host = "127.0.0.1",
                                     .port = port,
                                     .role = DT_UDP_ROLE_SERVICE,
                                     .params = &(struct dt_params){
                                         .size = sizeof(struct dt_params), .mpl = 482, .r = 450, .a = 5,
                                         .rto = 90, .probe = 180, .seg = 1408, .cap = 65536, .rcap = 65536,
                                         .window = 65536, .run_limit = 2147483648u, .start = 0},
                                     .charge = 294,
                                     .start_as = DT_UDP_START_FIRST,
                                     .life = 1};
    struct dt_udp_error error;
    dt_udp *udp = dt_udp_open(&options, &error);
    WANT(udp);
    WANT(dt_udp_set_peer(udp, peer, "127.0.0.1", peer_port, &error) == DT_OK);
    return udp;
}

static bool answered(dt_udp *client, dt_udp *service) {
    struct dt_flow flow = {1, 2, 10, 20};
    WANT(dt_udp_call(client, &flow, "hello", 5, 5000).status == DT_OK);
    for (int i = 0; i < 5000; i++) {
        const struct dt_udp_event *event = dt_udp_next_event(service, 1);
        if (event->kind == DT_UDP_EVENT_REQUEST)
            WANT(dt_udp_reply(service, &event->token, event->octets, event->len).status == DT_OK);
        WANT(event->kind != DT_UDP_EVENT_FAILED);
        event = dt_udp_next_event(client, 1);
        if (event->kind == DT_UDP_EVENT_ANSWERED) return event->len == 5 && memcmp(event->octets, "hello", 5) == 0;
    }
    return false;
}

static void in_child(dt_udp *client) {
    struct dt_flow flow = {1, 2, 10, 20};
    struct dt_token token = {1, {2, 1, 20, 10}};
    struct dt_udp_error error;
    const struct dt_udp_event *event = dt_udp_next_event(client, 0);
    WANT(event->kind == DT_UDP_EVENT_FAILED && event->cause == DT_NOT_OPEN);
    WANT(dt_udp_call(client, &flow, "child", 5, 1000).status == DT_NOT_OPEN);
    WANT(dt_udp_send(client, &flow, "child", 5).status == DT_NOT_OPEN);
    WANT(dt_udp_reply(client, &token, "child", 5).status == DT_NOT_OPEN);
    WANT(dt_udp_forget(client, &token) == DT_NOT_OPEN);
    WANT(dt_udp_set_peer(client, 3, "127.0.0.1", "1", &error) == DT_NOT_OPEN);
    WANT(dt_udp_open_port(client, 11, DT_PORT_CALLER) == DT_NOT_OPEN);
    WANT(dt_udp_drain(client, 10) == DT_NOT_OPEN);
    dt_udp_flush(client);
    dt_udp_close(client);
}

int main(int count, char **words) {
    if (count != 3) return 2;
    dt_udp *client = opened(1, words[1], 2, words[2]), *service = opened(2, words[2], 1, words[1]);
    WANT(dt_udp_open_port(client, 10, DT_PORT_CALLER) == DT_OK);
    WANT(dt_udp_open_port(service, 20, DT_PORT_SERVICE) == DT_OK);
    WANT(dt_udp_fd(client) >= 0);
    WANT(answered(client, service));
    pid_t child = fork();
    if (child == 0) {
        in_child(client);
        printf("refused\n");
        fflush(stdout);
        _exit(0);
    }
    int status = 1;
    WANT(child > 0 && waitpid(child, &status, 0) == child && status == 0);
    WANT(answered(client, service));
    printf("answered\n");
    dt_udp_close(client);
    dt_udp_close(service);
    return 0;
}
