/* Acknowledgements of one flow that wait together leave as one, and that one acknowledges all: a node without a driver
 * sends a message of five segments, and a driver reads them by one look. `acks`; prints how many datagrams answered. */
#include "deltat_udp.h"
#include <arpa/inet.h>
#include <stdio.h>
#include <stdlib.h>
#include <string.h>
#include <sys/socket.h>
#include <time.h>
#include <unistd.h>

#define WANT(truth) \
    do { \
        if (!(truth)) fprintf(stderr, "acks.c:%d: %s\n", __LINE__, #truth), exit(1); \
    } while (0)

enum { SEGMENTS = 5, SEG = 1000 };

static const struct dt_link LINKS[] = {{.charge = 294, .number = 1}};
static const struct dt_params PARAMS = {.size = sizeof PARAMS, .mpl = 482, .r = 4500, .a = 5, .rto = 900,
                                        .probe = 1800, .seg = SEG, .cap = 65536, .rcap = 65536, .window = 65536,
                                        .run_limit = 2147483648u};

static uint64_t now_ms(void) {
    struct timespec it;
    WANT(clock_gettime(CLOCK_BOOTTIME, &it) == 0);
    return (uint64_t)it.tv_sec * 1000 + (uint64_t)it.tv_nsec / 1000000;
}

/* A socket whose port is written as text. */
static int open_socket(char port[8]) {
    struct sockaddr_in at = {.sin_family = AF_INET, .sin_addr.s_addr = htonl(INADDR_LOOPBACK)};
    socklen_t len = sizeof at;
    int it = socket(AF_INET, SOCK_DGRAM, 0);
    WANT(it >= 0 && bind(it, (struct sockaddr *)&at, len) == 0 && getsockname(it, (struct sockaddr *)&at, &len) == 0);
    WANT(setsockopt(it, SOL_SOCKET, SO_RCVTIMEO, &(struct timeval){0, 300000}, sizeof(struct timeval)) == 0);
    snprintf(port, 8, "%u", ntohs(at.sin_port));
    return it;
}

static dt_node *open_node(void) {
    struct dt_route route = {.to = 2, .link = 1};
    struct dt_node_options options = {.size = sizeof options, .node = 1, .now = now_ms(), .links = LINKS,
                                      .link_count = 1, .routes = &route, .route_count = 1,
                                      .start_as = DT_START_FIRST};
    dt_node *it = dt_node_new();
    WANT(it && dt_node_open(it, &PARAMS, &options).status == DT_OK);
    return it;
}

static dt_udp *open_driver(const char *port) {
    struct dt_udp_options options = {.size = sizeof options, .node = 2, .host = "127.0.0.1", .params = &PARAMS,
                                     .charge = 294, .start_as = DT_UDP_START_FIRST,
                                     .flags = DT_UDP_FLAG_WITHOUT_WATCH};
    struct dt_udp_error error;
    dt_udp *it = dt_udp_open(&options, &error);
    WANT(it && dt_udp_set_peer(it, 1, "127.0.0.1", port, &error) == DT_OK && dt_udp_open_port(it, 20, 0) == DT_OK);
    return it;
}

/* Sends a message of five segments, a datagram each. */
static void send_message(int from, dt_node *node, uint16_t port) {
    static uint8_t octets[SEGMENTS * SEG], room[DT_MAX_DATAGRAM];
    struct dt_flow flow = {.source = 1, .target = 2, .source_port = 10, .target_port = 20};
    struct sockaddr_in to = {
        .sin_family = AF_INET, .sin_addr.s_addr = htonl(INADDR_LOOPBACK), .sin_port = htons(port)};
    struct dt_datagram it = {.size = sizeof it};
    int count = 0;
    WANT(dt_node_send(node, now_ms(), &flow, octets, sizeof octets, true, true).status == DT_OK);
    for (; dt_node_next_datagram(node, room, sizeof room, &it) == DT_OK; count++)
        WANT(sendto(from, room, it.len, 0, (struct sockaddr *)&to, sizeof to) == (ssize_t)it.len);
    WANT(count == SEGMENTS);
}

int main(void) {
    char port[8];
    uint8_t room[DT_MAX_DATAGRAM];
    int from = open_socket(port), answers = 0;
    dt_node *node = open_node();
    dt_udp *udp = open_driver(port);
    send_message(from, node, dt_udp_local_port(udp));
    const struct dt_udp_event *event = dt_udp_next_event(udp, 2000);
    WANT(event->kind == DT_UDP_EVENT_MESSAGE && event->len == SEGMENTS * SEG);
    while (dt_udp_next_event(udp, 20)->kind != DT_UDP_EVENT_NONE) {}
    for (ssize_t len; (len = recv(from, room, sizeof room, 0)) > 0; answers++)
        WANT(dt_node_receive(node, now_ms(), 1, room, (size_t)len, 0).status == DT_OK);
    struct dt_node_counts counts = {.size = sizeof counts};
    WANT(dt_node_get_counts(node, &counts) == DT_OK);
    printf("answered by %d\n", answers);
    WANT(counts.octets_acknowledged == SEGMENTS * SEG && answers == 1);
    dt_udp_close(udp);
    dt_node_free(node);
    close(from);
    return 0;
}
