/* What a program's own calls of a driven service made leaves with its own time, although the driver makes a call later,
 * before anything left: `stamps`; prints what the trailers say, in us. The peer is a socket of this program. */
#include "deltat_udp.h"
#include <arpa/inet.h>
#include <inttypes.h>
#include <stdio.h>
#include <stdlib.h>
#include <string.h>
#include <sys/socket.h>
#include <time.h>
#include <unistd.h>

#define WANT(truth) \
    do { \
        if (!(truth)) fprintf(stderr, "stamps.c:%d: %s\n", __LINE__, #truth), exit(1); \
    } while (0)

enum { MADE = 12, MADE_OCTETS = 6, BETWEEN_US = 15000 }; /* where a trailer says when its frame was made */

static const uint8_t OWN[] = {1};
static const struct dt_link LINKS[] = {{.charge = 294, .number = 1}};
static const struct dt_params PARAMS = {.size = sizeof PARAMS, .mpl = 482, .r = 450, .a = 5, .rto = 90,
                                        .probe = 180, .seg = 1408, .cap = 65536, .rcap = 65536, .window = 65536,
                                        .run_limit = 2147483648u};

static uint64_t now_us(void) {
    struct timespec it;
    WANT(clock_gettime(CLOCK_BOOTTIME, &it) == 0);
    return (uint64_t)it.tv_sec * 1000000 + (uint64_t)it.tv_nsec / 1000;
}

static int open_peer(char port[8]) {
    struct sockaddr_in at = {.sin_family = AF_INET, .sin_addr.s_addr = htonl(INADDR_LOOPBACK)};
    socklen_t len = sizeof at;
    int it = socket(AF_INET, SOCK_DGRAM, 0);
    WANT(it >= 0 && bind(it, (struct sockaddr *)&at, len) == 0 && getsockname(it, (struct sockaddr *)&at, &len) == 0);
    WANT(setsockopt(it, SOL_SOCKET, SO_RCVTIMEO, &(struct timeval){5, 0}, sizeof(struct timeval)) == 0);
    snprintf(port, 8, "%u", ntohs(at.sin_port));
    return it;
}

static dt_service *open_service(void) {
    struct dt_route route = {.to = 2, .link = 1};
    struct dt_node_options options = {.size = sizeof options, .node = 1, .now = now_us() / 1000, .links = LINKS,
                                      .link_count = 1, .routes = &route, .route_count = 1,
                                      .start_as = DT_START_FIRST};
    struct dt_service_options limits = {
        .size = sizeof limits, .life = 1, .max_calls = 10, .max_requests = 10, .max_requests_per_flow = 10};
    dt_service *it = dt_service_new();
    WANT(it && dt_service_open(it, &PARAMS, &options, &limits).status == DT_OK);
    WANT(dt_service_set_port(it, 10, DT_PORT_CALLER) == DT_OK && dt_service_set_port(it, 11, DT_PORT_CALLER) == DT_OK);
    return it;
}

static dt_udp *drive(dt_service *service, const char *port) {
    struct dt_udp_options options = {.size = sizeof options, .node = 1, .host = "127.0.0.1", .params = &PARAMS};
    struct dt_udp_driven driven = {.size = sizeof driven, .service = service, .links = LINKS, .link_count = 1};
    struct dt_route route = {.to = 2, .link = 1};
    struct dt_udp_error error;
    dt_udp *it = dt_udp_drive(&driven, &options, &error);
    WANT(it && dt_udp_set_neighbour(it, &route, "127.0.0.1", port, &error) == DT_OK);
    return it;
}

/* When the next frame was made, as its trailer says. */
static uint64_t next_made(int peer) {
    uint8_t room[2048];
    uint64_t made = 0;
    ssize_t len = recv(peer, room, sizeof room, 0);
    WANT(len > DT_UDP_TRAILER);
    for (int i = 0; i < MADE_OCTETS; i++) made = made << 8 | room[len - DT_UDP_TRAILER + MADE + i];
    return made;
}

int main(void) {
    char port[8];
    int peer = open_peer(port);
    dt_service *service = open_service();
    dt_udp *udp = drive(service, port);
    struct dt_udp_batch batch = {0};
    struct dt_flow own = {.source = 1, .target = 2, .source_port = 10, .target_port = 20}, drivers = own;
    drivers.source_port = 11;
    WANT(dt_udp_next_batch(udp, 0, &batch) == DT_OK);
    WANT(dt_service_call(service, now_us() / 1000, &own, OWN, sizeof OWN, 5000, 0).status == DT_OK);
    uint64_t after = now_us();
    usleep(BETWEEN_US);
    uint64_t before = now_us();
    WANT(dt_udp_call(udp, &drivers, "driver's", 8, 5000).status == DT_OK);
    dt_udp_flush(udp);
    uint64_t first = next_made(peer), second = next_made(peer);
    printf("own %" PRId64 " driver's %" PRId64 "\n", (int64_t)(first - after), (int64_t)(second - before));
    WANT(first <= after);   /* not younger than it is */
    WANT(second >= before - 1000 && second <= now_us());
    dt_udp_close(udp);
    dt_service_free(service);
    close(peer);
    return 0;
}
