/* The service of counter.py in C: a message `NAME NUMBER` adds the number to the name's sum and is answered by
 * `NAME SUM`.
 *
 *     make -C lib && cc -std=gnu11 -O2 -I include examples/counter.c lib/libdeltat.a -o counter && ./counter
 *     printf 'apples 3\npears 5\napples 4\n' | tools/dtcat.py 1@4001 2@4002 --linger 1
 *     ./counter again                  if it ran less than a second before */
#include <arpa/inet.h>
#include <errno.h>
#include <poll.h>
#include <stdio.h>
#include <stdlib.h>
#include <string.h>
#include <sys/socket.h>
#include <time.h>

#include "deltat.h"

enum { LINK = 1, PORT = 10, LATE = 20, MOST = 1024, NAMES = 1000, FLOWS = 10 };

static struct { char name[32]; long long sum; } sums[NAMES];
static char message[MOST + 1];
static uint64_t empty_at; /* a time at which the socket was empty */

static uint64_t milliseconds(clockid_t clock) {
    struct timespec it;
    if (clock_gettime(clock, &it)) perror("counter: clock"), exit(1);
    return (uint64_t)it.tv_sec * 1000 + (uint64_t)it.tv_nsec / 1000000;
}

static uint64_t now(void) { return milliseconds(CLOCK_BOOTTIME); }

static void stop_on(dt_status status) {
    if (status != DT_NO_MEMORY && status != DT_STOPPED && status != DT_NOT_OPEN) return;
    fprintf(stderr, "counter: %s\n", dt_status_name(status));
    exit(1);
}

/* The socket is connected to node 1, so nobody else's datagrams arrive. What is late or isn't taken counts as lost. */
static void flush(int wire, dt_node *node, uint64_t at) {
    uint8_t octets[DT_MAX_DATAGRAM];
    struct dt_datagram out = {.size = sizeof out};
    while (dt_node_next_datagram(node, octets, sizeof octets, &out) == DT_OK)
        if (now() - at <= LATE) send(wire, octets, out.len, 0);
}

/* How long a datagram waited, rounded up: the lesser of the time since the kernel's stamp and that since the socket was
   empty. A stamp in the future says nothing: the wall clock was set. */
static uint32_t waited(struct msghdr *head, uint64_t most) {
    for (struct cmsghdr *it = CMSG_FIRSTHDR(head); it; it = CMSG_NXTHDR(head, it))
        if (it->cmsg_level == SOL_SOCKET && it->cmsg_type == SCM_TIMESTAMPNS) {
            struct timespec stamp;
            memcpy(&stamp, CMSG_DATA(it), sizeof stamp);
            uint64_t stamped = (uint64_t)stamp.tv_sec * 1000 + (uint64_t)stamp.tv_nsec / 1000000;
            uint64_t wall = milliseconds(CLOCK_REALTIME) + 1;
            if (stamped <= wall && wall - stamped < most) most = wall - stamped;
        }
    return most > UINT32_MAX ? UINT32_MAX : (uint32_t)most;
}

/* The clock is read before each look, so that a stop behind it makes no datagram younger than it is. */
static void receive(int wire, dt_node *node) {
    uint8_t datagram[DT_MAX_DATAGRAM + 1];
    union { char room[128]; struct cmsghdr aligned; } control;
    for (;;) {
        struct iovec octets = {datagram, sizeof datagram};
        struct msghdr head = {.msg_iov = &octets, .msg_iovlen = 1};
        head.msg_control = &control, head.msg_controllen = sizeof control;
        uint64_t looked_at = now();
        ssize_t len = recvmsg(wire, &head, MSG_DONTWAIT);
        if (len < 0 && (errno == EAGAIN || errno == EWOULDBLOCK)) return (void)(empty_at = looked_at);
        if (len < 0 && (errno == ECONNREFUSED || errno == EINTR)) continue; /* node 1 isn't there yet */
        if (len < 0) perror("counter: socket"), exit(1);
        uint64_t at = now();
        stop_on(dt_node_receive(node, at, LINK, datagram, (size_t)len, waited(&head, at - empty_at)).status);
        flush(wire, node, at);
    }
}

static void answer(dt_node *node, uint64_t at, const struct dt_flow *flow) {
    struct dt_flow back = {flow->target, flow->source, flow->target_port, flow->source_port};
    char name[32], text[64] = "that isn't a name and a number";
    long long number;
    if (sscanf(message, "%31s %lld", name, &number) == 2)
        for (int i = 0; i < NAMES; i++)
            if (!sums[i].name[0] || !strcmp(sums[i].name, name)) {
                strcpy(sums[i].name, name);
                snprintf(text, sizeof text, "%s %lld", name, sums[i].sum += number);
                break;
            }
    stop_on(dt_node_send(node, at, &back, (uint8_t *)text, strlen(text), true, true).status);
}

/* Answers the messages that are whole. The library drops one that is too long. */
static void serve(dt_node *node, uint64_t at) {
    struct dt_report report = {.size = sizeof report};
    struct dt_message it = {.size = sizeof it};
    dt_status status;
    while (dt_node_next_report(node, &report) == DT_OK)
        if (report.kind == DT_REPORT_ACCEPTED || (report.kind == DT_REPORT_RECORD_RELEASED && !report.sending))
            stop_on(dt_node_mark_readable(node, &report.flow));
    do {
        status = dt_node_next_message(node, at, (uint8_t *)message, MOST, &it);
        if (status == DT_OK) message[it.len] = '\0', answer(node, at, &it.flow);
    } while (status == DT_OK || status == DT_LOST || status == DT_MORE);
    stop_on(status);
}

/* Opens node 2 with what `tools/params.py 50 20` tells, as counter.py and dtcat.py have it; the charge is less by the
   wait in the socket, which is measured here. */
static dt_node *opened(bool again) {
    const struct dt_network network = DT_NETWORK(50000, 20000);
    struct dt_params params = {.size = sizeof params};
    struct dt_link link = {.number = LINK};
    const struct dt_route route = {1, LINK};
    const struct dt_node_options options = {
        .size = sizeof options, .node = 2, .now = now(), .start_as = again ? DT_START_AGAIN : DT_START_FIRST,
        .links = &link, .link_count = 1, .routes = &route, .route_count = 1};
    const uint16_t port = PORT;
    if (dt_params_for(&network, &params, &link.charge) != DT_OK) return NULL;
    link.charge -= 20;
    dt_node *node = dt_node_new();
    bool is_open = node && dt_abi_version() == DT_ABI_VERSION &&
                   dt_node_open(node, &params, &options).status == DT_OK &&
                   dt_node_enable_messages(node, MOST) == DT_OK &&
                   dt_node_set_guard(node, &port, 1, false, FLOWS) == DT_OK;
    return is_open ? node : NULL;
}

int main(int count, char **words) {
    struct sockaddr_in own = {.sin_family = AF_INET, .sin_port = htons(4002)}, peer;
    int wire = socket(AF_INET, SOCK_DGRAM, 0), yes = 1;
    own.sin_addr.s_addr = htonl(INADDR_LOOPBACK);
    peer = own, peer.sin_port = htons(4001);
    if (wire < 0 || setsockopt(wire, SOL_SOCKET, SO_TIMESTAMPNS, &yes, sizeof yes) ||
        bind(wire, (struct sockaddr *)&own, sizeof own) || connect(wire, (struct sockaddr *)&peer, sizeof peer))
        return perror("counter: port 4002"), 1;
    dt_node *node = opened(count > 1 && !strcmp(words[1], "again"));
    if (!node) return fprintf(stderr, "counter: the node can't be opened\n"), 1;
    for (empty_at = now();;) {
        uint64_t wake = dt_node_wake(node), at = now();
        struct pollfd it = {wire, POLLIN, 0};
        int wait = wake == DT_NEVER ? -1 : wake <= at ? 1 : wake - at > 1000 ? 1000 : (int)(wake - at);
        if (poll(&it, 1, wait) < 0 && errno != EINTR) return perror("counter: poll"), 1;
        receive(wire, node);
        stop_on(dt_node_tick(node, at = now()));
        serve(node, at);
        flush(wire, node, at);
    }
}
