/* Node 2, which answers each message with its octets reversed: what `examples/echo.py ask` asks, in C.
 *
 *     make -C lib
 *     cc -std=gnu11 -O2 -I include examples/echo.c lib/libdeltat.a -o echo && ./echo
 *
 * It keeps the duties of deltat.h: one clock that counts while the machine sleeps, the time that a datagram waited in
 * the socket, and no datagram sent long after it left the node. Its guard admits two ports and a hundred flows. Say
 * `again` if node 2 ran less than 2 s ago. */
#include <arpa/inet.h>
#include <errno.h>
#include <poll.h>
#include <stdio.h>
#include <stdlib.h>
#include <string.h>
#include <sys/socket.h>
#include <time.h>

#include "deltat.h"

enum { LINK = 1, LATE = 20, MOST = 65536, FLOWS = 100 };

/* as `tools/params.py 250 50 --shelf 2` computes them */
static const struct dt_params PARAMS = {sizeof PARAMS, 482, 450, 5, 90, 180, 1442, 65536, 65536, 65536, 2147483648u, 0};

struct echo {
    dt_node *node;
    int wire;
    struct sockaddr_in client; /* node 1 */
    uint64_t empty_at;         /* a time at which the socket was empty */
    uint8_t message[MOST];
};

static void fail(const char *what, const char *why) {
    fprintf(stderr, "echo: %s: %s\n", what, why);
    exit(1);
}

static uint64_t milliseconds(clockid_t clock) {
    struct timespec it;
    if (clock_gettime(clock, &it)) fail("clock", strerror(errno));
    return (uint64_t)it.tv_sec * 1000 + (uint64_t)it.tv_nsec / 1000000;
}

static uint64_t now(void) { return milliseconds(CLOCK_BOOTTIME); }

/* after these the node is of no use any more */
static void stop_on(dt_status status, const char *what) {
    if (status == DT_NO_MEMORY || status == DT_STOPPED || status == DT_NOT_OPEN) fail(what, dt_status_name(status));
}

/* Puts on the wire what left the node at `at`. What is late or isn't taken counts as lost. */
static void flush(struct echo *it, uint64_t at) {
    uint8_t octets[DT_MAX_DATAGRAM];
    struct dt_datagram out = {.size = sizeof out};
    while (dt_node_next_datagram(it->node, octets, sizeof octets, &out) == DT_OK)
        if (out.to == 1 && now() - at <= LATE)
            sendto(it->wire, octets, out.len, 0, (struct sockaddr *)&it->client, sizeof it->client);
}

/* How long a datagram waited, rounded up: the lesser of the time since the kernel's stamp and that since the socket was
   empty. A stamp in the future says nothing: the wall clock was set. */
static uint32_t waited(struct msghdr *head, uint64_t most) {
    for (struct cmsghdr *it = CMSG_FIRSTHDR(head); it; it = CMSG_NXTHDR(head, it))
        if (it->cmsg_level == SOL_SOCKET && it->cmsg_type == SCM_TIMESTAMPNS) {
            struct timespec stamp;
            memcpy(&stamp, CMSG_DATA(it), sizeof stamp);
            uint64_t stamped = (uint64_t)stamp.tv_sec * 1000 + (uint64_t)stamp.tv_nsec / 1000000;
            uint64_t wall = milliseconds(CLOCK_REALTIME) + 1;
            if (stamped <= wall && wall - stamped < most) most = wall - stamped;
        }
    return most > UINT32_MAX ? UINT32_MAX : (uint32_t)most;
}

/* Passes in what waits in the socket. The clock is read before each look, so that a stop behind it makes no datagram
   younger than it is. */
static void receive(struct echo *it) {
    static uint8_t datagram[MOST];
    for (;;) {
        struct sockaddr_in from;
        union { char room[128]; struct cmsghdr aligned; } control;
        struct iovec octets = {datagram, sizeof datagram};
        struct msghdr head = {.msg_name = &from, .msg_namelen = sizeof from, .msg_iov = &octets, .msg_iovlen = 1,
                              .msg_control = &control, .msg_controllen = sizeof control};
        uint64_t looked_at = now();
        ssize_t len = recvmsg(it->wire, &head, MSG_DONTWAIT);
        if (len < 0 && (errno == EAGAIN || errno == EWOULDBLOCK)) return (void)(it->empty_at = looked_at);
        if (len < 0 && errno != EINTR) fail("socket", strerror(errno));
        if (len < 0 || from.sin_addr.s_addr != it->client.sin_addr.s_addr) continue;
        if (from.sin_port != it->client.sin_port) continue; /* a stranger */
        uint64_t at = now();
        uint32_t wait = waited(&head, at - it->empty_at);
        stop_on(dt_node_receive(it->node, at, LINK, datagram, (size_t)len, wait).status, "a datagram");
        flush(it, at);
    }
}

/* Answers a message of `len` octets on the way back. */
static void answer(struct echo *it, uint64_t at, const struct dt_flow *flow, size_t len) {
    struct dt_flow back = {flow->target, flow->source, flow->target_port, flow->source_port};
    for (size_t i = 0, j = len; i + 1 < j; i++) {
        uint8_t octet = it->message[i];
        it->message[i] = it->message[--j];
        it->message[j] = octet;
    }
    dt_status status = dt_node_send(it->node, at, &back, it->message, len, true, true).status;
    stop_on(status, "an answer");
    if (status != DT_OK) fprintf(stderr, "echo: an answer wasn't sent: %s\n", dt_status_name(status));
}

/* Answers the messages that are whole. None is longer than the buffer. */
static void serve(struct echo *it, uint64_t at) {
    struct dt_report report = {.size = sizeof report};
    struct dt_message message = {.size = sizeof message};
    dt_status status;
    while (dt_node_next_report(it->node, &report) == DT_OK)
        if (report.kind == DT_REPORT_ACCEPTED || (report.kind == DT_REPORT_RECORD_RELEASED && !report.sending))
            stop_on(dt_node_mark_readable(it->node, &report.flow), "a flow");
    do {
        status = dt_node_next_message(it->node, at, it->message, sizeof it->message, &message);
        if (status == DT_OK) answer(it, at, &message.flow, message.len);
        if (status == DT_LOST) fprintf(stderr, "echo: a message is lost: out of memory\n");
    } while (status == DT_OK || status == DT_LOST || status == DT_MORE);
    stop_on(status, "a message");
}

static void open_wire(struct echo *it) {
    struct sockaddr_in own = {.sin_family = AF_INET, .sin_port = htons(4002)};
    own.sin_addr.s_addr = htonl(INADDR_LOOPBACK);
    int yes = 1;
    it->wire = socket(AF_INET, SOCK_DGRAM, 0);
    if (it->wire < 0 || setsockopt(it->wire, SOL_SOCKET, SO_TIMESTAMPNS, &yes, sizeof yes) ||
        bind(it->wire, (struct sockaddr *)&own, sizeof own))
        fail("port 4002", strerror(errno));
    it->client = own;
    it->client.sin_port = htons(4001);
}

static void open_node(struct echo *it, bool again) {
    const struct dt_link link = {.charge = 294, .number = LINK};
    const struct dt_route route = {1, LINK};
    const struct dt_node_options options = {
        .size = sizeof options, .node = 2, .now = now(), .start_as = again ? DT_START_AGAIN : DT_START_FIRST,
        .links = &link, .link_count = 1, .routes = &route, .route_count = 1};
    const uint16_t ports[] = {10, 20};
    if (dt_abi_version() != DT_ABI_VERSION) fail("libdeltat", "another interface");
    it->node = dt_node_new();
    dt_status status = it->node ? dt_node_open(it->node, &PARAMS, &options).status : DT_NO_MEMORY;
    if (status == DT_OK) status = dt_node_enable_messages(it->node, sizeof it->message);
    if (status == DT_OK) status = dt_node_set_guard(it->node, ports, 2, false, FLOWS);
    if (status != DT_OK) fail("the node can't be opened", dt_status_name(status));
}

int main(int count, char **words) {
    static struct echo it;
    open_wire(&it);
    open_node(&it, count > 1 && !strcmp(words[1], "again"));
    for (it.empty_at = now();;) {
        uint64_t wake = dt_node_wake(it.node), at = now();
        struct pollfd wire = {.fd = it.wire, .events = POLLIN};
        int wait = wake == DT_NEVER ? -1 : wake <= at ? 1 : wake - at > 1000 ? 1000 : (int)(wake - at);
        if (poll(&wire, 1, wait) < 0 && errno != EINTR) fail("poll", strerror(errno));
        receive(&it);
        at = now();
        stop_on(dt_node_tick(it.node, at), "a tick");
        serve(&it, at);
        flush(&it, at);
    }
}
