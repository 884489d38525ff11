/* Many clients that a service has never heard of: each opens a driver, makes one call to node 2, and goes.
 *
 *   crowd HOST PORT FIRST COUNT MANY    nodes FIRST to FIRST + COUNT - 1, MANY of them at once
 *
 * Prints `answered N unsure N wrong N`. */
#include "deltat_udp.h"
#include <stdio.h>
#include <stdlib.h>
#include <string.h>
#include <sys/epoll.h>
#include <time.h>
#include <unistd.h>

enum { LINGER_MS = 10 };

struct client {
    dt_udp *udp;
    uint32_t node;
    uint64_t ended_at; /* or 0 */
};

static uint32_t answered, unsure, wrong;

static uint64_t milliseconds(void) {
    struct timespec it;
    clock_gettime(CLOCK_MONOTONIC, &it);
    return (uint64_t)it.tv_sec * 1000 + (uint64_t)it.tv_nsec / 1000000;
}

static void die(const char *why) {
    fprintf(stderr, "crowd: %s\n", why);
    exit(1);
}

static void begin(struct client *it, uint32_t node, char **at, int many) {
    struct dt_udp_options options = {.size = sizeof options,
                                     .node = node,
                                     .host = strcmp(at[0], "127.0.0.1") ? NULL : at[0],
                                     .role = DT_UDP_ROLE_SERVICE,
                                     .charge = 294,
                                     .life = 1,
                                     .params = &(struct dt_params){
                                         .size = sizeof(struct dt_params), .mpl = 482, .r = 2000, .a = 5,
                                         .rto = 90, .probe = 180, .seg = 1408, .cap = 65536, .rcap = 65536,
                                         .window = 65536, .run_limit = 2147483648u, .start = 0},
                                     .start_as = DT_UDP_START_FIRST,
                                     .flags = DT_UDP_FLAG_WITHOUT_SEGMENTS};
    struct dt_udp_error error;
    *it = (struct client){.udp = dt_udp_open(&options, &error), .node = node};
    if (it->udp == NULL || dt_udp_set_peer(it->udp, 2, at[0], at[1], &error) != DT_OK) die(error.text);
    dt_udp_open_port(it->udp, 10, DT_PORT_CALLER);
    struct epoll_event wanted = {.events = EPOLLIN, .data.ptr = it};
    if (epoll_ctl(many, EPOLL_CTL_ADD, dt_udp_fd(it->udp), &wanted)) die("epoll");
    struct dt_flow flow = {node, 2, 10, 20};
    if (dt_udp_call(it->udp, &flow, &node, sizeof node, 30000).status != DT_OK) die("a call is declined");
    dt_udp_flush(it->udp);
}

static void step(struct client *it) {
    const struct dt_udp_event *event;
    while ((event = dt_udp_next_event(it->udp, 0))->kind != DT_UDP_EVENT_NONE) {
        if (event->kind == DT_UDP_EVENT_FAILED) die("a client failed");
        if (event->kind == DT_UDP_EVENT_ANSWERED) {
            uint8_t expected[4];
            for (int i = 0; i < 4; i++) expected[i] = ((uint8_t *)&it->node)[3 - i];
            if (event->len == 4 && memcmp(event->octets, expected, 4) == 0) answered++;
            else wrong++;
        } else if (event->kind == DT_UDP_EVENT_UNSURE) unsure++;
        else continue;
        it->ended_at = milliseconds();
    }
}

/* A client goes when it had its answer, and time to acknowledge it. */
static bool goes(struct client *it) {
    if (it->udp == NULL || it->ended_at == 0 || milliseconds() < it->ended_at + LINGER_MS) return false;
    dt_udp_close(it->udp);
    it->udp = NULL;
    return true;
}

int main(int count, char **words) {
    if (count != 6) die("usage: crowd HOST PORT FIRST COUNT MANY");
    uint32_t node = (uint32_t)atoi(words[3]), end = node + (uint32_t)atoi(words[4]), size = (uint32_t)atoi(words[5]),
             left = 0;
    struct client *all = calloc(size, sizeof *all);
    int many = epoll_create1(0);
    if (all == NULL || many < 0) die("out of memory");
    while (left < size && node < end) begin(&all[left++], node++, words + 1, many);
    while (left > 0) {
        struct epoll_event ready[64];
        int found = epoll_wait(many, ready, 64, LINGER_MS / 2);
        for (int i = 0; i < found; i++) step(ready[i].data.ptr);
        for (struct client *it = all; it < all + size; it++) {
            if (!goes(it)) continue;
            if (node < end) begin(it, node++, words + 1, many);
            else left--;
        }
    }
    printf("answered %u unsure %u wrong %u\n", answered, unsure, wrong);
    free(all);
    return 0;
}
