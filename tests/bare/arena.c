/* What a node and its flows take of an arena: two nodes exchange messages that fill a flow's rooms and aren't read.
 *
 *     arena ROOM SEG LINKS MESSAGE     octets each but LINKS: rooms, segments, messages of the flow
 *
 * Writes the octets that a node has with so many links; what the flow takes at its sender, and at its receiver beside it; and
 * the most that both had at one time, while a block was copied into a greater one too. Beside each block an allocator has a
 * few octets of its own, which aren't counted. */
#include "deltat.h"

#include <stdio.h>
#include <stdlib.h>
#include <string.h>

enum { HEAD = 16, MOST_LINKS = 8, SECONDS = 3, MOST_ROOM = 65536 };

struct tried { bool ok; uint8_t *p; };
struct tried rattle_alloc(size_t size, size_t align);
struct tried rattle_realloc(uint8_t *p, size_t kept, size_t size, size_t align);
void rattle_dealloc(uint8_t *p);

static size_t held, most;

struct tried rattle_alloc(size_t size, size_t align) {
    uint8_t *it = malloc(HEAD + size);
    (void)align;
    if (!it) return (struct tried){false, NULL};
    memcpy(it, &size, sizeof size);
    held += size;
    if (held > most) most = held;
    return (struct tried){true, it + HEAD};
}

void rattle_dealloc(uint8_t *p) {
    size_t size;
    memcpy(&size, p - HEAD, sizeof size);
    held -= size;
    free(p - HEAD);
}

struct tried rattle_realloc(uint8_t *p, size_t kept, size_t size, size_t align) {
    struct tried it = rattle_alloc(size, align);
    if (!it.ok) return it;
    memcpy(it.p, p, kept < size ? kept : size);
    rattle_dealloc(p);
    return it;
}

static void need(bool is_right, const char *what) {
    if (!is_right) fprintf(stderr, "arena: %s\n", what), exit(1);
}

static dt_node *opened(uint32_t node, const struct dt_params *params, size_t links) {
    struct dt_link all[MOST_LINKS];
    struct dt_route route = {3 - node, 1};
    struct dt_node_options options = {.size = sizeof options, .node = node, .start_as = DT_START_FIRST};
    dt_node *it = aligned_alloc(64, (dt_node_size() + 63) / 64 * 64);
    need(it && links <= MOST_LINKS, "links");
    for (size_t i = 0; i < links; i++) all[i] = (struct dt_link){.charge = 50, .number = (uint16_t)(1 + i)};
    options.links = all, options.link_count = links, options.routes = &route, options.route_count = 1;
    dt_node_init(it);
    need(dt_node_open(it, params, &options).status == DT_OK, "a node isn't opened");
    return it;
}

static void forget_reports(dt_node *node) {
    struct dt_report report = {.size = sizeof report};
    while (dt_node_next_report(node, &report) == DT_OK) {}
}

static void fill(dt_node *node, uint32_t room, uint32_t message) {
    static const struct dt_flow flow = {1, 2, 10, 20};
    static uint8_t octets[MOST_ROOM];
    for (uint32_t left = room, len; left > 0; left -= len) {
        len = left < message ? left : message;
        need(dt_node_send(node, 0, &flow, octets, len, true, true).status == DT_OK, "a message isn't taken");
        forget_reports(node);
    }
}

static void exchange(dt_node *const nodes[2]) {
    uint8_t octets[DT_MAX_DATAGRAM];
    struct dt_datagram it = {.size = sizeof it};
    for (uint64_t now = 0; now < SECONDS * 1000; now += 10)
        for (int i = 0; i < 2; i++) {
            dt_node_tick(nodes[i], now);
            while (dt_node_next_datagram(nodes[i], octets, sizeof octets, &it) == DT_OK)
                dt_node_receive(nodes[!i], now, 1, octets, it.len, 0);
            forget_reports(nodes[i]);
        }
}

int main(int count, char **words) {
    uint32_t given[4], at = 0;
    if (count != 5) return 2;
    for (; at < 4; at++) given[at] = (uint32_t)strtoul(words[1 + at], NULL, 10);
    struct dt_params params = {sizeof params, 1000, 3000, 200, 500, 800, given[1], given[0], given[0], given[0], 2147483648u, 0};
    dt_node *nodes[2] = {opened(1, &params, given[2]), NULL};
    size_t node = held, two, sender;
    nodes[1] = opened(2, &params, given[2]);
    two = most = held;
    fill(nodes[0], given[0], given[3]);
    sender = held - two;
    exchange(nodes);
    printf("node: %zu\nsender: %zu\nreceiver: %zd\nmost: %zu\n", node, sender, (ssize_t)(held - two - sender), most - two);
    for (int i = 0; i < 2; i++) dt_node_close(nodes[i]), free(nodes[i]);
    need(held == 0, "memory is left after the close");
    return 0;
}
