#include <deltat.h>
#include <stdio.h>

static dt_node *opened(uint32_t number, uint32_t peer) {
    struct dt_network network = DT_NETWORK(20000, 10000); /* a link of 20 ms, a round trip of 10 ms */
    struct dt_params params = {.size = sizeof params};
    struct dt_link link = {.number = 1};
    struct dt_route route = {.to = peer, .link = 1};
    if (dt_params_for(&network, &params, &link.charge) != DT_OK) return NULL;
    struct dt_node_options options = {sizeof options, number, 0, &link, 1, &route, 1, DT_START_FIRST};
    dt_node *node = dt_node_new();
    return node && dt_node_open(node, &params, &options).status == DT_OK ? node : NULL;
}

int main(void) {
    uint8_t octets[DT_MAX_DATAGRAM];
    struct dt_flow flow = {.source = 1, .source_port = 10, .target = 2, .target_port = 20};
    struct dt_datagram out = {.size = sizeof out};
    dt_node *one = opened(1, 2), *two = opened(2, 1);
    if (!one || !two || dt_node_send(one, 0, &flow, (const uint8_t *)"hello", 5, true, true).status != DT_OK) return 1;
    while (dt_node_next_datagram(one, octets, sizeof octets, &out) == DT_OK) /* your wire, which takes 5 ms */
        dt_node_receive(two, 5, out.link, octets, out.len, 0);
    struct dt_read_result it = dt_node_read(two, 5, &flow, octets, sizeof octets);
    return it.status != DT_OK || printf("%.*s\n", (int)it.len, (const char *)octets) < 0;
}
