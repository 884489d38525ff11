/* Node 2, a service that answers each request with its octets reversed, for whoever asks: examples/udp_client.c does.
 *
 *     make -C lib
 *     cc -std=c11 -I include examples/udp_service.c lib/libdeltat-udp.a lib/libdeltat.a -o udp_service && ./udp_service
 *
 * Words: a port, and a folder for the state of the node. */
#include "deltat_udp.h"
#include <stdio.h>

int main(int count, char **words) {
    struct dt_udp_options options = {
        .size = sizeof options, .node = 2, .port = count > 1 ? words[1] : "4002",
        .state = count > 2 ? words[2] : "node-2",
        .role = DT_UDP_ROLE_SERVICE, .max_peers = 1000, .charge = 294,
        .params = &(struct dt_params){
            .size = sizeof(struct dt_params), .mpl = 482, .r = 450, .a = 5, .rto = 90, .probe = 180,
            .seg = 1408, .cap = 65536, .rcap = 65536, .window = 65536, .run_limit = 2147483648u,
            .start = 0}}; /* by tools/params.py 250 50 --shelf 2 --mtu 1466 */
    struct dt_udp_error error;
    dt_udp *udp = dt_udp_open(&options, &error);
    if (udp == NULL) return fprintf(stderr, "udp_service: %s\n", error.text), 1;
    dt_udp_open_port(udp, 20, DT_PORT_SERVICE);
    for (;;) {
        const struct dt_udp_event *event = dt_udp_next_event(udp, -1);
        if (event->kind == DT_UDP_EVENT_FAILED) return fprintf(stderr, "udp_service: status %u\n", event->cause), 1;
        if (event->kind != DT_UDP_EVENT_REQUEST) continue;
        uint8_t answer[65528];
        for (size_t i = 0; i < event->len; i++) answer[i] = event->octets[event->len - 1 - i];
        dt_udp_reply(udp, &event->token, answer, event->len);
    }
}
