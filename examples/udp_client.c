/* A client of examples/udp_service.c: `udp_client HOST WORD [PORT]` prints the word reversed. Its node has a fresh
 * number, so it keeps no state, and several may run at once. */
#include "deltat_udp.h"
#include <stdio.h>
#include <string.h>

int main(int count, char **words) {
    struct dt_udp_options options = {
        .size = sizeof options, .node = dt_udp_fresh_number(), .start_as = DT_UDP_START_FIRST, .life = 1,
        .role = DT_UDP_ROLE_SERVICE, .charge = 294,
        .params = &(struct dt_params){
            .size = sizeof(struct dt_params), .mpl = 482, .r = 450, .a = 5, .rto = 90, .probe = 180,
            .seg = 1408, .cap = 65536, .rcap = 65536, .window = 65536, .run_limit = 2147483648u, .start = 0}};
    struct dt_udp_error error = {.text = "usage: udp_client HOST WORD [PORT]"};
    dt_udp *udp = count < 3 ? NULL : dt_udp_open(&options, &error);
    if (udp == NULL || dt_udp_set_peer(udp, 2, words[1], count > 3 ? words[3] : "4002", &error) != DT_OK)
        return fprintf(stderr, "udp_client: %s\n", error.text), 1;
    dt_udp_open_port(udp, 10, DT_PORT_CALLER);
    struct dt_flow flow = {options.node, 2, 10, 20};
    struct dt_call_result made = dt_udp_call(udp, &flow, words[2], strlen(words[2]), 5000);
    const struct dt_udp_event *event = dt_udp_next_event(udp, made.status == DT_OK ? -1 : 0);
    bool answered = event->kind == DT_UDP_EVENT_ANSWERED;
    if (answered) printf("%.*s\n", (int)event->len, (const char *)event->octets);
    else fprintf(stderr, "udp_client: %s\n", event->kind == DT_UDP_EVENT_UNSURE ? "no answer in time" : "not called");
    dt_udp_drain(udp, 1000);
    dt_udp_close(udp);
    return answered ? 0 : 1;
}
