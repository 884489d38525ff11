/* Calls of a flow that is full, and one on another flow of the same peer: tests/watch.py, `turns`.
 *
 *   turns PORT PEER_PORT   makes COUNT calls of OCTETS octets on one flow to the service of ends.c, and when AFTER of them
 *                          are answered one call on another flow; prints `before N`: how many of the first flow were
 *                          answered before that one, and `late 1` if a call outlived its timeout */
#include "deltat_udp.h"
#include <stdio.h>
#include <stdlib.h>

enum { COUNT = 100, OCTETS = 32768, AFTER = 5, TIMEOUT_MS = 60000 };

static const struct dt_params PARAMS = {.size = sizeof PARAMS, .mpl = 800, .r = 1200, .a = 2, .rto = 150, .probe = 50,
                                        .seg = 1408, .cap = 65536, .rcap = 65536, .window = 65536,
                                        .run_limit = 2147483648u};

static void want(bool truth, const char *what) {
    if (truth) return;
    fprintf(stderr, "turns: %s\n", what);
    exit(1);
}

static dt_udp *opened(char **words) {
    struct dt_udp_options options = {.size = sizeof options, .node = 1, .host = "127.0.0.1", .port = words[1],
                                     .params = &PARAMS, .charge = 300, .role = DT_UDP_ROLE_SERVICE,
                                     .start_as = DT_UDP_START_FIRST, .life = 1};
    struct dt_udp_error error;
    dt_udp *udp = dt_udp_open(&options, &error);
    want(udp && dt_udp_set_peer(udp, 2, "127.0.0.1", words[2], &error) == DT_OK, error.text);
    for (uint16_t port = 10; port < 12; port++)
        want(dt_udp_open_port(udp, port, DT_PORT_CALLER) == DT_OK, "a port isn't opened");
    return udp;
}

int main(int count, char **words) {
    static uint8_t room[OCTETS];
    if (count < 3) return 2;
    dt_udp *udp = opened(words);
    struct dt_flow full = {1, 2, 10, 20}, other = {1, 2, 11, 20};
    printf("ready\n");
    fflush(stdout);
    for (int i = 0; i < COUNT; i++)
        want(dt_udp_call(udp, &full, room, sizeof room, TIMEOUT_MS).status == DT_OK, "a call isn't made");
    /* (it waits behind those of its own flow, and ends all the same when its time is over) */
    uint64_t hasty = dt_udp_call(udp, &full, room, sizeof room, 1).call, call = 0;
    unsigned answered = 0, before = COUNT, hasty_at = COUNT;
    for (unsigned ended = 0; ended < COUNT + 2;) {
        if (call == 0 && answered == AFTER) call = dt_udp_call(udp, &other, "one more", 8, TIMEOUT_MS).call;
        const struct dt_udp_event *it = dt_udp_next_event(udp, 10000);
        want(it->kind == DT_UDP_EVENT_ANSWERED || it->kind == DT_UDP_EVENT_UNSURE, "nothing ends any more");
        ended++;
        if (it->call == hasty) hasty_at = answered;
        else if (it->call == call) before = answered;
        else answered += it->kind == DT_UDP_EVENT_ANSWERED;
    }
    printf("before %u late %u answered %u\n", before, hasty_at > AFTER, answered);
    dt_udp_close(udp);
    return 0;
}
