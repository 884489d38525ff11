/* Objects between two nodes over the driver.
 *
 *   objects take HOST PORT LANES MAX LOG        node 1 takes objects, and logs the number of each that is what was sent
 *   objects put HOST PORT LANES OCTETS COUNT    puts COUNT objects of OCTETS octets one after another, or, with COUNT
 *                                               below 0, -COUNT at once; a line `put N MS` or `unsure N MS` for each
 *
 * Environment: DELAY_MS, the delay of the network each way (1); RTO_MS (40); FLAGS of the options (0). Octet i of an
 * object of number n is by n and i, so that the taker knows them. */
#include "deltat_udp.h"
#include <inttypes.h>
#include <signal.h>
#include <stdio.h>
#include <stdlib.h>
#include <string.h>
#include <time.h>
#include <unistd.h>

enum { FIRST_PORT = 100 };

static volatile sig_atomic_t stopped;

static void stop(int signal) { stopped = signal; }

static void die(const char *why) {
    fprintf(stderr, "objects: %s\n", why);
    exit(1);
}

static double milliseconds(void) {
    struct timespec it;
    clock_gettime(CLOCK_MONOTONIC, &it);
    return (double)it.tv_sec * 1e3 + (double)it.tv_nsec / 1e6;
}

/* The octets of an object begin with its seed, and follow from it. */
static void fill(uint8_t *octets, size_t len, uint64_t seed) {
    uint64_t state = seed;
    for (size_t i = 0; i < len; i++) {
        if (i < 8) octets[i] = (uint8_t)(seed >> (8 * i));
        else {
            if (i % 8 == 0) state = state * 6364136223846793005u + 1442695040888963407u;
            octets[i] = (uint8_t)(state >> (8 * (i % 8)));
        }
    }
}

static bool is_right(const uint8_t *octets, size_t len) {
    uint64_t seed = 0;
    for (size_t i = 0; i < 8 && i < len; i++) seed |= (uint64_t)octets[i] << (8 * i);
    uint8_t *expected = malloc(len ? len : 1);
    if (expected == NULL) die("out of memory");
    fill(expected, len, seed);
    bool right = memcmp(expected, octets, len) == 0;
    free(expected);
    return right;
}

static dt_udp *opened(uint32_t node, const char *host, const char *port, uint32_t rto) {
    uint32_t delay = (uint32_t)atoi(getenv("DELAY_MS") ? getenv("DELAY_MS") : "1");
    struct dt_udp_options options = {
        .size = sizeof options,
        .node = node,
        .host = host,
        .port = port,
        .charge = delay + 43,
        .start_as = DT_UDP_START_FIRST,
        .params = &(struct dt_params){
            .size = sizeof(struct dt_params), .mpl = delay + 43 + 40, .r = 20 * rto, .a = 5, .rto = rto,
            .probe = 2 * rto, .seg = 1400, .cap = 65536, .rcap = 65536, .window = 65536,
            .run_limit = 2147483648u, .start = 0},
        .max_peers = node == 1 ? 16 : 0,
        .flags = (uint32_t)atoi(getenv("FLAGS") ? getenv("FLAGS") : "0"),
        .max_queued = 1 << 24};
    struct dt_udp_error error;
    dt_udp *udp = dt_udp_open(&options, &error);
    if (udp == NULL) die(error.text);
    return udp;
}

static int take(char **words, uint32_t rto) {
    dt_udp *udp = opened(1, words[2], words[3], rto);
    FILE *log = fopen(words[6], "a");
    if (log == NULL ||
        dt_udp_open_objects(udp, FIRST_PORT, (uint16_t)atoi(words[4]), strtoull(words[5], NULL, 0)) != DT_OK)
        die("no lanes");
    printf("port %u\n", dt_udp_local_port(udp));
    fflush(stdout);
    while (!stopped) {
        const struct dt_udp_event *event = dt_udp_next_event(udp, 100);
        if (event->kind == DT_UDP_EVENT_FAILED) die("it failed");
        if (event->kind != DT_UDP_EVENT_OBJECT) continue;
        fprintf(log, "%s %" PRIu64 " %zu\n", is_right(event->octets, event->len) ? "whole" : "wrong", event->object,
                event->len);
        fflush(log);
    }
    fclose(log);
    dt_udp_close(udp);
    return 0;
}

static int put(char **words, uint32_t rto) {
    size_t len = strtoull(words[5], NULL, 0);
    long count = atol(words[6]), at_once = count < 0 ? -count : 1, all = count < 0 ? -count : count;
    uint32_t node = dt_udp_fresh_number();
    dt_udp *udp = opened(node, NULL, NULL, rto);
    struct dt_udp_error error;
    uint8_t *octets = malloc(len * (size_t)at_once + 1);
    if (octets == NULL || dt_udp_set_peer(udp, 1, words[2], words[3], &error) != DT_OK)
        die("no such peer, or no memory");
    if (dt_udp_open_objects(udp, FIRST_PORT, (uint16_t)atoi(words[4]), 0) != DT_OK) die("no lanes");
    double begun = milliseconds();
    for (long made = 0, over = 0; over < all;) {
        for (; made < all && made - over < at_once; made++) {
            uint8_t *own = octets + len * (size_t)(made % at_once);
            fill(own, len, (uint64_t)node << 32 | (uint64_t)made);
            begun = milliseconds();
            if (dt_udp_put_object(udp, 1, own, len, 60000).status != DT_OK) die("an object isn't put");
        }
        const struct dt_udp_event *event = dt_udp_next_event(udp, -1);
        if (event->kind == DT_UDP_EVENT_FAILED) die("it failed");
        if (event->kind != DT_UDP_EVENT_PUT_ENDED) continue;
        const char *word = event->cause == DT_OK ? "put" : event->cause == DT_FULL ? "full" : "unsure";
        printf("%s %" PRIu64 " %.1f\n", word, event->object, milliseconds() - begun);
        fflush(stdout);
        over++;
    }
    dt_udp_drain(udp, 500);
    const struct dt_udp_counts *c = dt_udp_get_counts(udp);
    fprintf(stderr, "in %" PRIu64 " out %" PRIu64 " writes %" PRIu64 " not_sent %" PRIu64 "\n", c->datagrams_in,
            c->datagrams_out, c->writes, c->not_sent);
    free(octets);
    dt_udp_close(udp);
    return 0;
}

int main(int count, char **words) {
    sigaction(SIGTERM, &(struct sigaction){.sa_handler = stop}, NULL);
    uint32_t rto = (uint32_t)atoi(getenv("RTO_MS") ? getenv("RTO_MS") : "40");
    if (count == 7 && strcmp(words[1], "take") == 0) return take(words, rto);
    if (count == 7 && strcmp(words[1], "put") == 0) return put(words, rto);
    die("usage: objects take HOST PORT LANES MAX LOG | put HOST PORT LANES OCTETS COUNT");
    return 2;
}
