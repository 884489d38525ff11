/* What both programs share. */
#include "common.h"
#include <signal.h>
#include <stdarg.h>
#include <sys/signalfd.h>

void die(const char *format, ...) {
    va_list words;
    va_start(words, format);
    fprintf(stderr, "blocks: ");
    vfprintf(stderr, format, words);
    fprintf(stderr, "\n");
    va_end(words);
    exit(1);
}

void die_of_errno(const char *what) { die("%s: %s", what, strerror(errno)); }

void *memory(void *got) {
    if (got == NULL) die("out of memory");
    return got;
}

struct network network_of(const char *word) {
    double delay = -1, round_trip = -1;
    struct dt_network network = DT_NETWORK(0, 0);
    struct network it = {.params = {.size = sizeof it.params}};
    (void)sscanf(word, "%lf,%lf,%u", &delay, &round_trip, &network.mtu);
    bool is_some = delay >= 0 && delay < 60000 && round_trip >= 0 && round_trip < 60000;
    network.delay_us = is_some ? (uint64_t)(delay * 1000) : 0;
    network.round_trip_us = is_some ? (uint64_t)(round_trip * 1000) : 0;
    if (!is_some || dt_udp_params_for(&network, &it.params, &it.charge) != DT_OK)
        die("%s: is no DELAY,ROUND-TRIP[,MTU] for which there are parameters", word);
    return it;
}

struct address address_of(char *word) {
    char *colon = strrchr(word, ':');
    if (colon == NULL) die("%s: is no HOST:PORT", word);
    *colon = 0;
    return (struct address){word, colon + 1};
}

int signals_fd(void) {
    sigset_t ends;
    sigemptyset(&ends);
    sigaddset(&ends, SIGTERM);
    sigaddset(&ends, SIGINT);
    int fd = sigprocmask(SIG_BLOCK, &ends, NULL) == 0 ? signalfd(-1, &ends, SFD_CLOEXEC | SFD_NONBLOCK) : -1;
    if (fd < 0) die_of_errno("signalfd");
    return fd;
}

dt_udp *udp_open(const struct dt_udp_options *options, uint16_t first_port, uint16_t ports, uint8_t kind) {
    struct dt_udp_error error;
    dt_udp *udp = dt_udp_open(options, &error);
    if (udp == NULL) die("%s", error.text);
    if (dt_udp_fd(udp) < 0) die_of_errno("dt_udp_fd");
    for (uint16_t i = 0; i < ports; i++)
        if (dt_udp_open_port(udp, first_port + i, kind) != DT_OK) die("port %d isn't opened", first_port + i);
    return udp;
}

void udp_judge(const struct dt_udp_event *event) {
    if (event->kind == DT_UDP_EVENT_FAILED) die("the driver failed: %s", dt_status_name(event->cause));
    if (event->kind == DT_UDP_EVENT_TOO_BIG) die("datagrams don't fit the path: lower the MTU");
    if (event->kind == DT_UDP_EVENT_ALARM) fprintf(stderr, "blocks: alarm %u of node %u\n", event->cause, event->peer);
}
