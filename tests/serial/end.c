/* One end of a serial line for tests/serial_line.py: sends numbered messages on several flows, and writes a line for each that
 * arrives.   end PATH NODE PEER FLOWS COUNT SECONDS TURNAROUND [long]
 *
 * Messages have up to 123 octets in segments of 128, at 115,200 bits a second; with `long` up to 20,003 in segments of 8,192, at
 * 921,600.
 *
 *   got PORT NUMBER      a message whose octets are right; `wrong PORT` if they aren't
 *   uncertain PORT COUNT octets that were given up
 *   end SENT IN OUT SPOILT LATE BLOCKED UNDER_WAY */
#include "deltat_serial.h"

#include <errno.h>
#include <inttypes.h>
#include <stdio.h>
#include <stdlib.h>
#include <string.h>
#include <time.h>
#include <unistd.h>

enum { FIRST_PORT = 10, MOST = 20100, STRAY = 99, MOST_FLOWS = 16, BUFFER = 4096, LONG_RATE = 92160 };
static bool is_long;

static size_t make(uint8_t *to, uint32_t number, uint16_t port) {
    size_t len = 4 + (size_t)number * 7 % 120 * (is_long ? 166 : 1);
    memcpy(to, &number, 4);
    for (size_t i = 4; i < len; i++) to[i] = (uint8_t)(number + port + i % 3 * (i & 1)); /* with zeros and runs */
    return len;
}

static double seconds(void) {
    struct timespec it;
    clock_gettime(CLOCK_MONOTONIC, &it);
    return (double)it.tv_sec + (double)it.tv_nsec / 1e9;
}

/* With `long`, write() is a line's whose buffer has 4,096 octets: a datagram of 8,222 doesn't fit at once (-Wl,--wrap=write). */
ssize_t __real_write(int file, const void *octets, size_t len);
ssize_t __wrap_write(int file, const void *octets, size_t len);
ssize_t __wrap_write(int file, const void *octets, size_t len) {
    static double held, at;
    double now = seconds();
    ssize_t count;
    held -= (now - at) * LONG_RATE, at = now;
    if (held < 0) held = 0;
    if (is_long && len > (size_t)(BUFFER - held)) len = (size_t)(BUFFER - held);
    if (len == 0) return errno = EAGAIN, -1;
    count = __real_write(file, octets, len);
    if (count > 0) held += (double)count;
    return count;
}

static void took_in(const struct dt_serial_event *it) {
    static uint8_t right[MOST];
    uint32_t number = 0;
    if (it->len >= 4) memcpy(&number, it->octets, 4);
    if (it->len < 4 || it->len != make(right, number, it->flow.source_port) || memcmp(right, it->octets, it->len))
        printf("wrong %u\n", it->flow.source_port);
    else printf("got %u %" PRIu32 "\n", it->flow.source_port, number);
}

struct end {
    dt_serial *serial;
    uint32_t node, peer, flows, messages, sent, next[MOST_FLOWS];
    uint16_t ports[MOST_FLOWS];
    bool has_strayed;
};

/* what can be sent now; and once one to a port that nobody opened, which the guard blocks */
static void send_all(struct end *it) {
    static uint8_t octets[MOST];
    for (uint32_t i = 0; i < it->flows; i++) {
        struct dt_flow flow = {it->node, it->peer, it->ports[i], it->ports[i]};
        if (it->next[i] == it->messages) continue;
        size_t len = make(octets, it->next[i], it->ports[i]);
        if (dt_serial_send(it->serial, &flow, octets, len) == DT_OK) it->next[i]++, it->sent++;
    }
    if (it->sent > 4 && !it->has_strayed) {
        struct dt_flow stray = {it->node, it->peer, FIRST_PORT, STRAY};
        it->has_strayed = true;
        dt_serial_send(it->serial, &stray, "stray", 5);
    }
}

static struct dt_serial_options options(struct end *it, char **words) {
    struct dt_serial_options o = {.size = sizeof o, .path = words[1], .node = it->node, .peer = it->peer, .start_as = DT_START_FIRST};
    o.params = (struct dt_params){sizeof o.params, 4000, 12000, 20, 400, 800, 128, 2048, 2048, 512, 2147483648u, 4294967000u};
    if (is_long) {
        o.params = (struct dt_params){sizeof o.params, 8000, 30000, 20, 1500, 3000, 8192, 65536, 65536, 65536, 2147483648u, 4294967000u};
        o.rate = 921600;
    }
    o.ports = it->ports, o.port_count = o.max_flows = it->flows;
    o.turnaround = (uint32_t)atoi(words[7]);
    return o;
}

/* False: the line is gone. */
static bool take_event(const struct dt_serial_event *it) {
    if (it->kind == DT_SERIAL_EVENT_MESSAGE) took_in(it);
    else if (it->kind == DT_SERIAL_EVENT_REPORT) printf("uncertain %u %" PRIu32 "\n", it->flow.source_port, it->report.count);
    else if (it->kind == DT_SERIAL_EVENT_FAILED) printf("failed %d\n", it->system_error);
    return it->kind != DT_SERIAL_EVENT_FAILED;
}

/* Until all is sent and nothing was under way for 3 s, since the other end may still send; or until `over`. */
static bool run(struct end *it, double over) {
    for (double resting = seconds(); seconds() < over && seconds() - resting <= 3;) {
        if (!take_event(dt_serial_next(it->serial, 20))) return false;
        send_all(it);
        if (it->sent < it->flows * it->messages || dt_serial_under_way(it->serial) > 0) resting = seconds();
    }
    return true;
}

int main(int count, char **words) {
    struct end it = {0};
    struct dt_serial_error error;
    bool is_there;
    is_long = count == 9 && strcmp(words[8], "long") == 0;
    if (count != 8 && !is_long) return 2;
    it.node = (uint32_t)atoi(words[2]), it.peer = (uint32_t)atoi(words[3]);
    it.flows = (uint32_t)atoi(words[4]), it.messages = (uint32_t)atoi(words[5]);
    if (it.flows > MOST_FLOWS) return 2;
    for (uint32_t i = 0; i < it.flows; i++) it.ports[i] = (uint16_t)(FIRST_PORT + i);
    struct dt_serial_options o = options(&it, words);
    it.serial = dt_serial_open(&o, &error);
    if (!it.serial) return fprintf(stderr, "end: %s\n", error.text), 1;
    printf("charge %" PRIu32 "\n", dt_serial_charge(&o));
    is_there = run(&it, seconds() + atof(words[6]));
    struct dt_serial_counts got = dt_serial_get_counts(it.serial);
    if (is_there)
        printf("end %" PRIu32 " %" PRIu64 " %" PRIu64 " %" PRIu64 " %" PRIu64 " %" PRIu64 " %" PRIu64 "\n", it.sent, got.datagrams_in,
               got.datagrams_out, got.spoilt, got.late, got.blocked, dt_serial_under_way(it.serial));
    dt_serial_close(it.serial);
    return is_there ? 0 : 3;
}
