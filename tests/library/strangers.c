/* What a node makes of datagrams that no node of its kind sends.
 *
 *     strangers datagrams N        N datagrams by chance: no call stops, and of 100,000 or more the memory that is resident
 *                                  at the end is what it was after a tenth of them
 *     strangers guard N FLOWS      the same at a node whose guard lets FLOWS of them in: no more are made, the others are
 *                                  counted, the memory is what it was after the first FLOWS, and a port that isn't open
 *                                  lets none in
 *     strangers messages N         N flows, each of which has a message and then half of one for an inbox, and goes: the
 *                                  memory at the end is what it was after a tenth of them
 *     strangers flows N ROOM       each datagram opens another flow, from one peer, at a node that holds ROOM octets of each:
 *                                  prints what that takes, and how long the tick that releases them
 *
 * Ends with 0 where all is so, else it says what isn't and ends with 1. */
#include "calls.h"
#include <inttypes.h>
#include <malloc.h>
#include <stdio.h>
#include <stdlib.h>
#include <string.h>
#include <time.h>
#include <unistd.h>

enum { LINK = 1, ME = 2, PEER = 1, PORTS = 3, GROWTH = 2 << 20, MANY = 100000 };

static uint64_t state = 88172645463325252u, now, taken, accepted, answered;
static uint8_t datagram[DT_MAX_DATAGRAM + 1], frame[DT_MAX_DATAGRAM], came[65536];
static dt_node *node;

/* a number below n, drawn */
static uint32_t drawn(uint32_t n) {
    state ^= state << 13;
    state ^= state >> 7;
    state ^= state << 17;
    return (uint32_t)(state >> 32) % n;
}

static void stop(const char *what, unsigned status) {
    fprintf(stderr, "strangers: %s: status %u after %" PRIu64 " datagrams\n", what, status, taken);
    exit(1);
}

static void put(uint8_t *at, uint32_t value, unsigned octets) {
    while (octets-- > 0) *at++ = (uint8_t)(value >> 8 * octets);
}

/* A packet of a flow to here: its kind, its flags, its number and so many octets of data. How long it is. */
static size_t packet(uint16_t from, uint16_t to, uint8_t kind, uint8_t flags, uint32_t number, size_t len) {
    put(datagram, len > 1024 || kind == 4 ? 2 : 1, 1);
    put(datagram + 1, 1, 1);
    put(datagram + 2, (uint32_t)(14 + len), 2);
    put(datagram + 4, 900, 4);
    put(datagram + 8, PEER, 4);
    put(datagram + 12, ME, 4);
    put(datagram + 16, kind, 1);
    put(datagram + 17, flags, 1);
    put(datagram + 18, from, 2);
    put(datagram + 20, to, 2);
    put(datagram + 22, number, 4);
    put(datagram + 26, kind == 2 ? drawn(65537) : 0, 4);
    return 30 + len;
}

/* a datagram by chance: any octets, a packet, or a packet of which one octet is another */
static size_t any(void) {
    uint32_t kind = drawn(8);
    size_t len = drawn(16) == 0 ? drawn(sizeof datagram + 1) : drawn(64);
    if (kind == 0) {
        for (size_t i = 0; i < len; i++) datagram[i] = (uint8_t)drawn(256);
        return len;
    }
    if (len > 8192) len = 8192;
    uint8_t what = (uint8_t)(drawn(4) == 0 ? 1 + drawn(4) : 1);
    if (what == 1 && len == 0) len = 1;
    size_t all = packet((uint16_t)drawn(PORTS), (uint16_t)drawn(PORTS), what, what == 1 ? (uint8_t)drawn(8) : 0, drawn(4) == 0 ? drawn(UINT32_MAX) : drawn(5000), what == 1 ? len : 0);
    if (kind < 3) datagram[drawn((uint32_t)all)] = (uint8_t)drawn(256);
    return kind == 3 ? drawn((uint32_t)all + 1) : all;
}

/* resident memory in octets */
static uint64_t resident(void) {
    uint64_t all, pages;
    FILE *it = fopen("/proc/self/statm", "r");
    if (it == NULL || fscanf(it, "%" SCNu64 " %" SCNu64, &all, &pages) != 2) stop("/proc/self/statm can't be read", 0);
    fclose(it);
    return pages * (uint64_t)sysconf(_SC_PAGESIZE);
}

static double seconds(void) {
    struct timespec it;
    clock_gettime(CLOCK_MONOTONIC, &it);
    return (double)it.tv_sec + 1e-9 * (double)it.tv_nsec;
}

static void opens(uint32_t room) {
    struct dt_params params = {sizeof params, 1000, 3000, 200, 100, 800, 1400, 4096, room, 4096, 2147483648u, 0};
    const struct dt_link link = {90, 0, LINK, 0};
    const struct dt_route route = {PEER, LINK};
    struct dt_node_options options = node_options(ME, now, false, &link, &route);
    node = (dt_node *)malloc(dt_node_size());
    if (node == NULL) stop("no memory", 0);
    dt_node_init(node);
    struct dt_open_result it = dt_node_open(node, &params, &options);
    if (it.status != DT_OK) stop("opening", it.status);
}

/* takes all that waits, and reads what was accepted */
static void take_all(void) {
    SIZED(dt_report, report);
    SIZED(dt_datagram, out);
    while (dt_node_next_datagram(node, frame, sizeof frame, &out) == DT_OK) answered++;
    while (dt_node_next_report(node, &report) == DT_OK) {
        if (report.kind != DT_REPORT_ACCEPTED) continue;
        accepted++;
        while (dt_node_read(node, now, &report.flow, came, 1 + drawn(sizeof came)).status == DT_OK) {}
    }
}

static void arrives(size_t len) {
    uint8_t status = dt_node_receive(node, now, LINK, datagram, len, 0).status;
    taken++;
    if (status != DT_OK && status != DT_MALFORMED && status != DT_EXPIRED) stop("a datagram", status);
}

static void datagrams(uint64_t count) {
    uint64_t early = 0;
    double begun = seconds();
    opens(4096);
    while (taken < count) {
        arrives(any());
        take_all();
        /* records go after some seconds: so as many stand in each part */
        if (taken % 200 == 0) now += taken % 20000 == 0 ? 8000 : 1;
        if (taken == count / 10) early = resident();
    }
    uint64_t late = resident();
    printf("%" PRIu64 " datagrams in %.1f s, %" PRIu64 " accepted, %" PRIu64 " answered; resident %" PRIu64 " KiB after a tenth, %" PRIu64 " KiB at the end\n",
           taken, seconds() - begun, accepted, answered, early / 1024, late / 1024);
    if (count >= MANY && late > early + GROWTH) stop("the memory grew", 0);
}

static void flows(uint64_t count, uint32_t room) {
    uint64_t before = resident(), most = 0;
    double begun = seconds(), slowest = 0;
    opens(room);
    for (; taken < count;) {
        double at = seconds();
        size_t len = packet((uint16_t)(taken >> 16), (uint16_t)taken, 1, 7, 0, 1);
        uint8_t status = dt_node_receive(node, now, LINK, datagram, len, 0).status;
        if (status == DT_NO_MEMORY) {
            printf("no memory: the node is spent after %" PRIu64 " flows of %" PRIu32 " octets each, with %" PRIu64 " KiB\n", taken, room, (resident() - before) / 1024);
            return;
        }
        if (status != DT_OK) stop("a flow", status);
        taken++;
        take_all();
        if (seconds() - at > slowest) slowest = seconds() - at;
    }
    most = resident();
    printf("%" PRIu64 " flows of %" PRIu32 " octets each in %.1f s, the slowest %.1f ms: %" PRIu64 " KiB, %" PRIu64 " octets a flow\n",
           count, room, seconds() - begun, 1000 * slowest, (most - before) / 1024, (most - before) / count);
    fflush(stdout);
    begun = seconds();
    now += 86400000;
    if (dt_node_tick(node, now) != DT_OK) stop("a tick", 0);
    take_all();
    dt_node_close(node);
    malloc_trim(0);
    printf("released by one tick of %.2f s: %" PRIu64 " KiB when the node is closed\n", seconds() - begun, (resident() - before) / 1024);
}

static void guarded(uint64_t count, uint32_t most) {
    const uint16_t port = 1;
    uint64_t early = 0;
    opens(4096);
    if (dt_node_set_guard(node, &port, 1, false, most) != DT_OK) stop("the guard", 0);
    for (uint8_t status; taken < count; taken++) {
        /* the last port of all flows is 1, which is open */
        size_t len = packet((uint16_t)taken, 1, 1, 7, 0, 1);
        put(datagram + 8, PEER + 10 * (uint32_t)(taken >> 16), 4);
        status = dt_node_receive(node, now, LINK, datagram, len, 0).status;
        if (status != (taken < most ? DT_OK : DT_BLOCKED)) stop("a flow", status);
        take_all();
        if (taken == most) early = resident();
    }
    struct dt_blocked_counts kept = dt_node_get_blocked_counts(node);
    if (kept.closed_port != 0 || kept.too_many_flows != count - most || accepted != most) stop("the count", 0);
    if (resident() > early + GROWTH) stop("the memory grew", 0);
    /* a flow that has a receiver goes on; another port is closed; and both again where all are open */
    if (dt_node_receive(node, now, LINK, datagram, packet(0, 1, 1, 7, 0, 1), 0).status != DT_OK) stop("a flow that stands", 0);
    if (dt_node_receive(node, now, LINK, datagram, packet(0, 2, 1, 7, 0, 1), 0).status != DT_BLOCKED) stop("a closed port", 0);
    if (dt_node_get_blocked_counts(node).closed_port != 1) stop("the count of closed ports", 0);
    if (dt_node_set_guard(node, &port, 0, true, UINT32_MAX) != DT_OK) stop("no guard", 0);
    if (dt_node_receive(node, now, LINK, datagram, packet(0, 2, 1, 7, 0, 1), 0).status != DT_OK) stop("all ports", 0);
    printf("%" PRIu64 " flows, of which %" PRIu32 " came in\n", count, most);
}

static void messages(uint64_t count) {
    uint64_t early = 0, whole = 0;
    SIZED(dt_report, report);
    SIZED(dt_datagram, out);
    SIZED(dt_message, it);
    dt_status taking;
    opens(64);
    if (dt_node_enable_messages(node, 100) != DT_OK) stop("an inbox", 0);
    for (; taken < count; now += 20) {
        /* a data run of two packets: a message, and what begins one */
        for (uint32_t i = 0; i < 2; i++) {
            size_t len = packet((uint16_t)taken, (uint16_t)(taken >> 16), 1, i == 0 ? 7 : 2, i, 1);
            uint8_t status = dt_node_receive(node, now, LINK, datagram, len, 0).status;
            if (status != DT_OK) stop("a packet", status);
        }
        taken++;
        while (dt_node_next_datagram(node, frame, sizeof frame, &out) == DT_OK) answered++;
        while (dt_node_next_report(node, &report) == DT_OK)
            if ((report.kind == DT_REPORT_ACCEPTED || (report.kind == DT_REPORT_RECORD_RELEASED && !report.sending)) && dt_node_mark_readable(node, &report.flow) != DT_OK) stop("a flow", 0);
        while ((taking = dt_node_next_message(node, now, came, sizeof came, &it)) == DT_OK) whole++;
        if (taking != DT_NONE) stop("a message", taking);
        if (taken == count / 10) early = resident();
    }
    uint64_t late = resident();
    printf("%" PRIu64 " flows with half a message each, %" PRIu64 " whole ones; resident %" PRIu64 " KiB after a tenth, %" PRIu64 " KiB at the end\n", taken, whole,
           early / 1024, late / 1024);
    if (whole != taken) stop("messages", 0);
    if (late > early + GROWTH) stop("the memory grew", 0);
}

int main(int argc, char **words) {
    if (argc >= 3 && !strcmp(words[1], "datagrams")) datagrams(strtoull(words[2], NULL, 10));
    else if (argc >= 4 && !strcmp(words[1], "flows")) flows(strtoull(words[2], NULL, 10), (uint32_t)strtoul(words[3], NULL, 10));
    else if (argc >= 4 && !strcmp(words[1], "guard")) guarded(strtoull(words[2], NULL, 10), (uint32_t)strtoul(words[3], NULL, 10));
    else if (argc >= 3 && !strcmp(words[1], "messages")) messages(strtoull(words[2], NULL, 10));
    else return fprintf(stderr, "strangers datagrams N | strangers messages N | strangers flows N ROOM | strangers guard N FLOWS\n"), 1;
    dt_node_close(node);
    free(node);
    return 0;
}
