/* A node on a serial line, as field devices have one: lines of standard input go to the other end as messages, and
 * messages that arrive go to standard output as lines.
 *
 *     make -C lib
 *     cc -std=gnu11 -O2 -I include examples/serial.c lib/libdeltat.a -o serial
 *     ./serial /dev/ttyUSB0 1 2        one end; the other one: ./serial /dev/ttyS0 2 1
 *
 * A line changes octets and loses some. So each frame has its CRC-32, is stuffed (COBS) so that it has no octet 0, and
 * is sent between two of them: what arrives spoilt is dropped, a loss like any other. The node's `pace` is what a frame
 * takes at 115,200 bits a second, so that none waits long in the line's queue. The guard admits one port, and as
 * many flows as the line needs. Say `again` if this node ran less than 11 s ago. An interrupt ends it, and it says how
 * many frames were spoilt, and how many octets are uncertain. */
#include <errno.h>
#include <fcntl.h>
#include <poll.h>
#include <signal.h>
#include <stdio.h>
#include <stdlib.h>
#include <string.h>
#include <termios.h>
#include <time.h>
#include <unistd.h>

#include "deltat.h"

enum { LINK = 1, PORT = 10, FLOWS = 4, SEGMENT = 128, MOST = 4096, AHEAD = 256, LATE = 20, CHECK = 4 };
enum { MOST_STUFFED = 2 * (30 + SEGMENT + CHECK) };
/* a frame of 30 + 128 octets and what is added takes 15 ms at 10 bits an octet; 20 ms more at each end are allowed */
enum { PACE = 15, CHARGE = PACE + 2 * LATE };

static const struct dt_params PARAMS = {
    sizeof PARAMS, 1000, 7000, 50, 500, 1000, SEGMENT, MOST, MOST, MOST, 2147483648u, 0};

static volatile sig_atomic_t is_over;
static unsigned long spoilt, uncertain, queued, acknowledged;
static uint64_t empty_at; /* a time at which nothing waited at the line */

/* a line of standard input that isn't sent yet, and a message that is read */
static struct { uint8_t octets[MOST]; size_t len; bool whole, ended; } given;
static struct { uint8_t octets[MOST]; size_t len; bool begun; } message;

static void end(int it) { is_over = it; }

static void stop_on(dt_status status, const char *what) {
    if (status != DT_NO_MEMORY && status != DT_STOPPED && status != DT_NOT_OPEN) return;
    fprintf(stderr, "serial: %s: %s\n", what, dt_status_name(status));
    exit(1);
}

static uint64_t now(void) {
    struct timespec it;
    if (clock_gettime(CLOCK_BOOTTIME, &it)) perror("serial: clock"), exit(1);
    return (uint64_t)it.tv_sec * 1000 + (uint64_t)it.tv_nsec / 1000000;
}

static uint32_t crc32(const uint8_t *octets, size_t len) {
    uint32_t it = UINT32_MAX;
    for (size_t i = 0; i < len; i++) {
        it ^= octets[i];
        for (int bit = 0; bit < 8; bit++) it = it >> 1 ^ (it & 1 ? 0xedb88320u : 0);
    }
    return ~it;
}

/* octets without a 0, each of which stands for where the next 0 was; how many: len + len / 254 + 1 at most */
static size_t stuff(const uint8_t *octets, size_t len, uint8_t *to) {
    size_t mark = 0, at = 1;
    to[0] = 1;
    for (size_t i = 0; i < len; i++) {
        if (octets[i] != 0) to[at++] = octets[i], to[mark]++;
        if (octets[i] == 0 || (to[mark] == 255 && i + 1 < len)) mark = at++, to[mark] = 1;
    }
    return at;
}

/* the octets that were stuffed, in their place; none where these weren't */
static size_t unstuff(uint8_t *octets, size_t len) {
    size_t to = 0;
    for (size_t at = 0; at < len;) {
        uint8_t count = octets[at++];
        if (count == 0 || at + count - 1 > len) return 0;
        for (uint8_t i = 1; i < count; i++) octets[to++] = octets[at++];
        if (count < 255 && at < len) octets[to++] = 0;
    }
    return to;
}

/* Puts what left the node at `at` on the line. What the line doesn't take whole arrives spoilt, and is lost. */
static void flush(int line, dt_node *node, uint64_t at) {
    uint8_t frame[DT_MAX_DATAGRAM + CHECK], stuffed[MOST_STUFFED];
    struct dt_datagram out = {.size = sizeof out};
    while (dt_node_next_datagram(node, frame, DT_MAX_DATAGRAM, &out) == DT_OK) {
        if (out.len > 30 + SEGMENT || now() - at > LATE) continue;
        uint32_t check = crc32(frame, out.len);
        for (int i = 0; i < CHECK; i++) frame[out.len + i] = (uint8_t)(check >> 8 * i);
        stuffed[0] = 0; /* ends what may be there of another frame */
        size_t len = 1 + stuff(frame, out.len + CHECK, stuffed + 1);
        stuffed[len++] = 0;
        if (write(line, stuffed, len) < (ssize_t)len) spoilt++;
    }
}

/* A frame arrived between two octets 0. */
static void arrive(dt_node *node, uint8_t *octets, size_t len, uint64_t at) {
    uint32_t check = 0;
    len = unstuff(octets, len);
    if (len <= CHECK) {
        spoilt++;
        return;
    }
    for (int i = 0; i < CHECK; i++) check |= (uint32_t)octets[len - CHECK + i] << 8 * i;
    if (crc32(octets, len - CHECK) != check) {
        spoilt++;
        return;
    }
    stop_on(dt_node_receive(node, at, LINK, octets, len - CHECK, (uint32_t)(at - empty_at)).status, "a frame");
}

/* The clock is read before each look, so that a stop behind it makes no frame younger than it is. */
static void receive(int line, dt_node *node) {
    static uint8_t frame[MOST_STUFFED], octets[1024];
    static size_t had;
    for (;;) {
        uint64_t looked_at = now();
        ssize_t len = read(line, octets, sizeof octets);
        if (len < 0 && (errno == EAGAIN || errno == EWOULDBLOCK)) {
            empty_at = looked_at;
            return;
        }
        if (len < 0 && errno == EINTR) continue;
        if (len <= 0) fprintf(stderr, "serial: the line is gone\n"), exit(1);
        uint64_t at = now();
        for (ssize_t i = 0; i < len; i++) {
            if (octets[i] != 0) {
                if (had < sizeof frame) frame[had] = octets[i];
                had++;
            } else if (had > 0) {
                if (had <= sizeof frame) arrive(node, frame, had, at);
                else spoilt++;
                had = 0;
            }
        }
        flush(line, node, at);
    }
}

/* Reads what is unread of a flow, joins it to messages, and writes those that are whole and not above 4,096 octets. */
static void read_flow(dt_node *node, uint64_t at, const struct dt_flow *flow) {
    static uint8_t octets[MOST];
    struct dt_read_result piece;
    while ((piece = dt_node_read(node, at, flow, octets, sizeof octets)).status == DT_OK) {
        if (piece.begin || piece.gap) message.begun = piece.begin, message.len = 0;
        if (!message.begun || message.len + piece.len > MOST) {
            message.begun = false;
            continue;
        }
        memcpy(message.octets + message.len, octets, piece.len);
        message.len += piece.len;
        if (!piece.end) continue;
        message.begun = false;
        fwrite(message.octets, 1, message.len, stdout);
        putchar('\n');
        fflush(stdout);
    }
    stop_on(piece.status, "a read");
}

/* Octet by octet, so that what follows the line isn't read. */
static void take_line(void) {
    uint8_t it;
    while (!given.whole && !given.ended) {
        ssize_t len = read(STDIN_FILENO, &it, 1);
        if (len < 0) return;
        given.ended = len == 0;
        if (given.len == MOST || ((given.ended || it == '\n') && given.len > 0)) given.whole = true;
        else if (!given.ended && it != '\n') given.octets[given.len++] = it;
    }
}

/* Sends the line that was given, if no more than 256 octets are under way then: these leave a slow line before they
   would be sent again. */
static void send_line(dt_node *node, uint64_t at, const struct dt_flow *flow) {
    unsigned long under_way = queued - acknowledged - uncertain;
    if (under_way > 0 && under_way + given.len > AHEAD) return;
    dt_status status = dt_node_send(node, at, flow, given.octets, given.len, true, true).status;
    stop_on(status, "a line");
    if (status == DT_OK) given.whole = false, given.len = 0;
}

static int opened_line(const char *name) {
    struct termios it;
    int line = open(name, O_RDWR | O_NOCTTY | O_NONBLOCK);
    if (line < 0 || tcgetattr(line, &it)) return -1;
    cfmakeraw(&it);
    cfsetspeed(&it, B115200);
    it.c_cflag |= CLOCAL | CREAD;
    return tcsetattr(line, TCSANOW, &it) ? -1 : line;
}

static dt_node *opened_node(uint32_t me, uint32_t peer, bool again) {
    const struct dt_link link = {.charge = CHARGE, .pace = PACE, .number = LINK};
    const struct dt_route route = {peer, LINK};
    const struct dt_node_options options = {
        .size = sizeof options, .node = me, .now = now(), .start_as = again ? DT_START_AGAIN : DT_START_FIRST,
        .links = &link, .link_count = 1, .routes = &route, .route_count = 1};
    const uint16_t port = PORT;
    dt_node *node = dt_node_new();
    bool is_open = node && dt_abi_version() == DT_ABI_VERSION &&
                   dt_node_open(node, &PARAMS, &options).status == DT_OK &&
                   dt_node_set_guard(node, &port, 1, false, FLOWS) == DT_OK;
    return is_open ? node : NULL;
}

/* Waits for the line, for standard input if a line of it can be sent, and for the node's wake. */
static void wait_for(int line, dt_node *node) {
    uint64_t wake = dt_node_wake(node), at = now();
    struct pollfd its[] = {{line, POLLIN, 0}, {STDIN_FILENO, POLLIN, 0}};
    int wait = wake > at + 100 ? 100 : wake <= at ? 1 : (int)(wake - at);
    if (poll(its, given.whole || given.ended ? 1 : 2, wait) < 0 && errno != EINTR) perror("serial: poll"), exit(1);
    if (!given.whole && its[1].revents) take_line();
}

/* Takes the reports, and reads what they say has arrived. */
static void look_at_reports(dt_node *node, uint64_t at) {
    struct dt_report it = {.size = sizeof it};
    while (dt_node_next_report(node, &it) == DT_OK) {
        if (it.kind == DT_REPORT_ACCEPTED) read_flow(node, at, &it.flow);
        if (it.kind == DT_REPORT_SEND_QUEUED) queued += it.count;
        if (it.kind == DT_REPORT_ACKNOWLEDGED) acknowledged += it.count;
        if (it.kind == DT_REPORT_UNCERTAIN) uncertain += it.count;
    }
}

int main(int count, char **words) {
    int line = count < 4 ? -1 : opened_line(words[1]);
    if (line < 0) return fprintf(stderr, "serial DEVICE ME PEER [again]\n"), 2;
    struct dt_flow flow = {(uint32_t)atol(words[2]), (uint32_t)atol(words[3]), PORT, PORT};
    dt_node *node = opened_node(flow.source, flow.target, count > 4 && !strcmp(words[4], "again"));
    if (!node) return fprintf(stderr, "serial: the node can't be opened\n"), 1;
    fcntl(STDIN_FILENO, F_SETFL, fcntl(STDIN_FILENO, F_GETFL) | O_NONBLOCK);
    signal(SIGINT, end), signal(SIGTERM, end);
    for (empty_at = now(); !is_over;) {
        wait_for(line, node);
        receive(line, node);
        uint64_t at = now();
        stop_on(dt_node_tick(node, at), "a tick");
        if (given.whole) send_line(node, at, &flow);
        look_at_reports(node, at);
        flush(line, node, at);
    }
    fprintf(stderr, "%lu frames spoilt, %lu octets uncertain\n", spoilt, uncertain);
    dt_node_free(node);
    return 0;
}
