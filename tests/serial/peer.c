/* The other end of the board of examples/board, with the library over lib/serial: node 2, for tests/board.py.
 *
 *     peer PATH SECONDS HEX ..      sends these messages to the board, one each 250 ms
 *
 * It writes the lines of a node (docs/formats.md) of all reports, and of each message that it got a line `read`; so
 * tools/fieldaudit.py judges it together with the board's log. Times are those at which the event was taken.
 * The last line is `# in .. out .. spoilt .. late .. blocked ..`. */
#include "deltat_serial.h"

#include <inttypes.h>
#include <stdio.h>
#include <stdlib.h>
#include <string.h>
#include <time.h>

enum { NODE = 2, BOARD = 1, FROM = 20, TO = 10, EVERY = 250, FIRST = 1000, CHARGE = 200, LONGEST = 512 };
static const uint16_t PORTS[] = {20, 21};

struct sending { char **words; int count, at; uint64_t next; };

static uint64_t now(void) {
    struct timespec it;
    if (clock_gettime(CLOCK_BOOTTIME, &it)) perror("peer: clock"), exit(1);
    return (uint64_t)it.tv_sec * 1000 + (uint64_t)it.tv_nsec / 1000000;
}

/* the octets of hexadecimal digits; 0 where there are none, or too many */
static size_t octets_of(const char *hex, uint8_t *to) {
    size_t len = strlen(hex) / 2;
    if (len > LONGEST) return 0;
    for (size_t i = 0; i < len; i++) {
        char digits[3] = {hex[2 * i], hex[2 * i + 1], 0};
        to[i] = (uint8_t)strtoul(digits, NULL, 16);
    }
    return len;
}

static void send_next(dt_serial *serial, struct sending *it, uint64_t at) {
    static const struct dt_flow DOWN = {NODE, BOARD, FROM, TO};
    uint8_t octets[LONGEST];
    size_t len = it->at < it->count ? octets_of(it->words[it->at], octets) : 0;
    dt_status status;
    if (len == 0 || at < it->next) return;
    status = dt_serial_send(serial, &DOWN, octets, len);
    if (status == DT_OK) it->at++, it->next += EVERY;
    else if (status != DT_FULL) fprintf(stderr, "peer: send: %s\n", dt_status_name(status)), exit(1);
}

static void write_event(const struct dt_serial_event *it, uint64_t at) {
    char line[DT_MAX_REPORT_LINE];
    const struct dt_flow *flow = &it->flow;
    if (it->kind == DT_SERIAL_EVENT_REPORT && it->report.kind != DT_REPORT_READ && it->report.kind != DT_REPORT_READ_NONE) {
        dt_report_line(&it->report, at, NODE, line, sizeof line);
        puts(line);
    }
    if (it->kind != DT_SERIAL_EVENT_MESSAGE) return;
    printf("%" PRIu64 " %d read %u:%u>%u:%u %sbe ", at, NODE, flow->source, flow->source_port, flow->target, flow->target_port, it->gap ? "r" : "");
    for (size_t i = 0; i < it->len; i++) printf("%02x", it->octets[i]);
    putchar('\n');
}

static struct dt_serial_options options(const char *path) {
    struct dt_serial_options o = {.size = sizeof o, .path = path, .node = NODE, .peer = BOARD, .start_as = DT_START_FIRST, .charge = CHARGE};
    o.params = (struct dt_params){sizeof o.params, 1000, 3000, 50, 300, 800, 128, 512, 512, 512, 2147483648u, 7};
    o.ports = PORTS, o.port_count = sizeof PORTS / sizeof *PORTS;
    o.max_flows = 2;
    o.report_kinds = UINT32_MAX;
    return o;
}

int main(int count, char **words) {
    struct dt_serial_error error;
    struct dt_serial_options o;
    struct dt_serial_counts counts;
    uint64_t begun = now(), at;
    if (count < 3) return 2;
    o = options(words[1]);
    struct sending sending = {words + 3, count - 3, 0, begun + FIRST};
    dt_serial *serial = dt_serial_open(&o, &error);
    if (!serial) return fprintf(stderr, "peer: %s\n", error.text), 1;
    while ((at = now()) < begun + strtoull(words[2], NULL, 10) * 1000) {
        const struct dt_serial_event *event = dt_serial_next(serial, 20);
        if (event->kind == DT_SERIAL_EVENT_FAILED) return fprintf(stderr, "peer: failed, %d\n", event->system_error), dt_serial_close(serial), 3;
        write_event(event, now() - begun);
        send_next(serial, &sending, at);
    }
    counts = dt_serial_get_counts(serial);
    printf("end %" PRIu64 "\n", now() - begun);
    printf("# in %" PRIu64 " out %" PRIu64 " spoilt %" PRIu64 " late %" PRIu64 " blocked %" PRIu64 "\n", counts.datagrams_in,
           counts.datagrams_out, counts.spoilt, counts.late, counts.blocked);
    dt_serial_close(serial);
    return 0;
}
