/* A node's run over libdeltat, by a script and a trace: what `deltat retrace` runs over its own station.

       drive <input >log

   The input is a script without a shelf, a line `trace`, and a trace, as docs/formats.md has them. It is taken to be
   well formed: what isn't ends the driver with 2. Ends with the statuses of `retrace`: 0 the stop was met, 3 a
   parameter is out of its range, 4 there was no memory, 5 the wire failed, 6 the clock stands still. */
#include "calls.h"
#include <inttypes.h>
#include <stdio.h>
#include <stdlib.h>
#include <string.h>

enum { DONE = 0, STRANGE = 2, REFUSED = 3, NO_MEMORY = 4, WIRE = 5, STILL = 6 };
enum { MOST_EQUAL = 100000, MOST_READ = 65536 };
static const uint64_t LAST = (uint64_t)1 << 62;

/* --- what is read */

struct octets { uint8_t *at; size_t len; };

struct command {
    uint64_t at;
    struct dt_flow flow;
    struct octets sent; /* none: it reads */
    size_t most;
    bool begin, end;
};

struct take { struct octets datagram; uint16_t link; bool found, failed; };

/* a list that grows */
#define LIST(type) struct { type *at; size_t len, room; }
#define PUSH(list, it) \
    do { \
        if ((list).len == (list).room) { \
            (list).room = 2 * (list).room + 8; \
            (list).at = grown((list).at, (list).room * sizeof *(list).at); \
        } \
        (list).at[(list).len++] = (it); \
    } while (0)

static void *grown(void *at, size_t size) {
    void *it = realloc(at, size);
    if (it == NULL) exit(NO_MEMORY);
    return it;
}

static struct {
    struct dt_params params;
    uint32_t me;
    bool again;
    uint64_t stop;
    size_t params_line;
    LIST(struct dt_link) links;
    LIST(struct dt_route) routes;
    LIST(struct command) commands;
} script;

static struct {
    LIST(uint64_t) readings;
    LIST(struct take) takes;
    LIST(uint64_t) failing; /* the gives that fail; 0: the address can't be bound */
} trace;

static void strange(const char *what) {
    fprintf(stderr, "drive: %s\n", what);
    exit(STRANGE);
}

/* the next word of the line, behind which there is a 0 */
static char *word(char **line) {
    char *it = *line;
    if (it == NULL) strange("a line ends too early");
    *line = strchr(it, ' ');
    if (*line != NULL) *(*line)++ = '\0';
    return it;
}

static uint64_t number(char **line) { return strtoull(word(line), NULL, 10); }

static struct dt_flow flow_of(char **line) {
    struct dt_flow it;
    if (sscanf(word(line), "%" SCNu32 ":%" SCNu16 ">%" SCNu32 ":%" SCNu16, &it.source, &it.source_port, &it.target, &it.target_port) != 4) strange("no flow");
    return it;
}

static unsigned digit(char it) { return it <= '9' ? (unsigned)(it - '0') : (unsigned)((it | 32) - 'a') + 10; }

static struct octets octets_of(const char *hex) {
    struct octets it;
    it.len = strlen(hex) / 2;
    it.at = (uint8_t *)grown(NULL, it.len + 1);
    for (size_t i = 0; i < it.len; i++) it.at[i] = (uint8_t)(16 * digit(hex[2 * i]) + digit(hex[2 * i + 1]));
    return it;
}

static void read_params(char *line) {
    struct dt_params *p = &script.params;
    p->size = sizeof *p;
    uint32_t *const fields[] = {&p->mpl, &p->r, &p->a, &p->rto, &p->probe, &p->seg, &p->cap, &p->rcap, &p->window, &p->run_limit, &p->start};
    for (size_t i = 0; i < sizeof fields / sizeof *fields && line != NULL; i++) *fields[i] = (uint32_t)number(&line);
}

static void read_command(char *line) {
    struct command it;
    memset(&it, 0, sizeof it);
    it.at = number(&line);
    const char *what = word(&line);
    if (!strcmp(what, "stop")) {
        script.stop = it.at;
        return;
    }
    it.flow = flow_of(&line);
    if (!strcmp(what, "read")) it.most = (size_t)number(&line);
    else {
        const char *marks = word(&line);
        it.begin = strchr(marks, 'b') != NULL;
        it.end = strchr(marks, 'e') != NULL;
        it.sent = octets_of(word(&line));
    }
    PUSH(script.commands, it);
}

static void read_script(char *line) {
    const char *first = word(&line);
    if (*first == '#' || *first == '\0' || !strcmp(first, "local") || !strcmp(first, "go")) return;
    if (!strcmp(first, "params")) read_params(line);
    else if (!strcmp(first, "at")) read_command(line);
    else if (!strcmp(first, "me")) {
        script.me = (uint32_t)number(&line);
        script.again = !strcmp(word(&line), "again");
    } else if (!strcmp(first, "peer")) {
        struct dt_link it;
        it.reserved = 0;
        it.number = (uint16_t)number(&line);
        word(&line);
        it.charge = (uint32_t)number(&line);
        it.pace = (uint32_t)number(&line);
        PUSH(script.links, it);
    } else if (!strcmp(first, "route")) {
        struct dt_route it;
        it.to = (uint32_t)number(&line);
        it.link = (uint16_t)number(&line);
        PUSH(script.routes, it);
    } else strange(first);
}

static void read_trace(char *line) {
    const char *first = word(&line);
    if (*first == '@') PUSH(trace.readings, number(&line));
    else if (*first == '!') PUSH(trace.failing, number(&line));
    else {
        struct take it;
        memset(&it, 0, sizeof it);
        const char *second = word(&line);
        it.failed = *second == 'x';
        it.found = !it.failed && *second != '-';
        if (it.found) {
            it.link = (uint16_t)strtoul(second, NULL, 10);
            it.datagram = octets_of(line == NULL ? "" : line);
        }
        PUSH(trace.takes, it);
    }
}

static char *read_all(void) {
    char *text = NULL;
    size_t len = 0, room = 0, got = 1;
    while (got > 0) {
        if (room - len < 65536) text = (char *)grown(text, room = 2 * room + 131072);
        got = fread(text + len, 1, room - len - 1, stdin);
        len += got;
    }
    text[len] = '\0';
    return text;
}

static void read_input(void) {
    bool is_traced = false;
    size_t at = 1;
    for (char *line = read_all(), *next; *line != '\0'; line = next, at++) {
        next = strchr(line, '\n');
        if (next == NULL) next = line + strlen(line);
        else *next++ = '\0';
        if (!strncmp(line, "params ", 7)) script.params_line = at;
        if (is_traced) read_trace(line);
        else if (!strcmp(line, "trace")) is_traced = true;
        else read_script(line);
    }
    if (!is_traced) strange("no trace");
}

/* --- the log */

static dt_node *node;
static uint64_t moment, gives;
static size_t next_failing;
static uint8_t room[MOST_READ];

static const char *const FAULTS[] = {"", "short", "version", "length", "dead", "protocol", "kind", "flags", "window", "size"};

static void begun(const char *what) { printf("%" PRIu64 " %" PRIu32 " %s", moment, script.me, what); }

static void hex(size_t len) {
    for (size_t i = 0; i < len; i++) putchar("0123456789abcdef"[room[i] >> 4]), putchar("0123456789abcdef"[room[i] & 15]);
}

/* a frame goes over the wire, which may not take it */
static void give(const struct dt_report *it) {
    static uint8_t frame[DT_MAX_DATAGRAM];
    SIZED(dt_datagram, out);
    if (dt_node_next_datagram(node, frame, sizeof frame, &out) != DT_OK || out.link != it->number) strange("a packet left, and its frame isn't there");
    if (out.len < 16 || it->count != ((uint32_t)frame[4] << 24 | (uint32_t)frame[5] << 16 | (uint32_t)frame[6] << 8 | frame[7])) strange("a frame has another lifetime than its report");
    gives++;
    while (next_failing < trace.failing.len && trace.failing.at[next_failing] < gives) next_failing++;
    if (next_failing == trace.failing.len || trace.failing.at[next_failing] != gives) return;
    begun("unsent");
    printf(" %" PRIu32 "\n", it->number);
}

/* the line for a datagram that isn't valid, which is no report */
static void bad(const struct dt_receive_result *it, size_t len) {
    begun("bad");
    printf(" %s", FAULTS[it->fault]);
    if (it->fault != DT_FAULT_LIFETIME) printf(" %" PRIu32, it->value);
    if (it->fault == DT_FAULT_LENGTH) printf(" %zu", len - 16);
    putchar('\n');
}

/* The lines of a call, which may have read so many octets. A call without memory ends the run. */
static void told(dt_status status, size_t len) {
    char line[DT_MAX_REPORT_LINE];
    SIZED(dt_report, it);
    while (dt_node_next_report(node, &it) == DT_OK) {
        if (it.kind < DT_REPORT_SEND_QUEUED || it.kind > DT_REPORT_PACKET_MALFORMED) strange("a report of another kind");
        if (dt_report_line(&it, moment, script.me, line, sizeof line) >= sizeof line) strange("a longer line than DT_MAX_REPORT_LINE");
        fputs(line, stdout);
        if (it.kind == DT_REPORT_READ) hex(len);
        putchar('\n');
        if (it.kind == DT_REPORT_PACKET_OUT) give(&it);
    }
    if (status == DT_NO_MEMORY) exit(NO_MEMORY);
}

/* --- the run */

static void arrive(const struct take *it) {
    static const uint8_t nothing[1];
    const uint8_t *octets = it->datagram.len > 0 ? it->datagram.at : nothing;
    struct dt_receive_result came = dt_node_receive(node, moment, it->link, octets, it->datagram.len, 0);
    if (came.status == DT_MALFORMED) bad(&came, it->datagram.len);
    else if (came.status != DT_OK && came.status != DT_INVALID && came.status != DT_NO_MEMORY) strange("another answer to a datagram");
    told(came.status, 0);
}

static void do_command(const struct command *it) {
    if (it->sent.at == NULL) {
        struct dt_read_result read = dt_node_read(node, moment, &it->flow, room, it->most);
        if (read.status != DT_OK && read.status != DT_NONE && read.status != DT_NO_MEMORY) strange("another answer to a read");
        told(read.status, read.len);
    } else {
        struct dt_send_result sent = dt_node_send(node, moment, &it->flow, it->sent.at, it->sent.len, it->begin, it->end);
        if (sent.status != DT_OK && sent.status != DT_FULL && sent.status != DT_QUIET && sent.status != DT_NO_MEMORY) strange("another answer to a send");
        told(sent.status, 0);
    }
}

/* A turn; whether the stop was due. */
static bool turn(const struct take *came, size_t *next) {
    if (came->found) arrive(came);
    for (; *next < script.commands.len && script.commands.at[*next].at <= moment; ++*next) do_command(&script.commands.at[*next]);
    if (script.stop <= moment) {
        printf("end %" PRIu64 "\n", moment);
        return true;
    }
    told(dt_node_tick(node, moment), 0);
    return false;
}

static uint64_t reading(size_t at) {
    size_t len = trace.readings.len;
    uint64_t it = len == 0 ? 0 : trace.readings.at[at < len ? at : len - 1];
    return it < LAST ? it : LAST;
}

static int run(void) {
    uint64_t first = reading(0), greatest = first;
    uint32_t equal = 1;
    size_t next = 0;
    struct take came;
    memset(&came, 0, sizeof came);
    if (trace.failing.len > 0 && trace.failing.at[0] == 0) return WIRE;
    for (size_t at = 0;; at++) {
        moment = greatest - first;
        if (turn(&came, &next)) return DONE;
        memset(&came, 0, sizeof came);
        if (at < trace.takes.len) came = trace.takes.at[at];
        if (came.failed) return WIRE;
        if (equal == MOST_EQUAL) return STILL;
        uint64_t now = reading(at + 1);
        equal = now > greatest ? 1 : equal + 1;
        if (now > greatest) greatest = now;
    }
}

static int opened(void) {
    static const char *const names[] = {"mpl", "r", "a", "rto", "probe", "seg", "cap", "rcap", "window", "run_limit", "start"};
    static const struct dt_link no_link;
    static const struct dt_route no_route;
    struct dt_node_options options = node_options(script.me, 0, script.again, &no_link, &no_route);
    if (script.links.len > 0) options.links = script.links.at;
    if (script.routes.len > 0) options.routes = script.routes.at;
    options.link_count = script.links.len;
    options.route_count = script.routes.len;
    node = dt_node_new();
    if (node == NULL) return NO_MEMORY;
    struct dt_open_result it = dt_node_open(node, &script.params, &options);
    if (it.status == DT_NO_MEMORY) return NO_MEMORY;
    if (it.status == DT_INVALID && it.field >= 1 && it.field <= sizeof names / sizeof *names) {
        printf("line %zu: param %s %" PRIu32 "\n", script.params_line, names[it.field - 1], it.value);
        return REFUSED;
    }
    if (it.status != DT_OK) strange("another answer to the opening");
    return DONE;
}

int main(void) {
    read_input();
    int status = opened();
    if (status == DONE) status = run();
    dt_node_free(node);
    return status;
}
