/* Both ends that tests/udp.py runs, under several loops.
 *
 *   ends serve LOOP KEY=VALUE..       a service at port 20 that answers with the octets reversed, until SIGTERM
 *   ends ask LOOP KEY=VALUE..         makes `count` calls of `octets` octets, `many` at once, and prints
 *                                     `answered N unsure N wrong N declined N`
 *   ends echo LOOP KEY=VALUE..        a node that sends each message back
 *   ends say LOOP KEY=VALUE..         sends `count` messages, one after another's echo, and drains; `echoed N wrong N`
 *
 * LOOP is next (dt_udp_next_event waits), poll, epoll, or glib (compiled with -DWITH_GLIB). Keys: host port node life
 * again peer peer_host peer_port learns state counters record (a file) record_octets count octets many flags seg r
 * timeout pause (ms after each call) log (a file to which the number of each request that is served is appended). */
#include "deltat_udp.h"
#include <errno.h>
#include <inttypes.h>
#include <poll.h>
#include <signal.h>
#include <stdio.h>
#include <stdlib.h>
#include <string.h>
#include <sys/epoll.h>
#include <time.h>
#include <unistd.h>
#ifdef WITH_GLIB
#include <glib-unix.h>
#include <glib.h>
#endif

enum { CALLER = 10, SERVICE = 20, MOST = 65528 };

/* A reply for which there was no room yet. */
struct waiting {
    struct waiting *next;
    struct dt_token token;
    size_t len;
    uint8_t octets[];
};

struct end {
    struct waiting *first, *last;
    dt_udp *udp;
    char **words;
    const char *mode;
    uint32_t node, peer, count, octets, many;
    uint32_t made, answered, unsure, wrong, declined, under_way;
    uint64_t calls[4096], made_at[4096], longest; /* longest: the ms that an answer took at most */
    bool over;
    FILE *log;
    struct dt_flow back; /* where an echo goes for which there was no room yet: `len` octets */
    size_t len;
    uint8_t room[65536], echo[65536];
};

static volatile sig_atomic_t stopped;

static void stop(int signal) { stopped = signal; }

static const char *word(const struct end *it, const char *key, const char *usual) {
    size_t len = strlen(key);
    for (char **each = it->words; *each; each++)
        if (strncmp(*each, key, len) == 0 && (*each)[len] == '=') return *each + len + 1;
    return usual;
}

static uint32_t number(const struct end *it, const char *key, uint32_t usual) {
    const char *found = word(it, key, NULL);
    return found ? (uint32_t)strtoul(found, NULL, 0) : usual;
}

static void die(const char *what) {
    fprintf(stderr, "ends: %s\n", what);
    exit(1);
}

static uint64_t milliseconds(void) {
    struct timespec it;
    clock_gettime(CLOCK_MONOTONIC, &it);
    return (uint64_t)it.tv_sec * 1000 + (uint64_t)it.tv_nsec / 1000000;
}

/* --- what is done with an event */

static void fill(struct end *it, uint32_t call, size_t len) {
    for (size_t i = 0; i < len; i++) it->room[i] = (uint8_t)(call * 31 + i * 7 + (i >> 8));
}

static bool is_reversed(struct end *it, uint32_t call, const struct dt_udp_event *event) {
    if (event->len != it->octets) return false;
    fill(it, call, it->octets);
    for (size_t i = 0; i < event->len; i++)
        if (event->octets[i] != it->room[event->len - 1 - i]) return false;
    return true;
}

static void make_calls(struct end *it) {
    while (it->made < it->count && it->under_way < it->many) {
        struct dt_flow flow = {it->node, it->peer, CALLER, SERVICE};
        fill(it, it->made, it->octets);
        struct dt_call_result made = dt_udp_call(it->udp, &flow, it->room, it->octets, number(it, "timeout", 5000));
        if (made.status == DT_FULL || made.status == DT_QUIET || made.status == DT_TOO_MANY_CALLS) break;
        if (made.status == DT_OK)
            it->calls[it->made % 4096] = made.call, it->made_at[it->made % 4096] = milliseconds(), it->under_way++;
        else it->declined++;
        it->made++;
    }
}

static void say(struct end *it) {
    if (it->made > it->answered + it->wrong || it->made == it->count) return;
    struct dt_flow flow = {it->node, it->peer, CALLER, SERVICE};
    fill(it, it->made, it->octets);
    struct dt_send_result sent = dt_udp_send(it->udp, &flow, it->room, it->octets);
    if (sent.status == DT_OK) it->made++;
    else if (sent.status != DT_FULL && sent.status != DT_QUIET) die("a message isn't sent");
}

/* Sends the echo that waits for room. */
static void echo(struct end *it) {
    if (it->len == 0) return;
    struct dt_send_result sent = dt_udp_send(it->udp, &it->back, it->echo, it->len);
    if (sent.status == DT_OK) it->len = 0;
    else if (sent.status != DT_FULL) die("an echo isn't sent");
}

/* Replies, or keeps the reply until there is room for it. */
static void reply(struct end *it, const struct dt_token *token, size_t len) {
    if (it->first == NULL && dt_udp_reply(it->udp, token, it->room, len).status != DT_FULL) return;
    struct waiting *kept = malloc(sizeof *kept + len);
    if (kept == NULL) die("out of memory");
    *kept = (struct waiting){.token = *token, .len = len};
    memcpy(kept->octets, it->room, len);
    if (it->first) it->last->next = kept;
    else it->first = kept;
    it->last = kept;
}

static void reply_more(struct end *it) {
    while (it->first && dt_udp_reply(it->udp, &it->first->token, it->first->octets, it->first->len).status != DT_FULL) {
        struct waiting *gone = it->first;
        it->first = gone->next;
        free(gone);
    }
}

static void act(struct end *it) {
    reply_more(it);
    echo(it);
    if (strcmp(it->mode, "ask") == 0) make_calls(it);
    if (strcmp(it->mode, "say") == 0) say(it);
    dt_udp_flush(it->udp);
}

static void ended(struct end *it, const struct dt_udp_event *event) {
    it->under_way--;
    if (event->kind == DT_UDP_EVENT_UNSURE) {
        it->unsure++;
        return;
    }
    uint32_t call = UINT32_MAX;
    for (uint32_t i = it->made > 4096 ? it->made - 4096 : 0; i < it->made; i++)
        if (it->calls[i % 4096] == event->call) call = i;
    uint64_t took = milliseconds() - it->made_at[call % 4096];
    if (took > it->longest) it->longest = took;
    if (is_reversed(it, call, event)) it->answered++;
    else it->wrong++;
    poll(NULL, 0, (int)number(it, "pause", 0));
}

static void echoed(struct end *it, const struct dt_udp_event *event) {
    if (strcmp(it->mode, "echo") == 0) {
        it->back = (struct dt_flow){.source = event->flow.target,
                                   .target = event->flow.source,
                                   .source_port = event->flow.target_port,
                                   .target_port = event->flow.source_port};
        it->len = event->len;
        memcpy(it->echo, event->octets, event->len);
        echo(it);
        return;
    }
    fill(it, it->made - 1, it->octets);
    if (event->len == it->octets && memcmp(event->octets, it->room, event->len) == 0) it->answered++;
    else it->wrong++;
}

static void log_request(struct end *it, const struct dt_token *token) {
    if (it->log == NULL) return;
    fprintf(it->log, "%u:%" PRIu64 "\n", token->flow.source, token->call);
    fflush(it->log);
}

static void handle(struct end *it, const struct dt_udp_event *event) {
    if (event->kind == DT_UDP_EVENT_REQUEST) {
        log_request(it, &event->token);
        for (size_t i = 0; i < event->len; i++) it->room[i] = event->octets[event->len - 1 - i];
        reply(it, &event->token, event->len);
    } else if (event->kind == DT_UDP_EVENT_ANSWERED || event->kind == DT_UDP_EVENT_UNSURE) ended(it, event);
    else if (event->kind == DT_UDP_EVENT_MESSAGE) echoed(it, event);
    else if (event->kind == DT_UDP_EVENT_TOO_BIG)
        printf("too big: %zu octets to %u\n", event->len, event->peer), it->over = true;
    else if (event->kind == DT_UDP_EVENT_FAILED) {
        fprintf(stderr, "ends: failed: status %u, %s\n", event->cause, strerror(event->system_error));
        exit(3);
    }
}

static bool is_over(const struct end *it) {
    if (stopped || it->over) return true;
    if (strcmp(it->mode, "ask") == 0) return it->made == it->count && it->under_way == 0;
    return strcmp(it->mode, "say") == 0 && it->made == it->count && it->made == it->answered + it->wrong;
}

/* --- the loops */

static int descriptor(struct end *it) {
    int found = dt_udp_fd(it->udp);
    if (found < 0) die("the driver has no descriptor");
    return found;
}

static void take_all(struct end *it) {
    const struct dt_udp_event *event;
    while ((event = dt_udp_next_event(it->udp, 0))->kind != DT_UDP_EVENT_NONE) handle(it, event);
    act(it);
}

static void by_next(struct end *it) {
    for (act(it); !is_over(it); act(it)) handle(it, dt_udp_next_event(it->udp, 100));
}

static void by_poll(struct end *it) {
    struct pollfd watched = {.fd = descriptor(it), .events = POLLIN};
    for (act(it); !is_over(it); take_all(it))
        if (poll(&watched, 1, 2000) < 0 && errno != EINTR) die("poll");
}

static void by_epoll(struct end *it) {
    int many = epoll_create1(EPOLL_CLOEXEC);
    struct epoll_event wanted = {.events = EPOLLIN}, ready;
    if (many < 0 || epoll_ctl(many, EPOLL_CTL_ADD, descriptor(it), &wanted)) die("epoll");
    for (act(it); !is_over(it); take_all(it))
        if (epoll_wait(many, &ready, 1, 2000) < 0 && errno != EINTR) die("epoll_wait");
    close(many);
}

#ifdef WITH_GLIB
static GMainLoop *loop;

static gboolean by_source(gint fd, GIOCondition condition, gpointer data) {
    (void)fd, (void)condition;
    take_all(data);
    if (is_over(data)) g_main_loop_quit(loop);
    return G_SOURCE_CONTINUE;
}

static gboolean by_time(gpointer data) {
    if (is_over(data)) g_main_loop_quit(loop);
    return G_SOURCE_CONTINUE;
}

static void by_glib(struct end *it) {
    loop = g_main_loop_new(NULL, FALSE);
    guint watch = g_unix_fd_add(descriptor(it), G_IO_IN, by_source, it), timer = g_timeout_add(500, by_time, it);
    act(it);
    g_main_loop_run(loop);
    g_source_remove(watch);
    g_source_remove(timer);
    g_main_loop_unref(loop);
}
#endif

/* --- opening */

static dt_udp *opened(struct end *it) {
    struct dt_udp_options options = {
        .size = sizeof options,
        .node = it->node,
        .host = word(it, "host", NULL),
        .port = word(it, "port", NULL),
        .params = &(struct dt_params){
            .size = sizeof(struct dt_params), .mpl = 482, .r = number(it, "r", 450), .a = 5, .rto = 90,
            .probe = 180, .seg = number(it, "seg", 1408), .cap = 65536, .rcap = 65536, .window = 65536,
            .run_limit = 2147483648u, .start = 0},
        .charge = 294,
        .state = word(it, "state", NULL),
        .start_as = word(it, "state", NULL)  ? DT_UDP_START_BY_STATE
                    : number(it, "again", 0) ? DT_UDP_START_AGAIN
                                             : DT_UDP_START_FIRST,
        .life = number(it, "life", 1),
        .flags = number(it, "flags", 0),
        .max_peers = number(it, "learns", 0),
        .counters = word(it, "counters", NULL)};
    bool calls = strcmp(it->mode, "ask") == 0 || strcmp(it->mode, "serve") == 0;
    options.role = calls ? DT_UDP_ROLE_SERVICE : DT_UDP_ROLE_NODE;
    struct dt_udp_error error;
    dt_udp *udp = dt_udp_open(&options, &error);
    if (udp == NULL) die(error.text);
    uint32_t most = number(it, "record_octets", 1 << 26);
    if (word(it, "record", NULL) && dt_udp_record(udp, word(it, "record", ""), most, &error) != DT_OK)
        die(error.text);
    if (it->peer && dt_udp_set_peer(udp, it->peer, word(it, "peer_host", "127.0.0.1"), word(it, "peer_port", "4002"),
                                &error) != DT_OK)
        die(error.text);
    bool asks = strcmp(it->mode, "ask") == 0 || strcmp(it->mode, "say") == 0;
    uint8_t kind = (uint8_t)(!calls ? 0 : asks ? DT_PORT_CALLER : DT_PORT_SERVICE);
    if (dt_udp_open_port(udp, asks ? CALLER : SERVICE, kind) != DT_OK) die("the port isn't opened");
    return udp;
}

static void tell(const struct end *it) {
    const struct dt_udp_counts *c = dt_udp_get_counts(it->udp);
    if (strcmp(it->mode, "ask") == 0)
        printf("answered %u unsure %u wrong %u declined %u longest %" PRIu64 "\n", it->answered, it->unsure, it->wrong,
               it->declined, it->longest);
    if (strcmp(it->mode, "say") == 0) printf("echoed %u wrong %u\n", it->answered, it->wrong);
    printf("reads %" PRIu64 " writes %" PRIu64 " in %" PRIu64 " out %" PRIu64 " unknown %" PRIu64 " not_sent %" PRIu64
           " too_big %" PRIu64 " steps %" PRIu64 " learnt %" PRIu64 " moved %" PRIu64 " forgotten %" PRIu64
           " challenges %" PRIu64 "\n",
           c->reads, c->writes, c->datagrams_in, c->datagrams_out, c->unknown, c->not_sent, c->too_big, c->clock_steps,
           c->peers_learnt, c->peers_moved, c->peers_forgotten, c->challenges_out);
    printf("plain %" PRIu64 " old %" PRIu64 " ages_unknown %" PRIu64 " parameters %" PRIu64 " clocks %" PRIu64
           " former %" PRIu64 " early %" PRIu64 " proved %" PRIu64 " asked %" PRIu64 " asks %" PRIu64 "\n",
           c->without_trailer, c->too_old, c->ages_unknown, c->other_parameters, c->clock_alarms, c->former_openings,
           c->early_openings, c->openings_proved, c->pings_in, c->pings_out);
}

int main(int count, char **words) {
    static struct end end;
    if (count < 3) die("usage: ends serve|ask|echo|say LOOP KEY=VALUE..");
    end.words = words + 3;
    end.mode = words[1];
    end.node = number(&end, "node", 1);
    end.peer = number(&end, "peer", 0);
    end.count = number(&end, "count", 1);
    end.octets = number(&end, "octets", 100);
    end.many = number(&end, "many", 1);
    end.log = word(&end, "log", NULL) ? fopen(word(&end, "log", ""), "a") : NULL;
    sigaction(SIGTERM, &(struct sigaction){.sa_handler = stop}, NULL);
    end.udp = opened(&end);
    printf("port %u life %u silent %" PRIu64 "\n", dt_udp_local_port(end.udp), dt_udp_life(end.udp),
           dt_udp_silent_ms(end.udp));
    fflush(stdout);
    if (strcmp(words[2], "next") == 0) by_next(&end);
    else if (strcmp(words[2], "poll") == 0) by_poll(&end);
    else if (strcmp(words[2], "epoll") == 0) by_epoll(&end);
#ifdef WITH_GLIB
    else if (strcmp(words[2], "glib") == 0) by_glib(&end);
#endif
    else die("no such loop");
    if (!stopped) dt_udp_drain(end.udp, 3000);
    tell(&end);
    dt_udp_close(end.udp);
    if (end.log) fclose(end.log);
    return end.wrong ? 2 : 0;
}
