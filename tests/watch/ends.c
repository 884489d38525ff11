/* Both ends that tests/watch.py and bench/watch.py run.
 *
 *   ends serve KEY=VALUE..   a service at port 20: writes the eight octets of each request that is handed out to `log`,
 *                            and answers with `answer` octets, until SIGTERM
 *   ends ask KEY=VALUE..     for `seconds`, has `depth` calls of `octets` octets under way on each of `flows` flows
 *
 * Keys: port peer_port node peer again life flags mpl r rto charge seg seconds flows depth octets answer log; delay_us:
 * the parameters and the charge are those of dt_udp_params_for, for a round trip of trip_us; run: the upper half of the
 * numbers of requests; held: of 1,000 calls of the socket that send data once more, how many are preceded by a SIGSTOP of
 * this process; clock: a file whose first eight octets are the ns by which the clock stood; datagrams: it ends when it has
 * read so many; calls: it makes so many, and prints how long they took; host, peer_host: addresses; learns: how many peers
 * a service may learn; timeout: of each call, in ms. Each number is printed with its name. */
#include "deltat_udp.h"
#include <errno.h>
#include <fcntl.h>
#include <inttypes.h>
#include <signal.h>
#include <stdio.h>
#include <stdlib.h>
#include <string.h>
#include <sys/mman.h>
#include <sys/socket.h>
#include <sys/syscall.h>
#include <time.h>
#include <unistd.h>

enum { CALLER = 1000, SERVICE = 20, MOST = 65528, MOST_FLOWS = 256 };

struct end {
    dt_udp *udp;
    char **words;
    uint32_t node, peer, flows, depth, octets, answer, run, made, answered, unsure, alarms, calls, timeout;
    uint64_t took_ms, in_time;
    uint32_t under_way[MOST_FLOWS];
    int log;
    uint8_t room[MOST];
};

static volatile sig_atomic_t stopped;
static volatile int64_t *stood;
static uint32_t held;

static void stop(int signal) { stopped = signal; }

/* --- what the linker puts before the system's calls (-Wl,--wrap) */

int __wrap_clock_gettime(clockid_t clock, struct timespec *it);
int __wrap_sendmmsg(int socket, struct mmsghdr *heads, unsigned count, int flags);
ssize_t __wrap_sendmsg(int socket, const struct msghdr *head, int flags);
int __real_sendmmsg(int socket, struct mmsghdr *heads, unsigned count, int flags);
ssize_t __real_sendmsg(int socket, const struct msghdr *head, int flags);
dt_status __wrap_dt_watch_hear(dt_watch *watch, bool second, const struct dt_passage *passage);
dt_status __real_dt_watch_hear(dt_watch *watch, bool second, const struct dt_passage *passage);
uint64_t __wrap_dt_watch_around(dt_watch *watch, bool second, uint64_t then);
uint64_t __real_dt_watch_around(dt_watch *watch, bool second, uint64_t then);
struct dt_receive_result __wrap_dt_service_receive(dt_service *service, uint64_t now, uint16_t link, const uint8_t *datagram,
                                                   size_t len, uint32_t waited_ms);
struct dt_receive_result __real_dt_service_receive(dt_service *service, uint64_t now, uint16_t link, const uint8_t *datagram,
                                                   size_t len, uint32_t waited_ms);

/* CLOCK_BOOTTIME of a machine whose clock stood. */
int __wrap_clock_gettime(clockid_t clock, struct timespec *it) {
    int result = (int)syscall(SYS_clock_gettime, clock, it);
    if (clock != CLOCK_BOOTTIME || stood == NULL) return result;
    int64_t ns = (int64_t)it->tv_sec * 1000000000 + it->tv_nsec - *stood;
    it->tv_sec = ns / 1000000000;
    it->tv_nsec = ns % 1000000000;
    return result;
}

/* Whether a frame has data that went before: only such a one is delivered twice if it is late. */
static bool goes_again(const struct iovec *frame) {
    static uint64_t seen[1 << 14];
    const uint8_t *octets = frame->iov_base;
    if (frame->iov_len < 30 || octets[16] != 1) return false;
    uint64_t name = 1;
    for (int i = 18; i < 26; i++) name = (name ^ octets[i]) * 1099511628211u; /* (its ports and its number) */
    uint64_t *place = &seen[name >> 50], before = *place;
    *place = name;
    return before == name;
}

/* A process that is stopped between the making of its frames and the socket. */
static void hold(const struct msghdr *head) {
    if (held && goes_again(head->msg_iov) && (uint32_t)(drand48() * 1000) < held) raise(SIGSTOP);
}

int __wrap_sendmmsg(int socket, struct mmsghdr *heads, unsigned count, int flags) {
    hold(&heads->msg_hdr);
    return __real_sendmmsg(socket, heads, count, flags);
}

ssize_t __wrap_sendmsg(int socket, const struct msghdr *head, int flags) {
    hold(head);
    return __real_sendmsg(socket, head, flags);
}

/* --- whether what is dropped as too old was too old: both ends read one clock, so the true age is known */

static struct {
    uint64_t made;             /* of the datagram that is passed in next, in us */
    uint64_t late, false_drops; /* that were too old by their age; of these: that weren't later than the network may be */
    uint64_t most;             /* how long a datagram may be under way, with the two machines, in us */
    uint64_t longest, spare;   /* the longest true age, and the least life that was left of what was taken, in us */
    uint64_t first, last;      /* readings of the first datagram, and of the last false drop, in us */
    uint32_t charge;
} judged = {.most = UINT64_MAX, .spare = UINT64_MAX};

dt_status __wrap_dt_watch_hear(dt_watch *watch, bool second, const struct dt_passage *passage) {
    judged.made = passage->made;
    return __real_dt_watch_hear(watch, second, passage);
}

/* (of a frame whose age wasn't known: it is asked for when that is) */
uint64_t __wrap_dt_watch_around(dt_watch *watch, bool second, uint64_t then) {
    judged.made = then;
    return __real_dt_watch_around(watch, second, then);
}

struct dt_receive_result __wrap_dt_service_receive(dt_service *service, uint64_t now, uint16_t link, const uint8_t *datagram,
                                                   size_t len, uint32_t waited_ms) {
    struct timespec it;
    (void)syscall(SYS_clock_gettime, CLOCK_BOOTTIME, &it);
    uint64_t us = (uint64_t)it.tv_sec * 1000000 + (uint64_t)it.tv_nsec / 1000, age = us > judged.made ? us - judged.made : 0;
    uint64_t life = 0, charged = 1000 * ((uint64_t)judged.charge + waited_ms);
    for (int i = 4; len >= 16 && i < 8; i++) life = life << 8 | datagram[i];
    life *= 1000;
    if (age > judged.longest) judged.longest = age;
    if (life > charged && life - charged < judged.spare) judged.spare = life - charged;
    bool is_late = life <= charged, is_false = is_late && age + 2000 < life && age <= judged.most; /* (whole milliseconds) */
    judged.late += is_late;
    judged.false_drops += is_false;
    if (judged.first == 0) judged.first = us;
    if (is_false) judged.last = us - judged.first;
    return __real_dt_service_receive(service, now, link, datagram, len, waited_ms);
}

/* --- words */

static const char *word(const struct end *it, const char *key, const char *usual) {
    size_t len = strlen(key);
    for (char **each = it->words; *each; each++)
        if (strncmp(*each, key, len) == 0 && (*each)[len] == '=') return *each + len + 1;
    return usual;
}

static uint32_t number(const struct end *it, const char *key, uint32_t usual) {
    const char *found = word(it, key, NULL);
    return found ? (uint32_t)strtoul(found, NULL, 0) : usual;
}

static void die(const char *what) {
    fprintf(stderr, "ends: %s\n", what);
    exit(1);
}

static uint64_t milliseconds(void) {
    struct timespec it;
    syscall(SYS_clock_gettime, CLOCK_MONOTONIC, &it);
    return (uint64_t)it.tv_sec * 1000 + (uint64_t)it.tv_nsec / 1000000;
}

/* --- calls */

static void make_calls(struct end *it) {
    for (uint32_t flow = 0; flow < it->flows; flow++) {
        while (it->under_way[flow] < it->depth && it->made < it->calls) {
            struct dt_flow to = {it->node, it->peer, (uint16_t)(CALLER + flow), SERVICE};
            uint64_t id = (uint64_t)it->run << 32 | it->made;
            memcpy(it->room, &id, sizeof id);
            if (dt_udp_call(it->udp, &to, it->room, it->octets, it->timeout).status != DT_OK) break;
            it->made++;
            it->under_way[flow]++;
        }
        if (flow % 4 == 3) dt_udp_flush(it->udp); /* (what is made mustn't be late) */
    }
}

static void handle(struct end *it, const struct dt_udp_event *event) {
    if (event->kind == DT_UDP_EVENT_REQUEST) {
        if (it->log >= 0 && write(it->log, event->octets, 8) != 8) die("the log isn't written");
        memcpy(it->room, event->octets, 8);
        (void)dt_udp_reply(it->udp, &event->token, it->room, it->answer);
    } else if (event->kind == DT_UDP_EVENT_ANSWERED) it->answered++;
    else if (event->kind == DT_UDP_EVENT_UNSURE) it->unsure++;
    else if (event->kind == DT_UDP_EVENT_ALARM) it->alarms++;
    else if (event->kind == DT_UDP_EVENT_FAILED) {
        fprintf(stderr, "ends: failed: status %u, %s\n", event->cause, strerror(event->system_error));
        exit(3);
    }
}

/* (An answer's flow isn't in the event: of each flow as many calls are under way as of the others, but for one.) */
static void note_ends(struct end *it, uint32_t before) {
    for (uint32_t ended = it->answered + it->unsure - before, flow = before % it->flows; ended; ended--) {
        uint32_t tried = 0;
        while (it->under_way[flow] == 0 && tried++ < it->flows) flow = (flow + 1) % it->flows;
        if (it->under_way[flow]) it->under_way[flow]--;
        flow = (flow + 1) % it->flows;
    }
}

static void ask(struct end *it) {
    uint64_t begun = milliseconds(), end = begun + 1000 * (uint64_t)number(it, "seconds", 5), patience = end + 4000;
    uint64_t most = number(it, "datagrams", UINT32_MAX);
    for (uint64_t now; !stopped && (now = milliseconds()) < patience;) {
        if (dt_udp_get_counts(it->udp)->datagrams_in >= most) end = now;
        if (now >= end && it->answered + it->unsure == it->made) break;
        if (now < end) {
            make_calls(it);
            it->in_time = it->answered;
        }
        dt_udp_flush(it->udp);
        uint32_t before = it->answered + it->unsure;
        handle(it, dt_udp_next_event(it->udp, 20));
        for (int i = 0; i < 64; i++) {
            const struct dt_udp_event *event = dt_udp_next_event(it->udp, 0);
            if (event->kind == DT_UDP_EVENT_NONE) break;
            handle(it, event);
        }
        note_ends(it, before);
        if (it->answered == it->calls) {
            it->took_ms = milliseconds() - begun;
            return;
        }
    }
}

static void serve(struct end *it) {
    while (!stopped) {
        handle(it, dt_udp_next_event(it->udp, 100));
        dt_udp_flush(it->udp);
    }
}

/* --- opening */

static struct dt_params params_of(const struct end *it, uint32_t *charge) {
    struct dt_params params = {.size = sizeof params, .mpl = number(it, "mpl", 60), .r = number(it, "r", 100), .a = 2,
                               .rto = number(it, "rto", 10), .probe = 50, .seg = number(it, "seg", 1408), .cap = 65536,
                               .rcap = 65536, .window = 65536, .run_limit = 2147483648u, .start = 0};
    uint32_t delay = number(it, "delay_us", 0);
    *charge = number(it, "charge", 44);
    if (delay == 0) return params;
    judged.most = delay + 40000; /* (20 ms at each of the two machines) */
    struct dt_network network = DT_NETWORK(delay, number(it, "trip_us", 2 * delay));
    if (dt_udp_params_for(&network, &params, charge) != DT_OK) die("no parameters suit");
    return params;
}

static void open_end(struct end *it, bool asks) {
    uint32_t charge;
    struct dt_params params = params_of(it, &charge);
    judged.charge = charge;
    struct dt_udp_options options = {.size = sizeof options, .node = it->node, .host = word(it, "host", "127.0.0.1"),
                                     .port = word(it, "port", NULL), .params = &params,
                                     .charge = charge, .role = DT_UDP_ROLE_SERVICE,
                                     .start_as = number(it, "again", 0) ? DT_UDP_START_AGAIN : DT_UDP_START_FIRST,
                                     .life = number(it, "life", 1), .flags = number(it, "flags", 0),
                                     .max_calls = 100000, .max_requests = 100000, .max_requests_per_flow = 1000,
                                     .max_peers = number(it, "learns", 0)};
    struct dt_udp_error error;
    it->udp = dt_udp_open(&options, &error);
    if (it->udp == NULL) die(error.text);
    if (dt_udp_set_peer(it->udp, it->peer, word(it, "peer_host", "127.0.0.1"), word(it, "peer_port", "1"), &error)) die(error.text);
    for (uint32_t flow = 0; flow < (asks ? it->flows : 1); flow++)
        if (dt_udp_open_port(it->udp, (uint16_t)(asks ? CALLER + flow : SERVICE),
                             asks ? DT_PORT_CALLER : DT_PORT_SERVICE) != DT_OK)
            die("a port isn't opened");
}

static void look_at_clock(const struct end *it) {
    const char *name = word(it, "clock", NULL);
    int fd = name ? open(name, O_RDONLY) : -1;
    if (fd < 0) return;
    void *at = mmap(NULL, 8, PROT_READ, MAP_SHARED, fd, 0);
    if (at == MAP_FAILED) die("the clock's file can't be mapped");
    stood = at;
    close(fd);
}

static void tell(const struct end *it) {
    const struct dt_udp_counts *c = dt_udp_get_counts(it->udp);
    printf("made %u answered %u unsure %u alarms %u in %" PRIu64 " out %" PRIu64 " unknown %" PRIu64 " not_sent %" PRIu64
           " without_trailer %" PRIu64 " too_old %" PRIu64 " ages_unknown %" PRIu64 " other_parameters %" PRIu64
           " clock_alarms %" PRIu64 " former %" PRIu64 " early %" PRIu64 " proved %" PRIu64 " pings_in %" PRIu64
           " pings_out %" PRIu64 " late %" PRIu64 " false_drops %" PRIu64 " longest_us %" PRIu64 " spare_us %" PRIu64
           " false_until_us %" PRIu64 " took_ms %" PRIu64 " in_time %" PRIu64 "\n",
           it->made, it->answered, it->unsure, it->alarms, c->datagrams_in, c->datagrams_out, c->unknown, c->not_sent,
           c->without_trailer, c->too_old, c->ages_unknown, c->other_parameters, c->clock_alarms, c->former_openings,
           c->early_openings, c->openings_proved, c->pings_in, c->pings_out, judged.late, judged.false_drops, judged.longest, judged.spare, judged.last, it->took_ms, it->in_time);
}

int main(int count, char **words) {
    static struct end it;
    if (count < 3) die("usage: ends serve|ask KEY=VALUE..");
    bool asks = strcmp(words[1], "ask") == 0;
    it.words = words + 2;
    it.node = number(&it, "node", asks ? 1 : 2);
    it.peer = number(&it, "peer", asks ? 2 : 1);
    it.flows = number(&it, "flows", 1);
    it.depth = number(&it, "depth", 1);
    it.octets = number(&it, "octets", 64);
    it.answer = number(&it, "answer", 8);
    it.run = number(&it, "run", 1);
    it.calls = number(&it, "calls", UINT32_MAX);
    it.timeout = number(&it, "timeout", 20000);
    if (it.flows > MOST_FLOWS || it.octets > MOST || it.octets < 8) die("flows or octets");
    it.log = word(&it, "log", NULL) ? open(word(&it, "log", ""), O_WRONLY | O_CREAT | O_APPEND, 0600) : -1;
    held = number(&it, "held", 0);
    srand48(number(&it, "run", 1));
    look_at_clock(&it);
    sigaction(SIGTERM, &(struct sigaction){.sa_handler = stop}, NULL);
    open_end(&it, asks);
    printf("ready\n");
    fflush(stdout);
    if (asks) ask(&it);
    else serve(&it);
    tell(&it);
    dt_udp_close(it.udp);
    return 0;
}
