/* server NETWORK DISK STATE [HOST]:PORT: a file or a device as a disk for gateways. In the folder STATE are the state
 * of its node, and the fence.
 *
 * A request is answered after it is done, and only then is the next of its flow handed out (max_requests_per_flow is
 * 1). With the order of requests on a flow, that is all that the rule of the gateway needs (flows.c).
 *
 * One thread leads: it takes what the driver hands out, and does it. If it is at the disk when the watchdog looks,
 * another one leads from then on, so that the driver is looked at however long the disk takes. One thread never works
 * with the disk. A disk in memory costs no change of threads. */
#include "common.h"
#include "disk.h"
#include <poll.h>
#include <pthread.h>
#include <sys/epoll.h>
#include <sys/stat.h>
#include <sys/timerfd.h>

enum { THREADS = 8, WATCH_NS = 1000000 };

/* A request that was handed out, and later its answer. */
struct job {
    struct job *next;
    struct dt_token token;
    struct request request;
    size_t len;       /* of the answer */
    uint8_t octets[]; /* a header, and the data */
};

struct server {
    pthread_mutex_t lock; /* of what follows, and of the driver */
    dt_udp *udp;
    struct job *first, *last; /* handed out, and not begun */
    struct job *put_off;      /* done, and its flow had no room for the answer */
    unsigned busy;            /* threads that work with the disk */
    bool barrier, is_led, is_watched; /* one is being done; a thread waits for the driver; the watchdog will look */
    int standby, watchdog;
    struct disk disk;
};

/* --- `lock` is held when each of these begins, and when it ends */

static bool is_request(const struct request *it, size_t len) {
    if (it->version != VERSION || it->op < OP_READ || it->op > OP_TAKE_OVER) return false;
    return len == (it->op == OP_WRITE ? it->length : 0) && (it->op != OP_READ || it->length <= MAX_PART);
}

static void take(struct server *server, const struct dt_udp_event *event) {
    struct request it = {.version = 0};
    if (event->len >= HEADER) memcpy(&it, event->octets, HEADER);
    request_turn(&it);
    if (!is_request(&it, event->len - HEADER)) {
        (void)dt_udp_forget(server->udp, &event->token); /* (no gateway's. If the driver failed, an event says so) */
        return;
    }
    size_t room = it.op == OP_READ ? HEADER + it.length : event->len;
    struct job *job = memory(malloc(sizeof *job + room));
    *job = (struct job){.token = event->token, .request = it};
    memcpy(job->octets, event->octets, event->len);
    *(server->first ? &server->last->next : &server->first) = job;
    server->last = job;
}

/* Answers jobs that are done. One whose flow has no room waits until an event says that there is some. */
static void answer(struct server *server, struct job **jobs) {
    struct job *job = *jobs;
    *jobs = NULL;
    for (struct job *next; job; job = next) {
        next = job->next;
        bool is_full = dt_udp_reply(server->udp, &job->token, job->octets, job->len).status == DT_FULL;
        if (is_full) job->next = server->put_off;
        if (is_full) server->put_off = job;
        else free(job);
    }
}

static bool may_begin(const struct server *server) {
    const struct job *job = server->first;
    if (job == NULL || server->barrier || server->busy + 1 >= THREADS) return false;
    return server->busy == 0 || !is_barrier(&job->request);
}

/* Does the first job. Its answer leaves with what else the leader sends. */
static void do_first(struct server *server) {
    static const struct itimerspec SOON = {.it_value = {0, WATCH_NS}};
    struct job *job = server->first;
    server->first = job->next;
    server->barrier = is_barrier(&job->request);
    server->busy++;
    if (!server->is_watched && timerfd_settime(server->watchdog, 0, &SOON, NULL) != 0) die_of_errno("timerfd");
    server->is_watched = true;
    pthread_mutex_unlock(&server->lock);
    struct answer it = disk_do(&server->disk, &job->request, job->octets + HEADER);
    job->len = HEADER + (job->request.op == OP_READ && it.error == 0 ? job->request.length : 0);
    answer_turn(&it);
    memcpy(job->octets, &it, HEADER);
    pthread_mutex_lock(&server->lock);
    server->busy--;
    server->barrier = false; /* (while one is done, nothing else is) */
    job->next = NULL;
    answer(server, &job);
    if (server->is_led) dt_udp_flush(server->udp); /* (the leader is another one by now) */
}

/* Takes all that the driver has and does it, and sends what waits. Each request is done before the socket is looked at
 * again, so that its acknowledgement leaves with the answer. */
static void take_events(struct server *server) {
    for (const struct dt_udp_event *event; (event = dt_udp_next_event(server->udp, 0))->kind != DT_UDP_EVENT_NONE;) {
        udp_judge(event);
        if (event->kind == DT_UDP_EVENT_REQUEST) take(server, event);
        if (event->kind == DT_UDP_EVENT_ROOM) answer(server, &server->put_off);
        while (may_begin(server)) do_first(server);
    }
}

static void *work(void *of) {
    struct server *server = of;
    pthread_mutex_lock(&server->lock);
    for (struct epoll_event event;;) {
        if (server->is_led) while (may_begin(server)) do_first(server);
        else take_events(server);
        bool leads = !server->is_led;
        server->is_led = true;
        pthread_mutex_unlock(&server->lock);
        int got = leads ? poll(&(struct pollfd){dt_udp_fd(server->udp), POLLIN, 0}, 1, -1)
                        : epoll_wait(server->standby, &event, 1, -1);
        if (got < 0 && errno != EINTR) die_of_errno("poll");
        pthread_mutex_lock(&server->lock);
        if (leads) server->is_led = false;
        else server->is_watched = false;
    }
}

static void begin(struct server *server) {
    pthread_t it;
    struct epoll_event readable = {.events = EPOLLIN | EPOLLET}; /* (one thread is woken each time) */
    server->standby = epoll_create1(EPOLL_CLOEXEC);
    server->watchdog = timerfd_create(CLOCK_MONOTONIC, TFD_CLOEXEC | TFD_NONBLOCK);
    if (epoll_ctl(server->standby, EPOLL_CTL_ADD, server->watchdog, &readable) != 0) die_of_errno("epoll");
    for (int i = 0; i < THREADS; i++)
        if (pthread_create(&it, NULL, work, server) != 0) die("no thread");
}

int main(int count, char **words) {
    if (count < 5 || count > 6) die("usage: server NETWORK DISK STATE [HOST]:PORT [BOOT (for tests)]" NETWORK_USAGE);
    struct network network = network_of(words[1]);
    struct address own = address_of(words[4]);
    if (mkdir(words[3], 0700) != 0 && errno != EEXIST) die_of_errno(words[3]);
    struct dt_udp_options options = {
        .size = sizeof options, .node = SERVER, .host = *own.host ? own.host : NULL, .port = own.port,
        .params = &network.params, .charge = network.charge, .role = DT_UDP_ROLE_SERVICE, .state = words[3],
        .max_requests = 4096, .max_requests_per_flow = 1, .max_flows = 16384, .max_peers = 256};
    int signals = signals_fd(); /* (before there are threads, so that all of them block these) */
    struct server server = {.lock = PTHREAD_MUTEX_INITIALIZER};
    server.udp = udp_open(&options, SERVICE_PORT, 1, DT_PORT_SERVICE); /* (STATE is locked: no other is at work) */
    disk_open(&server.disk, words[2], words[3], count == 6 ? strtoull(words[5], NULL, 10) : 0);
    fprintf(stderr, "server: mpl %u ms; silent for %d ms\n", network.params.mpl, (int)dt_udp_silent_ms(server.udp));
    begin(&server);
    while (poll(&(struct pollfd){signals, POLLIN, 0}, 1, -1) != 1) {}
    pthread_mutex_lock(&server.lock); /* (what is at the disk ends with the process) */
    dt_udp_close(server.udp);
    exit(0);
}
