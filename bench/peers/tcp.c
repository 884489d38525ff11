/* TCP, as a program uses it that cares for delays: without Nagle's waiting. peer.h says how it is run. */
#define _GNU_SOURCE
#include "peer.h"
#include <errno.h>
#include <netinet/tcp.h>
#include <poll.h>
#include <sys/epoll.h>
#include <sys/socket.h>

/* With FAST_OPEN in the environment the first request goes in the opening packet (RFC 7413). */
static int is_fast(void) { return getenv("FAST_OPEN") != NULL; }

static void set(int at, int level, int name, int value) { setsockopt(at, level, name, &value, sizeof value); }

static void answer(int at) {
    static const unsigned char octets[ANSWER];
    if (send(at, octets, ANSWER, MSG_NOSIGNAL) != ANSWER) close(at);
}

static void serve(const char *address, int port) {
    static struct incoming peers[65536];
    static unsigned char room[1 << 16];
    int door = socket(AF_INET, SOCK_STREAM, 0), many = epoll_create1(0);
    struct sockaddr_in here = place(address, port);
    set(door, SOL_SOCKET, SO_REUSEADDR, 1);
    if (is_fast()) set(door, IPPROTO_TCP, TCP_FASTOPEN, 64);
    if (bind(door, (struct sockaddr *)&here, sizeof here) != 0 || listen(door, MOST_FLOWS) != 0) fail("the address can't be bound");
    struct epoll_event wanted = {.events = EPOLLIN, .data.fd = door}, ready[64];
    epoll_ctl(many, EPOLL_CTL_ADD, door, &wanted);
    for (;;) {
        int count = epoll_wait(many, ready, 64, -1);
        for (int i = 0; i < count; i++) {
            int at = ready[i].data.fd;
            if (at == door) {
                at = accept(door, NULL, NULL);
                if (at < 0 || at >= 65536) continue;
                set(at, IPPROTO_TCP, TCP_NODELAY, 1);
                memset(&peers[at], 0, sizeof peers[at]);
                wanted.data.fd = at;
                epoll_ctl(many, EPOLL_CTL_ADD, at, &wanted);
                continue;
            }
            ssize_t got = recv(at, room, sizeof room, 0);
            if (got <= 0) close(at);
            else for (int left = take(&peers[at], room, (size_t)got); left > 0; left--) answer(at);
        }
    }
}

static int opened(const struct sockaddr_in *there, int flags) {
    int it = socket(AF_INET, SOCK_STREAM | flags, 0);
    set(it, IPPROTO_TCP, TCP_NODELAY, 1);
    if (is_fast()) set(it, IPPROTO_TCP, TCP_FASTOPEN_CONNECT, 1);
    if (connect(it, (const struct sockaddr *)there, sizeof *there) != 0 && errno != EINPROGRESS) {
        close(it);
        return -1;
    }
    return it;
}

/* Waits for the socket, to that moment at most. */
static int is_ready(int at, short events, double until) {
    struct pollfd it = {at, events, 0};
    double left = until - now();
    return left > 0 && poll(&it, 1, (int)(left * 1000) + 1) == 1;
}

/* One request and its answer on a socket that doesn't block. */
static int exchange(int at, uint32_t octets, double until) {
    unsigned char *it = request(octets), room[ANSWER];
    size_t sent = 0, size = HEAD + (size_t)octets, got = 0;
    while (sent < size && is_ready(at, POLLOUT, until)) {
        ssize_t more = send(at, it + sent, size - sent, MSG_NOSIGNAL);
        if (more < 0 && errno != EAGAIN && errno != EINPROGRESS) break;
        sent += more > 0 ? (size_t)more : 0;
    }
    free(it);
    while (sent == size && got < ANSWER && is_ready(at, POLLIN, until)) {
        ssize_t more = recv(at, room, ANSWER - got, 0);
        if (more == 0 || (more < 0 && errno != EAGAIN)) break;
        got += more > 0 ? (size_t)more : 0;
    }
    return got == ANSWER;
}

static void ask_flows(const struct sockaddr_in *there, const struct question *it, double until) {
    static struct pollfd flows[MOST_FLOWS];
    static int got[MOST_FLOWS];
    unsigned char room[ANSWER], *octets = request(it->octets);
    double begun = now(), last = begun;
    int answered = 0;
    for (int i = 0; i < it->count; i++) flows[i] = (struct pollfd){opened(there, SOCK_NONBLOCK), POLLOUT, 0};
    while (answered < it->count && now() < until) {
        poll(flows, (nfds_t)it->count, 20);
        for (int i = 0; i < it->count; i++) {
            if (flows[i].revents & POLLOUT) {
                send(flows[i].fd, octets, HEAD + it->octets, MSG_NOSIGNAL);
                flows[i].events = POLLIN;
            } else if (flows[i].revents) {
                ssize_t more = recv(flows[i].fd, room, ANSWER, 0);
                if (more <= 0) flows[i].fd = -1;
                else if ((got[i] += (int)more) >= ANSWER) answered++, last = now(), flows[i].fd = -1;
            }
        }
    }
    done((uint32_t)answered, answered == it->count ? last - begun : now() - begun);
}

static void ask(const char *address, int port, const struct question *it) {
    struct sockaddr_in there = place(address, port);
    double until = now() + it->seconds;
    if (strcmp(it->what, "first") == 0) {
        for (int i = 0; i < it->count && now() < until; i++) {
            double begun = now();
            int at = opened(&there, SOCK_NONBLOCK);
            if (at >= 0 && exchange(at, it->octets, until)) done(1, now() - begun);
            if (at >= 0) close(at);
        }
        return;
    }
    if (strcmp(it->what, "flows") == 0) {
        ask_flows(&there, it, until);
        return;
    }
    int at = opened(&there, SOCK_NONBLOCK);
    if (at < 0 || !exchange(at, NUMBER, until)) return;
    double begun = now();
    uint32_t count = 0;
    if (strcmp(it->what, "answers") == 0) {
        while (now() < until && exchange(at, it->octets, until)) count++;
        done(count, now() - begun);
    }
    for (int i = 0; strcmp(it->what, "message") == 0 && i < it->count; i++, begun = now()) {
        if (!exchange(at, it->octets, until)) return;
        done(it->octets, now() - begun);
    }
}
