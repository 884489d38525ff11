/* UDP alone, as a program uses it that asks again until it is answered. It has no messages above a datagram and
 * no memory of what it served: it shows what a link can do, and what the others are for. peer.h says how it is run. */
#define _GNU_SOURCE
#include "peer.h"
#include <poll.h>
#include <sys/socket.h>

static double again_after(void) {
    const char *it = getenv("AGAIN_MS");
    return (it == NULL ? 100 : atof(it)) / 1000;
}

static void serve(const char *address, int port) {
    int door = socket(AF_INET, SOCK_DGRAM, 0), size = 1 << 22;
    struct sockaddr_in here = place(address, port), from;
    unsigned char room[65536];
    setsockopt(door, SOL_SOCKET, SO_RCVBUF, &size, sizeof size);
    if (bind(door, (struct sockaddr *)&here, sizeof here) != 0) fail("the address can't be bound");
    for (;;) {
        socklen_t length = sizeof from;
        ssize_t got = recvfrom(door, room, sizeof room, 0, (struct sockaddr *)&from, &length);
        if (got < HEAD + NUMBER) continue;
        served(room + HEAD);
        sendto(door, room, ANSWER, 0, (struct sockaddr *)&from, length);
    }
}

static int opened(const struct sockaddr_in *there) {
    int it = socket(AF_INET, SOCK_DGRAM, 0);
    if (connect(it, (const struct sockaddr *)there, sizeof *there) != 0) fail("no way there");
    return it;
}

/* One request, sent again until its answer is there. */
static int exchange(int at, uint32_t octets, double until) {
    unsigned char *it = request(octets), room[65536];
    struct pollfd waits = {at, POLLIN, 0};
    int is_answered = 0;
    while (!is_answered && now() < until) {
        send(at, it, HEAD + octets, 0);
        double again = now() + again_after();
        while (!is_answered && now() < again) {
            if (poll(&waits, 1, (int)((again - now()) * 1000) + 1) != 1) break;
            /* the answer has the request's number; another one is late */
            is_answered = recv(at, room, sizeof room, 0) >= ANSWER && memcmp(room + HEAD, it + HEAD, NUMBER) == 0;
        }
    }
    free(it);
    return is_answered;
}

static void ask(const char *address, int port, const struct question *it) {
    struct sockaddr_in there = place(address, port);
    double until = now() + it->seconds;
    if (strcmp(it->what, "first") == 0) {
        for (int i = 0; i < it->count && now() < until; i++) {
            double begun = now();
            int at = opened(&there);
            if (exchange(at, it->octets, until)) done(1, now() - begun);
            close(at);
        }
        return;
    }
    if (strcmp(it->what, "answers") != 0) fail("UDP alone has neither messages above a datagram nor flows");
    int at = opened(&there);
    if (!exchange(at, NUMBER, until)) return;
    uint32_t count = 0;
    double begun = now();
    while (now() < until && exchange(at, it->octets, until)) count++;
    done(count, now() - begun);
}
