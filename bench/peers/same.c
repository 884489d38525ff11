/* UDP alone, with the datagrams that two nodes of libdeltat exchange for a request and its answer: the request, its
 * acknowledgement, the answer, and its acknowledgement, each of the same octets. It is what the system takes for these
 * datagrams; nothing is sent again. peer.h says how it is run, of which it has `answers` alone. */
#define _GNU_SOURCE
#include "peer.h"
#include <sys/socket.h>
#include <sys/time.h>

/* the headers of a Deltagram and a packet, which are all of an acknowledgement */
enum { HEADERS = 30 };

static int opened(void) {
    int it = socket(AF_INET, SOCK_DGRAM, 0), size = 1 << 22;
    setsockopt(it, SOL_SOCKET, SO_RCVBUF, &size, sizeof size);
    return it;
}

static void serve(const char *address, int port) {
    struct sockaddr_in here = place(address, port), from;
    unsigned char room[65536];
    int door = opened();
    if (bind(door, (struct sockaddr *)&here, sizeof here) != 0) fail("the address can't be bound");
    for (;;) {
        socklen_t length = sizeof from;
        if (recvfrom(door, room, sizeof room, 0, (struct sockaddr *)&from, &length) <= HEADERS) continue;
        sendto(door, room, HEADERS, 0, (struct sockaddr *)&from, length);
        sendto(door, room, HEADERS + ANSWER, 0, (struct sockaddr *)&from, length);
    }
}

static void ask(const char *address, int port, const struct question *it) {
    struct sockaddr_in there = place(address, port);
    struct timeval longest = {0, 100000};
    unsigned char room[65536], *octets;
    int door = opened();
    double begun = now(), until = begun + it->seconds;
    uint32_t count = 0;
    if (strcmp(it->what, "answers") != 0 || it->octets > 8192) fail("it has answers to requests of a datagram alone");
    setsockopt(door, SOL_SOCKET, SO_RCVTIMEO, &longest, sizeof longest);
    while (now() < until) {
        octets = request(HEADERS + it->octets);
        sendto(door, octets, HEADERS + HEAD + it->octets, 0, (struct sockaddr *)&there, sizeof there);
        free(octets);
        ssize_t got = HEADERS;
        while (got == HEADERS) got = recv(door, room, sizeof room, 0);
        if (got < 0) continue;
        sendto(door, room, HEADERS, 0, (struct sockaddr *)&there, sizeof there);
        count++;
    }
    done(count, now() - begun);
}
