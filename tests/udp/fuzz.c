/* Any octets as datagrams of the driver over a UDP socket, with real sockets of this machine: tests/udp_fuzz.py
 * builds and runs it. An input is a head (node or service, flags, with the watch or without) and records: which socket
 * speaks, what it says, and how many octets of the input it says. Socket 0 has the address of the configured peer, and
 * 1 and 2 are strangers, who may learn cookies. With the watch a speaker's datagrams mostly end with a trailer, which
 * says what the speaker heard of the driver's clock, or what the input wants.
 *
 * A fault is what the sanitizers see; an event that has no kind, or octets that can't be read; and a stranger who has
 * received more than it sent, or anything but challenges, before it returned a cookie. With -DALONE it has a main:
 * `fuzz --count N --seed N` draws N inputs by chance, `fuzz FILE..` tries files. */
#include "deltat_udp.h"
#include <arpa/inet.h>
#include <netinet/udp.h>
#include <stdio.h>
#include <stdlib.h>
#include <string.h>
#include <sys/socket.h>
#include <time.h>
#include <unistd.h>

enum { SOCKETS = 3, ME = 2, PEER = 1, HEAD = 4, MOST_RECORDS = 64, FRAME = 30, MOST = 1000 };

#define WANT(truth) \
    do { \
        if (!(truth)) fprintf(stderr, "fuzz.c:%d: %s\n", __LINE__, #truth), abort(); \
    } while (0)

struct speaker {
    int socket;
    uint32_t node;
    bool proved;
    size_t sent, heard;
    uint8_t cookie[9]; /* of the last challenge, its span first */
    uint64_t opening;  /* names its own */
    uint64_t its_opening, its_made; /* what the last trailer of the driver said */
};

struct world {
    dt_udp *udp;
    struct speaker all[SOCKETS];
    struct sockaddr_in target;
    uint8_t object[3000];
    uint32_t print; /* of the parameters */
    bool watched;
    uint8_t odd;    /* which field of the next trailer is another one, and how */
    uint64_t sum;   /* of all octets that are handed out: so each of them is read */
};

static void put(uint8_t *at, uint64_t value, int octets) {
    for (int i = octets - 1; i >= 0; i--, value >>= 8) at[i] = (uint8_t)value;
}

static uint64_t got(const uint8_t *at, int octets) {
    uint64_t value = 0;
    for (int i = 0; i < octets; i++) value = value << 8 | at[i];
    return value;
}

/* --- what the speakers hear and say */

static void hear(const struct world *w, struct speaker *it) {
    uint8_t room[9000];
    for (ssize_t len; (len = recv(it->socket, room, sizeof room, MSG_DONTWAIT)) >= 0;) {
        it->heard += (size_t)len;
        if (w->watched) {
            WANT(len > DT_UDP_TRAILER);
            len -= DT_UDP_TRAILER;
            it->its_opening = got(room + len + 4, 6), it->its_made = got(room + len + 12, 6);
        }
        bool challenge = len == 28 && room[0] == 208 && room[2] == 1;
        if (challenge) memcpy(it->cookie, room + 3, 1), memcpy(it->cookie + 1, room + 12, 8);
        if (!it->proved) WANT(challenge && it->heard <= it->sent);
    }
}

static uint64_t microseconds(void) {
    struct timespec it;
    clock_gettime(CLOCK_BOOTTIME, &it);
    return (uint64_t)it.tv_sec * 1000000 + (uint64_t)it.tv_nsec / 1000;
}

/* The trailer of a speaker (docs/formats.md), of which one field may be what the input wants. */
static void put_trailer(const struct world *w, const struct speaker *it, uint8_t *at, uint8_t kind) {
    static const uint8_t FIELDS[][2] = {{0, 4}, {4, 6}, {10, 1}, {11, 1}, {12, 6}, {18, 6}, {24, 2}, {26, 2}, {28, 1}};
    put(at, w->print, 4), put(at + 4, it->opening, 6), put(at + 10, 16 | kind, 1), put(at + 11, 0, 1);
    put(at + 12, microseconds(), 6), put(at + 18, it->its_made, 6), put(at + 24, it->its_opening, 2);
    put(at + 26, w->odd % 7 * 30, 2), put(at + 28, 0, 6);
    if (w->odd >= 64) {
        const uint8_t *field = FIELDS[w->odd % 9];
        put(at + field[0], got(at + field[0], field[1]) + (w->odd & 32 ? 1u << 20 : w->odd / 64 - 2u), field[1]);
    }
}

/* Sends octets, cut into segments of one size, or whole (0). */
static void say(struct world *w, struct speaker *it, const struct iovec *octets, uint16_t segment) {
    _Alignas(struct cmsghdr) char control[CMSG_SPACE(sizeof segment)] = {0};
    struct iovec part = *octets;
    struct msghdr head = {.msg_name = &w->target, .msg_namelen = sizeof w->target, .msg_iov = &part, .msg_iovlen = 1};
    if (segment) {
        head.msg_control = control, head.msg_controllen = sizeof control;
        struct cmsghdr *c = CMSG_FIRSTHDR(&head);
        c->cmsg_level = IPPROTO_UDP, c->cmsg_type = UDP_SEGMENT, c->cmsg_len = CMSG_LEN(sizeof segment);
        memcpy(CMSG_DATA(c), &segment, sizeof segment);
    }
    ssize_t sent = sendmsg(it->socket, &head, MSG_DONTWAIT);
    if (sent > 0) it->sent += (size_t)sent;
}

/* Sends octets, with the speaker's trailer if the driver has the watch. */
static void say_watched(struct world *w, struct speaker *it, const uint8_t *octets, size_t len, uint8_t kind) {
    uint8_t room[MOST + DT_UDP_TRAILER];
    if (len > MOST) len = MOST;
    memcpy(room, octets, len);
    if (w->watched) put_trailer(w, it, room + len, kind), len += DT_UDP_TRAILER;
    say(w, it, &(struct iovec){room, len}, 0);
}

/* A datagram without a frame: the speaker asks, or answers. */
static void say_bare(struct world *w, struct speaker *it, const uint8_t *octets, size_t len) {
    uint8_t node[4];
    put(node, it->node, 4);
    w->odd = len > 1 ? octets[1] : 0;
    say_watched(w, it, node, sizeof node, (uint8_t)(len ? 1 + octets[0] % 4 : 2));
}

/* A frame whose headers are whole, with what the input says of its packet behind them. */
static void say_frame(struct world *w, struct speaker *it, const uint8_t *octets, size_t len) {
    uint8_t frame[FRAME + 256] = {1, 1, 0, 0, 0, 0, 1, 226};
    uint8_t kind = len ? octets[0] % 5 : 1, flags = len > 1 ? octets[1] & 7 : 7;
    size_t body = len > 4 ? len - 4 : 0;
    put(frame + 2, 14 + body, 2);
    put(frame + 8, it->node, 4), put(frame + 12, ME, 4);
    frame[16] = kind, frame[17] = flags;
    static const uint16_t PORTS[] = {20, 20, 21, 30, 31, 32};
    uint16_t port = PORTS[len > 2 ? octets[2] % 6 : 0];
    put(frame + 18, port >= 30 ? port : 10, 2), put(frame + 20, port, 2);
    put(frame + 22, len > 3 ? octets[3] : 0, 4);
    memcpy(frame + FRAME, octets + (len - body), body);
    say_watched(w, it, frame, FRAME + body, 1);
}

/* A datagram of the drivers' own; a proof has the cookie of the last challenge. */
static void say_control(struct world *w, struct speaker *it, const uint8_t *octets, size_t len) {
    uint8_t room[28] = {208, 1, 2, it->cookie[0]};
    put(room + 4, it->node, 4), put(room + 8, ME, 4);
    memcpy(room + 12, it->cookie + 1, 8);
    put(room + 20, it->node, 8);
    if (len && octets[0] & 1) room[2] = octets[0] >> 1 & 3;
    if (len > 2 && octets[0] & 8) room[octets[1] % 28] ^= octets[2];
    if (room[2] == 2) it->proved = true; /* (from here on it may be answered, if it was good) */
    say_watched(w, it, room, sizeof room, 1);
}

/* --- what the program does */

static void take_events(struct world *w) {
    const struct dt_udp_event *event;
    while ((event = dt_udp_next_event(w->udp, 0))->kind != DT_UDP_EVENT_NONE) {
        WANT(event->kind <= DT_UDP_EVENT_ROOM);
        for (size_t i = 0; i < event->len && event->octets; i++) w->sum += event->octets[i];
        if (event->kind == DT_UDP_EVENT_REQUEST) dt_udp_reply(w->udp, &event->token, event->octets, event->len);
        if (event->kind == DT_UDP_EVENT_MESSAGE) {
            struct dt_flow back = {.source = event->flow.target,
                                   .target = event->flow.source,
                                   .source_port = event->flow.target_port,
                                   .target_port = event->flow.source_port};
            dt_udp_send(w->udp, &back, event->octets, event->len);
        }
        WANT(event->kind != DT_UDP_EVENT_FAILED);
    }
}

static void act(struct world *w, uint8_t what, const uint8_t *octets, size_t len) {
    struct dt_flow flow = {ME, what & 1 ? PEER : 500, 20, 20};
    if (dt_udp_service(w->udp)) dt_udp_call(w->udp, &flow, octets, len, 1000);
    else dt_udp_send(w->udp, &flow, octets, len);
    if (what & 16 && dt_udp_node(w->udp))
        dt_udp_put_object(w->udp, what & 1 ? PEER : 500, w->object, what & 32 ? sizeof w->object : len, 100);
    if (what & 2) dt_udp_flush(w->udp);
    if (what & 4) dt_udp_drain(w->udp, 0);
    if (what & 8) (void)dt_udp_fd(w->udp);
}

static void record(struct world *w, uint8_t op, const uint8_t *octets, size_t len) {
    struct speaker *it = &w->all[op % SOCKETS];
    w->odd = len > 5 ? octets[5] : 0;
    switch (op / SOCKETS % 6) {
    case 0: say(w, it, &(struct iovec){(void *)(uintptr_t)octets, len}, 0); break;
    case 1: say_frame(w, it, octets, len); break;
    case 2: say_control(w, it, octets, len); break;
    case 3:
        if (len > 1)
            say(w, it, &(struct iovec){(void *)(uintptr_t)(octets + 1), len - 1}, (uint16_t)(1 + octets[0] % 64));
        break;
    case 4: act(w, len ? octets[0] : 0, octets, len); break;
    default: say_bare(w, it, octets, len); break;
    }
    if (op & 128) take_events(w), hear(w, it);
}

/* --- an input */

static void begin(struct world *w, const uint8_t *head) {
    struct dt_udp_options options = {.size = sizeof options,
                                     .node = ME,
                                     .host = "127.0.0.1",
                                     .charge = 10,
                                     .params = &(struct dt_params){
                                         .size = sizeof(struct dt_params), .mpl = 40, .r = 40, .a = 1,
                                         .rto = 10, .probe = 20, .seg = 200, .cap = 2000, .rcap = 2000,
                                         .window = 2000, .run_limit = 2147483648u, .start = 0},
                                     .start_as = DT_UDP_START_FIRST,
                                     .life = 1,
                                     .max_peers = head[1] & 3,
                                     .flags = (head[2] & 15u) | (head[2] & 16 ? DT_UDP_FLAG_WITHOUT_WATCH : 0u),
                                     .report_kinds = head[3] & 1 ? UINT32_MAX : 0,
                                     .role = head[0] & 1 ? DT_UDP_ROLE_SERVICE : DT_UDP_ROLE_NODE,
                                     .max_message = 3000,
                                     .max_queued = 5000};
    struct dt_udp_error error;
    uint64_t print = 0;
    w->udp = dt_udp_open(&options, &error);
    WANT(w->udp && dt_params_fingerprint(options.params, &print) == DT_OK);
    w->print = (uint32_t)(print >> 32);
    w->watched = !(head[2] & 16);
    w->target = (struct sockaddr_in){
        .sin_family = AF_INET, .sin_port = htons(dt_udp_local_port(w->udp)), .sin_addr.s_addr = htonl(INADDR_LOOPBACK)};
    for (uint32_t i = 0; i < SOCKETS; i++) {
        struct sockaddr_in any = {.sin_family = AF_INET, .sin_addr.s_addr = htonl(INADDR_LOOPBACK)};
        w->all[i] = (struct speaker){.socket = socket(AF_INET, SOCK_DGRAM, 0),
                                     .node = i == 0 ? PEER : 499 + (head[3] & 2 ? 1 : i),
                                     .proved = i == 0,
                                     .opening = (uint64_t)1000 << 16 | i};
        WANT(w->all[i].socket >= 0 && bind(w->all[i].socket, (struct sockaddr *)&any, sizeof any) == 0);
    }
    struct sockaddr_in peer;
    socklen_t len = sizeof peer;
    char port[8];
    WANT(getsockname(w->all[0].socket, (struct sockaddr *)&peer, &len) == 0);
    snprintf(port, sizeof port, "%u", ntohs(peer.sin_port));
    WANT(dt_udp_set_peer(w->udp, PEER, "127.0.0.1", port, &error) == DT_OK);
    WANT(dt_udp_open_port(w->udp, 20, head[0] & 1 ? (head[0] & 2 ? DT_PORT_CALLER : DT_PORT_SERVICE) : 0) == DT_OK);
    if (dt_udp_node(w->udp)) WANT(dt_udp_open_objects(w->udp, 30, 2, 20000) == DT_OK);
}

int LLVMFuzzerTestOneInput(const uint8_t *octets, size_t len) {
    static const uint8_t NONE[HEAD];
    struct world w = {0};
    begin(&w, len < HEAD ? NONE : octets);
    for (size_t at = HEAD, records = 0; at + 2 <= len && records < MOST_RECORDS; records++) {
        size_t said = octets[at + 1], left = len - at - 2;
        if (said > left) said = left;
        record(&w, octets[at], octets + at + 2, said);
        at += 2 + said;
    }
    take_events(&w);
    for (int i = 0; i < SOCKETS; i++) hear(&w, &w.all[i]), close(w.all[i].socket);
    dt_udp_close(w.udp);
    return 0;
}

#ifdef ALONE
static uint64_t drawn(uint64_t *state) {
    *state = *state * 6364136223846793005u + 1442695040888963407u;
    return *state >> 33;
}

int main(int count, char **words) {
    static uint8_t octets[4096];
    if (count == 5 && strcmp(words[1], "--count") == 0) {
        uint64_t state = strtoull(words[4], NULL, 0);
        for (long n = atol(words[2]); n > 0; n--) {
            size_t len = HEAD;
            for (size_t i = 0; i < HEAD; i++) octets[i] = (uint8_t)drawn(&state);
            for (uint64_t records = drawn(&state) % 40; records > 0; records--) {
                octets[len] = (uint8_t)drawn(&state);
                uint8_t said = octets[len + 1] = (uint8_t)(drawn(&state) % 60);
                for (len += 2; said > 0; said--)
                    octets[len++] = (uint8_t)(drawn(&state) % 3 ? drawn(&state) % 4 : drawn(&state));
            }
            LLVMFuzzerTestOneInput(octets, len);
        }
        return 0;
    }
    for (int i = 1; i < count; i++) {
        FILE *file = fopen(words[i], "rb");
        if (file == NULL) return 2;
        size_t len = fread(octets, 1, sizeof octets, file);
        fclose(file);
        LLVMFuzzerTestOneInput(octets, len);
    }
    return 0;
}
#endif
