/* A link between two sockets of this machine, for tests/watch.py: it delays, has a rate and a queue, and copies or keeps
 * back some datagrams.
 *
 *   relay KEY=VALUE..   a, b: ports of its own; to_a, to_b: ports of the two ends; delay: us; rate: Mbit/s, 0 for none;
 *                       queue: octets; seed; lose, lose_back, copy, keep: datagrams of 10,000 that are lost, that are lost
 *                       on the way to `to_a`, of which a second copy
 *                       arrives later, that arrive later only; from, to: how much later, in ms; deaf: for so many ms
 *                       of each 2 s nothing arrives at `to_a`
 *
 * What arrives at `a` leaves `b` for `to_b`, and the other way round. Until SIGTERM; then it prints what it did. With
 * tun_a and tun_b, descriptors of TUN devices, it carries whole packets between these instead, of TCP too. */
#include <arpa/inet.h>
#include <errno.h>
#include <inttypes.h>
#include <poll.h>
#include <signal.h>
#include <stdbool.h>
#include <stdint.h>
#include <stdio.h>
#include <stdlib.h>
#include <string.h>
#include <sys/socket.h>
#include <time.h>
#include <unistd.h>

enum { BATCH = 64, ROOM = 9216, RING = 1 << 16, MOST_LATE = 1 << 14 };

struct packet {
    uint64_t at;
    size_t len;
    uint8_t *octets;
};

struct way {
    int in, out;
    struct sockaddr_in to;
    struct packet *ring; /* RING of them */
    uint32_t head, tail;
    uint64_t free_at; /* when the link has sent what waits */
    bool is_tun;
};

struct late {
    struct packet packet;
    struct way *way;
};

struct relay {
    struct way ways[2];
    struct late late[MOST_LATE];
    size_t late_count;
    uint64_t delay, queue, from, to, lose, lose_back, copy, keep, deaf, longest;
    double octets_each_ns;
    uint64_t went, lost, crowded, copied, kept;
    uint64_t of_udp, udp_crowded; /* of a TUN device: packets of UDP */
};

static volatile sig_atomic_t stopped;

static void stop(int signal) { stopped = signal; }

static uint64_t now_ns(void) {
    struct timespec it;
    clock_gettime(CLOCK_MONOTONIC, &it);
    return (uint64_t)it.tv_sec * 1000000000 + (uint64_t)it.tv_nsec;
}

static void die(const char *what) {
    perror(what);
    exit(1);
}

static double number(char **words, const char *key, double usual) {
    size_t len = strlen(key);
    for (; *words; words++)
        if (strncmp(*words, key, len) == 0 && (*words)[len] == '=') return atof(*words + len + 1);
    return usual;
}

static struct sockaddr_in at_port(double port) {
    return (struct sockaddr_in){
        .sin_family = AF_INET, .sin_port = htons((uint16_t)port), .sin_addr.s_addr = htonl(INADDR_LOOPBACK)};
}

static int bound(double port) {
    int fd = socket(AF_INET, SOCK_DGRAM, 0), room = 1 << 25;
    struct sockaddr_in at = at_port(port);
    if (fd < 0 || bind(fd, (struct sockaddr *)&at, sizeof at)) die("relay: a port");
    (void)setsockopt(fd, SOL_SOCKET, SO_RCVBUFFORCE, &room, sizeof room);
    (void)setsockopt(fd, SOL_SOCKET, SO_SNDBUFFORCE, &room, sizeof room);
    return fd;
}

static bool happens(uint64_t of_10000) { return of_10000 && (uint64_t)(drand48() * 10000) < of_10000; }

static struct packet copy_of(const uint8_t *octets, size_t len, uint64_t at) {
    struct packet it = {at, len, malloc(len + 1)};
    if (it.octets == NULL) die("relay");
    memcpy(it.octets, octets, len);
    return it;
}

static void keep_back(struct relay *r, struct way *way, const uint8_t *octets, size_t len, uint64_t now) {
    uint64_t later = r->from + (uint64_t)(drand48() * (double)(r->to - r->from));
    if (r->late_count < MOST_LATE) r->late[r->late_count++] = (struct late){copy_of(octets, len, now + later), way};
}

static bool is_udp(const struct way *way, const uint8_t *octets) { return way->is_tun && octets[9] == 17; }

static void queue_up(struct relay *r, struct way *way, const uint8_t *octets, size_t len, uint64_t now) {
    uint64_t leaves = now;
    if (r->octets_each_ns > 0) {
        if (way->free_at < now) way->free_at = now;
        if ((double)(way->free_at - now) * r->octets_each_ns + (double)len > (double)r->queue) {
            r->crowded++;
            r->udp_crowded += is_udp(way, octets);
            return;
        }
        if (way->free_at - now > r->longest) r->longest = way->free_at - now;
        leaves = way->free_at += (uint64_t)((double)(len + (way->is_tun ? 0 : 28)) / r->octets_each_ns);
    }
    if (way->tail - way->head == RING) {
        r->crowded++;
        return;
    }
    way->ring[way->tail++ % RING] = copy_of(octets, len, leaves + r->delay);
}

/* Reads packets of a TUN device: how many. */
static int read_tun(const struct way *way, struct mmsghdr *heads) {
    int count = 0;
    for (; count < BATCH; count++) {
        ssize_t len = read(way->in, heads[count].msg_hdr.msg_iov->iov_base, ROOM);
        if (len <= 0) break;
        heads[count].msg_len = (unsigned)len;
    }
    return count;
}

static void take(struct relay *r, struct way *way) {
    static uint8_t rooms[BATCH][ROOM];
    struct iovec parts[BATCH];
    struct mmsghdr heads[BATCH];
    for (int i = 0; i < BATCH; i++) {
        parts[i] = (struct iovec){rooms[i], ROOM};
        heads[i] = (struct mmsghdr){.msg_hdr = {.msg_iov = &parts[i], .msg_iovlen = 1}};
    }
    int count = way->is_tun ? read_tun(way, heads) : recvmmsg(way->in, heads, BATCH, MSG_DONTWAIT, NULL);
    uint64_t now = now_ns();
    for (int i = 0; i < count; i++) {
        size_t len = heads[i].msg_len;
        r->went++;
        r->of_udp += is_udp(way, rooms[i]);
        bool copied = happens(r->copy), kept = happens(r->keep);
        if (copied || kept) keep_back(r, way, rooms[i], len, now);
        r->copied += copied;
        r->kept += kept;
        if (kept) continue;
        bool is_deaf = way == &r->ways[1] && now / 1000000 % 2000 < r->deaf;
        if (is_deaf || happens(r->lose) || (way == &r->ways[1] && happens(r->lose_back))) r->lost++;
        else queue_up(r, way, rooms[i], len, now);
    }
}

static void give(struct way *way, struct packet *it) {
    if (!way->is_tun) (void)sendto(way->out, it->octets, it->len, MSG_DONTWAIT, (struct sockaddr *)&way->to, sizeof way->to);
    else if (write(way->out, it->octets, it->len) < 0 && errno != EIO && errno != ENOBUFS) die("relay: a packet");
    free(it->octets);
}

/* Gives what is due, and returns when more is. */
static uint64_t give_all(struct relay *r) {
    uint64_t now = now_ns(), next = now + 50000000;
    for (int i = 0; i < 2; i++) {
        struct way *way = &r->ways[i];
        for (; way->head != way->tail && way->ring[way->head % RING].at <= now; way->head++)
            give(way, &way->ring[way->head % RING]);
        if (way->head != way->tail && way->ring[way->head % RING].at < next) next = way->ring[way->head % RING].at;
    }
    for (size_t i = 0; i < r->late_count;) {
        struct late *it = &r->late[i];
        if (it->packet.at > now) {
            if (it->packet.at < next) next = it->packet.at;
            i++;
            continue;
        }
        give(it->way, &it->packet);
        *it = r->late[--r->late_count];
    }
    return next;
}

int main(int count, char **words) {
    static struct relay r;
    if (count < 5) return fprintf(stderr, "usage: relay KEY=VALUE..\n"), 2;
    words++;
    int tun_a = (int)number(words, "tun_a", 0), tun_b = (int)number(words, "tun_b", 0);
    int a = tun_a ? tun_a : bound(number(words, "a", 0)), b = tun_b ? tun_b : bound(number(words, "b", 0));
    r.ways[0] = (struct way){.in = a, .out = b, .to = at_port(number(words, "to_b", 0)), .is_tun = tun_a != 0};
    r.ways[1] = (struct way){.in = b, .out = a, .to = at_port(number(words, "to_a", 0)), .is_tun = tun_b != 0};
    r.delay = (uint64_t)(number(words, "delay", 0) * 1000);
    r.octets_each_ns = number(words, "rate", 0) / 8000;
    r.queue = (uint64_t)number(words, "queue", 40e6);
    r.lose = (uint64_t)number(words, "lose", 0);
    r.lose_back = (uint64_t)number(words, "lose_back", 0);
    r.copy = (uint64_t)number(words, "copy", 0);
    r.keep = (uint64_t)number(words, "keep", 0);
    r.deaf = (uint64_t)number(words, "deaf", 0);
    r.from = (uint64_t)(number(words, "from", 1000) * 1e6);
    r.to = (uint64_t)(number(words, "to", 5000) * 1e6);
    srand48((long)number(words, "seed", 1));
    for (int i = 0; i < 2; i++)
        if ((r.ways[i].ring = calloc(RING, sizeof(struct packet))) == NULL) die("relay");
    sigaction(SIGTERM, &(struct sigaction){.sa_handler = stop}, NULL);
    printf("ready\n");
    fflush(stdout);
    while (!stopped) {
        for (int i = 0; i < 2; i++) take(&r, &r.ways[i]);
        uint64_t next = give_all(&r), now = now_ns();
        struct pollfd wanted[2] = {{a, POLLIN, 0}, {b, POLLIN, 0}};
        (void)ppoll(wanted, 2, &(struct timespec){0, next > now ? (long)(next - now) : 0}, NULL);
    }
    printf("went %" PRIu64 " lost %" PRIu64 " crowded %" PRIu64 " copied %" PRIu64 " kept %" PRIu64 " queue_us %" PRIu64
           " of_udp %" PRIu64 " udp_crowded %" PRIu64 "\n",
           r.went, r.lost, r.crowded, r.copied, r.kept, r.longest / 1000, r.of_udp, r.udp_crowded);
    return 0;
}
