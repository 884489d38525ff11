/* What the peers of bench/peers.py share. Each is a program of two forms:
 *
 *   PEER serve ADDRESS PORT LOG                         answers until it is killed
 *   PEER ask ADDRESS PORT WHAT COUNT OCTETS SECONDS     asks, at most so long, and prints what it got
 *
 * A request is its length in four octets, the least first, and so many octets, of which the first eight are its
 * number; it is answered by ANSWER octets. LOG is a file to which a server appends the number of each request that
 * it serves, a line each, or `-`. Of `ask` each line is `done N SECONDS`: N answers, or octets, in that time.
 *
 *   first      COUNT new connections, one after another, each with one request: from the first call of the
 *              connection to its answer
 *   answers    one connection, and on it one request after another, for SECONDS
 *   message    one connection, and on it COUNT requests of so many octets, one after another
 *   flows      COUNT connections at once, each with one request: to the last answer
 */
#include <arpa/inet.h>
#include <netinet/in.h>
#include <stdint.h>
#include <stdio.h>
#include <stdlib.h>
#include <string.h>
#include <time.h>
#include <unistd.h>

enum { ANSWER = 100, HEAD = 4, NUMBER = 8, MOST_FLOWS = 4000 };

struct question {
    const char *what;
    int count;
    uint32_t octets;
    double seconds;
};

static double now(void) {
    struct timespec it;
    clock_gettime(CLOCK_MONOTONIC, &it);
    return (double)it.tv_sec + 1e-9 * (double)it.tv_nsec;
}

static void fail(const char *why) {
    fprintf(stderr, "peer: %s\n", why);
    exit(2);
}

static void done(uint32_t count, double seconds) {
    printf("done %u %.6f\n", count, seconds);
    fflush(stdout);
}

static inline struct sockaddr_in place(const char *address, int port) {
    struct sockaddr_in it;
    memset(&it, 0, sizeof it);
    it.sin_family = AF_INET;
    it.sin_port = htons((uint16_t)port);
    if (inet_pton(AF_INET, address, &it.sin_addr) != 1) fail("no such address");
    return it;
}

/* The number of a request is drawn, so that one that comes again is seen in the log. */
static uint64_t drawn(void) {
    static uint64_t state;
    if (state == 0) state = (uint64_t)(now() * 1e9) ^ ((uint64_t)getpid() << 40);
    state = state * 6364136223846793005u + 1442695040888963407u;
    return state;
}

/* A request of NUMBER octets or more with its head, in memory that the caller frees. */
static unsigned char *request(uint32_t octets) {
    unsigned char *it = (unsigned char *)calloc(1, HEAD + (size_t)octets);
    if (it == NULL) fail("out of memory");
    uint64_t number = drawn();
    memcpy(it, &octets, HEAD);
    memcpy(it + HEAD, &number, NUMBER);
    return it;
}

static const char *log_path = "-";

static void served(const unsigned char *number) {
    if (strcmp(log_path, "-") == 0) return;
    FILE *log = fopen(log_path, "a");
    if (log == NULL) fail("the log can't be written");
    for (int i = 0; i < NUMBER; i++) fprintf(log, "%02x", number[i]);
    fputc('\n', log);
    fclose(log);
}

/* What a server has of a request that comes in pieces. */
struct incoming {
    unsigned char head[HEAD + NUMBER];
    uint32_t length;
    uint32_t got;
};

/* Takes octets of a stream, and tells how many requests they complete. */
static inline int take(struct incoming *it, const unsigned char *octets, size_t count) {
    int whole = 0;
    for (size_t at = 0; at < count;) {
        if (it->got < HEAD + NUMBER) {
            it->head[it->got++] = octets[at++];
            if (it->got == HEAD) memcpy(&it->length, it->head, HEAD);
        } else {
            size_t left = (size_t)it->length + HEAD - it->got, more = count - at < left ? count - at : left;
            it->got += (uint32_t)more;
            at += more;
        }
        if (it->got >= HEAD + NUMBER && it->got == it->length + HEAD) {
            served(it->head + HEAD);
            it->got = 0;
            whole++;
        }
    }
    return whole;
}

static void serve(const char *address, int port);
static void ask(const char *address, int port, const struct question *it);

int main(int count, char **words) {
    if (count == 5 && strcmp(words[1], "serve") == 0) {
        log_path = words[4];
        serve(words[2], atoi(words[3]));
        return 0;
    }
    if (count != 8 || strcmp(words[1], "ask") != 0) fail("usage: PEER serve ADDRESS PORT LOG | ask ADDRESS PORT WHAT COUNT OCTETS SECONDS");
    struct question it = {words[4], atoi(words[5]), (uint32_t)atol(words[6]), atof(words[7])};
    if (it.count < 1 || it.count > MOST_FLOWS || it.octets < NUMBER || it.seconds <= 0) fail("1 to 4,000 of 8 octets or more, in a time above 0");
    ask(words[2], atoi(words[3]), &it);
    return 0;
}
