/* Each request for memory fails in turn, in an exchange of two nodes. A call that can't do without says so once, and
   from then on the node is spent, but for octets that an inbox has no room for: they are lost, and it says so; where a
   call can do without, the message comes whole. In the end all memory was given back. It is linked in place of lib/heap.c. */
#include "calls.h"
#include <stdio.h>
#include <stdlib.h>
#include <string.h>

#define WANT(truth) \
    do { \
        if (!(truth)) { \
            fprintf(stderr, "each_failure.c:%d: at request %lu: %s\n", __LINE__, fail_at, #truth); \
            exit(1); \
        } \
    } while (0)

struct tried { bool ok; uint8_t *p; };
#ifdef __cplusplus
extern "C" {
#endif
struct tried rattle_alloc(size_t size, size_t align);
struct tried rattle_realloc(uint8_t *p, size_t kept, size_t size, size_t align);
void rattle_dealloc(uint8_t *p);
#ifdef __cplusplus
}
#endif

static unsigned long fail_at, requests;
static long held;

static struct tried tried(void *p) {
    struct tried t = {p != NULL, (uint8_t *)p};
    return t;
}

struct tried rattle_alloc(size_t size, size_t align) {
    (void)align;
    if (++requests == fail_at) return tried(NULL);
    held++;
    return tried(malloc(size > 0 ? size : 1));
}

struct tried rattle_realloc(uint8_t *p, size_t kept, size_t size, size_t align) {
    (void)kept;
    (void)align;
    if (++requests == fail_at) return tried(NULL);
    return tried(realloc(p, size > 0 ? size : 1));
}

void rattle_dealloc(uint8_t *p) {
    held--;
    free(p);
}

static const struct dt_params params = {sizeof params, 1000, 8000, 200, 200, 800, 1000, 65536, 65536, 16384, 2147483648u, 0};
static const struct dt_flow flow = {1, 2, 10, 20};
static const struct dt_link links[1] = {{50, 0, 7, 0}};
static uint8_t message[3000], came[3000], frame[DT_MAX_DATAGRAM];

static uint8_t opens(dt_node *n, uint32_t me, uint32_t other) {
    const struct dt_route route = {other, 7};
    struct dt_node_options options = node_options(me, 0, false, links, &route);
    return dt_node_open(n, &params, &options).status;
}

/* Whether a call found no memory: then its node is spent. */
static bool failed(dt_node *n, uint8_t status) {
    WANT(status == DT_OK || status == DT_NONE || status == DT_NO_MEMORY);
    if (status != DT_NO_MEMORY) return false;
    WANT(dt_node_tick(n, 0) == DT_STOPPED && dt_node_wake(n) == DT_NEVER);
    WANT(dt_node_send(n, 0, &flow, message, 1, true, true).status == DT_STOPPED);
    WANT(dt_node_read(n, 0, &flow, came, 1).status == DT_STOPPED);
    WANT(dt_node_receive(n, 0, 7, frame, 3, 0).status == DT_STOPPED);
    return true;
}

/* Frames of one come to the other. Whether a call found no memory. */
static bool carry(dt_node *from, dt_node *to, uint64_t now) {
    SIZED(dt_datagram, out);
    for (;;) {
        dt_status status = dt_node_next_datagram(from, frame, sizeof frame, &out);
        if (status == DT_NONE) return false;
        WANT(status == DT_OK);
        if (failed(to, dt_node_receive(to, now, 7, frame, out.len, 0).status)) return true;
    }
}

/* Takes a whole message, where there is one. To hear of a flow a request is made again. Where there is no memory for
   octets that were read they are lost, and the node goes on. Whether the node found no memory. */
static bool take_fails(dt_node *n, uint64_t now, size_t *had, bool *lost) {
    SIZED(dt_message, it);
    dt_status status;
    while (dt_node_mark_readable(n, &flow) == DT_NO_MEMORY) *lost = true;
    while ((status = dt_node_next_message(n, now, came, sizeof came, &it)) == DT_LOST) *lost = true;
    if (status == DT_OK) *had = it.len;
    return failed(n, status);
}

/* Reads a piece of the message, where there is one. Whether the node found no memory. */
static bool read_fails(dt_node *n, uint64_t now, size_t *had) {
    struct dt_read_result piece = dt_node_read(n, now, &flow, came + *had, *had < sizeof came ? sizeof came - *had : 1);
    if (piece.status == DT_OK) *had += piece.len;
    return failed(n, piece.status);
}

static bool exchange_fails(dt_node *one, dt_node *two, bool whole) {
    size_t had = 0;
    bool lost = false;
    uint8_t first = opens(one, 1, 2), second = opens(two, 2, 1);
    WANT(first == DT_OK || first == DT_NO_MEMORY);
    WANT(second == DT_OK || second == DT_NO_MEMORY);
    if (first != DT_OK) WANT(dt_node_tick(one, 0) == DT_NOT_OPEN);
    if (second != DT_OK) WANT(dt_node_tick(two, 0) == DT_NOT_OPEN);
    if (first != DT_OK || second != DT_OK) return true;
    if (whole) WANT(dt_node_enable_messages(two, sizeof came) == DT_OK);
    if (failed(one, dt_node_send(one, 0, &flow, message, sizeof message, true, true).status)) return true;
    for (uint64_t now = 0; now < 3000; now += 50) {
        if (failed(one, dt_node_tick(one, now)) || failed(two, dt_node_tick(two, now))) return true;
        if (carry(one, two, now) || carry(two, one, now)) return true;
        if (whole ? take_fails(two, now, &had, &lost) : read_fails(two, now, &had)) return true;
    }
    WANT(lost || (had == sizeof message && memcmp(message, came, had) == 0));
    return lost;
}

/* the exchange, read by pieces or taken whole, with each request failing */
static void each_fails(dt_node *one, dt_node *two, bool whole) {
    unsigned long told = 0;
    fail_at = 0;
    do {
        fail_at++;
        requests = 0;
        dt_node_init(one);
        dt_node_init(two);
        if (exchange_fails(one, two, whole)) told++;
        dt_node_close(one);
        dt_node_close(two);
        WANT(held == 0);
    } while (requests >= fail_at);
    printf("each of %lu requests for memory failed in turn, and %lu were told\n", fail_at - 1, told);
    WANT(told > 10);
}

int main(void) {
    dt_node *one = (dt_node *)malloc(dt_node_size()), *two = (dt_node *)malloc(dt_node_size());
    WANT(one != NULL && two != NULL);
    for (size_t i = 0; i < sizeof message; i++) message[i] = (uint8_t)(i * 31 + i / 256);
    each_fails(one, two, false);
    each_fails(one, two, true);
    free(one);
    free(two);
    return 0;
}
