/* Whole messages: two nodes in memory, and what dt_node_next_message makes of what one sends the other. Ends with 0 if all is as
   deltat.h says, else it prints the line that isn't and ends with 1. */
#include "calls.h"
#include <stdio.h>
#include <stdlib.h>
#include <string.h>

#define WANT(truth) \
    do { \
        if (!(truth)) { \
            fprintf(stderr, "messages.c:%d: %s\n", __LINE__, #truth); \
            exit(1); \
        } \
    } while (0)

enum { LINK = 7, ROOM = 65536, FLOWS = 50, EACH = 4, MOST = 30000 };

static const struct dt_params params = {sizeof params, 1000, 8000, 200, 200, 800, 1000, 65536, 65536, 65536, 2147483648u, 0};
static const struct dt_flow flow = {1, 2, 10, 20};
static uint8_t message[ROOM], came[ROOM], frame[DT_MAX_DATAGRAM];
static dt_node *one, *two;

static dt_node *opened(uint32_t me, uint32_t other) {
    const struct dt_link link = {50, 0, LINK, 0};
    const struct dt_route route = {other, LINK};
    struct dt_node_options options = node_options(me, 0, false, &link, &route);
    dt_node *n = (dt_node *)malloc(dt_node_size());
    WANT(n != NULL);
    dt_node_init(n);
    WANT(dt_node_enable_messages(n, MOST) == DT_NOT_OPEN);
    WANT(dt_node_open(n, &params, &options).status == DT_OK);
    return n;
}

/* the next message of node 2 */
static dt_status next(uint64_t now, size_t room, struct dt_message *it) {
    memset(it, 0, sizeof *it);
    it->size = sizeof *it;
    return dt_node_next_message(two, now, came, room, it);
}

static void starts(size_t longest) {
    struct dt_message it;
    one = opened(1, 2);
    two = opened(2, 1);
    WANT(dt_node_mark_readable(two, &flow) == DT_NOT_OPEN && next(0, ROOM, &it) == DT_NOT_OPEN);
    WANT(dt_node_enable_messages(two, longest) == DT_OK && dt_node_enable_messages(two, longest) == DT_EXISTS);
    WANT(next(0, ROOM, &it) == DT_NONE);
    it.size--;
    WANT(dt_node_next_message(two, 0, came, ROOM, &it) == DT_INVALID);
}

static void ends(void) {
    struct dt_message it;
    dt_node_close(one);
    dt_node_close(two);
    WANT(next(0, ROOM, &it) == DT_NOT_OPEN);
    free(one);
    free(two);
}

/* What waits at one comes to the other, or is lost. */
static void carry(dt_node *from, dt_node *to, uint64_t now, bool lost) {
    SIZED(dt_datagram, out);
    while (dt_node_next_datagram(from, frame, sizeof frame, &out) == DT_OK)
        if (!lost) WANT(dt_node_receive(to, now, LINK, frame, out.len, 0).status == DT_OK);
}

/* Marks the flows that the reports name. */
static void hears(dt_node *n) {
    SIZED(dt_report, it);
    while (dt_node_next_report(n, &it) == DT_OK)
        if (it.kind == DT_REPORT_ACCEPTED || (it.kind == DT_REPORT_RECORD_RELEASED && !it.sending)) WANT(dt_node_mark_readable(n, &it.flow) == DT_OK);
}

static void passes(uint64_t now, bool lost) {
    WANT(dt_node_tick(one, now) == DT_OK && dt_node_tick(two, now) == DT_OK);
    carry(one, two, now, lost);
    carry(two, one, now, lost);
    hears(two);
    hears(one);
}

static void sends(uint64_t now, const char *text) {
    WANT(dt_node_send(one, now, &flow, (const uint8_t *)text, strlen(text), true, true).status == DT_OK);
}

/* whether the next message is this one, and the rest of the buffer is as it was */
static bool takes(uint64_t now, const char *text, bool gap) {
    size_t len = strlen(text);
    struct dt_message it;
    memset(came, 0xEE, sizeof came);
    dt_status status = next(now, ROOM, &it);
    for (size_t i = len; i < ROOM; i++)
        if (came[i] != 0xEE) return false;
    return status == DT_OK && it.len == len && memcmp(came, text, len) == 0 && it.gap == gap && it.flow.source == 1 &&
           it.flow.target == 2 && it.flow.source_port == 10 && it.flow.target_port == 20;
}

static bool takes_none(uint64_t now) {
    struct dt_message it;
    memset(came, 0xEE, sizeof came);
    dt_status status = next(now, ROOM, &it);
    for (size_t i = 0; i < ROOM; i++)
        if (came[i] != 0xEE) return false;
    return status == DT_NONE && it.len == 0 && !it.gap;
}

/* What is lost between two messages is told with the one behind it, once. */
static void a_gap_is_told(void) {
    uint64_t now = 0;
    starts(MOST);
    sends(now, "first");
    sends(now, "second");
    passes(now, false);
    WANT(takes(now, "first", true) && takes(now, "second", false) && takes_none(now));
    sends(now, "lost");
    for (; now < 12000; now += 100) passes(now, true);
    WANT(takes_none(now));
    sends(now, "third");
    sends(now, "fourth");
    for (uint64_t end = now + 1000; now < end; now += 100) passes(now, false);
    WANT(takes(now, "third", true) && takes(now, "fourth", false) && takes_none(now));
    ends();
}

/* A message that comes in parts is whole with the last of them. */
static void parts_are_joined(void) {
    starts(MOST);
    WANT(dt_node_send(one, 0, &flow, (const uint8_t *)"hel", 3, true, false).status == DT_OK);
    passes(0, false);
    WANT(takes_none(0));
    WANT(dt_node_send(one, 1, &flow, (const uint8_t *)"lo", 2, false, true).status == DT_OK);
    passes(1, false);
    WANT(takes(1, "hello", true) && takes_none(1));
    ends();
}

/* A message that is too long is a gap before the next one of its flow, also when both came with a run. */
static void long_ones_are_dropped_and_counted(void) {
    starts(5);
    sends(0, "longer");
    sends(0, "short");
    sends(0, "longest");
    sends(0, "last");
    sends(0, "more");
    passes(0, false);
    struct dt_message it;
    WANT(next(0, ROOM, &it) == DT_OK && it.len == 5 && it.gap && it.dropped_too_long == 1 && memcmp(came, "short", 5) == 0);
    /* what was left out is a gap before the next one, once */
    WANT(next(0, ROOM, &it) == DT_OK && it.len == 4 && it.gap && it.dropped_too_long == 2 && memcmp(came, "last", 4) == 0);
    WANT(takes(0, "more", false));
    WANT(takes_none(0) && next(0, ROOM, &it) == DT_NONE && it.dropped_too_long == 2);
    ends();
}

/* A buffer with too little room is refused with the length, and the message waits. */
static void a_message_waits_for_room(void) {
    starts(MOST);
    sends(0, "hello");
    sends(0, "x");
    passes(0, false);
    for (size_t room = 0; room < 5; room++) {
        struct dt_message it;
        memset(came, 0xEE, 8);
        WANT(next(0, room, &it) == DT_BUFFER_TOO_SMALL && it.len == 5 && it.gap && it.flow.source_port == 10 && came[0] == 0xEE);
    }
    /* it waits on when the flow's receiver was released, which keeps what is unread */
    WANT(dt_node_tick(two, 100000) == DT_OK);
    hears(two);
    WANT(takes(100000, "hello", true) && takes(100000, "x", false) && takes_none(100000));
    ends();
}

/* the octets of a message of a flow, and how many there are */
static size_t filled(uint16_t port, unsigned number) {
    size_t len = 1 + (port * 977u + number * 613u) % 3000;
    for (size_t i = 0; i < len; i++) message[i] = (uint8_t)(i * 7 + port * 31 + number * 131);
    return len;
}

/* Each of many flows has its messages whole, once and in order. */
static void many_flows_have_theirs(void) {
    unsigned taken[FLOWS] = {0}, all = 0;
    starts(MOST);
    for (unsigned number = 0; number < EACH; number++)
        for (uint16_t port = 0; port < FLOWS; port++) {
            struct dt_flow it = {1, 2, port, 20};
            size_t len = filled(port, number);
            WANT(dt_node_send(one, 0, &it, message, len, true, true).status == DT_OK);
        }
    passes(0, false);
    for (struct dt_message it; next(0, ROOM, &it) == DT_OK; all++) {
        uint16_t port = it.flow.source_port;
        WANT(port < FLOWS && taken[port] < EACH && it.gap == (taken[port] == 0) && it.dropped_too_long == 0);
        size_t len = filled(port, taken[port]++);
        WANT(it.len == len && memcmp(message, came, len) == 0);
    }
    WANT(all == FLOWS * EACH && takes_none(0));
    ends();
}

int main(void) {
    a_gap_is_told();
    parts_are_joined();
    long_ones_are_dropped_and_counted();
    a_message_waits_for_room();
    many_flows_have_theirs();
    return 0;
}
