/* A shelf: what a node makes of datagrams whose data came too early. Ends with 0 if all is as deltat.h says, else it prints
 * the line that isn't and ends with 1. */
#include "calls.h"
#include <stdio.h>
#include <stdlib.h>
#include <string.h>

#define WANT(truth) \
    do { \
        if (!(truth)) { \
            fprintf(stderr, "shelf.c:%d: %s\n", __LINE__, #truth); \
            exit(1); \
        } \
    } while (0)

enum { LINK = 7, SEG = 1000, FRAMES = 4, CHARGE = 50 };

static const struct dt_params params = {sizeof params, 1000, 8000, 200, 200, 800, SEG, 65536, 65536, 65536, 2147483648u, 0};
static const struct dt_flow flow = {1, 2, 10, 20};
static uint8_t sent[FRAMES * SEG], came[65536], frames[FRAMES][DT_MAX_DATAGRAM];
static size_t lens[FRAMES];
static dt_node *one, *two;

static dt_node *opened(uint32_t me, uint32_t other) {
    const struct dt_link link = {CHARGE, 0, LINK, 0};
    const struct dt_route route = {other, LINK};
    struct dt_node_options options = node_options(me, 0, false, &link, &route);
    dt_node *n = (dt_node *)malloc(dt_node_size());
    WANT(n != NULL);
    dt_node_init(n);
    WANT(dt_node_set_shelf(n, 1, 1) == DT_NOT_OPEN);
    WANT(dt_node_open(n, &params, &options).status == DT_OK);
    return n;
}

/* two nodes, and the frames of four segments of the first, each of octets of its own */
static void starts(uint32_t datagrams, uint32_t of_flow) {
    one = opened(1, 2);
    two = opened(2, 1);
    WANT(dt_node_set_shelf(two, datagrams, of_flow) == DT_OK);
    for (size_t i = 0; i < sizeof sent; i++) sent[i] = (uint8_t)(i / SEG + 1);
    WANT(dt_node_send(one, 1, &flow, sent, sizeof sent, true, true).status == DT_OK);
    for (int i = 0; i < FRAMES; i++) {
        struct dt_datagram out;
        memset(&out, 0, sizeof out);
        out.size = sizeof out;
        WANT(dt_node_next_datagram(one, frames[i], sizeof frames[i], &out) == DT_OK);
        lens[i] = out.len;
    }
}

static void ends(void) {
    dt_node_close(one);
    dt_node_close(two);
    WANT(dt_node_set_shelf(two, 1, 1) == DT_NOT_OPEN);
    free(one);
    free(two);
}

/* frame i arrives, after it waited so long; and how many datagrams the node has handled then */
static uint64_t arrives(uint64_t now, int i, uint32_t waited) {
    struct dt_node_counts counts;
    memset(&counts, 0, sizeof counts);
    counts.size = sizeof counts;
    WANT(dt_node_receive(two, now, LINK, frames[i], lens[i], waited).status == DT_OK);
    WANT(dt_node_get_counts(two, &counts) == DT_OK);
    return counts.datagrams_in;
}

/* how many octets can be read, which are the next ones of what was sent */
static size_t reads(uint64_t now, size_t from) {
    size_t octets = 0;
    for (struct dt_read_result got; (got = dt_node_read(two, now, &flow, came, sizeof came)).status == DT_OK; octets += got.len)
        WANT(memcmp(came, sent + from + octets, got.len) == 0);
    return octets;
}

static uint32_t life_of(int i) {
    const uint8_t *at = frames[i] + 4;
    return (uint32_t)at[0] << 24 | (uint32_t)at[1] << 16 | (uint32_t)at[2] << 8 | at[3];
}

static void holds_what_comes_early(void) {
    starts(8, 8);
    WANT(arrives(1, 0, 0) == 1 && reads(1, 0) == SEG);
    WANT(arrives(2, 3, 0) == 1 && arrives(3, 2, 0) == 1 && reads(3, SEG) == 0);
    WANT(arrives(4, 1, 0) == 4 && reads(4, SEG) == 3 * SEG);
    WANT(arrives(5, 2, 0) == 5 && reads(5, 0) == 0); /* (none is handed in again) */
    ends();
}

static void has_no_shelf_at_first(void) {
    starts(0, 0);
    WANT(arrives(1, 0, 0) == 1 && arrives(2, 2, 0) == 2 && arrives(3, 1, 0) == 3);
    WANT(reads(3, 0) == 2 * SEG);
    ends();
}

static void is_bounded(void) {
    starts(8, 1);
    WANT(arrives(1, 0, 0) == 1 && arrives(2, 2, 0) == 1 && arrives(2, 3, 0) == 2);
    WANT(arrives(3, 1, 0) == 4 && reads(3, 0) == 3 * SEG);
    ends();
    starts(1, 8);
    WANT(arrives(1, 0, 0) == 1 && arrives(2, 2, 0) == 1 && arrives(2, 3, 0) == 2);
    ends();
}

static void holds_data_once(void) {
    starts(8, 8);
    WANT(arrives(1, 0, 0) == 1 && arrives(2, 2, 0) == 1 && arrives(2, 2, 0) == 2);
    WANT(arrives(3, 1, 0) == 4 && reads(3, 0) == 3 * SEG);
    ends();
}

/* it pays for its time on the shelf, and for what it waited before, with its life */
static void pays_with_its_life(uint32_t waited, uint32_t left, size_t comes) {
    starts(8, 8);
    WANT(arrives(1, 0, 0) == 1 && arrives(2, 2, waited) == 1);
    arrives(2 + life_of(2) - waited - left, 1, 0);
    WANT(reads(2000, 0) == comes);
    ends();
}

int main(void) {
    holds_what_comes_early();
    has_no_shelf_at_first();
    is_bounded();
    holds_data_once();
    /* one millisecond more is for the two readings of the clock, and the link's charge is to be left */
    pays_with_its_life(0, CHARGE + 2, 3 * SEG);
    pays_with_its_life(0, CHARGE + 1, 2 * SEG);
    pays_with_its_life(300, CHARGE + 2, 3 * SEG);
    pays_with_its_life(300, CHARGE + 1, 2 * SEG);
    pays_with_its_life(0, 0, 2 * SEG);
    return 0;
}
