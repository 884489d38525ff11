/* The calls of a gateway: parts of requests, each on a flow, one at a time on each. */
#pragma once
#include "deltat_udp.h"
#include "wire.h"

enum { FLOWS = 128, FIRST_PORT = 1000 };

/* What a client asked, cut into parts, each of which is a call. */
struct demand {
    struct demand *next; /* in the queue of those whose parts aren't all called, or of those that are done */
    void *client;
    const bool *is_gone; /* whether the client is: what it asked and wasn't called yet never will be */
    uint64_t cookie;
    struct request request; /* (its generation isn't used) */
    uint32_t error, parts, called, answered;
    uint64_t writes, losses; /* those of the flows when it was made, and when it was done */
    uint8_t data[];          /* what is written, or was read */
};

struct flow {
    struct demand *demand; /* null: it is free */
    uint32_t part, tries;
    uint64_t calls; /* that it ever made: the last one counts */
    bool under_way;
};

struct flows {
    dt_udp *udp;
    uint32_t node, generation, timeout_ms;
    unsigned turn, busy; /* the flow that rested longest, or near it; how many don't rest */
    uint64_t openings;   /* of the server, that are known */
    struct flow all[FLOWS];
    struct demand *first, *last, *done; /* those that wait for flows; those that are done: the caller takes them */
    uint64_t boot, size;              /* as the last answer said */
    uint64_t writes, flushed, losses; /* answered; of these: flushed, or lost; how often some may have been lost */
    uint8_t octets[HEADER + MAX_PART];
};

/* Has a demand wait for flows. Nothing is sent yet, so its data may still be written. */
struct demand *flows_add(struct flows *flows, void *client, const bool *is_gone, const struct request *request);
void flows_go(struct flows *flows); /* makes calls, as many as there are flows */
void flows_take(struct flows *flows, const struct dt_udp_event *event); /* the end of a call, or room for one */
