/* The NBD protocol, fixed newstyle with structured replies, of one connection. The document is doc/proto.md of
 * https://github.com/NetworkBlockDevice/nbd. */
#pragma once
#include "flows.h"

/* Octets that wait, those from `from` to `to`: what came and isn't used yet, or what is to be sent. */
struct octets { uint8_t *all; size_t from, to, room; };

struct nbd {
    int fd; /* -1: none is connected */
    uint8_t phase;
    bool no_zeroes, structured;
    bool leaves;      /* it said that it asks no more: its answers are still sent */
    bool is_gone;     /* nobody reads any more, or it did what no client may */
    unsigned waiting; /* demands without an answer */
    size_t waiting_octets;
    uint64_t losses; /* flows.losses that it was told of, by a flush */
    struct octets in, out;
    struct flows *flows;
};

void nbd_open(struct nbd *nbd, int fd, struct flows *flows);
void nbd_read(struct nbd *nbd);                          /* reads what came, and adds demands to its flows */
void nbd_answer(struct nbd *nbd, struct demand *demand); /* adds the answer of one of its demands, and frees it */
void nbd_write(struct nbd *nbd);         /* sends what the socket takes, and closes it if nothing will follow */
bool nbd_listens(const struct nbd *nbd); /* whether it may have more under way, so that more is read */
