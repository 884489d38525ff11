/* The table of peers, by the numbers of their nodes. */
#include "udp.h"
#include <stdlib.h>
#include <sys/random.h>

enum { FEWEST_BUCKETS = 16 };

dt_status dtu_peers_open(struct peers *peers) {
    peers->size = FEWEST_BUCKETS;
    peers->buckets = calloc(peers->size, sizeof(struct peer *));
    /* (without a random key the table works; somebody who chooses numbers may then make it slow) */
    if (getrandom(&peers->key, sizeof peers->key, GRND_NONBLOCK) != (ssize_t)sizeof peers->key)
        peers->key = 0x9e3779b97f4a7c15u;
    peers->key |= 1;
    return peers->buckets ? DT_OK : DT_NO_MEMORY;
}

void dtu_peers_close(struct peers *peers) {
    for (size_t i = 0; peers->buckets && i < peers->size; i++)
        for (struct peer *it = peers->buckets[i], *next; it; it = next) {
            next = it->next;
            dtu_watch_free(it->watch);
            free(it);
        }
    free(peers->buckets);
    peers->buckets = NULL;
}

static struct peer **bucket_of(const struct peers *peers, uint32_t node) {
    return &peers->buckets[(node * peers->key >> 32) & (peers->size - 1)];
}

struct peer *dtu_peers_find(const struct peers *peers, uint32_t node) {
    struct peer *it = *bucket_of(peers, node);
    while (it && it->node != node) it = it->next;
    return it;
}

/* Doubles the buckets. If there is no memory the table stays as it is: slower, not wrong. */
static void grow(struct peers *peers) {
    struct peers more = {.size = 2 * peers->size, .key = peers->key};
    more.buckets = calloc(more.size, sizeof(struct peer *));
    if (more.buckets == NULL) return;
    for (size_t i = 0; i < peers->size; i++)
        for (struct peer *it = peers->buckets[i], *next; it; it = next) {
            struct peer **bucket = bucket_of(&more, it->node);
            next = it->next;
            it->next = *bucket;
            *bucket = it;
        }
    free(peers->buckets);
    peers->buckets = more.buckets;
    peers->size = more.size;
}

/* Adds a peer that isn't there yet, without an address. Null: out of memory. */
struct peer *dtu_peers_add(struct peers *peers, uint32_t node) {
    struct peer *it = calloc(1, sizeof *it);
    if (it == NULL) return NULL;
    if (peers->count >= peers->size) grow(peers);
    struct peer **bucket = bucket_of(peers, node);
    it->node = node;
    it->next = *bucket;
    *bucket = it;
    peers->count++;
    return it;
}

/* Removes a peer and frees it. */
void dtu_peers_remove(struct peers *peers, struct peer *peer) {
    struct peer **link = bucket_of(peers, peer->node);
    while (*link != peer) link = &(*link)->next;
    *link = peer->next;
    peers->count--;
    if (peer->too_big) { /* (seldom, so the list may be gone through) */
        for (link = &peers->too_big; *link != peer;) link = &(*link)->next_too_big;
        *link = peer->next_too_big;
    }
    dtu_watch_free(peer->watch);
    free(peer);
}

/* Keeps that a datagram didn't fit the path, until it is reported: once for each peer. */
void dtu_peers_note_too_big(struct peers *peers, struct peer *peer, uint32_t len) {
    if (peer->too_big == 0) {
        peer->next_too_big = peers->too_big;
        peers->too_big = peer;
    }
    if (len > peer->too_big) peer->too_big = len;
}

struct peer *dtu_peers_next_too_big(struct peers *peers) {
    struct peer *it = peers->too_big;
    if (it) peers->too_big = it->next_too_big;
    return it;
}
