/* Peers that are learnt: nodes that nobody configured come, show that they hear at their address, and are kept for as
 * long as they speak.
 *
 * A datagram from an address that isn't its maker's isn't passed in. It is answered by a challenge, which is no
 * longer than the datagram and leaves nothing here: its cookie is a keyed digest of the address, the node and the
 * time. Whoever returns the cookie hears at that address, so nobody is made to send to a third party. The next
 * datagram from there is passed in, and the address is kept only if octets of it were accepted: the guard decides
 * first. The proof also has the key of the prover's opening, so a peer whose address changes is heard from the new
 * one at once, and another machine with the same number isn't, until nothing came from the first one for the quiet
 * time. While calls wait and nothing comes, a peer that once asked for a proof is greeted, so that an answer finds a
 * caller whose address changed meanwhile. docs/formats.md has the form. */
#include "udp.h"
#include <errno.h>
#include <stdlib.h>
#include <string.h>
#include <sys/random.h>

enum {
    CONTROL_LEN = 28,
    FORM = 208,
    FORM_VERSION = 1,
    CHALLENGE = 1,
    PROOF = 2,
    GREETING = 3,
    SPAN_MS = 16384,  /* a cookie is good for this span and the next one */
    PROOF_MS = 20000, /* a proof that isn't followed by a datagram is forgotten */
    ANSWER_MS = 5,    /* one challenge of a peer is answered in so many ms */
    GREET_MS = 50,    /* greetings leave no sooner one after another */
    ASKED_MS = 20000, /* a challenge counts only of a peer that was sent something in this time */
    BURST_MS = 100,
    MAX_BURST = 1000,     /* so many challenges in so many ms */
    MAX_NUMBERS = 1 << 20 /* numbers that may be learnt in one opening: the library keeps a route for each */
};

/* --- the digest: SipHash-2-4 (Aumasson, Bernstein 2012) */

static uint64_t turned(uint64_t value, int by) { return value << by | value >> (64 - by); }

static void mix(uint64_t v[4]) {
    v[0] += v[1], v[2] += v[3];
    v[1] = turned(v[1], 13) ^ v[0], v[3] = turned(v[3], 16) ^ v[2];
    v[0] = turned(v[0], 32);
    v[2] += v[1], v[0] += v[3];
    v[1] = turned(v[1], 17) ^ v[2], v[3] = turned(v[3], 21) ^ v[0];
    v[2] = turned(v[2], 32);
}

static uint64_t digest(const uint64_t key[2], const uint8_t *octets, size_t len) {
    uint64_t v[4] = {key[0] ^ 0x736f6d6570736575u, key[1] ^ 0x646f72616e646f6du, key[0] ^ 0x6c7967656e657261u,
                     key[1] ^ 0x7465646279746573u};
    for (size_t done = 0; done <= len; done += 8) {
        uint64_t word = done + 8 > len ? (uint64_t)len << 56 : 0;
        for (size_t i = 0; i < 8 && done + i < len; i++) word |= (uint64_t)octets[done + i] << (8 * i);
        v[3] ^= word;
        mix(v), mix(v);
        v[0] ^= word;
    }
    v[2] ^= 0xff;
    for (int i = 0; i < 4; i++) mix(v);
    return v[0] ^ v[1] ^ v[2] ^ v[3];
}

static uint64_t cookie_of(const dt_udp *u, const struct address *from, uint32_t node, uint64_t span) {
    uint8_t octets[40] = {0};
    dtu_put_number(octets, span, 8);
    dtu_put_number(octets + 8, node, 4);
    if (from->name.any.sa_family == AF_INET) {
        memcpy(octets + 12, &from->name.v4.sin_port, 2);
        memcpy(octets + 14, &from->name.v4.sin_addr, 4);
    } else {
        memcpy(octets + 12, &from->name.v6.sin6_port, 2);
        memcpy(octets + 14, &from->name.v6.sin6_addr, 16);
        dtu_put_number(octets + 30, from->name.v6.sin6_scope_id, 4);
    }
    return digest(u->strangers.secret, octets, sizeof octets);
}

/* --- opening */

static bool random_octets(void *room, size_t len) {
    ssize_t got;
    do got = getrandom(room, len, 0);
    while (got < 0 && errno == EINTR);
    return got == (ssize_t)len;
}

dt_status dtu_strangers_open(dt_udp *u) {
    struct strangers *s = &u->strangers;
    s->oldest.newer = s->oldest.older = &s->oldest;
    if (!random_octets(s->secret, sizeof s->secret) || !random_octets(&s->key, sizeof s->key)) return DT_NOT_OPEN;
    if (u->options.max_peers) s->proofs = calloc(PROOFS, sizeof *s->proofs);
    return u->options.max_peers && s->proofs == NULL ? DT_NO_MEMORY : DT_OK;
}

void dtu_strangers_close(dt_udp *u) {
    for (size_t i = 0; u->strangers.proofs && i < PROOFS; i++) dtu_watch_free(u->strangers.proofs[i].watch);
    free(u->strangers.proofs);
}

/* --- the order in which learnt peers were heard */

static void unlink_peer(struct peer *it) {
    it->older->newer = it->newer;
    it->newer->older = it->older;
}

static void make_newest(struct strangers *s, struct peer *it) {
    it->newer = &s->oldest;
    it->older = s->oldest.older;
    it->older->newer = it;
    s->oldest.older = it;
}

/* Notes that a datagram of a learnt peer was passed in. */
void dtu_strangers_heard(dt_udp *u, struct peer *it) {
    if (it->configured) return;
    unlink_peer(it);
    make_newest(&u->strangers, it);
}

/* A learnt peer that is configured now isn't forgotten any more. */
void dtu_strangers_configured(dt_udp *u, struct peer *it) {
    if (it->configured || it->older == NULL) return;
    unlink_peer(it);
    u->strangers.count--;
}

static bool is_silent(const dt_udp *u, const struct peer *it, uint64_t at) {
    return at > it->heard_at + dtu_core_quiet_ms(u->options.params);
}

/* Room for one more learnt peer: the one that was silent for longest goes, if that is the quiet time. */
static bool makes_room(dt_udp *u, uint64_t at) {
    struct strangers *s = &u->strangers;
    if (s->count < u->options.max_peers) return true;
    struct peer *it = s->oldest.newer;
    if (it == &s->oldest || !is_silent(u, it, at)) return false;
    unlink_peer(it);
    s->count--;
    u->counts.peers_forgotten++;
    dtu_govern_drop(u, it);
    dtu_peers_remove(&u->peers, it);
    return true;
}

/* --- proofs that wait for a datagram */

static struct proof *proof_of(const dt_udp *u, uint32_t node, const struct address *from) {
    return &u->strangers.proofs[cookie_of(u, from, node, 0) % PROOFS];
}

static bool is_proved(const struct proof *it, const struct arrival *arrival, uint32_t node) {
    return it->from.len && it->node == node && dtu_same_address(&it->from, arrival->from) &&
           arrival->at - it->at <= PROOF_MS;
}

/* --- control datagrams */

static void send_control(dt_udp *u, int kind, const struct arrival *to, uint64_t cookie, uint8_t span) {
    uint8_t octets[CONTROL_LEN + TRAILER_LEN] = {FORM, FORM_VERSION, (uint8_t)kind, span};
    const struct peer *peer = kind == CHALLENGE ? NULL : dtu_peers_find(&u->peers, to->maker);
    dtu_put_number(octets + 4, u->options.node, 4);
    dtu_put_number(octets + 8, to->maker, 4);
    dtu_put_number(octets + 12, cookie, 8);
    dtu_put_number(octets + 20, kind == CHALLENGE ? 0 : u->strangers.key, 8);
    dtu_write_control(u, to, octets, dtu_watch_stamp_own(u, peer ? peer->watch : NULL, octets, CONTROL_LEN));
}

/* Asks a stranger for a proof, unless too many were asked just now. */
static void challenge(dt_udp *u, const struct arrival *it) {
    struct strangers *s = &u->strangers;
    if (it->at - s->burst_at >= BURST_MS) {
        s->burst_at = it->at;
        s->burst = 0;
    }
    if (s->asked_at == it->at && dtu_same_address(&s->asked, it->from)) return; /* (one of a burst is enough) */
    s->asked_at = it->at;
    s->asked = *it->from;
    if (++s->burst > MAX_BURST) {
        u->counts.challenges_withheld++;
        return;
    }
    u->counts.challenges_out++;
    uint64_t span = it->at / SPAN_MS;
    send_control(u, CHALLENGE, it, cookie_of(u, it->from, it->maker, span), (uint8_t)span);
}

/* A peer that we sent something to asks us to prove that we hear here. */
static void answer_challenge(dt_udp *u, const struct arrival *it) {
    struct peer *peer = dtu_peers_find(&u->peers, it->maker);
    bool asked = peer && dtu_is_from(peer, it->from) && peer->sent_at && it->at <= peer->sent_at + ASKED_MS;
    if (!asked || it->at < peer->proved_at + ANSWER_MS) {
        u->counts.unknown++;
        return;
    }
    if (peer->configured && !peer->is_prover) { /* (a learnt one may be forgotten) */
        peer->is_prover = true;
        peer->next_prover = u->strangers.provers;
        u->strangers.provers = peer;
    }
    peer->heard = true;
    peer->proved_at = it->at;
    dtu_watch_hear(u, &peer->watch, it);
    send_control(u, PROOF, it, dtu_get_number(it->octets + 12, 8), it->octets[3]);
    dtu_write_held(u, peer); /* (it couldn't be passed in there before) */
}

/* A stranger has proved that it hears there: it moves, or its next datagram may be passed in. */
static void take_proof(dt_udp *u, const struct arrival *it) {
    uint64_t span = it->at / SPAN_MS, cookie = dtu_get_number(it->octets + 12, 8),
             key = dtu_get_number(it->octets + 20, 8);
    if (it->octets[3] != (uint8_t)span) span--;
    bool good = u->strangers.proofs && it->octets[3] == (uint8_t)span &&
                cookie == cookie_of(u, it->from, it->maker, span);
    struct peer *peer = dtu_peers_find(&u->peers, it->maker);
    bool moves = peer && peer->key == key,
         taken = peer && (peer->configured || (!moves && !is_silent(u, peer, it->at)));
    if (!good || taken || it->maker == u->options.node) {
        u->counts.unknown++;
        return;
    }
    if (moves) {
        dtu_watch_hear(u, &peer->watch, it);
        u->counts.peers_moved += !dtu_same_address(&peer->at, it->from);
        peer->at = *it->from;
        peer->own = it->own;
        return;
    }
    struct proof *proof = proof_of(u, it->maker, it->from);
    if (!is_proved(proof, it, it->maker) || proof->key != key) { /* (a repeat goes on with what was heard) */
        dtu_watch_free(proof->watch);
        proof->watch = NULL;
    }
    *proof = (struct proof){.from = *it->from, .watch = proof->watch, .node = it->maker, .key = key, .at = it->at};
    dtu_watch_hear(u, &proof->watch, it);
}

/* Somebody waits for an answer, perhaps at another address than the one that we know. */
static void take_greeting(dt_udp *u, const struct arrival *it) {
    struct peer *peer = dtu_peers_find(&u->peers, it->maker);
    if (peer && dtu_same_address(&peer->at, it->from)) return;
    if (u->strangers.proofs == NULL || (peer && peer->configured) || it->maker == u->options.node) u->counts.unknown++;
    else challenge(u, it);
}

/* How long nothing may come from a peer before it is greeted. */
static uint64_t greet_ms(const dt_udp *u) {
    return 2 * u->options.params->rto > GREET_MS ? 2 * (uint64_t)u->options.params->rto : GREET_MS;
}

/* When the driver wants to greet peers: only while calls wait. */
uint64_t dtu_strangers_wake(const dt_udp *u) {
    return u->open_calls && u->strangers.provers ? u->strangers.greeted_at + greet_ms(u) : DT_NEVER;
}

/* Greets the peers that asked for a proof once and from which nothing came lately. */
void dtu_strangers_greet(dt_udp *u, uint64_t at) {
    if (at < dtu_strangers_wake(u)) return;
    u->strangers.greeted_at = at;
    for (struct peer *it = u->strangers.provers; it; it = it->next_prover) {
        if (at < it->heard_at + greet_ms(u) || at < it->proved_at + greet_ms(u)) continue;
        struct arrival to = {.from = &it->at, .own = it->own, .maker = it->node};
        send_control(u, GREETING, &to, 0, 0);
    }
}

/* Whether a datagram is one of the drivers' own, and not a frame; then it is handled. */
bool dtu_is_control(dt_udp *u, struct arrival *it) {
    if (it->len == 0 || it->octets[0] != FORM) return false;
    bool known = it->len == CONTROL_LEN && it->octets[1] == FORM_VERSION &&
                 dtu_get_number(it->octets + 8, 4) == u->options.node;
    it->maker = known ? (uint32_t)dtu_get_number(it->octets + 4, 4) : 0;
    if (known && it->octets[2] == CHALLENGE) answer_challenge(u, it);
    else if (known && it->octets[2] == PROOF) take_proof(u, it);
    else if (known && it->octets[2] == GREETING) take_greeting(u, it);
    else u->counts.unknown++;
    return true;
}

/* --- frames of strangers */

/* Whether it may be a frame of a node that begins to speak, or goes on from another address: data for an open port, or
 * anything from a learnt peer. */
static bool is_plausible(const dt_udp *u, const struct arrival *it, const struct peer *peer) {
    const uint8_t *d = it->octets;
    if (it->len < CONTROL_LEN || (d[0] != 1 && d[0] != 2) || d[1] != 1) return false;
    if (dtu_get_number(d + 12, 4) != u->options.node || it->maker == u->options.node) return false;
    if (peer) return !peer->configured;
    uint16_t port = (uint16_t)dtu_get_number(d + 20, 2);
    return d[16] == 1 && (u->options.flags & DT_UDP_FLAG_ALL_PORTS || u->ports.open[port / 8] >> port % 8 & 1);
}

/* Keeps the address of a stranger of which octets were accepted. Without memory nothing is kept, and it comes again. */
static void keep(dt_udp *u, const struct arrival *it, struct peer *peer, struct proof *proof) {
    struct strangers *s = &u->strangers;
    if (peer == NULL) {
        if (!makes_room(u, it->at) || s->numbers >= MAX_NUMBERS || dtu_core_add_route(&u->core, it->maker) != DT_OK)
            return;
        if ((peer = dtu_peers_add(&u->peers, it->maker)) == NULL) return;
        s->numbers++;
        s->count++;
        u->counts.peers_learnt++;
        make_newest(s, peer);
    }
    peer->at = *it->from;
    peer->own = it->own;
    peer->key = proof->key;
    dtu_govern_drop(u, peer); /* (of an opening that is over) */
    dtu_watch_free(peer->watch);
    peer->watch = proof->watch;
    proof->watch = NULL;
    peer->heard = peer->answered = true;
    peer->heard_at = it->at;
    proof->from.len = 0;
}

/* A frame from an address that isn't its maker's. */
void dtu_stranger(dt_udp *u, struct arrival *it) {
    struct peer *peer = dtu_peers_find(&u->peers, it->maker);
    if (u->strangers.proofs == NULL || !is_plausible(u, it, peer)) {
        u->counts.unknown++;
        return;
    }
    struct proof *proof = proof_of(u, it->maker, it->from);
    bool proved = is_proved(proof, it, it->maker) && (peer == NULL || is_silent(u, peer, it->at));
    bool room = peer || u->strangers.count < u->options.max_peers || is_silent(u, u->strangers.oldest.newer, it->at);
    if (!proved || !room) {
        if (room) challenge(u, it);
        u->counts.unknown++;
        return;
    }
    if (!dtu_watch_takes(u, &proof->watch, it)) return;
    uint64_t before = dtu_core_accepted(&u->core);
    dtu_pass_in(u, peer, it);
    if (dtu_core_accepted(&u->core) != before) keep(u, it, peer, proof);
}
