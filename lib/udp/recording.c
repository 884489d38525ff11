/* A recording: what passes, in a pcapng file that Wireshark opens. Each datagram is a packet of IP without a link, with
 * its direction; each call, request, reply and end is an entry of a journal, of the time at which it happened. */
#include "udp.h"
#include <errno.h>
#include <fcntl.h>
#include <stdio.h>
#include <stdlib.h>
#include <string.h>
#include <unistd.h>

enum {
    ROOM = 1 << 18,       /* octets that wait to be written */
    WRITE_FROM = 1 << 16, /* from so many on they are written, else when the driver waits */
    SECTION = 0x0a0d0d0a, INTERFACE = 1, PACKET = 6, JOURNAL = 9, /* types of blocks */
    RAW_IP = 101,         /* type of link: packets begin with their IP header */
    ALL = 262144,         /* octets of a packet that are kept at most: no packet is as long */
    MAX_HEADERS = 48, UDP_HEADER = 8, V4_HEADER = 20, V6_HEADER = 40,
    ENTRY_ROOM = 512
};

struct recording {
    int file;
    uint8_t state;    /* enum dt_status_code: DT_OK while it goes on */
    uint16_t port;    /* our own */
    uint64_t left;    /* octets that it may still have */
    off_t written;    /* octets of the file, all of whole blocks */
    size_t used;
    uint8_t room[ROOM];
};

/* --- blocks */

static void end(struct recording *r, dt_status why) {
    r->state = (uint8_t)why;
    if (r->file >= 0) (void)close(r->file);
    r->file = -1;
}

/* Writes what waits. If the system refuses, the recording ends behind the last block that is whole. */
static void write_out(struct recording *r) {
    for (size_t done = 0; done < r->used && r->file >= 0;) {
        ssize_t took = write(r->file, r->room + done, r->used - done);
        if (took >= 0) done += (size_t)took;
        else if (errno != EINTR) {
            int cut = ftruncate(r->file, r->written);
            (void)cut; /* (a reader stops at a block that isn't whole) */
            end(r, DT_NOT_OPEN);
        }
    }
    r->written += (off_t)r->used;
    r->used = 0;
}

static void put(struct recording *r, const void *octets, size_t len) {
    memcpy(r->room + r->used, octets, len);
    r->used += len;
}

static void put_number(struct recording *r, uint32_t value) { put(r, &value, sizeof value); }

static size_t padding(size_t len) { return -len & 3; }

/* Begins a block with a body of this length, and returns how long it is in all; 0: the recording is over. */
static uint32_t begin_block(struct recording *r, uint32_t type, size_t body) {
    uint32_t all = (uint32_t)(12 + body);
    if (r->file < 0) return 0;
    if (all > r->left) {
        write_out(r);
        end(r, r->file < 0 ? r->state : DT_FULL);
        return 0;
    }
    if (r->used + all > ROOM) write_out(r);
    if (r->file < 0) return 0;
    r->left -= all;
    put_number(r, type);
    put_number(r, all);
    return all;
}

static void end_block(struct recording *r, uint32_t all) {
    put_number(r, all);
    if (r->used >= WRITE_FROM) write_out(r);
}

static void put_head(struct recording *r) {
    static const uint32_t SECTION_BODY[] = {0x1a2b3c4d, 1 /* version 1.0 */, UINT32_MAX, UINT32_MAX};
    static const uint32_t INTERFACE_BODY[] = {RAW_IP, ALL};
    uint32_t all = begin_block(r, SECTION, sizeof SECTION_BODY);
    put(r, SECTION_BODY, all ? sizeof SECTION_BODY : 0);
    if (all) end_block(r, all);
    all = begin_block(r, INTERFACE, sizeof INTERFACE_BODY);
    put(r, INTERFACE_BODY, all ? sizeof INTERFACE_BODY : 0);
    if (all) end_block(r, all);
}

static uint64_t wall_us(void) { return (uint64_t)dtu_clock_reading().wall / 1000; }

/* --- datagrams */

/* Puts an address into an IP header; an unknown one is all zeros. */
static void put_address(uint8_t *at, const struct address *address, size_t len) {
    if (address->len == 0) return;
    if (len == 4) memcpy(at, &address->name.v4.sin_addr, 4);
    else memcpy(at, &address->name.v6.sin6_addr, 16);
}

static void put_own(uint8_t *at, const struct own_address *own, size_t len) {
    if (own->family == AF_INET && len == 4) memcpy(at, &own->name.v4, 4);
    if (own->family == AF_INET6 && len == 16) memcpy(at, &own->name.v6, 16);
}

/* Writes the headers of IP and UDP, and returns their length. */
static size_t headers(uint8_t *at, const struct recording *r, const struct passing *it, size_t len) {
    bool v4 = it->peer->name.any.sa_family == AF_INET;
    size_t ip = v4 ? V4_HEADER : V6_HEADER, address = v4 ? 4 : 16, source = v4 ? 12 : 8;
    uint16_t port = v4 ? it->peer->name.v4.sin_port : it->peer->name.v6.sin6_port;
    memset(at, 0, MAX_HEADERS);
    at[0] = v4 ? 0x45 : 0x60;
    dtu_put_number(at + (v4 ? 2 : 4), (v4 ? ip : 0) + UDP_HEADER + len, 2);
    at[v4 ? 8 : 7] = 64; /* hops */
    at[v4 ? 9 : 6] = IPPROTO_UDP;
    put_address(at + source + (it->out ? address : 0), it->peer, address);
    if (it->own) put_own(at + source + (it->out ? 0 : address), it->own, address);
    dtu_put_number(at + ip + (it->out ? 0 : 2), r->port, 2);
    memcpy(at + ip + (it->out ? 2 : 0), &port, 2);
    dtu_put_number(at + ip + 4, UDP_HEADER + len, 2);
    return ip + UDP_HEADER;
}

void dtu_record_datagram(dt_udp *u, const struct passing *it, const uint8_t *octets, size_t len) {
    static const uint32_t NOTHING = 0;
    static const uint16_t DIRECTION[] = {2, 4}; /* an option, and its octets */
    struct recording *r = u->recording;
    if (r == NULL || r->file < 0 || len > MAX_UDP) return;
    uint8_t head[MAX_HEADERS];
    size_t heads = headers(head, r, it, len), there = heads + len;
    uint64_t at = wall_us();
    uint32_t all = begin_block(r, PACKET, 20 + there + padding(there) + 12);
    if (all == 0) return;
    put_number(r, 0);
    put_number(r, (uint32_t)(at >> 32));
    put_number(r, (uint32_t)at);
    put_number(r, (uint32_t)there);
    put_number(r, (uint32_t)there);
    put(r, head, heads);
    put(r, octets, len);
    put(r, &NOTHING, padding(there));
    put(r, DIRECTION, sizeof DIRECTION);
    put_number(r, it->out ? 2 : 1);
    put_number(r, NOTHING);
    end_block(r, all);
}

/* --- entries */

/* Puts an entry: a line that is read, and fields for programs. */
static void put_entry(struct recording *r, const struct dt_token *token, const char *what, const char *more) {
    char text[ENTRY_ROOM];
    const struct dt_flow *f = &token->flow;
    uint64_t at = wall_us();
    char name[80] = "";
    if (f->source || f->target)
        (void)snprintf(name, sizeof name, "%u:%u>%u:%u#%llu", f->source, f->source_port, f->target, f->target_port,
                       (unsigned long long)token->call);
    else (void)snprintf(name, sizeof name, "#%llu", (unsigned long long)token->call);
    int len = snprintf(text, sizeof text,
                       "__REALTIME_TIMESTAMP=%llu\nMESSAGE=%s %s%s\nPRIORITY=6\nSYSLOG_IDENTIFIER=deltat\n"
                       "DELTAT_EVENT=%s\nDELTAT_TOKEN=%s\n",
                       (unsigned long long)at, what, name, more, what, name);
    if (len <= 0 || len >= (int)sizeof text) return;
    size_t pad = padding((size_t)len);
    uint32_t all = begin_block(r, JOURNAL, (size_t)len + pad);
    if (all == 0) return;
    put(r, text, (size_t)len);
    put(r, "\n\n\n", pad); /* (an empty line ends an entry) */
    end_block(r, all);
}

void dtu_record_call(dt_udp *u, const struct dt_flow *flow, const struct called *it) {
    char more[120];
    if (u->recording == NULL || u->recording->file < 0 || it->status != DT_OK) return;
    (void)snprintf(more, sizeof more, it->waits ? ": %zu octets, %u ms; it waits in the driver" : ": %zu octets, %u ms",
                   it->len, it->timeout_ms);
    put_entry(u->recording, &(struct dt_token){.call = it->call, .flow = *flow}, "call", more);
}

void dtu_record_entered(dt_udp *u, const struct dt_token *token, uint64_t as) {
    char more[80];
    if (u->recording == NULL || u->recording->file < 0) return;
    (void)snprintf(more, sizeof more, ": passed to the node as %llu", (unsigned long long)as);
    put_entry(u->recording, token, "enters", more);
}

void dtu_record_reply(dt_udp *u, const struct dt_token *token, size_t len, dt_status status) {
    char more[80];
    if (u->recording == NULL || u->recording->file < 0) return;
    (void)snprintf(more, sizeof more, ": %zu octets%s", len, status == DT_OK ? "" : ", not taken");
    put_entry(u->recording, token, "reply", more);
}

void dtu_record_forgotten(dt_udp *u, const struct dt_token *token) {
    if (u->recording && u->recording->file >= 0) put_entry(u->recording, token, "forget", "");
}

void dtu_record_event(dt_udp *u, const struct dt_udp_event *it) {
    static const char *const CAUSES[] = {
        "?", "its octets were given up", "its time is over", "the service was stopped"};
    char more[80] = "";
    if (u->recording == NULL || u->recording->file < 0) return;
    if (it->kind == DT_UDP_EVENT_REQUEST || it->kind == DT_UDP_EVENT_ANSWERED)
        (void)snprintf(more, sizeof more, ": %zu octets", it->len);
    if (it->kind == DT_UDP_EVENT_REQUEST) put_entry(u->recording, &it->token, "request", more);
    struct dt_token own = {.call = it->call, .flow = {0, 0, 0, 0}};
    if (it->kind == DT_UDP_EVENT_ANSWERED) put_entry(u->recording, &own, "answered", more);
    if (it->kind != DT_UDP_EVENT_UNSURE) return;
    (void)snprintf(more, sizeof more, ": %s", CAUSES[it->cause < 4 ? it->cause : 0]);
    put_entry(u->recording, &own, "unsure", more);
}

/* --- beginning and ending */

void dtu_record_close(dt_udp *u) {
    struct recording *r = u->recording;
    u->recording = NULL;
    if (r == NULL) return;
    if (!u->is_copy) write_out(r); /* (what waits in a forked child is the parent's) */
    if (r->file >= 0) (void)close(r->file);
    free(r);
}

void dtu_record_waits(dt_udp *u) {
    if (u->recording && u->recording->used) write_out(u->recording);
}

dt_status dt_udp_record(dt_udp *u, const char *path, uint64_t max_octets, struct dt_udp_error *error) {
    if (error) memset(error, 0, sizeof *error);
    if (!dtu_is_usable(u)) return dtu_refuse(error, u->failed, 0, "the driver failed, or this is a forked child");
    dtu_record_close(u);
    if (path == NULL) return DT_OK;
    struct recording *r = calloc(1, sizeof *r);
    if (r == NULL) return dtu_refuse(error, DT_NO_MEMORY, 0, "nothing is recorded: out of memory");
    r->port = dt_udp_local_port(u);
    r->left = max_octets;
    r->file = open(path, O_WRONLY | O_CREAT | O_TRUNC | O_CLOEXEC, 0600);
    if (r->file < 0) {
        int why = errno;
        free(r);
        return dtu_refuse(error, DT_INVALID, why, "%s can't be made: %s", path, strerror(why));
    }
    u->recording = r;
    put_head(r);
    return DT_OK;
}

dt_status dt_udp_recording(dt_udp *u) { return u->recording ? u->recording->state : DT_NONE; }
