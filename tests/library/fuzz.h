/* What the programs share that try any octets as calls of libdeltat: fuzz.c of plain nodes, fuzz_service.c of services. There
   are three nodes in a row, 1 - 2 - 3, of which the middle one relays, each of them twice, and a network that holds what
   they hand out. `LLVMFuzzerTestOneInput` is what libFuzzer and others look for; tests/library_fuzz.py builds and runs it.
   With -DALONE it has a main of its own: `fuzz FILE..` tries files, `fuzz --count N --seed N` N inputs by chance, and each
   that is about to be tried is written to the file that --keep names.

   An input is HEAD octets and then records of RECORD octets, a call or what happens to the network each. */
#include "calls.h"
#include <inttypes.h>
#include <stdio.h>
#include <stdlib.h>
#include <string.h>

#define WANT(truth) \
    do { \
        if (!(truth)) fault(__FILE__, __LINE__, #truth); \
    } while (0)

enum { NODES = 3, PORTS = 2, MOST_FLIGHT = 200, MOST_OPS = 400, RECORD = 4, HEAD = 24, MOST_STEPS = 300, BEHIND = 40 };
static const uint64_t LAST = (uint64_t)1 << 62;

static size_t at_record;

static inline void fault(const char *path, int line, const char *what) {
    const char *name = strrchr(path, '/');
    fprintf(stderr, "%s:%d: at record %zu: %s\n", name == NULL ? path : name + 1, line, at_record, what);
    abort();
}

/* --- what the fuzzer is told of an input, beside the code that it reached: pairs of what happened one after another */

#ifndef ALONE
__attribute__((section("__libfuzzer_extra_counters")))
#endif
static uint8_t happened[1 << 13];
static uint32_t last_happened;

static inline void happens(uint32_t what) {
    uint32_t it = (last_happened * 31 + what) * 2654435761u >> 19;
    if (happened[it] < 255) happened[it]++;
    last_happened = what;
}

/* --- memory, which one call of two may lack */

struct tried { bool ok; uint8_t *p; };
struct tried rattle_alloc(size_t size, size_t align);
struct tried rattle_realloc(uint8_t *p, size_t kept, size_t size, size_t align);
void rattle_dealloc(uint8_t *p);

static long held;
static unsigned requests, fail_at;

static inline struct tried tried(void *p) {
    struct tried t = {p != NULL, (uint8_t *)p};
    return t;
}

struct tried rattle_alloc(size_t size, size_t align) {
    WANT(align <= 16);
    if (++requests == fail_at) return tried(NULL);
    held++;
    return tried(malloc(size > 0 ? size : 1));
}

struct tried rattle_realloc(uint8_t *p, size_t kept, size_t size, size_t align) {
    WANT(align <= 16 && kept <= size);
    if (++requests == fail_at) return tried(NULL);
    return tried(realloc(p, size > 0 ? size : 1));
}

void rattle_dealloc(uint8_t *p) {
    held--;
    free(p);
}

/* memory of exactly this size: whoever reads or writes beyond is seen */
static inline uint8_t *block(size_t size) {
    uint8_t *it = (uint8_t *)malloc(size > 0 ? size : 1);
    if (it == NULL) abort();
    return it;
}

/* --- what the input decides */

struct input { const uint8_t *at; size_t left; };

static inline uint8_t octet(struct input *in) { return in->left > 0 ? in->left--, *in->at++ : 0; }

#define CHOICE(table, octet) ((table)[(octet) % (sizeof(table) / sizeof *(table))])

static const uint32_t LIVES[] = {1000, 500, 40, 5, 2, 3000, 86400000};
static const uint32_t RESENDS[] = {3000, 450, 300, 20, 1, 8000, 86400000};
static const uint32_t DELAYS[] = {200, 5, 1, 50, 2000};
static const uint32_t TIMEOUTS[] = {100, 500, 20, 90, 7};
static const uint32_t PROBES[] = {800, 180, 20, 1};
static const uint32_t SEGMENTS[] = {1000, 100, 7, 1, 1024, 1025, 1442, 8192, 2};
static const uint32_t ROOMS[] = {4096, 100, 1, 5, 1000, 65536, 300};
static const uint32_t RUNS[] = {2147483648u, 1, 5, 8, 100, 1000};
static const uint32_t STARTS[] = {0, 1, 4294967293u, 2147483646u, 12345};
static const uint32_t CHARGES[] = {50, 0, 1, 5, 90, 300};
static const uint32_t PACES[] = {0, 0, 0, 1, 5, 100};
static const uint64_t CLOCKS[] = {0, 7, 86400000, (uint64_t)1 << 40};
static const size_t LENGTHS[] = {1, 2, 3, 5, 7, 8, 50, 99, 100, 101, 300, 1000, 1024, 1025, 1442, 2500, 4096, 8192, 8193, 20000};

/* --- flows and frames */

static inline bool is_flow(const struct dt_flow *one, const struct dt_flow *other) {
    return one->source == other->source && one->target == other->target && one->source_port == other->source_port && one->target_port == other->target_port;
}

static inline bool is_no_flow(const struct dt_flow *f) { return (f->source | f->target | f->source_port | f->target_port) == 0; }

static inline uint8_t octet_of(size_t flow, size_t place) {
    uint64_t it = (flow * 1000003 + place + 1) * 0x9E3779B97F4A7C15u;
    it ^= it >> 29;
    return (uint8_t)(it * 0xBF58476D1CE4E5B9u >> 40);
}

static inline uint32_t number_at(const uint8_t *at) { return (uint32_t)at[0] << 24 | (uint32_t)at[1] << 16 | (uint32_t)at[2] << 8 | at[3]; }

/* the first test of a header that fails, or 0 */
static inline uint8_t header_fault(const uint8_t *frame, size_t len, uint32_t *value) {
    if (len < 16) return *value = (uint32_t)len, DT_FAULT_SHORT;
    if (frame[0] != 1 && frame[0] != 2) return *value = frame[0], DT_FAULT_VERSION;
    size_t tells = (size_t)(frame[2] << 8 | frame[3]);
    if (tells != len - 16 || len - 16 > (frame[0] == 1 ? 1038u : 8206u)) return *value = (uint32_t)tells, DT_FAULT_LENGTH;
    *value = 0;
    return number_at(frame + 4) == 0 ? DT_FAULT_LIFETIME : 0;
}

static inline bool has_packet(const uint8_t *frame, size_t len) {
    if (len < 30 || frame[1] != 1) return false;
    uint8_t version = frame[0], kind = frame[16], flags = frame[17];
    uint32_t window = number_at(frame + 26);
    size_t size = len - 30;
    if (kind == 1) return flags <= 7 && window == 0 && (version == 1 ? size >= 1 && size <= 1024 : size >= 1025 && size <= 8192);
    if (kind == 2) return version == 1 && flags == 0 && window <= 65536 && size == 0;
    return flags == 0 && window == 0 && size == 0 && ((kind == 3 && version == 1) || (kind == 4 && version == 2));
}

static inline bool is_same(const void *one, const void *other, size_t len) { return len == 0 || memcmp(one, other, len) == 0; }

static inline void put(uint8_t *at, uint32_t value, unsigned octets) {
    while (octets-- > 0) *at++ = (uint8_t)(value >> 8 * octets);
}

/* --- the network */

static const struct dt_route ROUTES[NODES][2] = {{{2, 1}, {3, 1}}, {{1, 1}, {3, 2}}, {{2, 1}, {1, 1}}};

static struct dt_link links[NODES][2];
static size_t link_count[NODES];
static uint64_t now, leap;
static bool keeps_duties, leaps, any_failed;

/* What a program says of its nodes: whether one is open, and what a datagram, a tick, its wake and its clock are. */
static bool is_open(size_t node);
static void takes_in(size_t node, uint16_t link, const uint8_t *octets, size_t len, uint32_t waited);
static void is_ticked(size_t node);
static uint64_t wake_of(size_t node);
static uint64_t offset_of(size_t node);
/* a frame that a node hands out, or the status with which it doesn't */
struct frame { struct dt_datagram it; dt_status status; };
/* the first frame of one of a node's two sides */
static struct frame next_frame(size_t node, size_t side, uint8_t *buf, size_t room);

static inline bool has_link(size_t node, uint16_t link) {
    for (size_t i = 0; i < link_count[node]; i++)
        if (links[node][i].number == link) return true;
    return false;
}

struct flight { size_t to; uint16_t link; uint64_t since; size_t len; uint8_t *octets; };
static struct flight flight[MOST_FLIGHT];
static size_t flight_len;

static inline void lose(size_t at) {
    free(flight[at].octets);
    memmove(flight + at, flight + at + 1, (--flight_len - at) * sizeof *flight);
}

/* where a frame that leaves a node on a link comes in */
static inline void goes_off(size_t from, uint16_t link, const uint8_t *octets, size_t len) {
    size_t to = from == 1 ? (link == 1 ? 0 : 2) : 1;
    if (flight_len == MOST_FLIGHT) lose(0);
    struct flight it = {to, from == 2 ? 2 : 1, now, len, block(len)};
    memcpy(it.octets, octets, len);
    flight[flight_len++] = it;
}

/* what left a node */
struct left { bool some; uint16_t link; uint32_t life; };

/* The first frame of both sides of a node goes off, where one waits. */
static inline struct left takes_frame(size_t from) {
    struct left left = {false, 0, 0};
    uint8_t *small = block(0);
    struct frame none = next_frame(from, 0, small, 0);
    if (none.status == DT_NONE || none.status == DT_NOT_OPEN) {
        WANT(next_frame(from, 1, small, 0).status == none.status && (none.status == DT_NONE) == is_open(from));
        free(small);
        return left;
    }
    WANT(none.status == DT_BUFFER_TOO_SMALL && none.it.len >= 16 && none.it.len <= DT_MAX_DATAGRAM);
    free(small);
    size_t len = none.it.len + BEHIND;
    uint8_t *room = block(len), *other = block(none.it.len);
    small = block(none.it.len - 1);
    memset(small, 0xEE, none.it.len - 1);
    struct frame less = next_frame(from, 0, small, none.it.len - 1);
    WANT(less.status == DT_BUFFER_TOO_SMALL && less.it.len == none.it.len);
    for (size_t i = 0; i < none.it.len - 1; i++) WANT(small[i] == 0xEE);
    free(small);
    memset(room, 0xEE, len);
    struct frame out = next_frame(from, 0, room, len), twin = next_frame(from, 1, other, none.it.len);
    WANT(out.status == DT_OK && twin.status == DT_OK && out.it.len == none.it.len && twin.it.len == out.it.len);
    WANT(out.it.to == twin.it.to && out.it.link == twin.it.link && is_same(room, other, out.it.len));
    for (size_t i = out.it.len; i < len; i++) WANT(room[i] == 0xEE);
    uint32_t value;
    WANT(header_fault(room, out.it.len, &value) == 0 && number_at(room + 12) == out.it.to);
    WANT(number_at(room + 8) != from + 1 || has_packet(room, out.it.len));
    WANT(has_link(from, out.it.link));
    goes_off(from, out.it.link, room, out.it.len);
    left = (struct left){true, out.it.link, number_at(room + 4)};
    free(room);
    free(other);
    return left;
}

static inline uint32_t charge_of(const struct flight *it) { return links[it->to][it->link - 1].charge; }

/* What is under way at a place comes, and stays under way where it is to come again. */
static inline void comes(size_t at, bool again) {
    struct flight it = flight[at];
    uint64_t age = now - it.since, charge = charge_of(&it), waited = age > charge ? age - charge : 0;
    uint8_t *octets = block(it.len);
    memcpy(octets, it.octets, it.len);
    if (!again) lose(at);
    if (is_open(it.to) || !keeps_duties) takes_in(it.to, it.link, octets, it.len, waited < UINT32_MAX ? (uint32_t)waited : UINT32_MAX);
    free(octets);
}

/* All that is under way now comes, but what is lost. */
static inline void all_come(uint8_t lost) {
    for (size_t count = flight_len, i = 0; i < count && flight_len > 0; i++) {
        if (lost >> i % 8 & 1) lose(0);
        else comes(0, false);
    }
}

/* The least moment at which a node is to be called, as the network counts. */
static inline bool least_wake(uint64_t *at) {
    bool any = false;
    for (size_t i = 0; i < NODES; i++) {
        uint64_t it = wake_of(i);
        if (it == DT_NEVER) continue;
        uint64_t mine = it > offset_of(i) ? it - offset_of(i) : 0;
        if (!any || mine < *at) *at = mine;
        any = true;
    }
    return any;
}

static inline void goes_on(bool all) {
    uint64_t at = now;
    if (!least_wake(&at) || at >= LAST) return;
    if (at > now) now = at;
    for (size_t i = 0; i < NODES; i++) {
        uint64_t it = wake_of(i);
        if (all || (it != DT_NEVER && it <= now + offset_of(i))) is_ticked(i);
    }
}

/* --- memory that a call lacks, and what the input decides */

static inline void may_fail(unsigned *wanted) {
    requests = 0;
    fail_at = *wanted;
}

static inline bool found_memory(unsigned *wanted) {
    bool it = fail_at == 0 || requests < fail_at;
    fail_at = 0;
    *wanted = 0;
    return it;
}

static unsigned wanted;

/* the options of a node with its links and routes */
static inline struct dt_node_options options_of(size_t node, uint64_t at, bool again) {
    struct dt_node_options it = node_options((uint32_t)node + 1, at, again, links[node], ROUTES[node]);
    it.link_count = link_count[node];
    it.route_count = 2;
    return it;
}

static inline void params_of(struct input *in, struct dt_params *p) {
    p->size = sizeof *p;
    p->mpl = CHOICE(LIVES, octet(in));
    p->r = CHOICE(RESENDS, octet(in));
    p->a = CHOICE(DELAYS, octet(in));
    p->rto = CHOICE(TIMEOUTS, octet(in));
    p->probe = CHOICE(PROBES, octet(in));
    uint64_t most = 3 * (uint64_t)p->mpl + p->r + p->a - 1;
    if (p->probe > most) p->probe = (uint32_t)most;
    p->seg = CHOICE(SEGMENTS, octet(in));
    p->cap = CHOICE(ROOMS, octet(in));
    p->rcap = CHOICE(ROOMS, octet(in));
    p->window = CHOICE(ROOMS, octet(in));
    p->run_limit = CHOICE(RUNS, octet(in));
    p->start = CHOICE(STARTS, octet(in));
}

int LLVMFuzzerTestOneInput(const uint8_t *data, size_t size);

/* --- other inputs: records are changed, left out, doubled, moved, or come from another input */

static inline uint32_t drawn(uint32_t *state, uint32_t below) {
    *state ^= *state << 13;
    *state ^= *state >> 17;
    *state ^= *state << 5;
    return *state % below;
}

static inline size_t other_input(uint8_t *data, size_t size, size_t most, uint32_t state) {
    while (size < HEAD && size < most) data[size++] = (uint8_t)drawn(&state, 256);
    for (uint32_t changes = 1 + drawn(&state, 4); changes > 0; changes--) {
        size_t records = size > HEAD ? (size - HEAD) / RECORD : 0;
        uint8_t *body = data + HEAD;
        uint32_t kind = drawn(&state, 10);
        if (records == 0 || (kind < 3 && size + 5 * RECORD <= most)) {
            /* some records more */
            for (uint32_t more = 1 + drawn(&state, 4); more > 0 && size + RECORD <= most; more--) {
                size_t at = RECORD * drawn(&state, (uint32_t)records + 1);
                memmove(body + at + RECORD, body + at, size - HEAD - at);
                for (size_t i = 0; i < RECORD; i++) body[at + i] = (uint8_t)drawn(&state, 256);
                size += RECORD;
                records++;
            }
            continue;
        }
        uint8_t *one = body + RECORD * drawn(&state, (uint32_t)records), *other = body + RECORD * drawn(&state, (uint32_t)records), kept[RECORD];
        if (kind < 6) one[drawn(&state, RECORD)] = (uint8_t)drawn(&state, 256);
        else if (kind == 6) memmove(one, one + RECORD, (size_t)(data + size - one) - RECORD), size -= RECORD;
        else if (kind == 7) memcpy(kept, one, RECORD), memcpy(one, other, RECORD), memcpy(other, kept, RECORD);
        else if (kind == 8) memcpy(one, other, RECORD);
        else data[drawn(&state, HEAD)] = (uint8_t)drawn(&state, 256);
    }
    return size;
}

size_t LLVMFuzzerCustomMutator(uint8_t *data, size_t size, size_t most, unsigned int seed);

size_t LLVMFuzzerCustomMutator(uint8_t *data, size_t size, size_t most, unsigned int seed) { return other_input(data, size, most, seed * 2654435761u | 1); }

size_t LLVMFuzzerCustomCrossOver(const uint8_t *one, size_t one_size, const uint8_t *other, size_t other_size, uint8_t *out, size_t most, unsigned int seed);

/* the head and the first records of one, the last ones of the other */
size_t LLVMFuzzerCustomCrossOver(const uint8_t *one, size_t one_size, const uint8_t *other, size_t other_size, uint8_t *out, size_t most, unsigned int seed) {
    uint32_t state = seed * 2654435761u | 1;
    if (one_size < HEAD || other_size < HEAD) return 0;
    size_t first = HEAD + RECORD * drawn(&state, (uint32_t)((one_size - HEAD) / RECORD) + 1), from = HEAD + RECORD * drawn(&state, (uint32_t)((other_size - HEAD) / RECORD) + 1);
    if (first > most) first = most;
    size_t rest = other_size - from;
    if (rest > most - first) rest = most - first;
    memcpy(out, one, first);
    memcpy(out + first, other + from, rest);
    return first + rest;
}

#ifdef ALONE
static inline void write_to(const char *path, const uint8_t *octets, size_t len) {
    FILE *file = fopen(path, "wb");
    if (file == NULL || fwrite(octets, 1, len, file) != len || fclose(file) != 0) exit(2);
}

/* inputs by chance, drawn from those before */
static inline void many(uint64_t count, uint32_t seed, const char *kept) {
    static uint8_t inputs[64][HEAD + RECORD * MOST_OPS], octets[HEAD + RECORD * MOST_OPS];
    static size_t sizes[64];
    uint32_t state = seed * 2654435761u | 1;
    for (uint64_t i = 0; i < count; i++) {
        uint32_t from = drawn(&state, 64), to = drawn(&state, 64);
        size_t size = drawn(&state, 8) == 0 ? 0 : sizes[from];
        memcpy(octets, inputs[from], size);
        for (uint32_t rounds = size == 0 ? 1 + drawn(&state, 30) : 1; rounds > 0; rounds--) size = other_input(octets, size, sizeof octets, (state + rounds * 97) | 1);
        if (kept != NULL) write_to(kept, octets, size);
        LLVMFuzzerTestOneInput(octets, size);
        memcpy(inputs[to], octets, sizes[to] = size);
    }
    printf("%" PRIu64 " inputs hold; seed %" PRIu32 "\n", count, seed);
}

int main(int argc, char **words) {
    uint64_t count = 0;
    uint32_t seed = 1;
    const char *kept = NULL;
    for (int i = 1; i < argc; i++) {
        if (!strcmp(words[i], "--count") && i + 1 < argc) count = strtoull(words[++i], NULL, 10);
        else if (!strcmp(words[i], "--seed") && i + 1 < argc) seed = (uint32_t)strtoul(words[++i], NULL, 10);
        else if (!strcmp(words[i], "--keep") && i + 1 < argc) kept = words[++i];
        else {
            static uint8_t octets[1 << 16];
            FILE *file = fopen(words[i], "rb");
            if (file == NULL) return 2;
            size_t size = fread(octets, 1, sizeof octets, file);
            fclose(file);
            LLVMFuzzerTestOneInput(octets, size);
            printf("%s holds\n", words[i]);
        }
    }
    if (count > 0) many(count, seed, kept);
    return 0;
}
#endif
