/* The proved library without an operating system or a C library: two nodes in one image, over an arena. The library wants six
 * functions, and all of them are here: three for memory, memcpy, memmove and memset. Built for aarch64 (QEMU's virt machine)
 * and, with only two calls of Linux for its text and its end, for x86-64; the lines are in tests/bare.py.
 *
 * One of five datagrams is lost. It ends with 0 if all octets that arrived are right, and prints what the arena held. */
#include "deltat.h"

enum { ARENA = 1 << 16, HANDLE = 1 << 12, ALIGN = 16, SECONDS = 20, STEP = 10, EVERY = 100, LONGEST = 300 };

struct tried { bool ok; uint8_t *p; };
struct tried rattle_alloc(size_t size, size_t align);
struct tried rattle_realloc(uint8_t *p, size_t kept, size_t size, size_t align);
void rattle_dealloc(uint8_t *p);
void *memcpy(void *to, const void *from, size_t len);
void *memmove(void *to, const void *from, size_t len);
void *memset(void *to, int with, size_t len);
void main_bare(void);

/* --- an arena: blocks one behind the other, each with its size before it; a free one is taken by the first that fits */

struct block { size_t size; size_t is_free; };
static uint8_t arena[ARENA] __attribute__((aligned(ALIGN)));
static size_t used, held, most_held;

struct tried rattle_alloc(size_t size, size_t align) {
    struct block *it;
    (void)align;
    size = (size + ALIGN - 1) / ALIGN * ALIGN + (size == 0) * ALIGN;
    for (size_t at = 0; at < used; at += sizeof *it + it->size) {
        it = (struct block *)(arena + at);
        if (it->is_free && it->size >= size) {
            it->is_free = 0;
            held += it->size;
            return (struct tried){true, (uint8_t *)(it + 1)};
        }
    }
    if (size > sizeof arena - used - sizeof *it) return (struct tried){false, arena};
    it = (struct block *)(arena + used);
    it->size = size, it->is_free = 0;
    used += sizeof *it + size;
    held += size;
    if (held > most_held) most_held = held;
    return (struct tried){true, (uint8_t *)(it + 1)};
}

void rattle_dealloc(uint8_t *p) {
    struct block *it = (struct block *)p - 1;
    it->is_free = 1;
    held -= it->size;
}

struct tried rattle_realloc(uint8_t *p, size_t kept, size_t size, size_t align) {
    struct tried it = rattle_alloc(size, align);
    if (!it.ok) return it;
    memcpy(it.p, p, kept < size ? kept : size);
    rattle_dealloc(p);
    return it;
}

void *memcpy(void *to, const void *from, size_t len) {
    for (size_t i = 0; i < len; i++) ((volatile uint8_t *)to)[i] = ((const uint8_t *)from)[i];
    return to;
}

void *memmove(void *to, const void *from, size_t len) {
    if ((uint8_t *)to < (const uint8_t *)from) return memcpy(to, from, len);
    for (size_t i = len; i-- > 0;) ((volatile uint8_t *)to)[i] = ((const uint8_t *)from)[i];
    return to;
}

void *memset(void *to, int with, size_t len) {
    for (size_t i = 0; i < len; i++) ((volatile uint8_t *)to)[i] = (uint8_t)with;
    return to;
}

/* --- the machine: text, and an end */

#ifdef __aarch64__
static long semihosting(long what, const void *with) {
    register long x0 __asm__("x0") = what;
    register const void *x1 __asm__("x1") = with;
    __asm__ volatile("hlt 0xf000" : "+r"(x0) : "r"(x1) : "memory");
    return x0;
}

static void text(const char *it) { semihosting(4, it); }

static void leave(int status) {
    long block[2] = {0x20026, status};
    semihosting(0x18, block);
    for (;;) {}
}

/* the library uses vector registers, so they are enabled first; and it has a stack */
__asm__(".section .start,\"ax\"\n.global _start\n_start:\n mov x0, #(3 << 20)\n msr cpacr_el1, x0\n isb\n"
        " ldr x0, =stack_top\n mov sp, x0\n bl main_bare\n b .\n.text\n");
#else
static long call(long number, long a, long b, long c) {
    long it;
    __asm__ volatile("syscall" : "=a"(it) : "a"(number), "D"(a), "S"(b), "d"(c) : "rcx", "r11", "memory");
    return it;
}

static void text(const char *it) {
    size_t len = 0;
    while (it[len]) len++;
    call(1, 1, (long)it, (long)len);
}

static void leave(int status) {
    call(60, status, 0, 0);
    for (;;) {}
}

__asm__(".global _start\n_start:\n and $-16, %rsp\n call main_bare\n");
#endif

static void number(const char *what, size_t it) {
    char digits[24] = {0};
    int i = 22;
    digits[i] = '\n';
    do digits[--i] = (char)('0' + it % 10), it /= 10; while (it);
    text(what), text(digits + i);
}

static void check(bool is_right, const char *what, size_t value) {
    if (is_right) return;
    number(what, value);
    leave(1);
}

/* --- the nodes */

static uint8_t places[2][HANDLE] __attribute__((aligned(64)));
static dt_node *nodes[2] = {(dt_node *)places[0], (dt_node *)places[1]};
static size_t datagrams, octets_read, messages;

static void open_nodes(void) {
    static const struct dt_params params = {sizeof params, 1000, 3000, 200, 500, 800, 128, 512, 512, 512, 2147483648u, 0};
    static const struct dt_link link = {.charge = 50, .number = 1};
    check(dt_abi_version() == DT_ABI_VERSION, "another interface: ", dt_abi_version());
    check(dt_node_size() <= HANDLE && dt_node_align() <= 64, "a handle has octets: ", dt_node_size());
    for (uint32_t i = 0; i < 2; i++) {
        struct dt_route route = {2 - i, 1};
        struct dt_node_options options = {.size = sizeof options, .node = 1 + i, .start_as = DT_START_FIRST};
        options.links = &link, options.link_count = 1, options.routes = &route, options.route_count = 1;
        dt_node_init(nodes[i]);
        struct dt_open_result opened = dt_node_open(nodes[i], &params, &options);
        check(opened.status == DT_OK, "a node isn't opened: ", opened.status);
    }
}

/* hands what left a node to the other one, but for one of five */
static void carry(int from, uint64_t now) {
    static uint8_t octets[DT_MAX_DATAGRAM];
    struct dt_datagram it = {.size = sizeof it};
    struct dt_report report = {.size = sizeof report};
    check(dt_node_tick(nodes[from], now) == DT_OK, "a tick at ", now);
    while (dt_node_next_datagram(nodes[from], octets, sizeof octets, &it) == DT_OK)
        if (++datagrams % 5) dt_node_receive(nodes[!from], now, 1, octets, it.len, 0);
    while (dt_node_next_report(nodes[from], &report) == DT_OK) {}
}

/* each message is 0, 1, .. 299 modulo 256, so the octets at its begin and in it are known */
static void read_all(const struct dt_flow *flow, uint64_t now) {
    static uint8_t octets[512];
    static size_t at;
    struct dt_read_result it;
    while ((it = dt_node_read(nodes[1], now, flow, octets, sizeof octets)).status == DT_OK) {
        if (it.begin) at = 0;
        for (size_t i = 0; i < it.len; i++, at++) check(octets[i] == (at & 255), "a wrong octet at ", at);
        octets_read += it.len;
        messages += it.end;
    }
}

void main_bare(void) {
    static const struct dt_flow flow = {1, 2, 10, 20};
    static uint8_t message[LONGEST];
    size_t sent = 0;
    for (size_t i = 0; i < LONGEST; i++) message[i] = (uint8_t)i;
    open_nodes();
    number("arena of two nodes: ", held);
    for (uint64_t now = 0; now < SECONDS * 1000; now += STEP) {
        carry(0, now), carry(1, now);
        if (now % EVERY == 0 && now < SECONDS * 500) sent += dt_node_send(nodes[0], now, &flow, message, LONGEST, true, true).status == DT_OK;
        read_all(&flow, now);
    }
    number("handle: ", dt_node_size()), number("arena, most: ", most_held), number("datagrams: ", datagrams);
    number("messages sent: ", sent), number("messages read: ", messages), number("octets read: ", octets_read);
    check(octets_read > 0 && octets_read <= sent * LONGEST, "octets read: ", octets_read);
    for (int i = 0; i < 2; i++) dt_node_close(nodes[i]);
    number("arena after the close: ", held);
    leave(held == 0 ? 0 : 1);
}
