/* The NBD protocol of one connection. */
#include "nbd.h"
#include "common.h"
#include <sys/socket.h>

#define OPTION_MAGIC 0x49484156454f5054u
#define REQUEST_MAGIC 0x25609513u
#define REP_UNSUPPORTED 0x80000001u
#define PACKED struct __attribute__((packed))

enum { HANDSHAKE_FLAGS = 3 /* fixed newstyle, no zeroes */, EXPORT_FLAGS = 1 | 4 | 8 | 32 | 64 | 256 };
enum { OPT_EXPORT_NAME = 1, OPT_ABORT, OPT_INFO = 6, OPT_GO, OPT_STRUCTURED, REP_ACK = 1, REP_INFO = 3 };
enum { CMD_WRITE = 1, CMD_DISC };
enum { FLAGS_LEN = 4, MAX_OPTION = 65536, LONGEST = 32 << 20, MAX_WAITING = 512, MAX_OCTETS = 64 << 20 };
enum phase { GREETED, OPTIONS, REQUESTS };

PACKED greeting { uint64_t magic, option_magic; uint16_t flags; };
PACKED option_head { uint64_t magic; uint32_t option, len; };
PACKED option_reply { uint64_t magic; uint32_t option, kind, len; };
PACKED info { uint16_t kind; uint64_t size; uint16_t flags; };
PACKED head { uint32_t magic; uint16_t flags, command; uint64_t cookie, offset; uint32_t len; };
PACKED simple { uint32_t magic, error; uint64_t cookie; };
PACKED chunk { uint32_t magic; uint16_t flags, kind; uint64_t cookie; uint32_t len; };

/* Makes room for so many behind those that wait, and returns where it is. */
static uint8_t *room(struct octets *it, size_t len) {
    if (it->from == it->to) it->from = it->to = 0;
    if (it->room - it->to < len && it->from > 0) {
        memmove(it->all, it->all + it->from, it->to - it->from);
        it->to -= it->from;
        it->from = 0;
    }
    if (it->room - it->to < len) it->all = memory(realloc(it->all, it->room = 2 * (it->to + len)));
    return it->all + it->to;
}

static void add(struct octets *it, const void *from, size_t len) {
    if (len == 0) return;
    memcpy(room(it, len), from, len);
    it->to += len;
}

void nbd_open(struct nbd *it, int fd, struct flows *flows) {
    struct greeting hello = {htobe64(0x4e42444d41474943), htobe64(OPTION_MAGIC), htobe16(HANDSHAKE_FLAGS)};
    *it = (struct nbd){.fd = fd, .flows = flows, .losses = flows->losses};
    add(&it->out, &hello, sizeof hello);
}

bool nbd_listens(const struct nbd *it) {
    size_t octets = it->waiting_octets + it->out.to - it->out.from;
    return !it->leaves && !it->is_gone && it->waiting < MAX_WAITING && octets < MAX_OCTETS;
}

/* --- options */

static void reply_to_option(struct nbd *it, uint32_t option, uint32_t kind, uint32_t len) {
    struct option_reply head = {htobe64(0x3e889045565a9), htobe32(option), htobe32(kind), htobe32(len)};
    add(&it->out, &head, sizeof head);
}

/* Any name is this disk's. */
static void choose(struct nbd *it, uint32_t option) {
    static const uint8_t ZEROES[124];
    struct info info = {0, htobe64(it->flows->size), htobe16(EXPORT_FLAGS)};
    bool is_info = option == OPT_INFO || option == OPT_GO;
    bool is_known = is_info || option == OPT_STRUCTURED || option == OPT_ABORT;
    if (option == OPT_EXPORT_NAME) {
        add(&it->out, &info.size, sizeof info - sizeof info.kind);
        add(&it->out, ZEROES, it->no_zeroes ? 0 : sizeof ZEROES);
    } else {
        if (is_info) reply_to_option(it, option, REP_INFO, sizeof info);
        if (is_info) add(&it->out, &info, sizeof info);
        reply_to_option(it, option, is_known ? REP_ACK : REP_UNSUPPORTED, 0);
    }
    if (option == OPT_EXPORT_NAME || option == OPT_GO) it->phase = REQUESTS;
    it->structured |= option == OPT_STRUCTURED;
    it->leaves |= option == OPT_ABORT;
}

/* --- requests */

static void reply(struct nbd *it, const struct request *request, uint64_t cookie, uint32_t error, const uint8_t *data) {
    bool is_read = request->op == OP_READ;
    uint32_t len = is_read && !error ? request->length : 0, detail_len = error ? 6 : 8;
    uint64_t detail = error ? htobe64((uint64_t)error << 32) : htobe64(request->offset); /* the error, and no text */
    struct simple simple = {htobe32(0x67446698), htobe32(error), cookie};
    struct chunk chunk = {
        htobe32(0x668e33ef), htobe16(1), htobe16(error ? 32769 : 1), cookie, htobe32(detail_len + len)};
    if (is_read && it->structured) {
        add(&it->out, &chunk, sizeof chunk);
        add(&it->out, &detail, detail_len);
    } else add(&it->out, &simple, sizeof simple);
    add(&it->out, data, len);
}

void nbd_answer(struct nbd *it, struct demand *demand) {
    const struct request *request = &demand->request;
    bool is_told = request->op != OP_FLUSH || demand->losses == it->losses;
    if (!is_told) it->losses = demand->losses; /* what was answered before may be lost */
    reply(it, request, demand->cookie, is_told || demand->error ? demand->error : EIO, demand->data);
    it->waiting--;
    it->waiting_octets -= has_data(request) ? request->length : 0;
    free(demand);
}

static uint32_t refused(const struct nbd *it, const struct request *request) {
    if (request->op == 0 || (has_data(request) && (request->length == 0 || request->length > LONGEST))) return EINVAL;
    if (request->offset <= it->flows->size && request->length <= it->flows->size - request->offset) return 0;
    return request->op == OP_WRITE || request->op == OP_ZERO ? ENOSPC : EINVAL;
}

static void ask(struct nbd *it, const struct head *head) {
    static const uint8_t OPS[] = {OP_READ, OP_WRITE, 0, OP_FLUSH, OP_TRIM, 0, OP_ZERO}; /* of commands */
    uint16_t command = be16toh(head->command);
    struct request request = {.op = command < sizeof OPS ? OPS[command] : 0, .length = be32toh(head->len),
                              .offset = be64toh(head->offset), .syncs = be16toh(head->flags) & 1};
    if (request.op == OP_FLUSH) request.syncs = true;
    uint32_t error = refused(it, &request);
    if (error) {
        reply(it, &request, head->cookie, error, NULL);
        return;
    }
    struct demand *demand = flows_add(it->flows, it, &it->is_gone, &request);
    demand->cookie = head->cookie;
    it->waiting++;
    it->waiting_octets += has_data(&request) ? request.length : 0;
    if (request.op == OP_WRITE) memcpy(demand->data, head + 1, request.length);
}

/* --- what comes */

/* How many octets there are behind the head of what comes next. If it is no head, the client is given up. */
static size_t len_behind(struct nbd *it, const struct option_head *option, const struct head *head) {
    if (it->phase == GREETED) return 0;
    bool is_option = it->phase == OPTIONS;
    size_t len = is_option ? be32toh(option->len) : be16toh(head->command) == CMD_WRITE ? be32toh(head->len) : 0;
    bool is_head = is_option ? be64toh(option->magic) == OPTION_MAGIC : be32toh(head->magic) == REQUEST_MAGIC;
    if (!is_head || len > (is_option ? MAX_OPTION : LONGEST)) it->is_gone = true;
    return len;
}

/* Uses what came, as far as it is whole. */
static void use(struct nbd *it) {
    static const size_t HEADS[] = {FLAGS_LEN, sizeof(struct option_head), sizeof(struct head)};
    for (size_t have; nbd_listens(it) && (have = it->in.to - it->in.from) >= HEADS[it->phase];) {
        const uint8_t *at = it->in.all + it->in.from;
        size_t whole = HEADS[it->phase] + len_behind(it, (const void *)at, (const void *)at);
        if (have < whole) room(&it->in, whole - have);
        if (have < whole || it->is_gone) return;
        it->in.from += whole;
        if (it->phase == OPTIONS) choose(it, be32toh(((const struct option_head *)at)->option));
        else if (it->phase == GREETED) it->phase = OPTIONS, it->no_zeroes = at[FLAGS_LEN - 1] & 2;
        else if (be16toh(((const struct head *)at)->command) == CMD_DISC) it->leaves = true;
        else ask(it, (const void *)at);
    }
}

void nbd_read(struct nbd *it) {
    uint8_t *at = room(&it->in, 1 << 18);
    ssize_t got = recv(it->fd, at, it->in.room - it->in.to, MSG_DONTWAIT);
    if (got > 0) it->in.to += (size_t)got;
    else if (got == 0 || (errno != EAGAIN && errno != EINTR)) it->is_gone = true;
    use(it);
}

static void close_if_over(struct nbd *it) {
    if (it->waiting > 0 || (!it->is_gone && (!it->leaves || it->out.from < it->out.to))) return;
    close(it->fd);
    free(it->in.all);
    free(it->out.all);
    *it = (struct nbd){.fd = -1};
}

void nbd_write(struct nbd *it) {
    while (it->out.from < it->out.to && !it->is_gone) {
        ssize_t sent = send(it->fd, it->out.all + it->out.from, it->out.to - it->out.from, MSG_DONTWAIT | MSG_NOSIGNAL);
        if (sent > 0) it->out.from += (size_t)sent;
        else if (errno == EAGAIN) break;
        else if (errno != EINTR) it->is_gone = true;
    }
    use(it); /* (what came while it had too much under way wasn't used) */
    close_if_over(it);
}
