/* What a gateway asks of the server, and what the server answers, by one call. On the wire numbers are big-endian. */
#pragma once
#include <endian.h>
#include <stdbool.h>
#include <stdint.h>
enum { SERVER = 1 /* its node */, SERVICE_PORT = 20, VERSION = 2 };
enum { HEADER = 24, MAX_PART = 32768 }; /* octets of a request or an answer; of the data behind it, at most */
enum op { OP_READ = 1, OP_WRITE, OP_FLUSH, OP_TRIM, OP_ZERO, OP_HELLO, OP_TAKE_OVER };

struct request {
    uint8_t version, op, syncs, zero;
    uint32_t generation; /* of the gateway: one below the server's is refused with EPERM */
    uint32_t length, zeroes;
    uint64_t offset;
};

struct answer {
    uint32_t error;      /* 0, or EPERM, EIO, ENOMEM, EINVAL or ENOSPC */
    uint32_t generation; /* of the server now */
    uint64_t boot;       /* another one: the server's machine lost what wasn't flushed */
    uint64_t size;       /* of the disk, in octets */
};

static inline bool has_data(const struct request *it) { return it->op == OP_READ || it->op == OP_WRITE; }

/* Whether all requests before it are done when it begins, and none after it has begun: then the gateway whose hello is
 * answered knows that nothing of what was handed out before it lands any more. */
static inline bool is_barrier(const struct request *it) { return it->op == OP_HELLO || it->op == OP_TAKE_OVER; }

/* Each turns numbers of the wire into those of the machine, or the other way round. */
static inline void request_turn(struct request *it) {
    it->generation = htobe32(it->generation);
    it->length = htobe32(it->length);
    it->offset = htobe64(it->offset);
}

static inline void answer_turn(struct answer *it) {
    it->error = htobe32(it->error);
    it->generation = htobe32(it->generation);
    it->boot = htobe64(it->boot);
    it->size = htobe64(it->size);
}
