/* A library whose answers are spoilt in the way that the variable SPOIL names, 1 to 11: linked between fuzz.c and the
   library by --wrap, so that it can be seen that fuzz.c finds fault with each. 0 spoils nothing. */
#include "deltat.h"
#include <stdlib.h>
#include <string.h>

static bool spoils(int way) {
    static int asked = -1;
    if (asked < 0) {
        const char *it = getenv("SPOIL");
        asked = it == NULL ? 0 : atoi(it);
    }
    return asked == way;
}

struct dt_read_result __real_dt_node_read(dt_node *n, uint64_t now, const struct dt_flow *f, uint8_t *buf, size_t room);
struct dt_read_result __wrap_dt_node_read(dt_node *n, uint64_t now, const struct dt_flow *f, uint8_t *buf, size_t room);
dt_status __real_dt_node_next_message(dt_node *n, uint64_t now, uint8_t *buf, size_t room, struct dt_message *out);
dt_status __wrap_dt_node_next_message(dt_node *n, uint64_t now, uint8_t *buf, size_t room, struct dt_message *out);
uint64_t __real_dt_node_wake(dt_node *n);
uint64_t __wrap_dt_node_wake(dt_node *n);
struct dt_send_result __real_dt_node_send(dt_node *n, uint64_t now, const struct dt_flow *f, const uint8_t *octets, size_t len, bool begin, bool end);
struct dt_send_result __wrap_dt_node_send(dt_node *n, uint64_t now, const struct dt_flow *f, const uint8_t *octets, size_t len, bool begin, bool end);
dt_status __real_dt_node_get_counts(dt_node *n, struct dt_node_counts *out);
dt_status __wrap_dt_node_get_counts(dt_node *n, struct dt_node_counts *out);
dt_status __real_dt_node_next_datagram(dt_node *n, uint8_t *buf, size_t room, struct dt_datagram *out);
dt_status __wrap_dt_node_next_datagram(dt_node *n, uint8_t *buf, size_t room, struct dt_datagram *out);
struct dt_receive_result __real_dt_node_receive(dt_node *n, uint64_t now, uint16_t link, const uint8_t *datagram, size_t len, uint32_t waited);
struct dt_receive_result __wrap_dt_node_receive(dt_node *n, uint64_t now, uint16_t link, const uint8_t *datagram, size_t len, uint32_t waited);
dt_status __real_dt_node_next_report(dt_node *n, struct dt_report *out);
dt_status __wrap_dt_node_next_report(dt_node *n, struct dt_report *out);
dt_status __real_dt_node_tick(dt_node *n, uint64_t now);
dt_status __wrap_dt_node_tick(dt_node *n, uint64_t now);

struct dt_read_result __wrap_dt_node_read(dt_node *n, uint64_t now, const struct dt_flow *f, uint8_t *buf, size_t room) {
    struct dt_read_result it = __real_dt_node_read(n, now, f, buf, room);
    if (it.status != DT_OK) return it;
    if (spoils(1) && it.len > 2) buf[it.len / 2] ^= 1;
    if (spoils(2) && it.gap) it.gap = false;
    if (spoils(11)) ((volatile uint8_t *)buf)[room] = 0;
    return it;
}

dt_status __wrap_dt_node_next_message(dt_node *n, uint64_t now, uint8_t *buf, size_t room, struct dt_message *out) {
    dt_status status = __real_dt_node_next_message(n, now, buf, room, out);
    if (status != DT_OK) return status;
    if (spoils(3)) out->gap = false;
    if (spoils(4) && out->len > 2) buf[out->len / 2] ^= 1;
    return status;
}

uint64_t __wrap_dt_node_wake(dt_node *n) {
    uint64_t it = __real_dt_node_wake(n);
    return spoils(5) && it != DT_NEVER ? it - 100 : it;
}

struct dt_send_result __wrap_dt_node_send(dt_node *n, uint64_t now, const struct dt_flow *f, const uint8_t *octets, size_t len, bool begin, bool end) {
    struct dt_send_result it = __real_dt_node_send(n, now, f, octets, len, begin, end);
    if (spoils(6) && it.status == DT_FULL) it.status = DT_OK;
    return it;
}

dt_status __wrap_dt_node_get_counts(dt_node *n, struct dt_node_counts *out) {
    dt_status status = __real_dt_node_get_counts(n, out);
    if (spoils(7) && out->octets_accepted > 20) out->octets_accepted--;
    return status;
}

dt_status __wrap_dt_node_next_datagram(dt_node *n, uint8_t *buf, size_t room, struct dt_datagram *out) {
    dt_status status = __real_dt_node_next_datagram(n, buf, room, out);
    if (spoils(8) && status == DT_OK && out->len < room) buf[out->len] = 0;
    return status;
}

struct dt_receive_result __wrap_dt_node_receive(dt_node *n, uint64_t now, uint16_t link, const uint8_t *datagram, size_t len, uint32_t waited) {
    struct dt_receive_result it = __real_dt_node_receive(n, now, link, datagram, len, waited);
    /* a refused datagram that moves the clock */
    if (spoils(9) && it.status == DT_MALFORMED) __real_dt_node_tick(n, now);
    return it;
}

dt_status __wrap_dt_node_next_report(dt_node *n, struct dt_report *out) {
    dt_status status = __real_dt_node_next_report(n, out);
    if (spoils(10) && status == DT_OK && out->kind == DT_REPORT_ACKNOWLEDGED) out->count++;
    return status;
}

dt_status __wrap_dt_node_tick(dt_node *n, uint64_t now) { return __real_dt_node_tick(n, now); }
