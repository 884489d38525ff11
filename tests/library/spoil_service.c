/* A library whose services' answers are spoilt in the way that the variable SPOIL names, 1 to 12: linked between
   fuzz_service.c and the library by --wrap, so that it can be seen that fuzz_service.c finds fault with each. 0 spoils
   nothing. */
#include "deltat.h"
#include <stdlib.h>

static bool spoils(int way) {
    static int asked = -1;
    if (asked < 0) {
        const char *it = getenv("SPOIL");
        asked = it == NULL ? 0 : atoi(it);
    }
    return asked == way;
}

dt_status __real_dt_service_next_event(dt_service *s, uint8_t *buf, size_t room, struct dt_event *out);
dt_status __wrap_dt_service_next_event(dt_service *s, uint8_t *buf, size_t room, struct dt_event *out);
uint64_t __real_dt_service_wake(dt_service *s);
uint64_t __wrap_dt_service_wake(dt_service *s);
struct dt_call_result __real_dt_service_call(dt_service *s, uint64_t now, const struct dt_flow *f, const uint8_t *payload, size_t len, uint32_t timeout, uint64_t user);
struct dt_call_result __wrap_dt_service_call(dt_service *s, uint64_t now, const struct dt_flow *f, const uint8_t *payload, size_t len, uint32_t timeout, uint64_t user);
struct dt_reply_result __real_dt_service_reply(dt_service *s, uint64_t now, const struct dt_token *t, const uint8_t *payload, size_t len);
struct dt_reply_result __wrap_dt_service_reply(dt_service *s, uint64_t now, const struct dt_token *t, const uint8_t *payload, size_t len);
dt_status __real_dt_service_next_datagram(dt_service *s, uint8_t *buf, size_t room, struct dt_datagram *out);
dt_status __wrap_dt_service_next_datagram(dt_service *s, uint8_t *buf, size_t room, struct dt_datagram *out);
dt_status __real_dt_service_forget(dt_service *s, uint64_t now, const struct dt_token *t);
dt_status __wrap_dt_service_forget(dt_service *s, uint64_t now, const struct dt_token *t);

dt_status __wrap_dt_service_next_event(dt_service *s, uint8_t *buf, size_t room, struct dt_event *out) {
    dt_status status = __real_dt_service_next_event(s, buf, room, out);
    /* an end that isn't reported */
    if (spoils(3) && status == DT_OK && out->kind == DT_EVENT_UNSURE) status = __real_dt_service_next_event(s, buf, room, out);
    if (status != DT_OK) return status;
    if (spoils(1) && out->kind == DT_EVENT_REQUEST && out->len > 2) buf[out->len / 2] ^= 1;
    if (spoils(2) && out->kind == DT_EVENT_ANSWERED && out->len > 2) buf[out->len / 2] ^= 1;
    if (spoils(4) && out->kind == DT_EVENT_UNSURE) out->cause = DT_CAUSE_TIMEOUT;
    if (spoils(12) && out->kind == DT_EVENT_UNSURE) out->user--;
    if (spoils(5)) ((volatile uint8_t *)buf)[room] = 0;
    return status;
}

uint64_t __wrap_dt_service_wake(dt_service *s) {
    uint64_t it = __real_dt_service_wake(s);
    return spoils(6) && it != DT_NEVER ? it + 100 : it;
}

struct dt_call_result __wrap_dt_service_call(dt_service *s, uint64_t now, const struct dt_flow *f, const uint8_t *payload, size_t len, uint32_t timeout, uint64_t user) {
    struct dt_call_result it = __real_dt_service_call(s, now, f, payload, len, spoils(7) ? timeout / 2 + 1 : timeout, user);
    if (spoils(8) && it.status == DT_FULL) it.status = DT_OK;
    return it;
}

struct dt_reply_result __wrap_dt_service_reply(dt_service *s, uint64_t now, const struct dt_token *t, const uint8_t *payload, size_t len) {
    struct dt_token other = *t;
    if (spoils(9)) other.call ^= 1;
    struct dt_reply_result it = __real_dt_service_reply(s, now, &other, payload, len);
    return it;
}

dt_status __wrap_dt_service_next_datagram(dt_service *s, uint8_t *buf, size_t room, struct dt_datagram *out) {
    dt_status status = __real_dt_service_next_datagram(s, buf, room, out);
    /* the octet is one of a life, a number or a payload */
    if (spoils(10) && status == DT_OK && out->len > 30) buf[out->len - 1] ^= 1;
    return status;
}

dt_status __wrap_dt_service_forget(dt_service *s, uint64_t now, const struct dt_token *t) {
    struct dt_event none = {.size = sizeof none};
    /* it says so, and doesn't */
    if (spoils(11)) return __real_dt_service_next_event(s, (uint8_t[1]){0}, 0, &none) == DT_NOT_OPEN ? DT_NOT_OPEN : DT_OK;
    return __real_dt_service_forget(s, now, t);
}
