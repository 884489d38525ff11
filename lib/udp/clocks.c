/* Readings of the clocks, and how long a datagram waited in the socket.
 *
 * Two upper bounds of the wait are known, and the smaller one counts. The time since the socket was last found empty:
 * the clock is read BEFORE the look that finds it empty, so a process that is stopped after the look doesn't make the
 * bound too small. And the kernel's stamp, which is of the wall clock: it counts only while the wall clock wasn't set
 * since the socket was last found empty, and only after stamps were surely on (the kernel turns them on a moment
 * after they are asked for, and until then a stamp is the time at which the datagram is read). */
#include "udp.h"
#include <time.h>

enum {
    MS = 1000000,
    STEP_NS = 200000,  /* the clocks are read one after the other: a difference up to this is no step */
    SURE_NS = 100 * MS /* stamps are on so long after the opening at the latest */
};

static int64_t nanoseconds(clockid_t clock) {
    struct timespec it = {0, 0};
    (void)clock_gettime(clock, &it); /* (clock_works has tried both) */
    return (int64_t)it.tv_sec * 1000000000 + it.tv_nsec;
}

/* Whether the machine has both clocks. */
bool dtu_clock_works(void) {
    struct timespec it;
    return clock_gettime(CLOCK_BOOTTIME, &it) == 0 && clock_gettime(CLOCK_REALTIME, &it) == 0;
}

uint64_t dtu_clock_ms(void) { return (uint64_t)nanoseconds(CLOCK_BOOTTIME) / MS; }

uint64_t dtu_clock_us(void) { return (uint64_t)nanoseconds(CLOCK_BOOTTIME) / 1000; }

uint64_t dtu_clock_ms_of(const struct reading *reading) { return (uint64_t)reading->boot / MS; }

struct reading dtu_clock_reading(void) {
    int64_t boot = nanoseconds(CLOCK_BOOTTIME);
    return (struct reading){.boot = boot, .wall = nanoseconds(CLOCK_REALTIME)};
}

static bool is_step(int64_t ahead, const struct reading *now) {
    int64_t by = now->wall - now->boot - ahead;
    return by > STEP_NS || by < -STEP_NS;
}

/* Keeps that the socket was found empty by a look that began after `before`. */
void dtu_clock_was_empty(dt_udp *u, const struct reading *before) {
    u->empty = *before;
    u->stepped = false;
}

/* From now on, until the socket is found empty, nothing is known but when it was opened. */
void dtu_clock_is_doubtful(dt_udp *u) {
    u->empty = u->opened;
    u->stepped = true;
}

void dtu_clock_after_look(dt_udp *u, const struct reading *after) {
    if (!u->stepped && (is_step(u->ahead_ns, after) || is_step(u->empty.wall - u->empty.boot, after))) {
        u->stepped = true;
        u->counts.clock_steps++;
    }
    u->ahead_ns = after->wall - after->boot;
}

/* How long a datagram waited until `after`, in ms, rounded up. `stamp_ns`: the kernel's stamp, or -1. */
uint32_t dtu_clock_waited(const dt_udp *u, const struct reading *after, int64_t stamp_ns) {
    int64_t most = after->boot - u->empty.boot;
    bool counts = stamp_ns >= 0 && stamp_ns <= after->wall && !u->stepped && u->empty.boot - u->opened.boot >= SURE_NS;
    if (counts && after->wall - stamp_ns + STEP_NS < most) most = after->wall - stamp_ns + STEP_NS;
    int64_t ms = (most + MS - 1) / MS;
    return ms > UINT32_MAX ? UINT32_MAX : (uint32_t)ms;
}
