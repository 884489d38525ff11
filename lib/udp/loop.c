/* The wait, the descriptor and its timer. */
#include "udp.h"
#include <errno.h>
#include <sys/epoll.h>
#include <sys/timerfd.h>
#include <time.h>
#include <unistd.h>

enum {
    LONGEST_WAIT_MS = 1000,
    BLIND_WAKE_MS = 4 /* without stamps the socket is looked at as often, so that little can have waited unseen */
};

void dtu_loop_close(dt_udp *u) {
    if (u->timer >= 0) close(u->timer);
    if (u->epoll >= 0) close(u->epoll);
    u->timer = u->epoll = -1;
}

static bool watches(int epoll, int fd) {
    struct epoll_event wanted = {.events = EPOLLIN};
    return epoll_ctl(epoll, EPOLL_CTL_ADD, fd, &wanted) == 0;
}

int dt_udp_fd(dt_udp *u) {
    if (u->epoll >= 0) return u->epoll;
    u->timer = timerfd_create(CLOCK_BOOTTIME, TFD_NONBLOCK | TFD_CLOEXEC);
    u->epoll = u->timer < 0 ? -1 : epoll_create1(EPOLL_CLOEXEC);
    if (u->epoll >= 0 && watches(u->epoll, u->socket) && watches(u->epoll, u->timer)) {
        dtu_loop_arm(u);
        return u->epoll;
    }
    int why = errno;
    dtu_loop_close(u);
    errno = why;
    return -1;
}

static bool set_timer(dt_udp *u, uint64_t at) {
    struct itimerspec it = {.it_value = {(time_t)(at / 1000), (long)(at % 1000) * 1000000}};
    return timerfd_settime(u->timer, TFD_TIMER_ABSTIME, &it, NULL) == 0;
}

/* When the driver wants to be called, at the latest. */
static uint64_t wake_of(dt_udp *u, uint64_t now) {
    uint64_t wake = dtu_core_wake(&u->core), greets = dtu_strangers_wake(u);
    uint64_t objects = dtu_objects_wake(u);
    if (greets < wake) wake = greets;
    if (objects < wake) wake = objects;
    uint64_t governor = dtu_govern_wake(u, now);
    if (governor < wake) wake = governor;
    if (!u->stamps && wake > now + BLIND_WAKE_MS) wake = now + BLIND_WAKE_MS;
    return wake > now
               ? wake
               : now + 1; /* (a node that was called late may name a time that is past, at which nothing is due) */
}

/* Sets the timer, if there is a descriptor. One that is set to an earlier time stays: it wakes for nothing once. */
void dtu_loop_arm(dt_udp *u) {
    if (u->epoll < 0) return;
    uint64_t now = dtu_clock_ms(), wake = wake_of(u, now);
    if (u->armed_at > now && u->armed_at <= wake) return;
    /* (DT_NEVER: one that has expired would make the descriptor readable for ever) */
    if (!set_timer(u, wake == DT_NEVER ? 0 : wake) && !set_timer(u, wake == DT_NEVER ? 0 : wake)) {
        dtu_fail(u, DT_NOT_OPEN, errno);
        return;
    }
    u->armed_at = wake;
}

/* Does what is due. Each input does that too, so nothing is due at the reading of the last one. */
static void tick(dt_udp *u, uint64_t us) {
    uint64_t at = us / 1000;
    if (at <= u->input_at || at <= u->ticked_at || u->failed || dtu_core_wake(&u->core) > at || !dtu_begin(u, us))
        return;
    u->ticked_at = at;
    (void)dtu_core_tick(&u->core, at);
    dtu_judge(u);
    dtu_events_collect(u, at);
    dtu_govern_count(u, NULL);
}

/* Sends what waits, looks at the socket once, for at most `wait_ms` ms (-1: without limit), and does what is due. */
void dtu_loop_turn(dt_udp *u, int wait_ms) {
    dtu_write_all(u);
    if (wait_ms != 0) {
        dtu_count_publish(u);
        dtu_record_waits(u);
        uint64_t now = dtu_clock_ms(), left = wake_of(u, now) - now;
        if (wait_ms < 0 || left < (uint64_t)wait_ms) wait_ms = left < LONGEST_WAIT_MS ? (int)left : LONGEST_WAIT_MS;
    }
    dtu_read_socket(u, wait_ms);
    uint64_t us = dtu_clock_us();
    u->turned_at = us / 1000;
    dtu_strangers_greet(u, us / 1000);
    tick(u, us);
    dtu_govern_release(u);
    dtu_count_keep_up(u, us);
}

dt_status dt_udp_drain(dt_udp *u, int wait_ms) {
    if (!dtu_is_usable(u)) return u->failed;
    uint64_t now = dtu_clock_ms(), end = wait_ms < 0 ? DT_NEVER : now + (uint64_t)wait_ms;
    for (u->interrupted = false;; now = dtu_clock_ms()) {
        /* the other side may wait for an acknowledgement, which leaves `a` ms after what it acknowledges */
        uint64_t owes_until = u->heard_at + u->options.params->a + 1;
        if (dtu_core_outstanding(&u->core) == 0 && u->governing.waiting == NULL && now > owes_until) break;
        if (now >= end || u->interrupted) return DT_NONE;
        dtu_loop_turn(u, end - now < LONGEST_WAIT_MS ? (int)(end - now) : LONGEST_WAIT_MS);
        if (u->failed) return u->failed;
    }
    dtu_write_all(u);
    return u->failed ? u->failed : DT_OK;
}
