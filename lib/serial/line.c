/* The line: its settings, what arrives, what leaves. */
#include "serial.h"

#include <errno.h>
#include <fcntl.h>
#include <termios.h>
#include <time.h>
#include <unistd.h>

uint64_t serial_now(void) {
    struct timespec it = {0, 0};
    /* a system without this clock has the monotonic one, which stands still in sleep */
    if (clock_gettime(CLOCK_BOOTTIME, &it)) clock_gettime(CLOCK_MONOTONIC, &it);
    return (uint64_t)it.tv_sec * 1000 + (uint64_t)it.tv_nsec / 1000000;
}

static speed_t speed_of(uint32_t rate) {
    static const struct { uint32_t rate; speed_t speed; } SPEEDS[] = {
        {1200, B1200}, {2400, B2400}, {4800, B4800}, {9600, B9600}, {19200, B19200}, {38400, B38400}, {57600, B57600},
        {115200, B115200}, {230400, B230400}, {460800, B460800}, {921600, B921600}};
    for (size_t i = 0; i < sizeof SPEEDS / sizeof *SPEEDS; i++)
        if (SPEEDS[i].rate == rate) return SPEEDS[i].speed;
    return B0;
}

int serial_open_line(const char *path, uint32_t rate) {
    struct termios it;
    speed_t speed = speed_of(rate);
    int line = -1, why;
    if (speed == B0) errno = EINVAL;
    else line = open(path, O_RDWR | O_NOCTTY | O_NONBLOCK | O_CLOEXEC);
    if (line < 0) return -1;
    if (tcgetattr(line, &it) == 0) {
        cfmakeraw(&it);
        it.c_cflag |= CLOCAL | CREAD;
        if (cfsetspeed(&it, speed) == 0 && tcsetattr(line, TCSANOW, &it) == 0) return line;
    }
    why = errno;
    close(line);
    errno = why;
    return -1;
}

bool serial_failed(dt_serial *it, int system_error) {
    it->has_failed = true;
    it->event.system_error = system_error;
    return false;
}

/* Writes what is left of a datagram. False: the line is gone. What couldn't be written in time is given up: the other end
   takes it for spoilt. Its first octet is written within max_late; the line's buffer may be shorter than it is, and takes the
   last one when the line has carried the others. */
static bool write_out(dt_serial *it) {
    while (it->out_at < it->out_len) {
        ssize_t len = write(it->line, it->out + it->out_at, it->out_len - it->out_at);
        if (len > 0) it->out_at += (size_t)len;
        else if (len < 0 && errno != EAGAIN && errno != EINTR) return serial_failed(it, errno);
        else if (len == 0 || errno == EAGAIN) break;
    }
    if (it->out_len == 0) return true;
    if (it->out_at == it->out_len) it->counts.datagrams_out++;
    else if (serial_now() - it->out_since > it->options.max_late + it->longest) it->counts.late++;
    else return true;
    it->out_len = it->out_at = 0;
    return true;
}

static bool may_send(const dt_serial *it, uint64_t now) {
    return it->out_len == 0 && (it->options.turnaround == 0 || now - it->heard_at >= it->options.turnaround);
}

/* takes the next datagram that isn't late; false: the node has none */
static bool take_datagram(dt_serial *it, uint64_t now) {
    uint8_t octets[DT_MAX_DATAGRAM];
    struct dt_datagram datagram = {.size = sizeof datagram};
    while (dt_node_next_datagram(it->node, octets, sizeof octets, &datagram) == DT_OK) {
        if (now - it->pending_since > it->options.max_late || datagram.len > HEADERS + it->options.params.seg) {
            it->counts.late++;
            continue;
        }
        it->out_len = framing_write(octets, datagram.len, it->out);
        it->out_at = 0;
        it->out_since = it->pending_since;
        return true;
    }
    it->pending_since = UINT64_MAX;
    return false;
}

bool serial_flush(dt_serial *it) {
    for (;;) {
        uint64_t now;
        if (!write_out(it)) return false;
        now = serial_now();
        if (it->pending_since == UINT64_MAX) it->pending_since = now;
        /* while this end must not send, what the node has grows late, and is dropped then */
        if (!may_send(it, now) && now - it->pending_since <= it->options.max_late) return true;
        if (it->out_len > 0 || !take_datagram(it, now)) return true;
    }
}

/* a datagram is whole */
static bool take_in(dt_serial *it, uint64_t at) {
    size_t len = it->in_len <= it->in_room ? framing_read(it->in, it->in_len) : 0;
    struct dt_receive_result got;
    it->in_len = 0;
    if (len == 0) {
        it->counts.spoilt++;
        return true;
    }
    it->counts.datagrams_in++;
    got = dt_node_receive(it->node, at, LINK, it->in, len, (uint32_t)(at - it->empty_at));
    if (got.status == DT_NO_MEMORY || got.status == DT_STOPPED) return serial_failed(it, 0);
    if (got.status != DT_OK) it->counts.blocked++;
    return serial_flush(it);
}

bool serial_receive(dt_serial *it) {
    uint8_t octets[1024];
    for (;;) {
        uint64_t looked_at = serial_now();
        ssize_t len = read(it->line, octets, sizeof octets);
        if (len < 0 && errno == EINTR) continue;
        if (len < 0 && errno == EAGAIN) {
            it->empty_at = looked_at;
            return true;
        }
        if (len <= 0) return serial_failed(it, len < 0 ? errno : EIO);
        it->heard_at = serial_now();
        for (ssize_t i = 0; i < len; i++) {
            if (octets[i] != 0) {
                if (it->in_len < it->in_room) it->in[it->in_len] = octets[i];
                if (it->in_len <= it->in_room) it->in_len++;
            } else if (it->in_len > 0 && !take_in(it, it->heard_at)) return false;
        }
    }
}
