// UDT (Debian's libudt-dev), each connection a stream. peer.h says how it is run.
#include "peer.h"
#include <atomic>
#include <thread>
#include <udt/udt.h>
#include <vector>

// all of them, or false
static bool give(UDTSOCKET at, const char *octets, size_t count) {
    for (size_t sent = 0; sent < count;) {
        int more = UDT::send(at, octets + sent, (int)(count - sent), 0);
        if (more == UDT::ERROR) return false;
        sent += (size_t)more;
    }
    return true;
}

static void answer_on(UDTSOCKET at) {
    static const char answer[ANSWER] = {};
    std::vector<char> room(1 << 16);
    incoming it = {};
    for (;;) {
        int got = UDT::recv(at, room.data(), (int)room.size(), 0);
        if (got == UDT::ERROR) break;
        for (int left = take(&it, (unsigned char *)room.data(), (size_t)got); left > 0; left--) give(at, answer, ANSWER);
    }
    UDT::close(at);
}

static void serve(const char *address, int port) {
    UDT::startup();
    UDTSOCKET door = UDT::socket(AF_INET, SOCK_STREAM, 0);
    sockaddr_in here = place(address, port);
    if (UDT::bind(door, (sockaddr *)&here, sizeof here) == UDT::ERROR || UDT::listen(door, MOST_FLOWS) == UDT::ERROR) fail("the address can't be bound");
    for (;;) {
        UDTSOCKET at = UDT::accept(door, nullptr, nullptr);
        if (at != UDT::INVALID_SOCK) std::thread(answer_on, at).detach();
    }
}

// A connection with a local port, and so threads, of its own: 1,000 that share one take many times as long.
static UDTSOCKET opened(const sockaddr_in &there, double until) {
    while (now() < until) {
        UDTSOCKET it = UDT::socket(AF_INET, SOCK_STREAM, 0);
        int most = (int)((until - now()) * 1000) + 1;
        // closing doesn't wait for what is under way
        linger off = {0, 0};
        UDT::setsockopt(it, 0, UDT_LINGER, &off, sizeof off);
        UDT::setsockopt(it, 0, UDT_RCVTIMEO, &most, sizeof most);
        UDT::setsockopt(it, 0, UDT_SNDTIMEO, &most, sizeof most);
        if (UDT::connect(it, (const sockaddr *)&there, sizeof there) != UDT::ERROR) return it;
        UDT::close(it);
    }
    return UDT::INVALID_SOCK;
}

static bool exchange(UDTSOCKET at, uint32_t octets, double until) {
    unsigned char *it = request(octets);
    bool is_given = now() < until && give(at, (char *)it, HEAD + (size_t)octets);
    char room[ANSWER];
    int got = 0;
    free(it);
    while (is_given && got < ANSWER) {
        int more = UDT::recv(at, room, ANSWER - got, 0);
        if (more == UDT::ERROR) return false;
        got += more;
    }
    return is_given;
}

static void ask_flows(const sockaddr_in &there, const question *it, double until) {
    std::atomic<int> answered{0};
    std::atomic<bool> is_over{false};
    double begun = now();
    for (int i = 0; i < it->count; i++) {
        std::thread([&] {
            UDTSOCKET at = opened(there, until);
            if (at != UDT::INVALID_SOCK && exchange(at, it->octets, until) && !is_over) answered++;
        }).detach();
    }
    while (answered < it->count && now() < until) usleep(1000);
    is_over = true;
    done((uint32_t)answered.load(), now() - begun);
    // threads that still wait go with the process
    _exit(0);
}

static void ask(const char *address, int port, const question *it) {
    UDT::startup();
    sockaddr_in there = place(address, port);
    double until = now() + it->seconds;
    if (strcmp(it->what, "flows") == 0) ask_flows(there, it, until);
    bool is_first = strcmp(it->what, "first") == 0;
    for (int i = 0; i < (is_first ? it->count : 1) && now() < until; i++) {
        double begun = now();
        UDTSOCKET at = opened(there, until);
        if (at == UDT::INVALID_SOCK || !exchange(at, is_first ? it->octets : (uint32_t)NUMBER, until)) continue;
        if (is_first) done(1, now() - begun);
        uint32_t count = 0;
        begun = now();
        if (strcmp(it->what, "answers") == 0) {
            while (now() < until && exchange(at, it->octets, until)) count++;
            done(count, now() - begun);
        }
        for (int k = 0; strcmp(it->what, "message") == 0 && k < it->count; k++, begun = now()) {
            if (!exchange(at, it->octets, until)) break;
            done(it->octets, now() - begun);
        }
        UDT::close(at);
    }
    fflush(stdout);
    _exit(0);
}
