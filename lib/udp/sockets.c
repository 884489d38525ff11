/* The socket and its options, and the addresses of names. */
#include "udp.h"
#include <errno.h>
#include <netdb.h>
#include <netinet/udp.h>
#include <stdarg.h>
#include <stdio.h>
#include <string.h>
#include <unistd.h>

enum { KEPT_OCTETS = 1 << 22 }; /* what the kernel is asked to keep of what arrives: it keeps at most its own limit */

/* Fills `error`, if there is one, and returns the status. */
dt_status dtu_refuse(struct dt_udp_error *error, dt_status status, int system_error, const char *format, ...) {
    if (error == NULL) return status;
    va_list words;
    va_start(words, format);
    int len = vsnprintf(error->text, sizeof error->text, format, words);
    va_end(words);
    if (system_error && len >= 0 && (size_t)len < sizeof error->text)
        snprintf(error->text + len, sizeof error->text - (size_t)len, ": %s", strerror(system_error));
    error->system_error = system_error;
    error->status = status;
    return status;
}

bool dtu_same_address(const struct address *a, const struct address *b) {
    if (a->name.any.sa_family != b->name.any.sa_family) return false;
    if (a->name.any.sa_family == AF_INET)
        return a->name.v4.sin_port == b->name.v4.sin_port && a->name.v4.sin_addr.s_addr == b->name.v4.sin_addr.s_addr;
    return a->name.v6.sin6_port == b->name.v6.sin6_port && a->name.v6.sin6_scope_id == b->name.v6.sin6_scope_id &&
           memcmp(&a->name.v6.sin6_addr, &b->name.v6.sin6_addr, sizeof a->name.v6.sin6_addr) == 0;
}

static void keep(struct address *to, const struct addrinfo *from) {
    memset(to, 0, sizeof *to);
    memcpy(&to->name, from->ai_addr, from->ai_addrlen);
    to->len = from->ai_addrlen;
}

/* Looks a name up. Null: `error` says why. */
static struct addrinfo *look_up(const char *host, const char *port, const struct addrinfo *hints,
                                struct dt_udp_error *error) {
    struct addrinfo *found = NULL;
    int failed = getaddrinfo(host, port, hints, &found);
    if (failed == 0 && found) return found;
    dt_status status = failed == EAI_MEMORY ? DT_NO_MEMORY : DT_INVALID;
    dtu_refuse(error, status, failed == EAI_SYSTEM ? errno : 0, "%s port %s: no such address (%s)", host ? host : "*",
               port ? port : "0", failed ? gai_strerror(failed) : "none was found");
    return NULL;
}

/* The addresses of a peer's name that the socket can send to. DT_OK, DT_INVALID or DT_NO_MEMORY. */
dt_status dtu_socket_addresses(const dt_udp *u, const char *host, const char *port, struct peer *peer,
                             struct dt_udp_error *error) {
    struct addrinfo hints = {.ai_family = u->family, .ai_socktype = SOCK_DGRAM};
    if (u->family == AF_INET6) hints.ai_flags = AI_V4MAPPED | AI_ALL;
    struct dt_udp_error own = {.status = DT_INVALID};
    struct addrinfo *found = look_up(host, port, &hints, &own);
    if (error && found == NULL) *error = own;
    if (found == NULL) return own.status;
    peer->choices = 0;
    for (struct addrinfo *it = found; it && peer->choices < MAX_ADDRESSES; it = it->ai_next)
        if (it->ai_addrlen <= sizeof peer->at.name) keep(&peer->others[peer->choices++], it);
    freeaddrinfo(found);
    peer->choice = 0;
    peer->at = peer->others[0];
    return DT_OK;
}

static bool set(int socket, int level, int name, int value) {
    return setsockopt(socket, level, name, &value, sizeof value) == 0;
}

/* Sets options of the socket that the driver can do without: where the system refuses one, the work is done another
 * way, or the limit is the system's. */
static void set_wishes(dt_udp *u) {
    uint32_t flags = u->options.flags;
    (void)set(u->socket, SOL_SOCKET, SO_RCVBUF, KEPT_OCTETS);
    (void)set(u->socket, SOL_SOCKET, SO_SNDBUF, KEPT_OCTETS);
    u->stamps = !(flags & DT_UDP_FLAG_WITHOUT_STAMPS) && set(u->socket, SOL_SOCKET, SO_TIMESTAMPNS, 1);
    u->segments = !(flags & DT_UDP_FLAG_WITHOUT_SEGMENTS) && set(u->socket, IPPROTO_UDP, UDP_GRO, 1);
    if (!u->every_address) return;
    (void)set(u->socket, IPPROTO_IP, IP_PKTINFO, 1);
    if (u->family == AF_INET6) (void)set(u->socket, IPPROTO_IPV6, IPV6_RECVPKTINFO, 1);
}

/* A datagram is never cut into fragments: their identification has 16 bits, so at high rates two datagrams may be put
 * together from each other's fragments. */
static dt_status forbid_fragments(dt_udp *u, struct dt_udp_error *error) {
    bool done = set(u->socket, IPPROTO_IP, IP_MTU_DISCOVER, IP_PMTUDISC_DO) || u->family == AF_INET6;
    if (done && u->family == AF_INET6) done = set(u->socket, IPPROTO_IPV6, IPV6_MTU_DISCOVER, IPV6_PMTUDISC_DO);
    return done ? DT_OK : dtu_refuse(error, DT_NOT_OPEN, errno, "the system doesn't forbid fragments on the socket");
}

static bool is_every(const struct sockaddr *at) {
    if (at->sa_family == AF_INET)
        return ((const struct sockaddr_in *)(const void *)at)->sin_addr.s_addr == htonl(INADDR_ANY);
    return IN6_IS_ADDR_UNSPECIFIED(&((const struct sockaddr_in6 *)(const void *)at)->sin6_addr);
}

/* Makes a socket of the address's family, with its options, and binds it. */
static dt_status bound(dt_udp *u, const struct addrinfo *at, struct dt_udp_error *error) {
    bool both = u->options.host == NULL;
    u->family = at->ai_family;
    u->every_address = is_every(at->ai_addr);
    u->socket = socket(at->ai_family, SOCK_DGRAM | SOCK_CLOEXEC, 0);
    if (u->socket < 0)
        return dtu_refuse(error, errno == ENOMEM || errno == ENOBUFS ? DT_NO_MEMORY : DT_NOT_OPEN, errno, "no socket");
    if (u->family == AF_INET6 && !set(u->socket, IPPROTO_IPV6, IPV6_V6ONLY, !both) && both)
        return dtu_refuse(error, DT_NOT_OPEN, errno, "the socket can't have IPv4 and IPv6");
    dt_status status = forbid_fragments(u, error);
    if (status != DT_OK) return status;
    set_wishes(u); /* (before the binding, so that every datagram has a stamp) */
    if (bind(u->socket, at->ai_addr, at->ai_addrlen) == 0) return DT_OK;
    const char *host = u->options.host ? u->options.host : "*", *port = u->options.port ? u->options.port : "0";
    if (errno == EADDRINUSE)
        return dtu_refuse(error, DT_NOT_OPEN, errno,
                          "%s port %s is in use; stop the other program or choose another port", host, port);
    return dtu_refuse(error, DT_NOT_OPEN, errno, "%s port %s can't be bound", host, port);
}

/* Opens and binds the socket. Without `host` it has every address of both families, or of IPv4 where there is no
 * IPv6. */
dt_status dtu_socket_open(dt_udp *u, struct dt_udp_error *error) {
    const char *host = u->options.host, *port = u->options.port ? u->options.port : "0";
    struct addrinfo hints = {
        .ai_family = host ? AF_UNSPEC : AF_INET6, .ai_socktype = SOCK_DGRAM, .ai_flags = AI_PASSIVE};
    struct dt_udp_error own = {.status = DT_INVALID};
    dt_status status = DT_INVALID;
    for (int tries = host ? 1 : 2; tries > 0 && status != DT_OK; tries--, hints.ai_family = AF_INET) {
        struct addrinfo *found = look_up(host, port, &hints, &own);
        status = own.status;
        for (struct addrinfo *it = found; it && status != DT_OK; it = it->ai_next) {
            if (u->socket >= 0) close(u->socket);
            status = bound(u, it, &own);
        }
        if (found) freeaddrinfo(found);
        if (own.system_error == EADDRINUSE) break;
    }
    if (status != DT_OK && error) *error = own;
    return status;
}
