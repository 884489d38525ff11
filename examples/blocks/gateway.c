/* gateway NETWORK HOST:PORT SOCKET [take-over]: the disk of a server, for any client of NBD at a Unix socket.
 *
 * Its node has a fresh number, so no calls of an earlier gateway are its own. It begins by waiting for mpl: nothing
 * of a gateway whose process was gone before arrives any more after that, and its hello is answered after all that
 * arrived was done. With `take-over` it doesn't wait, and the server refuses all older gateways from then on, those
 * that hang and come back too. */
#include "common.h"
#include "nbd.h"
#include <poll.h>
#include <sys/socket.h>
#include <sys/un.h>

enum { MAX_CLIENTS = 32, LATE_MS = 20 };

struct gateway {
    dt_udp *udp;
    struct flows flows;
    struct nbd clients[MAX_CLIENTS];
    const char *socket;
    int signals, door; /* door: -1 until the hello is answered */
};

/* Opens it under another name first, so that nobody finds a door at which nobody listens yet. */
static void open_door(struct gateway *gateway) {
    struct sockaddr_un own = {.sun_family = AF_UNIX};
    int len = snprintf(own.sun_path, sizeof own.sun_path, "%s.part", gateway->socket);
    if (len >= (int)sizeof own.sun_path) die("%s: the path is too long", gateway->socket);
    if (unlink(own.sun_path) != 0 && errno != ENOENT) die_of_errno(own.sun_path);
    gateway->door = socket(AF_UNIX, SOCK_STREAM | SOCK_NONBLOCK | SOCK_CLOEXEC, 0);
    if (gateway->door < 0 || bind(gateway->door, (struct sockaddr *)&own, sizeof own) != 0 ||
        listen(gateway->door, MAX_CLIENTS) != 0 || rename(own.sun_path, gateway->socket) != 0)
        die_of_errno(gateway->socket);
}

/* Where a new client has its place, or null: it waits until nothing is under way of one that is gone, since it may
 * write what that one wrote. */
static struct nbd *free_place(struct gateway *gateway) {
    struct nbd *place = NULL;
    for (struct nbd *it = gateway->clients; it < gateway->clients + MAX_CLIENTS; it++) {
        if (it->fd < 0) place = it;
        else if (it->leaves || it->is_gone) return NULL;
    }
    return gateway->door < 0 ? NULL : place;
}

static void done(struct gateway *gateway, struct demand *demand) {
    struct nbd *client = demand->client;
    if (client) {
        nbd_answer(client, demand);
        if (client->waiting == 0) nbd_write(client); /* (nothing else is soon to be sent with it) */
        return;
    }
    if (demand->error) die("the server refused: %s", strerror((int)demand->error));
    free(demand);
    open_door(gateway);
}

/* Takes all events, and makes the calls for which there are flows. */
static void take_events(struct gateway *gateway) {
    struct flows *flows = &gateway->flows;
    flows_go(flows);
    for (const struct dt_udp_event *event; (event = dt_udp_next_event(gateway->udp, 0))->kind != DT_UDP_EVENT_NONE;) {
        udp_judge(event);
        flows_take(flows, event);
        for (struct demand *it; (it = flows->done) != NULL; done(gateway, it)) flows->done = it->next;
        flows_go(flows);
    }
}

/* Sends answers, and makes the calls for what clients had asked beyond what they may have under way. */
static void write_clients(struct gateway *gateway) {
    for (struct nbd *it = gateway->clients; it < gateway->clients + MAX_CLIENTS; it++)
        if (it->fd >= 0) nbd_write(it);
    flows_go(&gateway->flows);
    dt_udp_flush(gateway->udp);
}

/* Waits until something happens, and reads what clients sent. False: the program is to end. */
static bool wait_and_read(struct gateway *gateway) {
    struct pollfd fds[MAX_CLIENTS + 3], *others = fds + MAX_CLIENTS;
    int all[] = {gateway->signals, dt_udp_fd(gateway->udp), free_place(gateway) ? gateway->door : -1};
    for (int i = 0; i < 3; i++) others[i] = (struct pollfd){all[i], POLLIN, 0};
    for (int i = 0; i < MAX_CLIENTS; i++) {
        const struct nbd *it = &gateway->clients[i];
        int events = (nbd_listens(it) ? POLLIN : 0) | (it->out.from < it->out.to ? POLLOUT : 0);
        fds[i] = (struct pollfd){it->is_gone ? -1 : it->fd, (short)events, 0};
    }
    if (poll(fds, MAX_CLIENTS + 3, -1) < 0 && errno != EINTR) die_of_errno("poll");
    for (int i = 0; i < MAX_CLIENTS; i++) {
        struct nbd *it = &gateway->clients[i];
        if (fds[i].revents & POLLIN) nbd_read(it);
        else if (fds[i].revents & (POLLHUP | POLLERR)) it->is_gone = true;
    }
    struct nbd *place = others[2].revents ? free_place(gateway) : NULL; /* (one may have ended before that came) */
    int fd = place ? accept4(gateway->door, NULL, NULL, SOCK_CLOEXEC) : -1;
    if (fd >= 0) nbd_open(place, fd, &gateway->flows);
    return others[0].revents == 0;
}

static void open_gateway(struct gateway *it, struct address server, const struct network *network, uint8_t hello) {
    static const bool IS_GONE = false;
    struct dt_udp_options options = {.size = sizeof options, .node = dt_udp_fresh_number(), .life = 1,
                                     .start_as = DT_UDP_START_FIRST, .role = DT_UDP_ROLE_SERVICE,
                                     .params = &network->params, .charge = network->charge};
    uint32_t timeout_ms = 2 * (network->params.r + network->params.mpl) + 200;
    struct dt_udp_error error;
    it->udp = udp_open(&options, FIRST_PORT, FLOWS, DT_PORT_CALLER);
    if (dt_udp_set_peer(it->udp, SERVER, server.host, server.port, &error) != DT_OK) die("%s", error.text);
    it->flows = (struct flows){.udp = it->udp, .node = options.node, .timeout_ms = timeout_ms};
    flows_add(&it->flows, NULL, &IS_GONE, &(struct request){.op = hello});
    for (int i = 0; i < MAX_CLIENTS; i++) it->clients[i].fd = -1;
}

int main(int count, char **words) {
    bool takes_over = count == 5 && strcmp(words[4], "take-over") == 0;
    if (count != 4 && !takes_over) die("usage: gateway NETWORK HOST:PORT SOCKET [take-over]" NETWORK_USAGE);
    struct network network = network_of(words[1]);
    struct gateway *gateway = memory(calloc(1, sizeof *gateway));
    *gateway = (struct gateway){.socket = words[3], .signals = signals_fd(), .door = -1};
    int wait_ms = takes_over ? 0 : (int)network.params.mpl + LATE_MS;
    if (poll(&(struct pollfd){gateway->signals, POLLIN, 0}, 1, wait_ms) > 0) return 0;
    open_gateway(gateway, address_of(words[2]), &network, takes_over ? OP_TAKE_OVER : OP_HELLO);
    do {
        take_events(gateway);
        write_clients(gateway);
    } while (wait_and_read(gateway));
    if (gateway->door >= 0) unlink(gateway->socket);
    dt_udp_close(gateway->udp);
    exit(0);
}
