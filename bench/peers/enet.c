/* ENet (Debian's libenet-dev), each message one reliable packet. peer.h says how it is run. */
#define _GNU_SOURCE
#include "peer.h"
#include <enet/enet.h>

static ENetAddress enet_place(const char *address, int port) {
    ENetAddress it = {0, (enet_uint16)port};
    if (enet_initialize() != 0 || enet_address_set_host_ip(&it, address) != 0) fail("no such address");
    return it;
}

static void give(ENetPeer *peer, const void *octets, size_t count) {
    ENetPacket *it = enet_packet_create(octets, count, ENET_PACKET_FLAG_RELIABLE);
    if (it == NULL || enet_peer_send(peer, 0, it) != 0) fail("a packet isn't taken");
}

static void serve(const char *address, int port) {
    ENetAddress here = enet_place(address, port);
    ENetHost *host = enet_host_create(&here, ENET_PROTOCOL_MAXIMUM_PEER_ID, 1, 0, 0);
    static const unsigned char answer[ANSWER];
    ENetEvent event;
    if (host == NULL) fail("the address can't be bound");
    for (;;) {
        if (enet_host_service(host, &event, 1000) <= 0 || event.type != ENET_EVENT_TYPE_RECEIVE) continue;
        if (event.packet->dataLength >= HEAD + NUMBER) served(event.packet->data + HEAD);
        enet_packet_destroy(event.packet);
        give(event.peer, answer, ANSWER);
        enet_host_flush(host);
    }
}

/* Waits for an event of that type, to that moment at most. A packet that comes is dropped. */
static ENetPeer *wait_for(ENetHost *host, ENetEventType type, double until) {
    ENetEvent event;
    while (now() < until) {
        if (enet_host_service(host, &event, 10) <= 0) continue;
        if (event.type == ENET_EVENT_TYPE_RECEIVE) enet_packet_destroy(event.packet);
        if (event.type == type) return event.peer;
        if (event.type == ENET_EVENT_TYPE_DISCONNECT) return NULL;
    }
    return NULL;
}

static int exchange(ENetHost *host, ENetPeer *peer, uint32_t octets, double until) {
    unsigned char *it = request(octets);
    give(peer, it, HEAD + (size_t)octets);
    free(it);
    enet_host_flush(host);
    return wait_for(host, ENET_EVENT_TYPE_RECEIVE, until) != NULL;
}

static void ask_flows(const ENetAddress *there, const struct question *it, double until) {
    ENetHost *host = enet_host_create(NULL, (size_t)it->count, 1, 0, 0);
    unsigned char *octets = request(it->octets);
    double begun = now(), last = begun;
    int answered = 0;
    ENetEvent event;
    for (int i = 0; i < it->count; i++) enet_host_connect(host, there, 1, 0);
    while (answered < it->count && now() < until) {
        if (enet_host_service(host, &event, 10) <= 0) continue;
        if (event.type == ENET_EVENT_TYPE_CONNECT) give(event.peer, octets, HEAD + it->octets);
        if (event.type == ENET_EVENT_TYPE_RECEIVE) answered++, last = now(), enet_packet_destroy(event.packet);
    }
    done((uint32_t)answered, answered == it->count ? last - begun : now() - begun);
}

static void ask(const char *address, int port, const struct question *it) {
    ENetAddress there = enet_place(address, port);
    double until = now() + it->seconds;
    if (strcmp(it->what, "flows") == 0) {
        ask_flows(&there, it, until);
        return;
    }
    int connections = strcmp(it->what, "first") == 0 ? it->count : 1;
    for (int i = 0; i < connections && now() < until; i++) {
        double begun = now();
        ENetHost *host = enet_host_create(NULL, 1, 1, 0, 0);
        ENetPeer *peer = enet_host_connect(host, &there, 1, 0);
        if (wait_for(host, ENET_EVENT_TYPE_CONNECT, until) == NULL || !exchange(host, peer, connections > 1 ? it->octets : NUMBER, until)) {
            enet_host_destroy(host);
            continue;
        }
        if (strcmp(it->what, "first") == 0) done(1, now() - begun);
        uint32_t count = 0;
        begun = now();
        if (strcmp(it->what, "answers") == 0) {
            while (now() < until && exchange(host, peer, it->octets, until)) count++;
            done(count, now() - begun);
        }
        for (int k = 0; strcmp(it->what, "message") == 0 && k < it->count; k++, begun = now()) {
            if (!exchange(host, peer, it->octets, until)) break;
            done(it->octets, now() - begun);
        }
        enet_peer_disconnect_now(peer, 0);
        enet_host_destroy(host);
    }
}
