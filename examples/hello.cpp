#include <cstdio>
#include <deltat.hpp>
#include <vector>

int main() {
    deltat::ServiceOptions limits;
    limits.life = 1, limits.max_calls = limits.max_requests = limits.max_requests_per_flow = 10;
    const auto its = deltat::params_for({20'000, 10'000});
    const std::vector<deltat::Link> links{{its->charge, 0, 1, 0}};
    const std::vector<deltat::Route> to_server{{2, 1}}, to_client{{1, 1}};
    deltat::Service client, server;
    if (!client.open(its->params, {1, 0, links, to_server, deltat::Start::First}, limits)) return 1;
    if (!server.open(its->params, {2, 0, links, to_client, deltat::Start::First}, limits)) return 1;
    client.set_port(10, deltat::PortKind::Caller), server.set_port(20, deltat::PortKind::Service);
    if (!client.call(0, {1, 2, 10, 20}, deltat::octets_of("hello", 5), 1000)) return 1;
    std::vector<std::uint8_t> octets(DT_MAX_PAYLOAD);
    while (auto out = client.next_datagram(octets)) server.receive(5, 1, {octets.data(), out->len}, 0);
    while (auto it = server.next_event(octets)) server.reply(5, it->token(), {octets.data(), it->len});
    while (auto out = server.next_datagram(octets)) client.receive(10, 1, {octets.data(), out->len}, 0);
    const auto end = client.next_event(octets);
    return !end || std::printf("%.*s\n", static_cast<int>(end->len), reinterpret_cast<char *>(octets.data())) < 0;
}
