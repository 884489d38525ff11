// deltat.hpp: two nodes and two services in memory, by the handles of C++. Ends with 0 if all is as the header says,
// else it prints the line that isn't and ends with 1. It is compiled without exceptions and RTTI too.
#include "deltat.hpp"

#include <array>
#include <cstdio>
#include <cstdlib>
#include <cstring>
#include <vector>

#define WANT(truth)                                                         \
    do {                                                                    \
        if (!(truth)) {                                                     \
            std::fprintf(stderr, "handles.cpp:%d: %s\n", __LINE__, #truth); \
            std::exit(1);                                                   \
        }                                                                   \
    } while (0)

namespace {

using deltat::Node;
using deltat::Service;
using deltat::Status;

static_assert(!std::is_copy_constructible_v<Node> && !std::is_copy_assignable_v<Node>);
static_assert(std::is_nothrow_move_constructible_v<Node> && std::is_nothrow_move_assignable_v<Node>);
static_assert(!std::is_copy_constructible_v<Service> && std::is_nothrow_move_constructible_v<Service>);
static_assert(std::is_convertible_v<std::vector<std::uint8_t> &, deltat::Buffer> &&
              std::is_convertible_v<std::vector<std::uint8_t> &, deltat::Octets>);
static_assert(std::is_convertible_v<const std::vector<std::uint8_t> &, deltat::Octets> &&
              !std::is_convertible_v<const std::vector<std::uint8_t> &, deltat::Buffer>);
static_assert(!std::is_convertible_v<std::vector<int> &, deltat::Octets>);

constexpr std::uint16_t LINK = 7;
constexpr deltat::Flow FLOW{1, 2, 10, 20};
std::array<std::uint8_t, DT_MAX_DATAGRAM> datagram;
std::vector<std::uint8_t> buffer(DT_MAX_PAYLOAD);

deltat::NetworkParams network() {
    deltat::Network it(20'000, 10'000);
    const auto found = deltat::params_for(it);
    WANT(found && found->params.seg == 1442 && found->charge == 64);
    it.mtu = 1;
    WANT(!deltat::params_for(it));
    return *found;
}

deltat::NodeOptions options(std::uint32_t node, const std::vector<deltat::Link> &links,
                            const std::vector<deltat::Route> &routes) {
    deltat::NodeOptions it;
    it.node = node;
    it.links = links;
    it.routes = routes;
    it.start_as = deltat::Start::First;
    return it;
}

// what waits at one arrives at the other
template <class Handle>
int carry(Handle &from, Handle &to, std::uint64_t now) {
    int count = 0;
    while (const auto it = from.next_datagram(datagram)) {
        WANT(to.receive(now, LINK, deltat::Octets(datagram).first(it->len), 0));
        count++;
    }
    return count;
}

// Nodes that aren't open say so: a new one, and one that was moved from.
void closed_ones_say_so(const deltat::NetworkParams &its) {
    Node fresh, moved = std::move(fresh);
    WANT(fresh.get() == nullptr && moved.get() != nullptr);
    for (Node *it : {&fresh, &moved}) {
        Status why = Status::Ok;
        WANT(it->tick(0) == Status::NotOpen && !it->wake() && !it->counts() && !it->next_report() &&
             !it->next_message(0, buffer, &why));
        WANT(why == Status::NotOpen && it->send(0, FLOW, buffer).status == Status::NotOpen &&
             !it->receive(0, LINK, {}, 0));
        WANT(it->blocked_counts().closed_port == 0);
    }
    WANT(fresh.open(its.params, {}).status == Status::NoMemory);
    const auto unset = moved.open(its.params, {});
    WANT(unset.status == Status::Invalid && unset.field == 0);
    deltat::Params wrong = its.params;
    wrong.seg = 0;
    const auto refused = moved.open(wrong, options(1, {}, {}));
    WANT(!refused && refused.field == 6 && refused.value == 0 && deltat::quiet_ms(wrong) == 0 &&
         !deltat::fingerprint(wrong));
    WANT(moved.open(its.params, options(1, {}, {})) &&
         moved.open(its.params, options(1, {}, {})).status == Status::Exists);
    WANT(!std::strcmp(deltat::name(Status::Exists), "DT_EXISTS"));
}

void a_message_arrives(const deltat::NetworkParams &its) {
    const std::vector<deltat::Link> links{{its.charge, 0, LINK, 0}};
    Node one, two;
    WANT(one.open(its.params, options(1, links, {{2, LINK}})) &&
         two.open(its.params, options(2, links, {{1, LINK}})));
    WANT(two.enable_messages(buffer.size()) == Status::Ok &&
         two.set_guard(std::array<std::uint16_t, 1>{20}, false, 5) == Status::Ok);
    WANT(two.count_flow(FLOW) == Status::Ok);
    WANT(one.send(0, FLOW, deltat::octets_of("hello", 5)));
    WANT(one.send(0, FLOW, deltat::octets_of("", 0)).status == Status::Invalid);
    Status why = Status::Ok;
    WANT(!one.next_datagram(deltat::Buffer(datagram).first(3), &why) && why == Status::BufferTooSmall);
    WANT(carry(one, two, 1) == 1);
    int accepted = 0;
    WANT(two.take_reports([&](const deltat::Report &it) {
        accepted += it.report_kind() == deltat::ReportKind::Accepted;
    }) == Status::Ok);
    deltat::Message out;
    WANT(accepted == 1 && two.next_message(1, deltat::Buffer(buffer).first(4), out) == Status::BufferTooSmall &&
         out.len == 5);
    const auto message = two.next_message(1, buffer);
    WANT(message && message->len == 5 && message->gap && !std::memcmp(buffer.data(), "hello", 5) &&
         message->flow == FLOW);
    WANT(!two.next_message(1, buffer, &why) && why == Status::None);
    WANT(two.flow_counts(FLOW)->octets_read == 5 && !two.flow_counts(deltat::reversed(FLOW)) &&
         two.counts()->datagrams_in == 1);
    WANT(two.wake() && two.tick(*two.wake()) == Status::Ok && carry(two, one, 9) == 1);
    WANT(two.receive(9, LINK, {}, 0).fault == deltat::Fault::Short);
    Node third = std::move(two);
    WANT(third.counts() && two.tick(9) == Status::NotOpen);
    third.close();
    WANT(third.tick(9) == Status::NotOpen);
}

void a_call_is_answered(const deltat::NetworkParams &its) {
    const std::vector<deltat::Link> links{{its.charge, 0, LINK, 0}};
    deltat::ServiceOptions limits;
    limits.life = 5;
    limits.max_calls = limits.max_requests = limits.max_requests_per_flow = 2;
    Service client, server;
    WANT(client.call(0, FLOW, {}, 1).status == Status::NotOpen);
    WANT(client.open(its.params, options(1, links, {{2, LINK}}), limits) &&
         server.open(its.params, options(2, links, {{1, LINK}}), limits));
    WANT(client.set_port(10, deltat::PortKind::Caller) == Status::Ok &&
         server.set_port(20, deltat::PortKind::Service) == Status::Ok);
    WANT(client.call(0, FLOW, {}, 0).invalid == deltat::InvalidReason::Timeout);
    const auto first = client.call(0, FLOW, deltat::octets_of("ask", 3), 1000, 41),
               second = client.call(0, FLOW, {}, 1000);
    WANT(first && second && second.call == first.call + 1 &&
         client.call(0, FLOW, {}, 1000).status == Status::TooManyCalls);
    WANT(carry(client, server, 1) > 0);
    const auto request = server.next_event(buffer);
    WANT(request && request->event_kind() == deltat::EventKind::Request && request->len == 3 &&
         request->token().call == first.call);
    WANT(server.reply(1, request->token(), deltat::octets_of("answer", 6)) &&
         server.reply(1, request->token(), {}).status == Status::Gone);
    const auto other = server.next_event(buffer);
    WANT(other && other->len == 0 && server.forget(1, other->token()) == Status::Ok && !server.next_event(buffer));
    WANT(carry(server, client, 2) > 0);
    const auto end = client.next_event(buffer);
    WANT(end && end->event_kind() == deltat::EventKind::Answered && end->call == first.call &&
         end->user == 41 && !std::memcmp(buffer.data(), "answer", 6));
    WANT(client.stop() == Status::Ok);
    const auto unsure = client.next_event(buffer);
    WANT(unsure && unsure->event_kind() == deltat::EventKind::Unsure && unsure->why() == deltat::Cause::Stopped &&
         unsure->user == 0 && !client.wake());
    WANT(client.call_counts()->late_replies == 0 && server.counts() && server.set_life(5) == Status::Exists);
}

}  // namespace

int main() {
    const auto its = network();
    closed_ones_say_so(its);
    a_message_arrives(its);
    a_call_is_answered(its);
    WANT(deltat::fingerprint(its.params) &&
         deltat::quiet_ms(its.params) == 3ull * its.params.mpl + its.params.r + its.params.a);
    return 0;
}
