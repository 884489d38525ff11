// deltat.hpp - Delta-t nodes for C++17, over deltat.h alone.
//
// Handles free themselves and can be moved, not copied. Views (a pointer and a length) stand for octets,
// std::optional for what may not be there, enum classes for statuses and kinds. Nothing here throws or needs
// exceptions, RTTI or a library beside libdeltat. The duties of a caller are those of deltat.h, section 1, but for
// its pointers: a view may be empty.
//
// A function has the name and the meaning of the C function behind it, without the prefix: `node.send` is
// dt_node_send, whose comment lists the statuses. A node that was moved from, or whose handle found no memory, is not
// open.
//
//     deltat::Node node;
//     if (auto opened = node.open(params, options); !opened) return fail(name(opened.status));
//     while (auto datagram = node.next_datagram(buffer)) send_to_wire(buffer, datagram->len);
#ifndef DELTAT_HPP
#define DELTAT_HPP
#include <cstddef>
#include <cstdint>
#include <iterator>
#include <memory>
#include <optional>
#include <type_traits>
#include <utility>

#include "deltat.h"

// (here, so that they are found wherever two flows are compared)
inline bool operator==(const dt_flow &one, const dt_flow &other) noexcept {
    return one.source == other.source && one.target == other.target && one.source_port == other.source_port &&
           one.target_port == other.target_port;
}

inline bool operator!=(const dt_flow &one, const dt_flow &other) noexcept { return !(one == other); }

namespace deltat {

// --- numbers and their names

// begin: made by release/interface.py
enum class Status : std::uint8_t {
    Ok = DT_OK,
    NoMemory = DT_NO_MEMORY,
    NotOpen = DT_NOT_OPEN,
    Invalid = DT_INVALID,
    Exists = DT_EXISTS,
    None = DT_NONE,
    BufferTooSmall = DT_BUFFER_TOO_SMALL,
    Full = DT_FULL,
    Quiet = DT_QUIET,
    Stopped = DT_STOPPED,
    Malformed = DT_MALFORMED,
    Expired = DT_EXPIRED,
    Blocked = DT_BLOCKED,
    More = DT_MORE,
    Lost = DT_LOST,
    TooManyCalls = DT_TOO_MANY_CALLS,
    LifeUsedUp = DT_LIFE_USED_UP,
    Gone = DT_GONE,
};

enum class Fault : std::uint8_t {
    Short = DT_FAULT_SHORT,
    Version = DT_FAULT_VERSION,
    Length = DT_FAULT_LENGTH,
    Lifetime = DT_FAULT_LIFETIME,
    Protocol = DT_FAULT_PROTOCOL,
    Kind = DT_FAULT_KIND,
    Flags = DT_FAULT_FLAGS,
    Window = DT_FAULT_WINDOW,
    Size = DT_FAULT_SIZE,
};

enum class Start : std::uint8_t {
    First = DT_START_FIRST,
    Again = DT_START_AGAIN,
};

enum class ReportKind : std::uint8_t {
    SendQueued = DT_REPORT_SEND_QUEUED,
    SendQuiet = DT_REPORT_SEND_QUIET,
    SendFull = DT_REPORT_SEND_FULL,
    SegmentSent = DT_REPORT_SEGMENT_SENT,
    SegmentResent = DT_REPORT_SEGMENT_RESENT,
    ProbeSent = DT_REPORT_PROBE_SENT,
    Uncertain = DT_REPORT_UNCERTAIN,
    RecordReleased = DT_REPORT_RECORD_RELEASED,
    RecordRenewed = DT_REPORT_RECORD_RENEWED,
    AckSent = DT_REPORT_ACK_SENT,
    ReplySent = DT_REPORT_REPLY_SENT,
    Accepted = DT_REPORT_ACCEPTED,
    PacketDropped = DT_REPORT_PACKET_DROPPED,
    RunEnded = DT_REPORT_RUN_ENDED,
    Acknowledged = DT_REPORT_ACKNOWLEDGED,
    AckIgnored = DT_REPORT_ACK_IGNORED,
    PacketQuiet = DT_REPORT_PACKET_QUIET,
    Read = DT_REPORT_READ,
    ReadNone = DT_REPORT_READ_NONE,
    PacketOut = DT_REPORT_PACKET_OUT,
    ExpiredIn = DT_REPORT_EXPIRED_IN,
    ExpiredOut = DT_REPORT_EXPIRED_OUT,
    NoRoute = DT_REPORT_NO_ROUTE,
    LinkFull = DT_REPORT_LINK_FULL,
    PacketMalformed = DT_REPORT_PACKET_MALFORMED,
};

enum class PortKind : std::uint8_t {
    Caller = DT_PORT_CALLER,
    Service = DT_PORT_SERVICE,
};

enum class InvalidReason : std::uint8_t {
    Flow = DT_INVALID_FLOW,
    Port = DT_INVALID_PORT,
    Length = DT_INVALID_LENGTH,
    Timeout = DT_INVALID_TIMEOUT,
    Total = DT_INVALID_TOTAL,
};

enum class EventKind : std::uint8_t {
    Request = DT_EVENT_REQUEST,
    Answered = DT_EVENT_ANSWERED,
    Unsure = DT_EVENT_UNSURE,
    ReplyUncertain = DT_EVENT_REPLY_UNCERTAIN,
};

enum class Cause : std::uint8_t {
    GivenUp = DT_CAUSE_GIVEN_UP,
    Timeout = DT_CAUSE_TIMEOUT,
    Stopped = DT_CAUSE_STOPPED,
};

enum class Judgement : std::uint8_t {
    Present = DT_JUDGED_PRESENT,
    Unproved = DT_JUDGED_UNPROVED,
    Former = DT_JUDGED_FORMER,
    Early = DT_JUDGED_EARLY,
    OtherParameters = DT_JUDGED_OTHER_PARAMETERS,
};

enum class Order : std::uint8_t {
    Done = DT_ORDER_DONE,
    Never = DT_ORDER_NEVER,
    AtWork = DT_ORDER_AT_WORK,
    NotNow = DT_ORDER_NOT_NOW,
    Old = DT_ORDER_OLD,
    Stale = DT_ORDER_STALE,
    Forked = DT_ORDER_FORKED,
    Hello = DT_ORDER_HELLO,
    Told = DT_ORDER_TOLD,
    Execute = DT_ORDER_EXECUTE,
    Read = DT_ORDER_READ,
    Unknown = DT_ORDER_UNKNOWN,
    Waits = DT_ORDER_WAITS,
    Strange = DT_ORDER_STRANGE,
    Unsure = DT_ORDER_UNSURE,
    Alarm = DT_ORDER_ALARM,
};
// end: made by release/interface.py

// "DT_FULL", as deltat.h has it
inline const char *name(Status status) noexcept { return dt_status_name(static_cast<dt_status>(status)); }

// "DT_FAULT_SHORT"
inline const char *name(Fault fault) noexcept { return dt_fault_name(static_cast<std::uint8_t>(fault)); }

// "DT_REPORT_ACCEPTED"
inline const char *name(ReportKind kind) noexcept { return dt_report_name(static_cast<std::uint8_t>(kind)); }

// --- views

// Elements of somebody else's memory, as std::span.
template <class T>
class View {
public:
    constexpr View() noexcept = default;
    constexpr View(T *data, std::size_t size) noexcept : data_(data), size_(size) {}

    // an array, a std::vector, a std::array, a std::span
    template <class Container, class Data = decltype(std::data(std::declval<Container &>())),
              class = std::enable_if_t<std::is_convertible_v<std::remove_pointer_t<Data> (*)[], T (*)[]>>>
    constexpr View(Container &&it) noexcept : data_(std::data(it)), size_(std::size(it)) {}

    constexpr T *data() const noexcept { return data_; }
    constexpr std::size_t size() const noexcept { return size_; }
    constexpr bool empty() const noexcept { return size_ == 0; }
    constexpr T *begin() const noexcept { return data_; }
    constexpr T *end() const noexcept { return data_ + size_; }
    constexpr T &operator[](std::size_t at) const noexcept { return data_[at]; }
    // the first elements: as many as there are, at most
    constexpr View first(std::size_t count) const noexcept { return {data_, count < size_ ? count : size_}; }

private:
    T *data_ = nullptr;
    std::size_t size_ = 0;
};

using Octets = View<const std::uint8_t>;
using Buffer = View<std::uint8_t>;

// the octets of a text
inline Octets octets_of(const char *text, std::size_t len) noexcept {
    return {reinterpret_cast<const std::uint8_t *>(text), len};
}

namespace detail {

// The C functions take no null pointer, even if a length is 0.
template <class T>
T *pointer(View<T> it) noexcept {
    static std::remove_const_t<T> nothing;
    return it.data() != nullptr ? it.data() : &nothing;
}

// A struct of C that may grow: all 0 but its size.
template <class Struct>
struct Sized : Struct {
    Sized() noexcept : Struct() { this->size = sizeof(Struct); }
};

struct Free {
    void operator()(dt_node *it) const noexcept { dt_node_free(it); }
    void operator()(dt_service *it) const noexcept { dt_service_free(it); }
};

}  // namespace detail

// --- structs

using Flow = dt_flow;
using Link = dt_link;
using Route = dt_route;
using Token = dt_token;
using BlockedCounts = dt_blocked_counts;
using Params = detail::Sized<dt_params>;
using ServiceOptions = detail::Sized<dt_service_options>;
using Datagram = detail::Sized<dt_datagram>;
using Message = detail::Sized<dt_message>;
using NodeCounts = detail::Sized<dt_node_counts>;
using FlowCounts = detail::Sized<dt_flow_counts>;
using CallCounts = detail::Sized<dt_call_counts>;

// a network of one hop with the usual values of DT_NETWORK
struct Network : dt_network {
    Network(std::uint64_t delay_us, std::uint64_t round_trip_us) noexcept
        : dt_network DT_NETWORK(delay_us, round_trip_us) {}
};

// the flow on the way back
inline Flow reversed(const Flow &it) noexcept { return {it.target, it.source, it.target_port, it.source_port}; }

struct NodeOptions {
    std::uint32_t node = 0;
    std::uint64_t now = 0;
    View<const Link> links;
    View<const Route> routes;
    Start start_as{};  // there is no default: it must be set
};

// A result: true if the status is `Status::Ok`.
struct Result {
    Status status = Status::NotOpen;
    explicit operator bool() const noexcept { return status == Status::Ok; }
};

struct OpenResult : Result {
    std::uint8_t field = 0;   // `Invalid` by a parameter: its place in dt_params, where mpl is 1
    std::uint32_t value = 0;  // and its value
};

struct ReceiveResult : Result {
    Fault fault{};            // `Malformed`: the first test that failed
    std::uint32_t value = 0;  // and what it tested
};

struct SendResult : Result {
    std::uint32_t free = 0;         // `Full`: how many octets fit
    std::uint64_t quiet_until = 0;  // `Quiet`
};

struct ReadResult : Result {
    std::size_t len = 0;
    bool begin = false, end = false, gap = false;
};

struct CallResult : Result {
    std::uint64_t call = 0;
    std::uint32_t free = 0;
    std::uint64_t quiet_until = 0;
    InvalidReason invalid{};  // `Invalid`
};

struct ReplyResult : Result {
    std::uint32_t free = 0;
    InvalidReason invalid{};
};

struct Report : detail::Sized<dt_report> {
    ReportKind report_kind() const noexcept { return static_cast<ReportKind>(kind); }
    // whether it asks for Node::mark_readable
    bool is_readable() const noexcept {
        return kind == DT_REPORT_ACCEPTED || (kind == DT_REPORT_RECORD_RELEASED && !sending);
    }
};

struct Event : detail::Sized<dt_event> {
    EventKind event_kind() const noexcept { return static_cast<EventKind>(kind); }
    Cause why() const noexcept { return static_cast<Cause>(cause); }
    // the name of a request
    Token token() const noexcept { return {call, flow}; }
};

namespace detail {

inline Status status_of(dt_status it) noexcept { return static_cast<Status>(it); }

inline dt_node_options options_of(const NodeOptions &it) noexcept {
    Sized<dt_node_options> options;
    options.node = it.node;
    options.now = it.now;
    options.links = pointer(it.links);
    options.link_count = it.links.size();
    options.routes = pointer(it.routes);
    options.route_count = it.routes.size();
    options.start_as = static_cast<std::uint8_t>(it.start_as);
    return options;
}

inline OpenResult opened(dt_open_result it) noexcept { return {{status_of(it.status)}, it.field, it.value}; }

inline ReceiveResult received(dt_receive_result it) noexcept {
    return {{status_of(it.status)}, static_cast<Fault>(it.fault), it.value};
}

inline std::optional<std::uint64_t> wake(std::uint64_t it) noexcept {
    return it == DT_NEVER ? std::nullopt : std::optional(it);
}

// What a call filled, if it says ok. `why` gets the status.
template <class Struct>
std::optional<Struct> filled(Status status, const Struct &it, Status *why = nullptr) noexcept {
    if (why != nullptr) *why = status;
    return status == Status::Ok ? std::optional<Struct>(it) : std::nullopt;
}

}  // namespace detail

// --- what parameters give

inline std::uint64_t quiet_ms(const Params &it) noexcept { return dt_params_quiet_ms(&it); }

inline std::optional<std::uint64_t> fingerprint(const Params &it) noexcept {
    std::uint64_t found = 0;
    return dt_params_fingerprint(&it, &found) == DT_OK ? std::optional(found) : std::nullopt;
}

struct NetworkParams {
    Params params;
    std::uint32_t charge = 0;
};

// dt_params_for: the parameters, and the charge of each link
inline std::optional<NetworkParams> params_for(const Network &it) noexcept {
    NetworkParams found;
    return dt_params_for(&it, &found.params, &found.charge) == DT_OK ? std::optional(found) : std::nullopt;
}

// --- a node

class Node {
public:
    Node() noexcept : handle_(dt_node_new()) {}

    // `NoMemory`, too, if the handle found no memory
    OpenResult open(const Params &params, const NodeOptions &options) noexcept {
        if (!handle_) return {{Status::NoMemory}, 0, 0};
        const dt_node_options its = detail::options_of(options);
        return detail::opened(dt_node_open(handle_.get(), &params, &its));
    }
    void close() noexcept {
        if (handle_) dt_node_close(handle_.get());
    }
    // the handle, for functions of C; null in a node that was moved from
    dt_node *get() const noexcept { return handle_.get(); }

    Status add_route(const Route &route) noexcept { return does(dt_node_add_route, &route); }
    Status tick(std::uint64_t now) noexcept { return does(dt_node_tick, now); }
    ReceiveResult receive(std::uint64_t now, std::uint16_t link, Octets datagram, std::uint32_t waited_ms) noexcept {
        if (!handle_) return {};
        return detail::received(
            dt_node_receive(handle_.get(), now, link, detail::pointer(datagram), datagram.size(), waited_ms));
    }
    SendResult send(std::uint64_t now, const Flow &flow, Octets octets, bool begin = true, bool end = true) noexcept {
        if (!handle_) return {};
        const auto it = dt_node_send(handle_.get(), now, &flow, detail::pointer(octets), octets.size(), begin, end);
        return {{detail::status_of(it.status)}, it.free, it.quiet_until};
    }
    ReadResult read(std::uint64_t now, const Flow &flow, Buffer buf) noexcept {
        if (!handle_) return {};
        const auto it = dt_node_read(handle_.get(), now, &flow, detail::pointer(buf), buf.size());
        return {{detail::status_of(it.status)}, it.len, it.begin, it.end, it.gap};
    }

    // The next_ functions return nothing unless the status is `Status::Ok`; `why` gets the status.
    std::optional<Datagram> next_datagram(Buffer buf, Status *why = nullptr) noexcept {
        Datagram it;
        return detail::filled(does(dt_node_next_datagram, detail::pointer(buf), buf.size(), &it), it, why);
    }
    std::optional<Report> next_report(Status *why = nullptr) noexcept {
        Report it;
        return detail::filled(does(dt_node_next_report, &it), it, why);
    }
    // `out`: what dt_node_next_message fills whatever the status, as the length that is needed
    Status next_message(std::uint64_t now, Buffer buf, Message &out) noexcept {
        return does(dt_node_next_message, now, detail::pointer(buf), buf.size(), &out);
    }
    // The next message, or nothing. Calls again at `More` and `Lost`.
    std::optional<Message> next_message(std::uint64_t now, Buffer buf, Status *why = nullptr) noexcept {
        Message it;
        Status status;
        do status = next_message(now, buf, it);
        while (status == Status::More || status == Status::Lost);
        return detail::filled(status, it, why);
    }
    std::optional<std::uint64_t> wake() noexcept {
        return handle_ ? detail::wake(dt_node_wake(handle_.get())) : std::nullopt;
    }

    Status enable_messages(std::size_t longest) noexcept { return does(dt_node_enable_messages, longest); }
    Status mark_readable(const Flow &flow) noexcept { return does(dt_node_mark_readable, &flow); }
    // Takes all reports, marks the flows that have something to read, and hands each report to `look`. The first
    // status of a mark that isn't `Status::Ok`, if any.
    template <class Look>
    Status take_reports(Look &&look) {
        Status status = Status::Ok;
        while (auto report = next_report()) {
            if (report->is_readable() && status == Status::Ok) status = mark_readable(report->flow);
            look(*report);
        }
        return status;
    }

    Status set_guard(View<const std::uint16_t> ports, bool all, std::uint32_t max_flows) noexcept {
        return does(dt_node_set_guard, detail::pointer(ports), ports.size(), all, max_flows);
    }
    Status set_shelf(std::uint32_t max_datagrams, std::uint32_t max_of_flow) noexcept {
        return does(dt_node_set_shelf, max_datagrams, max_of_flow);
    }
    BlockedCounts blocked_counts() noexcept {
        return handle_ ? dt_node_get_blocked_counts(handle_.get()) : BlockedCounts{0, 0};
    }
    std::optional<NodeCounts> counts() noexcept {
        NodeCounts it;
        return detail::filled(does(dt_node_get_counts, &it), it);
    }
    Status count_flow(const Flow &flow) noexcept { return does(dt_node_count_flow, &flow); }
    std::optional<FlowCounts> flow_counts(const Flow &flow) noexcept {
        FlowCounts it;
        return detail::filled(does(dt_node_get_flow_counts, &flow, &it), it);
    }

private:
    template <class Call, class... Arguments>
    Status does(Call call_of, Arguments... arguments) noexcept {
        return handle_ ? detail::status_of(call_of(handle_.get(), arguments...)) : Status::NotOpen;
    }

    std::unique_ptr<dt_node, detail::Free> handle_;
};

// --- a service

class Service {
public:
    Service() noexcept : handle_(dt_service_new()) {}

    OpenResult open(const Params &params, const NodeOptions &options, const ServiceOptions &more) noexcept {
        if (!handle_) return {{Status::NoMemory}, 0, 0};
        const dt_node_options its = detail::options_of(options);
        return detail::opened(dt_service_open(handle_.get(), &params, &its, &more));
    }
    void close() noexcept {
        if (handle_) dt_service_close(handle_.get());
    }
    dt_service *get() const noexcept { return handle_.get(); }

    Status set_port(std::uint16_t port, PortKind kind) noexcept {
        return does(dt_service_set_port, port, static_cast<std::uint8_t>(kind));
    }
    // `user` comes back in the event that ends the call
    CallResult call(
        std::uint64_t now, const Flow &flow, Octets payload, std::uint32_t timeout_ms, std::uint64_t user = 0) noexcept {
        if (!handle_) return {};
        const auto it =
            dt_service_call(handle_.get(), now, &flow, detail::pointer(payload), payload.size(), timeout_ms, user);
        return {
            {detail::status_of(it.status)}, it.call, it.free, it.quiet_until, static_cast<InvalidReason>(it.invalid)};
    }
    ReplyResult reply(std::uint64_t now, const Token &token, Octets payload) noexcept {
        if (!handle_) return {};
        const auto it = dt_service_reply(handle_.get(), now, &token, detail::pointer(payload), payload.size());
        return {{detail::status_of(it.status)}, it.free, static_cast<InvalidReason>(it.invalid)};
    }
    Status forget(std::uint64_t now, const Token &token) noexcept { return does(dt_service_forget, now, &token); }
    // nothing unless the status is `Status::Ok`; in a buffer of DT_MAX_PAYLOAD octets each event fits
    std::optional<Event> next_event(Buffer buf, Status *why = nullptr) noexcept {
        Event it;
        return detail::filled(does(dt_service_next_event, detail::pointer(buf), buf.size(), &it), it, why);
    }
    Status set_life(std::uint32_t life) noexcept { return does(dt_service_set_life, life); }
    Status stop() noexcept { return does(dt_service_stop); }
    std::optional<CallCounts> call_counts() noexcept {
        CallCounts it;
        return detail::filled(does(dt_service_get_call_counts, &it), it);
    }

    Status tick(std::uint64_t now) noexcept { return does(dt_service_tick, now); }
    ReceiveResult receive(std::uint64_t now, std::uint16_t link, Octets datagram, std::uint32_t waited_ms) noexcept {
        if (!handle_) return {};
        return detail::received(
            dt_service_receive(handle_.get(), now, link, detail::pointer(datagram), datagram.size(), waited_ms));
    }
    std::optional<Datagram> next_datagram(Buffer buf, Status *why = nullptr) noexcept {
        Datagram it;
        return detail::filled(does(dt_service_next_datagram, detail::pointer(buf), buf.size(), &it), it, why);
    }
    std::optional<std::uint64_t> wake() noexcept {
        return handle_ ? detail::wake(dt_service_wake(handle_.get())) : std::nullopt;
    }
    Status add_route(const Route &route) noexcept { return does(dt_service_add_route, &route); }
    Status set_guard(View<const std::uint16_t> ports, bool all, std::uint32_t max_flows) noexcept {
        return does(dt_service_set_guard, detail::pointer(ports), ports.size(), all, max_flows);
    }
    Status set_shelf(std::uint32_t max_datagrams, std::uint32_t max_of_flow) noexcept {
        return does(dt_service_set_shelf, max_datagrams, max_of_flow);
    }
    BlockedCounts blocked_counts() noexcept {
        return handle_ ? dt_service_get_blocked_counts(handle_.get()) : BlockedCounts{0, 0};
    }
    std::optional<NodeCounts> counts() noexcept {
        NodeCounts it;
        return detail::filled(does(dt_service_get_counts, &it), it);
    }

private:
    template <class Call, class... Arguments>
    Status does(Call call_of, Arguments... arguments) noexcept {
        return handle_ ? detail::status_of(call_of(handle_.get(), arguments...)) : Status::NotOpen;
    }

    std::unique_ptr<dt_service, detail::Free> handle_;
};

}  // namespace deltat
#endif
