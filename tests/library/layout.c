/* Where the fields of each struct are, by the rules of C, and so in crates/dt_c:
 * made by release/interface.py from include/deltat.h; to change it, change that.
 * It has nothing to run. */
#include "deltat.h"

#define SIZE(type, octets) typedef char size_of_##type[sizeof(struct type) == (octets) ? 1 : -1]
#define AT(type, field, octets) \
    typedef char place_of_##type##_##field[offsetof(struct type, field) == (octets) ? 1 : -1]

SIZE(dt_flow, 12);
AT(dt_flow, source, 0);
AT(dt_flow, target, 4);
AT(dt_flow, source_port, 8);
AT(dt_flow, target_port, 10);

SIZE(dt_params, 48);
AT(dt_params, size, 0);
AT(dt_params, mpl, 4);
AT(dt_params, r, 8);
AT(dt_params, a, 12);
AT(dt_params, rto, 16);
AT(dt_params, probe, 20);
AT(dt_params, seg, 24);
AT(dt_params, cap, 28);
AT(dt_params, rcap, 32);
AT(dt_params, window, 36);
AT(dt_params, run_limit, 40);
AT(dt_params, start, 44);

SIZE(dt_link, 12);
AT(dt_link, charge, 0);
AT(dt_link, pace, 4);
AT(dt_link, number, 8);
AT(dt_link, reserved, 10);

SIZE(dt_route, 8);
AT(dt_route, to, 0);
AT(dt_route, link, 4);

SIZE(dt_node_options, 56);
AT(dt_node_options, size, 0);
AT(dt_node_options, node, 4);
AT(dt_node_options, now, 8);
AT(dt_node_options, links, 16);
AT(dt_node_options, link_count, 24);
AT(dt_node_options, routes, 32);
AT(dt_node_options, route_count, 40);
AT(dt_node_options, start_as, 48);

SIZE(dt_open_result, 8);
AT(dt_open_result, value, 0);
AT(dt_open_result, status, 4);
AT(dt_open_result, field, 5);

SIZE(dt_receive_result, 8);
AT(dt_receive_result, value, 0);
AT(dt_receive_result, status, 4);
AT(dt_receive_result, fault, 5);

SIZE(dt_send_result, 16);
AT(dt_send_result, quiet_until, 0);
AT(dt_send_result, free, 8);
AT(dt_send_result, status, 12);

SIZE(dt_read_result, 16);
AT(dt_read_result, len, 0);
AT(dt_read_result, status, 8);
AT(dt_read_result, begin, 9);
AT(dt_read_result, end, 10);
AT(dt_read_result, gap, 11);

SIZE(dt_message, 40);
AT(dt_message, size, 0);
AT(dt_message, flow, 4);
AT(dt_message, len, 16);
AT(dt_message, dropped_too_long, 24);
AT(dt_message, gap, 32);

SIZE(dt_datagram, 24);
AT(dt_datagram, size, 0);
AT(dt_datagram, to, 4);
AT(dt_datagram, len, 8);
AT(dt_datagram, link, 16);

SIZE(dt_report, 48);
AT(dt_report, size, 0);
AT(dt_report, flow, 4);
AT(dt_report, time, 16);
AT(dt_report, number, 24);
AT(dt_report, count, 28);
AT(dt_report, window, 32);
AT(dt_report, kind, 36);
AT(dt_report, begin, 37);
AT(dt_report, end, 38);
AT(dt_report, run, 39);
AT(dt_report, sending, 40);

SIZE(dt_blocked_counts, 16);
AT(dt_blocked_counts, closed_port, 0);
AT(dt_blocked_counts, too_many_flows, 8);

SIZE(dt_node_counts, 72);
AT(dt_node_counts, size, 0);
AT(dt_node_counts, reserved, 4);
AT(dt_node_counts, datagrams_in, 8);
AT(dt_node_counts, datagrams_refused, 16);
AT(dt_node_counts, datagrams_out, 24);
AT(dt_node_counts, octets_queued, 32);
AT(dt_node_counts, octets_acknowledged, 40);
AT(dt_node_counts, octets_uncertain, 48);
AT(dt_node_counts, octets_accepted, 56);
AT(dt_node_counts, octets_read, 64);

SIZE(dt_flow_counts, 48);
AT(dt_flow_counts, size, 0);
AT(dt_flow_counts, reserved, 4);
AT(dt_flow_counts, octets_queued, 8);
AT(dt_flow_counts, octets_acknowledged, 16);
AT(dt_flow_counts, octets_uncertain, 24);
AT(dt_flow_counts, octets_accepted, 32);
AT(dt_flow_counts, octets_read, 40);

SIZE(dt_service_options, 20);
AT(dt_service_options, size, 0);
AT(dt_service_options, life, 4);
AT(dt_service_options, max_calls, 8);
AT(dt_service_options, max_requests, 12);
AT(dt_service_options, max_requests_per_flow, 16);

SIZE(dt_token, 24);
AT(dt_token, call, 0);
AT(dt_token, flow, 8);

SIZE(dt_call_result, 24);
AT(dt_call_result, call, 0);
AT(dt_call_result, quiet_until, 8);
AT(dt_call_result, free, 16);
AT(dt_call_result, status, 20);
AT(dt_call_result, invalid, 21);

SIZE(dt_reply_result, 8);
AT(dt_reply_result, free, 0);
AT(dt_reply_result, status, 4);
AT(dt_reply_result, invalid, 5);

SIZE(dt_event, 48);
AT(dt_event, size, 0);
AT(dt_event, kind, 4);
AT(dt_event, cause, 5);
AT(dt_event, call, 8);
AT(dt_event, user, 16);
AT(dt_event, len, 24);
AT(dt_event, flow, 32);

SIZE(dt_call_counts, 64);
AT(dt_call_counts, size, 0);
AT(dt_call_counts, reserved, 4);
AT(dt_call_counts, late_replies, 8);
AT(dt_call_counts, old_replies, 16);
AT(dt_call_counts, unknown_replies, 24);
AT(dt_call_counts, reused_requests, 32);
AT(dt_call_counts, cut, 40);
AT(dt_call_counts, too_long, 48);
AT(dt_call_counts, too_short, 56);

SIZE(dt_network, 48);
AT(dt_network, size, 0);
AT(dt_network, hops, 4);
AT(dt_network, delay_us, 8);
AT(dt_network, round_trip_us, 16);
AT(dt_network, drift_ppm, 24);
AT(dt_network, tries, 28);
AT(dt_network, mtu, 32);
AT(dt_network, room, 36);
AT(dt_network, wait_ms, 40);
AT(dt_network, shelf, 44);

SIZE(dt_watch_options, 48);
AT(dt_watch_options, size, 0);
AT(dt_watch_options, fingerprint, 4);
AT(dt_watch_options, now, 8);
AT(dt_watch_options, gap, 16);
AT(dt_watch_options, most, 24);
AT(dt_watch_options, drift, 32);
AT(dt_watch_options, grain, 36);
AT(dt_watch_options, segment, 40);
AT(dt_watch_options, reserved, 44);

SIZE(dt_passage, 24);
AT(dt_passage, made, 0);
AT(dt_passage, sure, 8);
AT(dt_passage, came, 16);

SIZE(dt_arrival, 32);
AT(dt_arrival, opening, 0);
AT(dt_arrival, sure, 8);
AT(dt_arrival, came, 16);
AT(dt_arrival, fingerprint, 24);
AT(dt_arrival, is_frame, 28);

SIZE(dt_orders_server, 192);
AT(dt_orders_server, numbers, 0);
AT(dt_orders_server, row, 32);
AT(dt_orders_server, openings, 72);
AT(dt_orders_server, answer, 136);

SIZE(dt_orders_lane, 296);
AT(dt_orders_lane, client, 0);
AT(dt_orders_lane, lane, 80);
AT(dt_orders_lane, request, 184);

SIZE(dt_orders_look, 16);
AT(dt_orders_look, kind, 0);
AT(dt_orders_look, lane, 4);
AT(dt_orders_look, since, 8);
AT(dt_orders_look, knows, 12);

int main(void) { return 0; }
