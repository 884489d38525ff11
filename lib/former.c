/* What GNU ld says of a program that was compiled for interface 1: that this library has another one, and what a function
 * is called now. The functions themselves aren't here, so such a program isn't linked. Other linkers name them only. */
#include "deltat.h"

#if defined(__ELF__) && defined(__GNUC__)
#define FORMER(name, now) \
    static const char former_##name[] __attribute__((section(".gnu.warning." #name), used)) = \
        #name " is of interface 1 of libdeltat, which has interface 2 here: see " #now " in deltat.h, and compile the program anew";
#else
#define FORMER(name, now)
#endif

FORMER(dt_abi, dt_abi_version)
FORMER(dt_size, dt_node_size)
FORMER(dt_align, dt_node_align)
FORMER(dt_init, dt_node_init)
FORMER(dt_open, dt_node_open)
FORMER(dt_close, dt_node_close)
FORMER(dt_add_route, dt_node_add_route)
FORMER(dt_quiet, dt_params_quiet_ms)
FORMER(dt_fingerprint, dt_params_fingerprint)
FORMER(dt_tick, dt_node_tick)
FORMER(dt_arrive, dt_node_receive)
FORMER(dt_send, dt_node_send)
FORMER(dt_read, dt_node_read)
FORMER(dt_next_frame, dt_node_next_datagram)
FORMER(dt_next_report, dt_node_next_report)
FORMER(dt_wake, dt_node_wake)
FORMER(dt_inbox, dt_node_enable_messages)
FORMER(dt_hear, dt_node_mark_readable)
FORMER(dt_take, dt_node_next_message)
FORMER(dt_guard, dt_node_set_guard)
FORMER(dt_kept_out, dt_node_get_blocked_counts)
FORMER(dt_counts, dt_node_get_counts)
FORMER(dt_follow, dt_node_count_flow)
FORMER(dt_totals, dt_node_get_flow_counts)
FORMER(dt_port, dt_service_set_port)
FORMER(dt_call, dt_service_call)
FORMER(dt_reply, dt_service_reply)
FORMER(dt_forget, dt_service_forget)
FORMER(dt_next_event, dt_service_next_event)
FORMER(dt_raise, dt_service_set_life)
FORMER(dt_call_counts, dt_service_get_call_counts)
FORMER(dt_service_arrive, dt_service_receive)
FORMER(dt_service_next_frame, dt_service_next_datagram)
FORMER(dt_service_guard, dt_service_set_guard)
FORMER(dt_service_kept_out, dt_service_get_blocked_counts)
FORMER(dt_service_counts, dt_service_get_counts)

/* A program of interface 1 asks for this number first. By its name the linker finds this file in libdeltat.a; the shared
 * library doesn't have it. */
uint32_t dt_abi(void);
uint32_t dt_abi(void) { return DT_ABI_VERSION; }
