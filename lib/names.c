/* Names for logs: made by release/interface.py from include/deltat.h; to change it, change that. */
#include "deltat.h"

const char *dt_version(void) { return DELTAT_VERSION; }

const char *dt_status_name(dt_status status) {
    switch (status) {
    case DT_OK: return "DT_OK";
    case DT_NO_MEMORY: return "DT_NO_MEMORY";
    case DT_NOT_OPEN: return "DT_NOT_OPEN";
    case DT_INVALID: return "DT_INVALID";
    case DT_EXISTS: return "DT_EXISTS";
    case DT_NONE: return "DT_NONE";
    case DT_BUFFER_TOO_SMALL: return "DT_BUFFER_TOO_SMALL";
    case DT_FULL: return "DT_FULL";
    case DT_QUIET: return "DT_QUIET";
    case DT_STOPPED: return "DT_STOPPED";
    case DT_MALFORMED: return "DT_MALFORMED";
    case DT_EXPIRED: return "DT_EXPIRED";
    case DT_BLOCKED: return "DT_BLOCKED";
    case DT_MORE: return "DT_MORE";
    case DT_LOST: return "DT_LOST";
    case DT_TOO_MANY_CALLS: return "DT_TOO_MANY_CALLS";
    case DT_LIFE_USED_UP: return "DT_LIFE_USED_UP";
    case DT_GONE: return "DT_GONE";
    default: return "unknown status";
    }
}

const char *dt_fault_name(uint8_t fault) {
    switch (fault) {
    case DT_FAULT_SHORT: return "DT_FAULT_SHORT";
    case DT_FAULT_VERSION: return "DT_FAULT_VERSION";
    case DT_FAULT_LENGTH: return "DT_FAULT_LENGTH";
    case DT_FAULT_LIFETIME: return "DT_FAULT_LIFETIME";
    case DT_FAULT_PROTOCOL: return "DT_FAULT_PROTOCOL";
    case DT_FAULT_KIND: return "DT_FAULT_KIND";
    case DT_FAULT_FLAGS: return "DT_FAULT_FLAGS";
    case DT_FAULT_WINDOW: return "DT_FAULT_WINDOW";
    case DT_FAULT_SIZE: return "DT_FAULT_SIZE";
    default: return "unknown fault";
    }
}

const char *dt_report_name(uint8_t report) {
    switch (report) {
    case DT_REPORT_SEND_QUEUED: return "DT_REPORT_SEND_QUEUED";
    case DT_REPORT_SEND_QUIET: return "DT_REPORT_SEND_QUIET";
    case DT_REPORT_SEND_FULL: return "DT_REPORT_SEND_FULL";
    case DT_REPORT_SEGMENT_SENT: return "DT_REPORT_SEGMENT_SENT";
    case DT_REPORT_SEGMENT_RESENT: return "DT_REPORT_SEGMENT_RESENT";
    case DT_REPORT_PROBE_SENT: return "DT_REPORT_PROBE_SENT";
    case DT_REPORT_UNCERTAIN: return "DT_REPORT_UNCERTAIN";
    case DT_REPORT_RECORD_RELEASED: return "DT_REPORT_RECORD_RELEASED";
    case DT_REPORT_RECORD_RENEWED: return "DT_REPORT_RECORD_RENEWED";
    case DT_REPORT_ACK_SENT: return "DT_REPORT_ACK_SENT";
    case DT_REPORT_REPLY_SENT: return "DT_REPORT_REPLY_SENT";
    case DT_REPORT_ACCEPTED: return "DT_REPORT_ACCEPTED";
    case DT_REPORT_PACKET_DROPPED: return "DT_REPORT_PACKET_DROPPED";
    case DT_REPORT_RUN_ENDED: return "DT_REPORT_RUN_ENDED";
    case DT_REPORT_ACKNOWLEDGED: return "DT_REPORT_ACKNOWLEDGED";
    case DT_REPORT_ACK_IGNORED: return "DT_REPORT_ACK_IGNORED";
    case DT_REPORT_PACKET_QUIET: return "DT_REPORT_PACKET_QUIET";
    case DT_REPORT_READ: return "DT_REPORT_READ";
    case DT_REPORT_READ_NONE: return "DT_REPORT_READ_NONE";
    case DT_REPORT_PACKET_OUT: return "DT_REPORT_PACKET_OUT";
    case DT_REPORT_EXPIRED_IN: return "DT_REPORT_EXPIRED_IN";
    case DT_REPORT_EXPIRED_OUT: return "DT_REPORT_EXPIRED_OUT";
    case DT_REPORT_NO_ROUTE: return "DT_REPORT_NO_ROUTE";
    case DT_REPORT_LINK_FULL: return "DT_REPORT_LINK_FULL";
    case DT_REPORT_PACKET_MALFORMED: return "DT_REPORT_PACKET_MALFORMED";
    default: return "unknown report";
    }
}
