#include "log.h"

static const char *const WORDS[] = {"", "took", "refused", "refused", "sent", "resent", "met", "uncertain", "released", "released", "renewed", "acked", "replied",
    "accepted", "dropped", "closing", "settled", "ignored", "quiet", "read", "nothing", "put", "expired in", "expired out", "full", "noroute", "bad"};
static const char *const FAULTS[] = {"", "short", "version", "length", "dead", "protocol", "kind", "flags", "window", "size"};

void log_text(struct log *log, const char *text) {
    while (*text && log->len < LOG_LINE - 2) log->line[log->len++] = *text++;
}

static void digits(struct log *log, uint32_t number) {
    char it[11];
    int at = 10;
    it[at] = 0;
    do it[--at] = (char)('0' + number % 10), number /= 10; while (number);
    log_text(log, it + at);
}

void log_number(struct log *log, uint32_t number) {
    if (log->len > 0) log_text(log, " ");
    digits(log, number);
}

void log_end(struct log *log) {
    log->line[log->len] = '\n', log->line[log->len + 1] = 0;
    log->len = 0;
    log->put(log->line);
}

static void flow(struct log *log, const struct dtm_flow *it) {
    log_number(log, it->source), log_text(log, ":"), digits(log, it->source_port);
    log_text(log, ">"), digits(log, it->target), log_text(log, ":"), digits(log, it->target_port);
}

static void letters(struct log *log, uint8_t marks, const char *run) {
    log_text(log, " ");
    if (marks & DTM_MARK_RUN) log_text(log, run);
    if (marks & DTM_MARK_BEGIN) log_text(log, "b");
    if (marks & DTM_MARK_END) log_text(log, "e");
    if (!marks) log_text(log, "-");
}

static void hex(struct log *log, const uint8_t *octets, uint32_t len) {
    static const char DIGITS[] = "0123456789abcdef";
    log_text(log, " ");
    for (uint32_t i = 0; i < len; i++) {
        char it[3] = {DIGITS[octets[i] >> 4], DIGITS[octets[i] & 15], 0};
        log_text(log, it);
    }
}

/* the numbers of a report that has a flow */
static void of_flow(struct log *log, const struct dtm_node *node, const struct dtm_report *it) {
    switch (it->kind) {
    case DTM_REPORT_SEND_QUIET: log_text(log, " quiet"), log_number(log, node->now + it->count); break;
    case DTM_REPORT_SEND_FULL: log_text(log, " full"), log_number(log, it->count); break;
    case DTM_REPORT_SEND_QUEUED:
    case DTM_REPORT_UNCERTAIN: log_number(log, it->count); break;
    case DTM_REPORT_SEGMENT_SENT:
    case DTM_REPORT_SEGMENT_RESENT: log_number(log, it->number), log_number(log, it->count), letters(log, it->marks, "d"); break;
    case DTM_REPORT_PROBE_SENT:
    case DTM_REPORT_PACKET_DROPPED:
    case DTM_REPORT_RUN_ENDED: log_number(log, it->number); break;
    case DTM_REPORT_SEND_RELEASED: log_text(log, " send"); break;
    case DTM_REPORT_RECEIVE_RELEASED: log_text(log, " receive"); break;
    case DTM_REPORT_ACK_SENT:
    case DTM_REPORT_REPLY_SENT:
    case DTM_REPORT_ACK_IGNORED: log_number(log, it->number), log_number(log, it->window); break;
    case DTM_REPORT_ACKNOWLEDGED: log_number(log, it->count), log_number(log, it->window); break;
    case DTM_REPORT_ACCEPTED: log_number(log, it->number), log_number(log, it->count), log_text(log, it->marks ? " run" : " on"); break;
    default: break;
    }
}

static void without_flow(struct log *log, const struct dtm_node *node, const struct dtm_report *it) {
    if (it->kind == DTM_REPORT_PACKET_QUIET) log_number(log, node->now + it->count);
    else if (it->kind == DTM_REPORT_PACKET_OUT) log_number(log, it->number), log_number(log, it->count);
    else if (it->kind != DTM_REPORT_PACKET_MALFORMED) log_number(log, it->number);
    else {
        log_text(log, " "), log_text(log, FAULTS[it->number]);
        if (it->number != DTM_FAULT_LIFETIME) log_number(log, it->count);
        if (it->number == DTM_FAULT_LENGTH) log_number(log, it->window);
    }
}

void log_report(struct log *log, const struct dtm_node *node, const struct dtm_report *it, const uint8_t *octets) {
    log_number(log, node->now), log_number(log, node->me);
    log_text(log, " "), log_text(log, WORDS[it->kind]);
    if (it->kind >= DTM_REPORT_PACKET_OUT || it->kind == DTM_REPORT_PACKET_QUIET) without_flow(log, node, it);
    else {
        flow(log, &it->flow);
        if (it->kind == DTM_REPORT_READ) letters(log, it->marks, "r"), hex(log, octets, it->count);
        else of_flow(log, node, it);
    }
    log_end(log);
}
