/* The lines of a log, of reports: the texts that crates/dt_log proves `deltat node` to write. tests/driver.py compares them
 * with those of `deltat retrace`. */
#include "deltat.h"

/* What has been written: `len` octets, as many as fit of them into `room`. */
struct line {
    char *buf;
    size_t room, len;
};

static void put(struct line *it, char one) {
    if (it->len + 1 < it->room) it->buf[it->len] = one;
    it->len++;
}

static void put_text(struct line *it, const char *text) {
    while (*text != '\0') put(it, *text++);
}

static void put_number(struct line *it, uint64_t number) {
    char digits[20];
    size_t count = 0;
    do digits[count++] = (char)('0' + number % 10);
    while ((number /= 10) > 0);
    while (count > 0) put(it, digits[--count]);
}

static void put_field(struct line *it, uint64_t number) {
    put(it, ' ');
    put_number(it, number);
}

static void put_flow(struct line *it, const struct dt_flow *flow) {
    put_field(it, flow->source);
    put(it, ':');
    put_number(it, flow->source_port);
    put(it, '>');
    put_number(it, flow->target);
    put(it, ':');
    put_number(it, flow->target_port);
}

/* the letters of the marks that are set, or a dash */
static void put_marks(struct line *it, char run, const struct dt_report *report) {
    put(it, ' ');
    if (report->run) put(it, run);
    if (report->begin) put(it, 'b');
    if (report->end) put(it, 'e');
    if (!report->run && !report->begin && !report->end) put(it, '-');
}

static void put_fault(struct line *it, const struct dt_report *report) {
    static const char *const FAULTS[] = {"", "short", "version", "length", "dead", "protocol", "kind", "flags", "window", "size"};
    put(it, ' ');
    put_text(it, report->number <= DT_FAULT_SIZE ? FAULTS[report->number] : "");
    if (report->number != DT_FAULT_LIFETIME) put_field(it, report->count);
}

/* A part of a line, by the letter that stands for it in the forms below. */
static void put_part(struct line *it, char part, const struct dt_report *report) {
    switch (part) {
    case 'f': put_flow(it, &report->flow); break;
    case 'n': put_field(it, report->number); break;
    case 'c': put_field(it, report->count); break;
    case 'w': put_field(it, report->window); break;
    case 't': put_field(it, report->time); break;
    case 'd': put_marks(it, 'd', report); break;
    case 'r': put_marks(it, 'r', report); break;
    case 's': put_text(it, report->sending ? " send" : " receive"); break;
    case 'o': put_text(it, report->run ? " run" : " on"); break;
    case 'q': put_text(it, " quiet"); break;
    case 'u': put_text(it, " full"); break;
    case 'x': put_fault(it, report); break;
    default: put(it, part);
    }
}

size_t dt_report_line(const struct dt_report *report, uint64_t now, uint32_t node, char *buf, size_t room) {
    /* the word of each kind, and the letters of the parts behind it */
    static const struct { const char *word, *parts; } FORMS[] = {
        {"unknown", ""}, {"took", "fc"}, {"refused", "fqt"}, {"refused", "fuc"}, {"sent", "fncd"}, {"resent", "fncd"}, {"met", "fn"},
        {"uncertain", "fc"}, {"released", "fs"}, {"renewed", "f"}, {"acked", "fnw"}, {"replied", "fnw"}, {"accepted", "fnco"}, {"dropped", "fn"},
        {"closing", "fn"}, {"settled", "fcw"}, {"ignored", "fnw"}, {"quiet", "t"}, {"read", "fr "}, {"nothing", "f"}, {"put", "nc"},
        {"expired in", "n"}, {"expired out", "n"}, {"noroute", "n"}, {"full", "n"}, {"bad", "x"},
    };
    struct line it = {buf, room, 0};
    size_t kind = report->kind < sizeof FORMS / sizeof *FORMS ? report->kind : 0;
    put_number(&it, now);
    put_field(&it, node);
    put(&it, ' ');
    put_text(&it, FORMS[kind].word);
    for (const char *part = FORMS[kind].parts; *part != '\0'; part++) put_part(&it, *part, report);
    if (room > 0) buf[it.len < room ? it.len : room - 1] = '\0';
    return it.len;
}
