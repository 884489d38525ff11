/* The lines of a node's log (docs/formats.md), so that tools/fieldaudit.py can read a device's. */
#ifndef LOG_H
#define LOG_H
#include "deltat_micro.h"

enum { LOG_LINE = 96 + 2 * DTM_RCAP };
struct log { char line[LOG_LINE]; size_t len; void (*put)(const char *line); };

void log_text(struct log *log, const char *text);
void log_number(struct log *log, uint32_t number);
void log_end(struct log *log);
/* `octets` are those that a report of a read speaks of. */
void log_report(struct log *log, const struct dtm_node *node, const struct dtm_report *report, const uint8_t *octets);
#endif
