/* What the C programs of this folder share: C99 and C++17. */
#ifndef TESTS_LIBRARY_CALLS_H
#define TESTS_LIBRARY_CALLS_H
#include "deltat.h"
#include <string.h>

/* declares a struct that a call fills: all 0 but its size */
#define SIZED(type, name) \
    struct type name; \
    memset(&name, 0, sizeof name); \
    name.size = (uint32_t)sizeof name

/* a node's options with one link and one route */
static inline struct dt_node_options node_options(uint32_t node, uint64_t now, bool again, const struct dt_link *link, const struct dt_route *route) {
    SIZED(dt_node_options, it);
    it.node = node;
    it.now = now;
    it.links = link;
    it.link_count = 1;
    it.routes = route;
    it.route_count = 1;
    it.start_as = again ? DT_START_AGAIN : DT_START_FIRST;
    return it;
}

#endif
