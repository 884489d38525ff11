/* The places in a counters file (docs/formats.md), and what the driver counts for it beside struct dt_udp_counts. */
#ifndef DELTAT_UDP_COUNTERS_FILE_H
#define DELTAT_UDP_COUNTERS_FILE_H
#include "deltat_udp.h"
#include <sys/uio.h>

/* The first words of the file. */
enum {
    WORD_MAGIC,
    WORD_VERSION,
    WORD_COUNT,
    WORD_NODE,
    WORD_CREATED,
    WORD_BEGUN,
    WORD_ENDED,
    WORD_OPENINGS,
    WORD_LIFE,
    WORD_PROCESS,
    WORD_OPENED,
    WORD_WRITTEN,
    WORD_QUIET_UNTIL,
    FIRST_COUNTER = 16,
    FIRST_GAUGE = 112,
    FIRST_HISTOGRAM = 128,
    HISTOGRAM_WORDS = 20,
    COUNTERS_WORDS = 512
};

/* Places from FIRST_COUNTER on. The first ones are those of struct dt_udp_counts, in its order. */
enum count {
    COUNT_OF_DRIVER = 26,
    COUNT_FRAMES_IN = COUNT_OF_DRIVER,
    COUNT_FRAMES_REFUSED,
    COUNT_FRAMES_OUT,
    COUNT_OCTETS_QUEUED,
    COUNT_OCTETS_ACKNOWLEDGED,
    COUNT_OCTETS_UNCERTAIN,
    COUNT_OCTETS_ACCEPTED,
    COUNT_OCTETS_READ,
    COUNT_BLOCKED_PORT,
    COUNT_BLOCKED_FLOWS,
    COUNT_LATE_REPLIES,
    COUNT_OLD_REPLIES,
    COUNT_UNKNOWN_REPLIES,
    COUNT_REUSED_REQUESTS,
    COUNT_CUT_MESSAGES,
    COUNT_OWN, /* from here on the driver counts them for this file */
    COUNT_SEGMENTS_SENT = COUNT_OWN,
    COUNT_OCTETS_SENT,
    COUNT_SEGMENTS_RESENT,
    COUNT_OCTETS_RESENT,
    COUNT_ACKNOWLEDGEMENTS_OUT,
    COUNT_ACKNOWLEDGEMENTS_IN,
    COUNT_PROBES_OUT,
    COUNT_RELAYED,
    COUNT_SENDS,
    COUNT_CALLS,
    COUNT_REPLIES,
    COUNT_REQUESTS,
    COUNT_ANSWERED,
    COUNT_UNSURE_GIVEN_UP,
    COUNT_UNSURE_TIMEOUT,
    COUNT_UNSURE_STOPPED,
    COUNT_REPLIES_UNCERTAIN,
    COUNT_REFUSED_QUIET,
    COUNT_REFUSED_FULL,
    COUNT_REFUSED_TOO_MANY_CALLS,
    COUNT_REFUSED_LIFE_USED_UP,
    COUNT_REFUSED_INVALID,
    COUNT_REFUSED_GONE,
    COUNT_REFUSED_OTHER,
    COUNT_MALFORMED,
    COUNT_EXPIRED,
    COUNT_BLOCKED,
    COUNT_ALARM_CLOCK,
    COUNT_ALARM_PARAMETERS,
    COUNT_ALARM_WATCH,
    COUNT_UNMEASURED_FLOWS,
    COUNT_UNMEASURED_CALLS,
    COUNTS
};

/* Places from FIRST_GAUGE on. */
enum gauge { GAUGE_OCTETS_OPEN, GAUGE_CALLS_OPEN, GAUGE_OCTETS_WAITING, GAUGE_PEERS, GAUGE_FRAMES_KEPT, GAUGE_FAILED };

/* From FIRST_HISTOGRAM on, HISTOGRAM_WORDS each: BOUNDS numbers, how many were above the last bound, and the sum in
 * microseconds. */
enum histogram { HISTOGRAM_ROUND_TRIP, HISTOGRAM_CALL, HISTOGRAM_AGE, HISTOGRAMS };

enum { BOUNDS = 16 };

/* What was sent on a flow of this node. */
struct counted_flow {
    uint32_t peer, next; /* next: the number after the last octet that was sent */
    uint32_t sample_end; /* the acknowledgement of this number ends the round trip */
    uint16_t own_port, peer_port;
    uint64_t sent_us;    /* when something was last sent; 0: nothing is here */
    uint64_t sample_us;  /* when the octets before sample_end were sent; 0: none are measured */
};

/* A call whose end wasn't handed out. */
struct counted_call {
    uint64_t number, us; /* us 0: none */
};

struct counting {
    _Atomic uint64_t *words; /* the file */
    int file;
    uint64_t base[COUNTERS_WORDS]; /* what earlier openings counted */
    uint64_t own[COUNTS];          /* what this one counted, from COUNT_OWN on */
    uint64_t histograms[HISTOGRAMS][HISTOGRAM_WORDS];
    struct counted_flow *flows;
    struct counted_call *calls;
    uint64_t published_us;
    uint64_t quiet_until; /* by a refusal, in ms of CLOCK_BOOTTIME */
    size_t call_places;   /* a power of 2 */
};

#endif
