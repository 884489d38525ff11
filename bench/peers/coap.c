/* CoAP (Debian's libcoap3-dev), each request one confirmable POST, with the usual times of RFC 7252. A message above a
 * datagram is sent in blocks (RFC 7959), which the library does. peer.h says how it is run. */
#define _GNU_SOURCE
#include "peer.h"
#include <coap3/coap.h>
#include <stdbool.h>

enum { BLOCKS = COAP_BLOCK_USE_LIBCOAP | COAP_BLOCK_SINGLE_BODY, WAIT_MS = 10 };

static coap_context_t *opened(void) {
    coap_startup();
    coap_set_log_level(LOG_EMERG);
    coap_context_t *it = coap_new_context(NULL);
    if (it == NULL) fail("out of memory");
    coap_context_set_block_mode(it, BLOCKS);
    return it;
}

static coap_address_t coap_place(const char *address, int port) {
    coap_address_t it;
    coap_address_init(&it);
    it.addr.sin = place(address, port);
    it.size = sizeof it.addr.sin;
    return it;
}

static void answer(coap_resource_t *resource, coap_session_t *session, const coap_pdu_t *request,
                   const coap_string_t *query, coap_pdu_t *response) {
    static const unsigned char room[ANSWER];
    const uint8_t *octets = NULL;
    size_t count = 0, at = 0, total = 0;
    (void)resource, (void)session, (void)query;
    if (coap_get_data_large(request, &count, &octets, &at, &total) && count >= HEAD + NUMBER) served(octets + HEAD);
    coap_pdu_set_code(response, COAP_RESPONSE_CODE_CHANGED);
    coap_add_data(response, ANSWER, room);
}

static void serve(const char *address, int port) {
    coap_context_t *context = opened();
    coap_address_t here = coap_place(address, port);
    if (coap_new_endpoint(context, &here, COAP_PROTO_UDP) == NULL) fail("the address can't be bound");
    coap_resource_t *resource = coap_resource_init(coap_make_str_const("o"), 0);
    if (resource == NULL) fail("out of memory");
    coap_register_request_handler(resource, COAP_REQUEST_POST, answer);
    coap_add_resource(context, resource);
    for (;;) coap_io_process(context, 1000);
}

static uint32_t answers;

static coap_response_t answered(coap_session_t *session, const coap_pdu_t *sent, const coap_pdu_t *received,
                                const coap_mid_t mid) {
    (void)session, (void)sent, (void)mid;
    answers += coap_pdu_get_code(received) == COAP_RESPONSE_CODE_CHANGED;
    return COAP_RESPONSE_OK;
}

static void freed(coap_session_t *session, void *octets) {
    (void)session;
    free(octets);
}

/* Sends a request, whose answer counts in `answers`. */
static void ask_once(coap_session_t *session, uint32_t octets) {
    uint8_t token[8];
    size_t len = 0;
    coap_pdu_t *it = coap_new_pdu(COAP_MESSAGE_CON, COAP_REQUEST_CODE_POST, session);
    if (it == NULL) fail("out of memory");
    coap_session_new_token(session, &len, token);
    coap_add_token(it, len, token);
    coap_add_option(it, COAP_OPTION_URI_PATH, 1, (const uint8_t *)"o");
    unsigned char *body = request(octets);
    if (!coap_add_data_large_request(session, it, HEAD + (size_t)octets, body, freed, body))
        fail("a request isn't taken");
    if (coap_send(session, it) == COAP_INVALID_MID) fail("a request isn't sent");
}

/* Waits until so many were answered. */
static int waits_for(coap_context_t *context, uint32_t count, double until) {
    while (answers < count && now() < until) coap_io_process(context, WAIT_MS);
    return answers >= count;
}

static coap_session_t *session_to(coap_context_t *context, const coap_address_t *there) {
    coap_session_t *it = coap_new_client_session(context, NULL, there, COAP_PROTO_UDP);
    if (it == NULL) fail("no way there");
    return it;
}

static void ask_first(coap_context_t *context, const coap_address_t *there, const struct question *it, double until) {
    for (int i = 0; i < it->count && now() < until; i++) {
        double begun = now();
        coap_session_t *session = session_to(context, there);
        answers = 0;
        ask_once(session, it->octets);
        if (waits_for(context, 1, until)) done(1, now() - begun);
        coap_session_release(session);
    }
}

static void ask_flows(coap_context_t *context, const coap_address_t *there, const struct question *it, double until) {
    static coap_session_t *sessions[MOST_FLOWS];
    double begun = now();
    for (int i = 0; i < it->count; i++) ask_once(sessions[i] = session_to(context, there), it->octets);
    waits_for(context, (uint32_t)it->count, until);
    done(answers, now() - begun);
    for (int i = 0; i < it->count; i++) coap_session_release(sessions[i]);
}

static void ask(const char *address, int port, const struct question *it) {
    coap_context_t *context = opened();
    coap_address_t there = coap_place(address, port);
    double until = now() + it->seconds;
    coap_register_response_handler(context, answered);
    if (strcmp(it->what, "first") == 0) {
        ask_first(context, &there, it, until);
        return;
    }
    if (strcmp(it->what, "flows") == 0) {
        ask_flows(context, &there, it, until);
        return;
    }
    coap_session_t *session = session_to(context, &there);
    uint32_t count = 0;
    double begun = now();
    bool is_message = strcmp(it->what, "message") == 0;
    for (int k = 0; now() < until && (!is_message || k < it->count); k++) {
        double at = now();
        answers = 0;
        ask_once(session, it->octets);
        if (!waits_for(context, 1, until)) break;
        count++;
        if (is_message) done(it->octets, now() - at);
    }
    if (!is_message) done(count, now() - begun);
}
