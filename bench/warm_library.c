/* A warm request by the C library: submit, transmit until there is nothing to send, next, all targets. */
#include "../c/tests/harness.h"
#include "warm.h"

#include <stdio.h>
#include <stdlib.h>

enum { NOW = 1000 };

const char candidate[] = "wokhleas";

static const struct record zone[] = {
    { "d.example", "NAPTR 10 50 s SIP+D2U _sip._udp.d.example" },
    { "_sip._udp.d.example", "SRV 10 60 5060 s0-0.d.example" },
    { "_sip._udp.d.example", "SRV 10 60 5060 s1-0.d.example" },
    { "_sip._udp.d.example", "SRV 20 60 5060 s2-0.d.example" },
    { "s0-0.d.example", "A 198.18.0.1" },
    { "s0-0.d.example", "A 198.18.0.2" },
    { "s1-0.d.example", "A 198.18.0.3" },
    { "s2-0.d.example", "A 198.18.0.4" },
    { NULL, NULL },
};

static const uint8_t transports[] = { WOKHLEAS_UDP, WOKHLEAS_TCP, WOKHLEAS_TLS };
static const wokhleas_caps caps = { transports, 3, WOKHLEAS_V4 };
static const char text[] = "sip:user@d.example";
static wokhleas_resolver resolver = WOKHLEAS_RESOLVER_INIT;

static void submit_warm(uint64_t number) {
    if (wokhleas_submit(&resolver, number, text, sizeof text - 1, &caps, WOKHLEAS_NEVER) != WOKHLEAS_OK) abort();
}

/* Nothing is to be sent, since all answers are there. */
static void transmit_nothing(void) {
    uint8_t octets[WOKHLEAS_QUERY_ROOM];
    wokhleas_message message;
    if (wokhleas_transmit(&resolver, NOW, octets, sizeof octets, &message) != WOKHLEAS_NOTHING) abort();
}

/* Goes through the targets of the next outcome. */
static size_t take_targets(void) {
    wokhleas_outcome outcome;
    wokhleas_target target;
    size_t at = 0;
    if (wokhleas_next(&resolver, &outcome) != WOKHLEAS_OK) abort();
    while (wokhleas_get_target(&resolver, at, &target) == WOKHLEAS_OK) at++;
    return at;
}

size_t locate_warm(void) {
    submit_warm(CROWD);
    transmit_nothing();
    return take_targets();
}

size_t locate_crowd(void) {
    size_t targets = 0;
    for (uint64_t number = 0; number < CROWD; number++) submit_warm(number);
    transmit_nothing();
    for (int at = 0; at < CROWD; at++) targets += take_targets();
    return targets;
}

size_t locate_beside(void) { return locate_warm(); }

/* Each has a domain of its own, and all questions are out that can be. */
void let_others_wait(void) {
    struct query query = NO_QUERY;
    char uri[64];
    for (uint64_t number = 0; number + 1 < CROWD; number++) {
        int length = snprintf(uri, sizeof uri, "sip:user@w%u.example", (unsigned)number);
        if (wokhleas_submit(&resolver, number, uri, (size_t)length, &caps, WOKHLEAS_NEVER) != WOKHLEAS_OK) abort();
    }
    while (take_query(&resolver, NOW, &query) == WOKHLEAS_OK) continue;
}

void prepare_warm(void) {
    if (open_resolver(&resolver, CROWD, 512, true) != WOKHLEAS_OK) abort();
    submit_warm(0);
    while (serve(&resolver, NOW, zone) > 0) continue;
    if (take_targets() != 4) abort();
}
