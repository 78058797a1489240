/* What C does by itself: it tests for NULL. All else is crates/wokhleas, and the words of texts.c. */
#include "raw.h"

/* What stands in for NULL where a buffer has no octets: none is read or written there. */
static uint8_t no_octets[1];

static bool is_slice(const void *octets, size_t length) { return octets != NULL || length == 0; }

static const uint8_t *read_from(const void *octets) { return octets != NULL ? octets : no_octets; }

static uint8_t *written_to(void *octets) { return octets != NULL ? octets : no_octets; }

int wokhleas_open(wokhleas_resolver *resolver, const wokhleas_limits *limits, const uint8_t seed[32]) {
    if (resolver == NULL || limits == NULL || seed == NULL) return WOKHLEAS_EARGUMENT;
    return wokhleas_raw_open(resolver, limits->requests, limits->questions, limits->streams, limits->groups, seed);
}

void wokhleas_close(wokhleas_resolver *resolver) {
    if (resolver != NULL) wokhleas_raw_close(resolver);
}

int wokhleas_submit(wokhleas_resolver *resolver, uint64_t number, const char *text, size_t length,
                    const wokhleas_caps *caps, uint64_t until) {
    if (resolver == NULL || caps == NULL || !is_slice(text, length) || !is_slice(caps->transports, caps->count))
        return WOKHLEAS_EARGUMENT;
    return wokhleas_raw_submit(resolver, number, read_from(text), length, read_from(caps->transports), caps->count,
                               caps->families, until);
}

int wokhleas_cancel(wokhleas_resolver *resolver, uint64_t number) {
    return resolver == NULL ? (int)WOKHLEAS_EARGUMENT : wokhleas_raw_cancel(resolver, number);
}

int wokhleas_transmit(wokhleas_resolver *resolver, uint64_t now, uint8_t *octets, size_t room,
                      wokhleas_message *message) {
    if (resolver == NULL || message == NULL || !is_slice(octets, room)) return WOKHLEAS_EARGUMENT;
    return wokhleas_raw_transmit(resolver, now, written_to(octets), room, message);
}

int wokhleas_receive(wokhleas_resolver *resolver, uint64_t now, uint8_t over, const uint8_t *octets, size_t length) {
    if (resolver == NULL || !is_slice(octets, length)) return WOKHLEAS_EARGUMENT;
    return wokhleas_raw_receive(resolver, now, over, read_from(octets), length);
}

int wokhleas_give_up(wokhleas_resolver *resolver, uint32_t query) {
    return resolver == NULL ? (int)WOKHLEAS_EARGUMENT : wokhleas_raw_give_up(resolver, query);
}

int wokhleas_timeout(wokhleas_resolver *resolver, uint64_t now, uint64_t *left) {
    return resolver == NULL || left == NULL ? (int)WOKHLEAS_EARGUMENT : wokhleas_raw_timeout(resolver, now, left);
}

int wokhleas_next(wokhleas_resolver *resolver, wokhleas_outcome *outcome) {
    return resolver == NULL || outcome == NULL ? (int)WOKHLEAS_EARGUMENT : wokhleas_raw_next(resolver, outcome);
}

int wokhleas_get_target(wokhleas_resolver *resolver, size_t index, wokhleas_target *target) {
    if (resolver == NULL || target == NULL) return WOKHLEAS_EARGUMENT;
    return wokhleas_raw_get_target(resolver, index, target);
}

int wokhleas_get_question(wokhleas_resolver *resolver, char *name, size_t room, wokhleas_question *question) {
    if (resolver == NULL || question == NULL || !is_slice(name, room)) return WOKHLEAS_EARGUMENT;
    return wokhleas_raw_get_question(resolver, written_to(name), room, question);
}

int wokhleas_stats(wokhleas_resolver *resolver, wokhleas_counts *counts) {
    return resolver == NULL || counts == NULL ? (int)WOKHLEAS_EARGUMENT : wokhleas_raw_stats(resolver, counts);
}

int wokhleas_failover_event(wokhleas_failover *failover, bool failed) {
    return failover == NULL ? (int)WOKHLEAS_EXHAUSTED : wokhleas_raw_failover_event(failover, failed);
}
