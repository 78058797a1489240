/* What one request costs the C library among many: so many are inside, each waits for the address of a host of its own, and in
 * each step one more comes in, the query that can be sent is sent, the reply to the query sent first comes in, and its request
 * ends. And what of that is the call that hears the reply, and what a call of wokhleas_cancel costs for the request that came in
 * first. It prints lines of how many are inside and the nanoseconds of a step, of hearing and of a cancellation, with tabs in
 * between: the least of many slices each. */
#include "../c/tests/harness.h"

#include <stdio.h>
#include <stdlib.h>
#include <string.h>
#include <time.h>

enum { MOST = 10000, SENT = 8192, SLICE = 500, SLICES = 60, NOW = 1000 };

static const uint8_t transports[] = { WOKHLEAS_UDP };
static const wokhleas_caps caps = { transports, 1, WOKHLEAS_V4 };

/* Queries that were sent and not answered, the oldest first. */
static struct sent {
    uint8_t octets[WOKHLEAS_QUERY_ROOM];
    size_t length;
} sent[SENT];
static size_t first_sent, next_sent;

static uint64_t submitted;

static void submit_one(wokhleas_resolver *resolver) {
    char uri[64];
    int length = snprintf(uri, sizeof uri, "sip:h%u.example:5060", (unsigned)submitted);
    if (wokhleas_submit(resolver, submitted, uri, (size_t)length, &caps, WOKHLEAS_NEVER) != WOKHLEAS_OK) abort();
    submitted++;
}

static void send_all(wokhleas_resolver *resolver) {
    wokhleas_message message;
    struct sent *it = sent + next_sent % SENT;
    while (wokhleas_transmit(resolver, NOW, it->octets, sizeof it->octets, &message) == WOKHLEAS_OK) {
        it->length = message.length;
        it = sent + ++next_sent % SENT;
    }
}

static double nanoseconds(void) {
    struct timespec now;
    clock_gettime(CLOCK_MONOTONIC, &now);
    return 1e9 * (double)now.tv_sec + (double)now.tv_nsec;
}

/* The reply to the query sent first: its octets, with QR, one answer, and that (RFC 1035 4.1). */
static const uint8_t answer[] = { 0xc0, 12, 0, 1, 0, 1, 0, 0, 0, 60, 0, 4, 192, 0, 2, 1 };

struct heard {
    uint8_t octets[WOKHLEAS_QUERY_ROOM + sizeof answer];
    size_t length;
};

static void write_reply(struct heard *it) {
    const struct sent *query = sent + first_sent++ % SENT;
    memcpy(it->octets, query->octets, query->length);
    memcpy(it->octets + query->length, answer, sizeof answer);
    it->octets[2] |= 0x80;
    it->octets[7] = 1;
    it->length = query->length + sizeof answer;
}

static void hear(wokhleas_resolver *resolver, const struct heard *it) {
    if (wokhleas_receive(resolver, NOW, WOKHLEAS_DATAGRAM, it->octets, it->length) != WOKHLEAS_OK) abort();
}

static void begin_step(wokhleas_resolver *resolver, struct heard *reply) {
    submit_one(resolver);
    send_all(resolver);
    write_reply(reply);
}

static void end_step(wokhleas_resolver *resolver) {
    wokhleas_outcome outcome;
    send_all(resolver);
    if (wokhleas_next(resolver, &outcome) != WOKHLEAS_OK || outcome.targets != 1) abort();
}

static void step(wokhleas_resolver *resolver) {
    struct heard reply;
    begin_step(resolver, &reply);
    hear(resolver, &reply);
    end_step(resolver);
}

/* The nanoseconds of the call that hears the reply, in a step. */
static double hear_in_step(wokhleas_resolver *resolver) {
    struct heard reply;
    double begun, gone;
    begin_step(resolver, &reply);
    begun = nanoseconds();
    hear(resolver, &reply);
    gone = nanoseconds() - begun;
    end_step(resolver);
    return gone;
}

static void open_with(wokhleas_resolver *resolver, size_t inside) {
    first_sent = next_sent = 0;
    if (open_resolver(resolver, MOST + 1, SENT, true) != WOKHLEAS_OK) abort();
    for (size_t at = 0; at < inside; at++) submit_one(resolver);
    send_all(resolver);
}

/* The nanoseconds of a step, where so many are inside between two steps. */
static double step_among(size_t inside) {
    wokhleas_resolver resolver = WOKHLEAS_RESOLVER_INIT;
    double least = 1e18;
    open_with(&resolver, inside);
    for (int slice = 0; slice < SLICES; slice++) {
        double begun = nanoseconds(), gone;
        for (int at = 0; at < SLICE; at++) step(&resolver);
        gone = (nanoseconds() - begun) / SLICE;
        if (gone < least) least = gone;
    }
    wokhleas_close(&resolver);
    return least;
}

/* The nanoseconds of hearing a reply, where so many are inside between two steps. */
static double hear_among(size_t inside) {
    wokhleas_resolver resolver = WOKHLEAS_RESOLVER_INIT;
    double least = 1e18;
    open_with(&resolver, inside);
    for (int slice = 0; slice < SLICES; slice++) {
        double gone = 0;
        for (int at = 0; at < SLICE; at++) gone += hear_in_step(&resolver);
        if (gone / SLICE < least) least = gone / SLICE;
    }
    wokhleas_close(&resolver);
    return least;
}

/* The nanoseconds of a cancellation, where so many are inside before it; another one comes in after it. */
static double cancel_among(size_t inside) {
    wokhleas_resolver resolver = WOKHLEAS_RESOLVER_INIT;
    double least = 1e18;
    open_with(&resolver, inside);
    for (int slice = 0; slice < SLICES; slice++) {
        double gone = 0;
        for (int at = 0; at < SLICE; at++) {
            double begun = nanoseconds();
            if (wokhleas_cancel(&resolver, submitted - inside) != WOKHLEAS_OK) abort();
            gone += nanoseconds() - begun;
            submit_one(&resolver);
            send_all(&resolver);
        }
        if (gone / SLICE < least) least = gone / SLICE;
    }
    wokhleas_close(&resolver);
    return least;
}

int main(void) {
    static const size_t insides[] = { 10, 100, 1000, 4000, MOST };
    for (size_t at = 0; at < sizeof insides / sizeof *insides; at++)
        printf("%zu\t%.0f\t%.0f\t%.0f\n", insides[at], step_among(insides[at]), hear_among(insides[at]),
               cancel_among(insides[at]));
    return 0;
}
