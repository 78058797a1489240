/* What wokhleas.h promises of each call: each status, and what stays as it was after an error. What needs a refused
 * allocation is in memory.c, what comes over a stream in stream.c, outcomes and times are in outcomes.c. */
#include "harness.h"

#include <string.h>

static const uint8_t udp[] = { WOKHLEAS_UDP };
static const wokhleas_caps by_udp = { udp, 1, WOKHLEAS_V4 };

/* 2^48 seconds, in milliseconds: no time is as late. */
static const uint64_t too_late = (UINT64_C(1) << 48) * 1000;

static const struct record zone[] = {
    { "host.example", "A 192.0.2.7" },
    { NULL, NULL },
};

/* ---- texts and NULL */

static void test_texts(void) {
    EXPECT_TEXT(wokhleas_version(), WOKHLEAS_VERSION);
    for (int status = WOKHLEAS_OK; status <= WOKHLEAS_EROOM; status++)
        for (int other = -1; other < status; other++)
            EXPECT(strcmp(wokhleas_strerror(status), wokhleas_strerror(other)) != 0, true);
    EXPECT_TEXT(wokhleas_strerror(-1), "unknown status");
    EXPECT_TEXT(wokhleas_strerror(WOKHLEAS_EROOM + 1), "unknown status");
    for (uint32_t reason = 1; reason <= WOKHLEAS_NO_ADDRESS; reason++)
        for (uint32_t other = 0; other < reason; other++)
            EXPECT(strcmp(wokhleas_strreason(reason), wokhleas_strreason(other)) != 0, true);
    EXPECT_TEXT(wokhleas_strreason(0), "unknown reason");
    EXPECT_TEXT(wokhleas_strreason(WOKHLEAS_NO_ADDRESS + 1), "unknown reason");
}

static void test_null_to_open(void) {
    wokhleas_resolver resolver = WOKHLEAS_RESOLVER_INIT;
    wokhleas_limits limits = WOKHLEAS_LIMITS_INIT;
    uint8_t seed[32] = { 0 };
    EXPECT_STATUS(wokhleas_open(NULL, &limits, seed), WOKHLEAS_EARGUMENT);
    EXPECT_STATUS(wokhleas_open(&resolver, NULL, seed), WOKHLEAS_EARGUMENT);
    EXPECT_STATUS(wokhleas_open(&resolver, &limits, NULL), WOKHLEAS_EARGUMENT);
    EXPECT_STATUS(wokhleas_cancel(&resolver, 1), WOKHLEAS_ECLOSED);
    wokhleas_close(NULL);
    EXPECT(wokhleas_failover_event(NULL, true), WOKHLEAS_EXHAUSTED);
    EXPECT(wokhleas_failover_event(NULL, false), WOKHLEAS_EXHAUSTED);
}

/* NULL in the place of a resolver. */
static void test_null_resolver(void) {
    wokhleas_message message;
    wokhleas_outcome outcome;
    wokhleas_target target;
    wokhleas_question question;
    wokhleas_counts counts;
    uint64_t left;
    uint8_t octets[WOKHLEAS_QUERY_ROOM] = { 0 };
    char name[1024];
    EXPECT_STATUS(wokhleas_submit(NULL, 1, "sip:host.example", 16, &by_udp, WOKHLEAS_NEVER), WOKHLEAS_EARGUMENT);
    EXPECT_STATUS(wokhleas_cancel(NULL, 1), WOKHLEAS_EARGUMENT);
    EXPECT_KEEPS(wokhleas_transmit(NULL, 0, octets, sizeof octets, &message), WOKHLEAS_EARGUMENT, &message);
    EXPECT_STATUS(wokhleas_receive(NULL, 0, WOKHLEAS_DATAGRAM, octets, 12), WOKHLEAS_EARGUMENT);
    EXPECT_STATUS(wokhleas_give_up(NULL, 1), WOKHLEAS_EARGUMENT);
    EXPECT_KEEPS(wokhleas_timeout(NULL, 0, &left), WOKHLEAS_EARGUMENT, &left);
    EXPECT_KEEPS(wokhleas_next(NULL, &outcome), WOKHLEAS_EARGUMENT, &outcome);
    EXPECT_KEEPS(wokhleas_get_target(NULL, 0, &target), WOKHLEAS_EARGUMENT, &target);
    EXPECT_KEEPS(wokhleas_get_question(NULL, name, sizeof name, &question), WOKHLEAS_EARGUMENT, &question);
    EXPECT_KEEPS(wokhleas_stats(NULL, &counts), WOKHLEAS_EARGUMENT, &counts);
}

/* NULL in any other place; a request is inside, which stays as it was. */
static void test_null_elsewhere(void) {
    wokhleas_resolver resolver = WOKHLEAS_RESOLVER_INIT;
    wokhleas_caps none = { NULL, 1, WOKHLEAS_V4 }, empty = { NULL, 0, WOKHLEAS_V4 };
    wokhleas_message message;
    wokhleas_question question;
    uint8_t octets[WOKHLEAS_QUERY_ROOM];
    char name[1024];
    open_resolver(&resolver, 4, 4, true);
    EXPECT_STATUS(wokhleas_submit(&resolver, 1, NULL, 5, &by_udp, WOKHLEAS_NEVER), WOKHLEAS_EARGUMENT);
    EXPECT_STATUS(wokhleas_submit(&resolver, 1, NULL, 0, &by_udp, WOKHLEAS_NEVER), WOKHLEAS_ESYNTAX);
    EXPECT_STATUS(wokhleas_submit(&resolver, 1, "sip:host.example", 16, NULL, WOKHLEAS_NEVER), WOKHLEAS_EARGUMENT);
    EXPECT_STATUS(wokhleas_submit(&resolver, 1, "sip:host.example", 16, &none, WOKHLEAS_NEVER), WOKHLEAS_EARGUMENT);
    EXPECT_STATUS(wokhleas_submit(&resolver, 1, "sip:host.example", 16, &empty, WOKHLEAS_NEVER), WOKHLEAS_EARGUMENT);
    EXPECT_STATUS(submit(&resolver, 1, "sip:host.example:5070", &by_udp, WOKHLEAS_NEVER), WOKHLEAS_OK);
    EXPECT_KEEPS(wokhleas_transmit(&resolver, 0, NULL, sizeof octets, &message), WOKHLEAS_EARGUMENT, &message);
    EXPECT_KEEPS(wokhleas_transmit(&resolver, 0, NULL, 0, &message), WOKHLEAS_EROOM, &message);
    EXPECT_KEEPS(wokhleas_transmit(&resolver, 0, octets, sizeof octets, NULL), WOKHLEAS_EARGUMENT, &octets);
    EXPECT(serve(&resolver, 0, zone), 1);
    EXPECT_STATUS(wokhleas_receive(&resolver, 0, WOKHLEAS_DATAGRAM, NULL, 12), WOKHLEAS_EARGUMENT);
    EXPECT_STATUS(wokhleas_receive(&resolver, 0, WOKHLEAS_DATAGRAM, NULL, 0), WOKHLEAS_NOTHING);
    EXPECT_STATUS(wokhleas_timeout(&resolver, 0, NULL), WOKHLEAS_EARGUMENT);
    EXPECT_STATUS(wokhleas_next(&resolver, NULL), WOKHLEAS_EARGUMENT);
    EXPECT_OUTCOMES(&resolver, "1: udp 192.0.2.7 5070");
    EXPECT_STATUS(wokhleas_get_target(&resolver, 0, NULL), WOKHLEAS_EARGUMENT);
    EXPECT_KEEPS(wokhleas_get_question(&resolver, NULL, sizeof name, &question), WOKHLEAS_EARGUMENT, &question);
    EXPECT_KEEPS(wokhleas_get_question(&resolver, name, sizeof name, NULL), WOKHLEAS_EARGUMENT, &name);
    EXPECT_STATUS(wokhleas_stats(&resolver, NULL), WOKHLEAS_EARGUMENT);
    wokhleas_close(&resolver);
}

/* ---- a resolver: open and closed */

static void expect_closed(wokhleas_resolver *resolver) {
    wokhleas_message message;
    wokhleas_outcome outcome;
    wokhleas_target target;
    wokhleas_question question;
    wokhleas_counts counts;
    uint64_t left;
    uint8_t octets[WOKHLEAS_QUERY_ROOM] = { 0 };
    char name[1024];
    EXPECT_STATUS(submit(resolver, 1, "sip:host.example", &by_udp, WOKHLEAS_NEVER), WOKHLEAS_ECLOSED);
    EXPECT_STATUS(wokhleas_cancel(resolver, 1), WOKHLEAS_ECLOSED);
    EXPECT_KEEPS(wokhleas_transmit(resolver, 0, octets, sizeof octets, &message), WOKHLEAS_ECLOSED, &message);
    EXPECT_STATUS(wokhleas_receive(resolver, 0, WOKHLEAS_DATAGRAM, octets, 12), WOKHLEAS_ECLOSED);
    EXPECT_STATUS(wokhleas_give_up(resolver, 1), WOKHLEAS_ECLOSED);
    EXPECT_KEEPS(wokhleas_timeout(resolver, 0, &left), WOKHLEAS_ECLOSED, &left);
    EXPECT_KEEPS(wokhleas_next(resolver, &outcome), WOKHLEAS_ECLOSED, &outcome);
    EXPECT_KEEPS(wokhleas_get_target(resolver, 0, &target), WOKHLEAS_ECLOSED, &target);
    EXPECT_KEEPS(wokhleas_get_question(resolver, name, sizeof name, &question), WOKHLEAS_ECLOSED, &question);
    EXPECT_KEEPS(wokhleas_stats(resolver, &counts), WOKHLEAS_ECLOSED, &counts);
}

static void test_closed(void) {
    wokhleas_resolver resolver = WOKHLEAS_RESOLVER_INIT, zeros;
    memset(&zeros, 0, sizeof zeros);
    expect_closed(&resolver);
    expect_closed(&zeros);
    wokhleas_close(&resolver);
    expect_closed(&resolver);
}

/* Closed with requests inside, then twice, then open again. */
static void test_closing(void) {
    wokhleas_resolver resolver = WOKHLEAS_RESOLVER_INIT;
    struct query query = NO_QUERY;
    EXPECT_STATUS(open_resolver(&resolver, 8, 2, true), WOKHLEAS_OK);
    submit(&resolver, 1, "sip:192.0.2.1", &by_udp, WOKHLEAS_NEVER);          /* ended, and not taken */
    submit(&resolver, 2, "sip:host.example:5070", &by_udp, WOKHLEAS_NEVER);  /* waits for a reply */
    submit(&resolver, 3, "sip:two.example:5070", &by_udp, WOKHLEAS_NEVER);   /* can't ask yet */
    EXPECT_STATUS(take_query(&resolver, 0, &query), WOKHLEAS_OK);
    EXPECT_STATUS(take_query(&resolver, 0, &query), WOKHLEAS_NOTHING);
    submit(&resolver, 4, "sip:example.com", &by_udp, WOKHLEAS_NEVER);        /* has not begun */
    wokhleas_close(&resolver);
    expect_closed(&resolver);
    wokhleas_close(&resolver);
    expect_closed(&resolver);
    EXPECT_STATUS(open_resolver(&resolver, 8, 2, true), WOKHLEAS_OK);
    EXPECT_NO_OUTCOME(&resolver);
    EXPECT_STATUS(take_query(&resolver, 0, &query), WOKHLEAS_NOTHING);
    wokhleas_close(&resolver);
}

static const size_t bad_groups[] = { 0, 1, 32, 63, 65, 96, 127, 65535, 65537, 131072, (size_t)1 << 32 | 64, SIZE_MAX };

static void test_opening(void) {
    wokhleas_resolver resolver = WOKHLEAS_RESOLVER_INIT;
    EXPECT_STATUS(open_resolver(&resolver, 0, 2, true), WOKHLEAS_EARGUMENT);
    EXPECT_STATUS(open_resolver(&resolver, 65537, 2, true), WOKHLEAS_EARGUMENT);
    EXPECT_STATUS(open_resolver(&resolver, SIZE_MAX, 2, true), WOKHLEAS_EARGUMENT);
    EXPECT_STATUS(open_resolver(&resolver, 1, 0, false), WOKHLEAS_EARGUMENT);
    EXPECT_STATUS(open_resolver(&resolver, 1, 1, false), WOKHLEAS_EARGUMENT);
    EXPECT_STATUS(open_resolver(&resolver, 1, 8193, false), WOKHLEAS_EARGUMENT);
    EXPECT_STATUS(open_resolver(&resolver, 1, SIZE_MAX, false), WOKHLEAS_EARGUMENT);
    for (size_t at = 0; at < sizeof bad_groups / sizeof *bad_groups; at++)
        EXPECT_STATUS(open_with_groups(&resolver, 1, 2, false, bad_groups[at]), WOKHLEAS_EARGUMENT);
    for (size_t groups = 64; groups <= 65536; groups *= 2) {
        EXPECT_STATUS(open_with_groups(&resolver, 1, 2, false, groups), WOKHLEAS_OK);
        wokhleas_close(&resolver);
    }
    expect_closed(&resolver);
    EXPECT_STATUS(open_resolver(&resolver, 65536, 8192, true), WOKHLEAS_OK);
    wokhleas_close(&resolver);
    EXPECT_STATUS(open_resolver(&resolver, 1, 2, false), WOKHLEAS_OK);
    EXPECT_STATUS(submit(&resolver, 7, "sip:host.example:5070", &by_udp, WOKHLEAS_NEVER), WOKHLEAS_OK);
    EXPECT_STATUS(open_resolver(&resolver, 65536, 8192, true), WOKHLEAS_EOPEN);
    EXPECT(serve(&resolver, 0, zone), 1);
    EXPECT_OUTCOMES(&resolver, "7: udp 192.0.2.7 5070");
    wokhleas_close(&resolver);
}

/* What one resolver is told says nothing to another. */
static void test_two_resolvers(void) {
    wokhleas_resolver one = WOKHLEAS_RESOLVER_INIT, other = WOKHLEAS_RESOLVER_INIT;
    open_resolver(&one, 4, 4, true);
    open_resolver(&other, 4, 4, true);
    EXPECT_STATUS(submit(&one, 1, "sip:host.example:5070", &by_udp, WOKHLEAS_NEVER), WOKHLEAS_OK);
    EXPECT_STATUS(submit(&other, 1, "sip:host.example:5071", &by_udp, WOKHLEAS_NEVER), WOKHLEAS_OK);
    EXPECT(serve(&one, 0, zone), 1);
    wokhleas_close(&one);
    EXPECT_NO_OUTCOME(&other);
    EXPECT(serve(&other, 0, zone), 1);
    EXPECT_OUTCOMES(&other, "1: udp 192.0.2.7 5071");
    wokhleas_close(&other);
}

/* ---- submit and cancel */

/* Expects that a submit fails so, and that the request is not inside. */
static void expect_refused(wokhleas_resolver *resolver, const char *text, wokhleas_caps caps, uint64_t until,
                           int status) {
    EXPECT_STATUS(submit(resolver, 1, text, &caps, until), status);
    EXPECT_STATUS(wokhleas_cancel(resolver, 1), WOKHLEAS_NOTHING);
}

static void test_caps(void) {
    static const char *const lists[] = { "\5", "\377", "\1\1", "\1\2\3\1", "\4\3\6", "\1\2\3\4\5", "" };
    static const uint8_t families[] = { 0, 5, 255 }, all[] = { 4, 2, 1, 3, 4 };
    const char *uri = "sip:host.example:5070";
    wokhleas_resolver resolver = WOKHLEAS_RESOLVER_INIT;
    open_resolver(&resolver, 4, 4, true);
    for (size_t at = 0; at < sizeof lists / sizeof *lists; at++) {
        wokhleas_caps caps = { (const uint8_t *)lists[at], strlen(lists[at]), WOKHLEAS_V4 };
        expect_refused(&resolver, uri, caps, WOKHLEAS_NEVER, WOKHLEAS_EARGUMENT);
    }
    expect_refused(&resolver, uri, (wokhleas_caps){ families, 1, WOKHLEAS_V4 }, WOKHLEAS_NEVER, WOKHLEAS_EARGUMENT);
    for (size_t at = 0; at < sizeof families; at++)
        expect_refused(&resolver, uri, (wokhleas_caps){ udp, 1, families[at] }, WOKHLEAS_NEVER, WOKHLEAS_EARGUMENT);
    EXPECT_STATUS(submit(&resolver, 1, uri, &(wokhleas_caps){ all, 4, 4 }, WOKHLEAS_NEVER), WOKHLEAS_OK);
    wokhleas_close(&resolver);
}

static void test_untils(void) {
    const char *uri = "sip:host.example:5070";
    wokhleas_resolver resolver = WOKHLEAS_RESOLVER_INIT;
    open_resolver(&resolver, 4, 4, true);
    expect_refused(&resolver, uri, by_udp, too_late, WOKHLEAS_EARGUMENT);
    expect_refused(&resolver, uri, by_udp, WOKHLEAS_NEVER - 1, WOKHLEAS_EARGUMENT);
    EXPECT_STATUS(submit(&resolver, 1, uri, &by_udp, too_late - 1000), WOKHLEAS_OK);
    EXPECT_STATUS(submit(&resolver, 2, uri, &by_udp, 0), WOKHLEAS_OK);
    EXPECT_STATUS(submit(&resolver, 3, uri, &by_udp, WOKHLEAS_NEVER), WOKHLEAS_OK);
    wokhleas_close(&resolver);
}

static void test_syntax(void) {
    static const char *const texts[] = {
        "", "sip:", "host.example", "http://host.example", "sip:ho st.example", "sip:192.0.2.256",
        "sip:host.example:65536", "sip:host.example ", "\xff", "sip:\xffhost.example", "SIP/2.0/UDP",
        "SIP/2.0/ host.example", "Via: SIP/2.0/UDP host.example",
    };
    wokhleas_resolver resolver = WOKHLEAS_RESOLVER_INIT;
    open_resolver(&resolver, 4, 4, true);
    for (size_t at = 0; at < sizeof texts / sizeof *texts; at++)
        expect_refused(&resolver, texts[at], by_udp, WOKHLEAS_NEVER, WOKHLEAS_ESYNTAX);
    EXPECT_STATUS(wokhleas_submit(&resolver, 1, "sip:host.example\0", 17, &by_udp, WOKHLEAS_NEVER), WOKHLEAS_ESYNTAX);
    EXPECT_STATUS(wokhleas_submit(&resolver, 1, "sip:host.example and more", 16, &by_udp, WOKHLEAS_NEVER), WOKHLEAS_OK);
    wokhleas_close(&resolver);
}

/* A request is inside until its outcome is taken, or it is withdrawn. */
static void test_places(void) {
    wokhleas_resolver resolver = WOKHLEAS_RESOLVER_INIT;
    struct query query = NO_QUERY;
    open_resolver(&resolver, 2, 2, true);
    EXPECT_STATUS(submit(&resolver, UINT64_MAX, "sip:192.0.2.1", &by_udp, WOKHLEAS_NEVER), WOKHLEAS_OK);
    EXPECT_STATUS(submit(&resolver, UINT64_MAX, "sip:192.0.2.2", &by_udp, WOKHLEAS_NEVER), WOKHLEAS_ETAKEN);
    EXPECT_STATUS(submit(&resolver, 0, "sip:192.0.2.3", &by_udp, WOKHLEAS_NEVER), WOKHLEAS_OK);
    EXPECT_STATUS(submit(&resolver, 1, "sip:192.0.2.4", &by_udp, WOKHLEAS_NEVER), WOKHLEAS_EFULL);
    EXPECT_STATUS(wokhleas_cancel(&resolver, 1), WOKHLEAS_NOTHING);
    EXPECT_STATUS(wokhleas_cancel(&resolver, 0), WOKHLEAS_OK);
    EXPECT_NO_OUTCOME(&resolver);
    EXPECT_STATUS(take_query(&resolver, 0, &query), WOKHLEAS_NOTHING);
    EXPECT_STATUS(submit(&resolver, UINT64_MAX, "sip:192.0.2.4", &by_udp, WOKHLEAS_NEVER), WOKHLEAS_ETAKEN);
    EXPECT_STATUS(submit(&resolver, 1, "sip:192.0.2.4", &by_udp, WOKHLEAS_NEVER), WOKHLEAS_OK);
    EXPECT_STATUS(submit(&resolver, 2, "sip:192.0.2.5", &by_udp, WOKHLEAS_NEVER), WOKHLEAS_EFULL);
    EXPECT_STATUS(take_query(&resolver, 0, &query), WOKHLEAS_NOTHING);
    EXPECT_STATUS(submit(&resolver, 2, "sip:192.0.2.5", &by_udp, WOKHLEAS_NEVER), WOKHLEAS_EFULL);
    EXPECT_OUTCOMES(&resolver, "18446744073709551615: udp 192.0.2.1 5060", "1: udp 192.0.2.4 5060");
    EXPECT_STATUS(submit(&resolver, UINT64_MAX, "sip:192.0.2.5", &by_udp, WOKHLEAS_NEVER), WOKHLEAS_OK);
    EXPECT_STATUS(submit(&resolver, 1, "sip:192.0.2.6", &by_udp, WOKHLEAS_NEVER), WOKHLEAS_OK);
    EXPECT_STATUS(take_query(&resolver, 0, &query), WOKHLEAS_NOTHING);
    EXPECT_OUTCOMES(&resolver, "18446744073709551615: udp 192.0.2.5 5060", "1: udp 192.0.2.6 5060");
    wokhleas_close(&resolver);
}

/* Of none, and of one that has not begun, waits for a reply, can't ask yet, or ended. */
static void test_cancel(void) {
    wokhleas_resolver resolver = WOKHLEAS_RESOLVER_INIT;
    struct query query = NO_QUERY;
    uint64_t left;
    open_resolver(&resolver, 8, 2, true);
    EXPECT_STATUS(wokhleas_cancel(&resolver, 1), WOKHLEAS_NOTHING);
    submit(&resolver, 1, "sip:host.example:5070", &by_udp, WOKHLEAS_NEVER);
    EXPECT_STATUS(wokhleas_cancel(&resolver, 2), WOKHLEAS_NOTHING);
    EXPECT_STATUS(wokhleas_cancel(&resolver, 1), WOKHLEAS_OK);
    EXPECT_STATUS(take_query(&resolver, 500, &query), WOKHLEAS_NOTHING);
    submit(&resolver, 1, "sip:192.0.2.1", &by_udp, WOKHLEAS_NEVER);
    submit(&resolver, 2, "sip:host.example:5070", &by_udp, WOKHLEAS_NEVER);
    submit(&resolver, 3, "sip:two.example:5070", &by_udp, WOKHLEAS_NEVER);
    EXPECT_STATUS(take_query(&resolver, 500, &query), WOKHLEAS_OK);
    EXPECT_TEXT(query.name, "host.example");
    EXPECT_STATUS(take_query(&resolver, 500, &query), WOKHLEAS_NOTHING);
    EXPECT_STATUS(wokhleas_cancel(&resolver, 1), WOKHLEAS_OK);
    EXPECT_STATUS(wokhleas_cancel(&resolver, 3), WOKHLEAS_OK);
    EXPECT_STATUS(wokhleas_cancel(&resolver, 2), WOKHLEAS_OK);
    EXPECT_STATUS(wokhleas_cancel(&resolver, 2), WOKHLEAS_NOTHING);
    EXPECT_KEEPS(wokhleas_timeout(&resolver, 500, &left), WOKHLEAS_NOTHING, &left);
    EXPECT_STATUS(take_query(&resolver, 2500, &query), WOKHLEAS_NOTHING);
    EXPECT_NO_OUTCOME(&resolver);
    wokhleas_close(&resolver);
}

/* The question of a request that is withdrawn goes on while another waits for it. */
static void test_cancel_one_of_two(void) {
    wokhleas_resolver resolver = WOKHLEAS_RESOLVER_INIT;
    struct query query = NO_QUERY;
    struct reply reply;
    open_resolver(&resolver, 8, 8, true);
    submit(&resolver, 1, "sip:host.example:5070", &by_udp, WOKHLEAS_NEVER);
    submit(&resolver, 2, "sip:host.example:5071", &by_udp, WOKHLEAS_NEVER);
    EXPECT_STATUS(take_query(&resolver, 500, &query), WOKHLEAS_OK);
    EXPECT_STATUS(take_query(&resolver, 500, &query), WOKHLEAS_NOTHING);
    EXPECT_STATUS(wokhleas_cancel(&resolver, 1), WOKHLEAS_OK);
    EXPECT_STATUS(take_query(&resolver, 2500, &query), WOKHLEAS_OK);
    EXPECT(query.message.send, 2);
    begin_reply(&reply, &query, 0);
    add_answer(&reply, &query, 300, "A 192.0.2.7");
    EXPECT_STATUS(hand_in(&resolver, 2500, WOKHLEAS_DATAGRAM, &reply), WOKHLEAS_OK);
    EXPECT(serve(&resolver, 2500, zone), 0);
    EXPECT_OUTCOMES(&resolver, "2: udp 192.0.2.7 5071");
    wokhleas_close(&resolver);
}

/* ---- messages */

static void test_transmit(void) {
    wokhleas_resolver resolver = WOKHLEAS_RESOLVER_INIT;
    wokhleas_message message;
    struct query query = NO_QUERY;
    uint8_t octets[WOKHLEAS_QUERY_ROOM];
    open_resolver(&resolver, 8, 8, true);
    EXPECT_KEEPS(wokhleas_transmit(&resolver, 0, octets, sizeof octets, &message), WOKHLEAS_NOTHING, &message);
    submit(&resolver, 1, "sip:host.example:5070", &by_udp, WOKHLEAS_NEVER);
    fill(octets, sizeof octets);
    EXPECT_KEEPS(wokhleas_transmit(&resolver, 0, octets, sizeof octets - 1, &message), WOKHLEAS_EROOM, &message);
    EXPECT_KEEPS(wokhleas_transmit(&resolver, 0, octets, 0, &message), WOKHLEAS_EROOM, &message);
    EXPECT_KEEPS(wokhleas_transmit(&resolver, too_late, octets, sizeof octets, &message), WOKHLEAS_EARGUMENT, &message);
    EXPECT_KEEPS(wokhleas_transmit(&resolver, UINT64_MAX, octets, 512, &message), WOKHLEAS_EARGUMENT, &message);
    EXPECT(is_filled(octets, sizeof octets), true);
    EXPECT_STATUS(take_query(&resolver, 0, &query), WOKHLEAS_OK);
    EXPECT_TEXT(query.name, "host.example");
    EXPECT(query.type, TYPE_A);
    EXPECT(query.message.over, WOKHLEAS_DATAGRAM);
    EXPECT(query.message.send, 1);
    EXPECT_STATUS(take_query(&resolver, 0, &query), WOKHLEAS_NOTHING);
    wokhleas_close(&resolver);
}

/* A buffer with more room than a query needs. */
static void test_transmit_into_more(void) {
    wokhleas_resolver resolver = WOKHLEAS_RESOLVER_INIT;
    wokhleas_message message = { 0, 0, 0, 0 };
    uint8_t octets[4 * WOKHLEAS_QUERY_ROOM];
    open_resolver(&resolver, 8, 8, true);
    submit(&resolver, 1, "sip:host.example:5070", &by_udp, WOKHLEAS_NEVER);
    fill(octets, sizeof octets);
    EXPECT_STATUS(wokhleas_transmit(&resolver, too_late - 1, octets, sizeof octets, &message), WOKHLEAS_OK);
    EXPECT(message.length <= WOKHLEAS_QUERY_ROOM, true);
    EXPECT(octets[0] * 256 + octets[1], message.query % 65536);
    EXPECT(is_filled(octets + message.length, sizeof octets - message.length), true);
    wokhleas_close(&resolver);
}

/* What is no reply to the question that is out: none of it ends the wait. */
static void test_no_replies(void) {
    wokhleas_resolver resolver = WOKHLEAS_RESOLVER_INIT;
    struct query query = NO_QUERY;
    struct reply reply, other;
    open_resolver(&resolver, 8, 8, true);
    submit(&resolver, 1, "sip:host.example:5070", &by_udp, WOKHLEAS_NEVER);
    EXPECT_STATUS(take_query(&resolver, 0, &query), WOKHLEAS_OK);
    begin_reply(&reply, &query, 0);
    add_answer(&reply, &query, 300, "A 192.0.2.7");
    EXPECT_STATUS(hand_in(&resolver, 0, 0, &reply), WOKHLEAS_EARGUMENT);
    EXPECT_STATUS(hand_in(&resolver, 0, 3, &reply), WOKHLEAS_EARGUMENT);
    EXPECT_STATUS(hand_in(&resolver, too_late, WOKHLEAS_DATAGRAM, &reply), WOKHLEAS_EARGUMENT);
    EXPECT_STATUS(hand_in(&resolver, 0, WOKHLEAS_STREAM, &reply), WOKHLEAS_NOTHING);
    EXPECT_STATUS(receive(&resolver, 0, WOKHLEAS_DATAGRAM, query.octets, query.message.length), WOKHLEAS_NOTHING);
    for (size_t length = 0; length < reply.length; length++)
        EXPECT_STATUS(receive(&resolver, 0, WOKHLEAS_DATAGRAM, reply.octets, length), WOKHLEAS_NOTHING);
    other = reply;
    other.octets[1] ^= 1; /* another id */
    EXPECT_STATUS(hand_in(&resolver, 0, WOKHLEAS_DATAGRAM, &other), WOKHLEAS_NOTHING);
    other = reply;
    other.octets[13] ^= 1; /* another name */
    EXPECT_STATUS(hand_in(&resolver, 0, WOKHLEAS_DATAGRAM, &other), WOKHLEAS_NOTHING);
    other = reply;
    other.octets[query.question - 3] ^= 1; /* another type */
    EXPECT_STATUS(hand_in(&resolver, 0, WOKHLEAS_DATAGRAM, &other), WOKHLEAS_NOTHING);
    EXPECT(serve(&resolver, 0, zone), 0);
    EXPECT_NO_OUTCOME(&resolver);
    EXPECT_STATUS(hand_in(&resolver, 0, WOKHLEAS_DATAGRAM, &reply), WOKHLEAS_OK);
    EXPECT_STATUS(hand_in(&resolver, 0, WOKHLEAS_DATAGRAM, &reply), WOKHLEAS_NOTHING); /* it came already */
    EXPECT(serve(&resolver, 0, zone), 0);
    EXPECT_OUTCOMES(&resolver, "1: udp 192.0.2.7 5070");
    wokhleas_close(&resolver);
}

/* ---- counts */

static void expect_counts(wokhleas_resolver *resolver, uint64_t requests, uint64_t questions, uint64_t answers,
                          uint64_t queries, uint64_t replies, uint64_t ignored) {
    wokhleas_counts counts;
    fill(&counts, sizeof counts);
    EXPECT_STATUS(wokhleas_stats(resolver, &counts), WOKHLEAS_OK);
    EXPECT(counts.requests, requests);
    EXPECT(counts.questions, questions);
    EXPECT(counts.answers, answers);
    EXPECT(counts.queries, queries);
    EXPECT(counts.replies, replies);
    EXPECT(counts.ignored, ignored);
}

/* Two requests wait for one question, which is sent twice; a third one can't ask yet. When the question has its answer, the
 * third one asks first: the two end in the call that has no query to give. */
static void test_counts(void) {
    wokhleas_resolver resolver = WOKHLEAS_RESOLVER_INIT;
    struct query query = NO_QUERY, none = NO_QUERY;
    struct reply reply;
    open_resolver(&resolver, 8, 2, true);
    expect_counts(&resolver, 0, 0, 0, 0, 0, 0);
    submit(&resolver, 1, "sip:host.example:5070", &by_udp, WOKHLEAS_NEVER);
    submit(&resolver, 2, "sip:host.example:5071", &by_udp, WOKHLEAS_NEVER);
    submit(&resolver, 3, "sip:two.example:5070", &by_udp, WOKHLEAS_NEVER);
    expect_counts(&resolver, 3, 0, 0, 0, 0, 0);
    EXPECT_STATUS(take_query(&resolver, 500, &query), WOKHLEAS_OK);
    EXPECT_STATUS(take_query(&resolver, 500, &none), WOKHLEAS_NOTHING);
    expect_counts(&resolver, 3, 1, 0, 1, 0, 0);
    EXPECT_STATUS(take_query(&resolver, 2500, &query), WOKHLEAS_OK);
    expect_counts(&resolver, 3, 1, 0, 2, 0, 0);
    begin_reply(&reply, &query, 0);
    add_answer(&reply, &query, 300, "A 192.0.2.7");
    EXPECT_STATUS(hand_in(&resolver, 2500, WOKHLEAS_STREAM, &reply), WOKHLEAS_NOTHING);
    expect_counts(&resolver, 3, 1, 0, 2, 0, 1);
    EXPECT_STATUS(hand_in(&resolver, 2500, 3, &reply), WOKHLEAS_EARGUMENT);
    expect_counts(&resolver, 3, 1, 0, 2, 0, 1);
    EXPECT_STATUS(hand_in(&resolver, 2500, WOKHLEAS_DATAGRAM, &reply), WOKHLEAS_OK);
    expect_counts(&resolver, 3, 0, 1, 2, 1, 1);
    EXPECT_STATUS(take_query(&resolver, 2500, &query), WOKHLEAS_OK);
    expect_counts(&resolver, 3, 1, 1, 3, 1, 1);
    EXPECT_STATUS(take_query(&resolver, 2500, &none), WOKHLEAS_NOTHING);
    EXPECT_OUTCOMES(&resolver, "1: udp 192.0.2.7 5070", "2: udp 192.0.2.7 5071");
    expect_counts(&resolver, 1, 1, 1, 3, 1, 1);
    EXPECT_STATUS(wokhleas_cancel(&resolver, 3), WOKHLEAS_OK);
    expect_counts(&resolver, 0, 0, 1, 3, 1, 1);
    wokhleas_close(&resolver);
    open_resolver(&resolver, 8, 2, true);
    expect_counts(&resolver, 0, 0, 0, 0, 0, 0);
    wokhleas_close(&resolver);
}

/* A reply that was cut ends the wait for a reply: it counts, and the question goes out anew. */
static void test_counts_of_cut(void) {
    wokhleas_resolver resolver = WOKHLEAS_RESOLVER_INIT;
    struct query query = NO_QUERY;
    struct reply reply;
    open_resolver(&resolver, 8, 2, true);
    submit(&resolver, 1, "sip:host.example:5070", &by_udp, WOKHLEAS_NEVER);
    EXPECT_STATUS(take_query(&resolver, 500, &query), WOKHLEAS_OK);
    begin_reply(&reply, &query, TRUNCATED);
    EXPECT_STATUS(hand_in(&resolver, 500, WOKHLEAS_DATAGRAM, &reply), WOKHLEAS_OK);
    expect_counts(&resolver, 1, 0, 0, 1, 1, 0);
    EXPECT_STATUS(take_query(&resolver, 500, &query), WOKHLEAS_OK);
    expect_counts(&resolver, 1, 1, 0, 2, 1, 0);
    wokhleas_close(&resolver);
}

/* ---- failover */

static void expect_failover(const wokhleas_failover *failover, size_t count, size_t failures, bool answered) {
    EXPECT(failover->count, count);
    EXPECT(failover->failures, failures);
    EXPECT(failover->answered, answered);
}

static void test_failover(void) {
    wokhleas_failover answered = WOKHLEAS_FAILOVER_INIT(3), exhausted = WOKHLEAS_FAILOVER_INIT(2);
    wokhleas_failover none = WOKHLEAS_FAILOVER_INIT(0), wrong = { 2, 3, false };
    EXPECT(wokhleas_failover_event(&answered, true), WOKHLEAS_TRYING);
    expect_failover(&answered, 3, 1, false);
    EXPECT(wokhleas_failover_event(&answered, false), WOKHLEAS_ANSWERED);
    expect_failover(&answered, 3, 1, true);
    EXPECT(wokhleas_failover_event(&answered, true), WOKHLEAS_ANSWERED);
    EXPECT(wokhleas_failover_event(&answered, false), WOKHLEAS_ANSWERED);
    expect_failover(&answered, 3, 1, true);
    EXPECT(wokhleas_failover_event(&exhausted, true), WOKHLEAS_TRYING);
    EXPECT(wokhleas_failover_event(&exhausted, true), WOKHLEAS_EXHAUSTED);
    expect_failover(&exhausted, 2, 2, false);
    EXPECT(wokhleas_failover_event(&exhausted, false), WOKHLEAS_EXHAUSTED);
    expect_failover(&exhausted, 2, 2, false);
    EXPECT(wokhleas_failover_event(&none, false), WOKHLEAS_EXHAUSTED);
    expect_failover(&none, 0, 0, false);
    EXPECT(wokhleas_failover_event(&wrong, false), WOKHLEAS_EXHAUSTED);
    expect_failover(&wrong, 2, 3, false);
}

int main(void) {
    test_texts();
    test_null_to_open();
    test_null_resolver();
    test_null_elsewhere();
    test_closed();
    test_closing();
    test_opening();
    test_two_resolvers();
    test_caps();
    test_untils();
    test_syntax();
    test_places();
    test_cancel();
    test_cancel_one_of_two();
    test_transmit();
    test_transmit_into_more();
    test_no_replies();
    test_counts();
    test_counts_of_cut();
    test_failover();
    return finish();
}
