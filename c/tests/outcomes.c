/* What becomes of requests: targets, refusals and questions without answers, and when. */
#include "harness.h"

#include <string.h>

static const uint8_t udp[] = { WOKHLEAS_UDP };
static const wokhleas_caps by_udp = { udp, 1, WOKHLEAS_V4 };

static const struct record zone[] = {
    { "host.example", "A 192.0.2.7" },
    { "host.example", "AAAA 2001:db8::7" },
    { "two.example", "A 192.0.2.8" },
    { "two.example", "A 192.0.2.9" },
    { "example.com", "NAPTR 10 10 s SIP+D2T _sip._tcp.example.com" },
    { "example.com", "NAPTR 20 10 s SIP+D2U _sip._udp.example.com" },
    { "_sip._tcp.example.com", "SRV 20 0 5060 two.example" },
    { "_sip._tcp.example.com", "SRV 10 0 5070 host.example" },
    { "_sip._udp.example.com", "SRV 10 0 5080 host.example" },
    { "_sip._udp.services.example", "SRV 10 0 5090 host.example" },
    { "plain.example", "A 192.0.2.10" },
    { "_sip._udp.denied.example", "SRV 0 0 0 ." },
    { NULL, NULL },
};

/* ---- outcomes */

struct located {
    const char *text, *transports;
    uint8_t families;
    const char *outcome;
};

static const struct located requests[] = {
    { "sip:192.0.2.1", "\1", WOKHLEAS_V4, "1: udp 192.0.2.1 5060" },
    { "sips:192.0.2.1", "\3", WOKHLEAS_V4, "1: tls 192.0.2.1 5061" },
    { "sip:192.0.2.1;transport=sctp", "\1\4", WOKHLEAS_V4, "1: sctp 192.0.2.1 5060" },
    { "sip:[2001:db8::1]:5080;transport=tcp", "\2", WOKHLEAS_V6, "1: tcp 2001:db8::1 5080" },
    { "sip:host.example:5070", "\1", WOKHLEAS_V4, "1: udp 192.0.2.7 5070" },
    { "sip:host.example:5070", "\1", WOKHLEAS_V6, "1: udp 2001:db8::7 5070" },
    { "sip:host.example:5070", "\1", WOKHLEAS_V4_THEN_V6, "1: udp 192.0.2.7 5070, udp 2001:db8::7 5070" },
    { "sip:host.example:5070", "\1", WOKHLEAS_V6_THEN_V4, "1: udp 2001:db8::7 5070, udp 192.0.2.7 5070" },
    { "sip:user@example.com", "\1\2\3", WOKHLEAS_V4,
      "1: tcp 192.0.2.7 5070, tcp 192.0.2.8 5060, tcp 192.0.2.9 5060" },
    { "sip:user@example.com", "\1", WOKHLEAS_V4, "1: udp 192.0.2.7 5080" },
    { "sip:user@services.example", "\1\2", WOKHLEAS_V4, "1: udp 192.0.2.7 5090" },
    { "sip:plain.example", "\1", WOKHLEAS_V4, "1: udp 192.0.2.10 5060" },
    { "sips:plain.example", "\1\3", WOKHLEAS_V4, "1: tls 192.0.2.10 5061" },
    { "SIP/2.0/UDP host.example:5062;branch=z9hG4bK1", "\1", WOKHLEAS_V4, "1: udp 192.0.2.7 5062" },
    { "SIP/2.0/TCP example.com;branch=z9hG4bK1", "\2", WOKHLEAS_V4,
      "1: tcp 192.0.2.7 5070, tcp 192.0.2.8 5060, tcp 192.0.2.9 5060" },
    { "sip:host.example;transport=tcp", "\1", WOKHLEAS_V4, "1: refused 1" },
    { "sips:host.example;transport=udp", "\1\3", WOKHLEAS_V4, "1: refused 2" },
    { "sip:denied.example;transport=udp", "\1", WOKHLEAS_V4, "1: refused 3" },
    { "sip:nowhere.example:5070", "\1", WOKHLEAS_V4, "1: refused 4" },
    { "sip:two.example:5070", "\1", WOKHLEAS_V6, "1: refused 4" },
};

static void test_requests(void) {
    for (size_t at = 0; at < sizeof requests / sizeof *requests; at++) {
        const struct located *it = requests + at;
        wokhleas_caps caps = { (const uint8_t *)it->transports, strlen(it->transports), it->families };
        wokhleas_resolver resolver = WOKHLEAS_RESOLVER_INIT;
        open_resolver(&resolver, 1, 2, true);
        EXPECT_STATUS(submit(&resolver, 1, it->text, &caps, WOKHLEAS_NEVER), WOKHLEAS_OK);
        serve(&resolver, 0, zone);
        EXPECT_TEXT(next_outcome(&resolver), it->outcome);
        EXPECT_NO_OUTCOME(&resolver);
        wokhleas_close(&resolver);
    }
}

/* The octets of targets: an address has zeros behind it. */
static void test_target(void) {
    static const uint8_t of_four[16] = { 192, 0, 2, 1 }, of_six[16] = { 0x20, 1, 0xd, 0xb8, [15] = 1 };
    static const uint8_t tcp_and_udp[] = { WOKHLEAS_TCP, WOKHLEAS_UDP };
    const wokhleas_caps caps = { tcp_and_udp, 2, WOKHLEAS_V4_THEN_V6 };
    wokhleas_resolver resolver = WOKHLEAS_RESOLVER_INIT;
    wokhleas_outcome outcome = { 0, 0, 0, 0 };
    wokhleas_target target = { { 0 }, 0, 0, 0 };
    open_resolver(&resolver, 8, 8, true);
    EXPECT_KEEPS(wokhleas_get_target(&resolver, 0, &target), WOKHLEAS_NOTHING, &target); /* no outcome was told */
    submit(&resolver, 1, "sip:192.0.2.1:65535;transport=tcp", &caps, WOKHLEAS_NEVER);
    serve(&resolver, 0, zone);
    EXPECT_STATUS(wokhleas_next(&resolver, &outcome), WOKHLEAS_OK);
    EXPECT(outcome.kind, WOKHLEAS_TARGETS);
    EXPECT(outcome.targets, 1);
    EXPECT_STATUS(wokhleas_get_target(&resolver, 0, &target), WOKHLEAS_OK);
    EXPECT(target.family, 4);
    EXPECT(target.transport, WOKHLEAS_TCP);
    EXPECT(target.port, 65535);
    EXPECT(memcmp(target.address, of_four, 16), 0);
    submit(&resolver, 2, "sip:[2001:db8::1]:1;transport=udp", &caps, WOKHLEAS_NEVER);
    serve(&resolver, 0, zone);
    EXPECT_STATUS(wokhleas_next(&resolver, &outcome), WOKHLEAS_OK);
    EXPECT(outcome.number, 2);
    EXPECT_KEEPS(wokhleas_next(&resolver, &outcome), WOKHLEAS_NOTHING, &outcome);
    EXPECT_STATUS(wokhleas_get_target(&resolver, 0, &target), WOKHLEAS_OK); /* of the outcome that was told last */
    EXPECT(target.family, 6);
    EXPECT(target.transport, WOKHLEAS_UDP);
    EXPECT(target.port, 1);
    EXPECT(memcmp(target.address, of_six, 16), 0);
    wokhleas_close(&resolver);
}

static void test_question(void) {
    wokhleas_resolver resolver = WOKHLEAS_RESOLVER_INIT;
    wokhleas_outcome outcome = { 0, 0, 0, 0 };
    wokhleas_question question = { 0, 0 };
    struct query query = NO_QUERY;
    char name[1024];
    open_resolver(&resolver, 8, 8, true);
    EXPECT_KEEPS(wokhleas_get_question(&resolver, name, sizeof name, &question), WOKHLEAS_NOTHING, &question);
    submit(&resolver, 1, "sip:User@Example.Com", &by_udp, WOKHLEAS_NEVER);
    take_query(&resolver, 0, &query);
    EXPECT(query.type, TYPE_NAPTR);
    EXPECT_STATUS(wokhleas_give_up(&resolver, query.message.query), WOKHLEAS_OK);
    EXPECT_STATUS(wokhleas_next(&resolver, &outcome), WOKHLEAS_OK);
    EXPECT(outcome.kind, WOKHLEAS_NO_SERVER);
    fill(name, sizeof name);
    EXPECT_KEEPS(wokhleas_get_question(&resolver, name, 11, &question), WOKHLEAS_EROOM, &question);
    EXPECT_KEEPS(wokhleas_get_question(&resolver, NULL, 0, &question), WOKHLEAS_EROOM, &question);
    EXPECT(is_filled(name, sizeof name), true);
    EXPECT_STATUS(wokhleas_get_question(&resolver, name, 12, &question), WOKHLEAS_OK);
    EXPECT(question.length, 12);
    EXPECT(question.type, TYPE_NAPTR);
    EXPECT(memcmp(name, "example.com.", 12), 0);
    EXPECT(is_filled(name + 12, sizeof name - 12), true);
    wokhleas_close(&resolver);
}

/* A reply that says no answer ends the request; that a name does not exist is an answer. */
static void test_bad_replies(void) {
    static const unsigned rcodes[] = { 1, SERVFAIL, NXDOMAIN, 4, REFUSED, 15 };
    static const char *const outcomes[] = {
        "1: bad reply 1 A host.example.", "1: bad reply 2 A host.example.",  "1: refused 4",
        "1: bad reply 4 A host.example.", "1: bad reply 5 A host.example.", "1: bad reply 15 A host.example.",
    };
    for (size_t at = 0; at < sizeof rcodes / sizeof *rcodes; at++) {
        wokhleas_resolver resolver = WOKHLEAS_RESOLVER_INIT;
        struct query query = NO_QUERY;
        struct reply reply;
        open_resolver(&resolver, 1, 2, true);
        submit(&resolver, 1, "sip:host.example:5070", &by_udp, WOKHLEAS_NEVER);
        EXPECT_STATUS(take_query(&resolver, 0, &query), WOKHLEAS_OK);
        begin_reply(&reply, &query, rcodes[at]);
        EXPECT_STATUS(hand_in(&resolver, 0, WOKHLEAS_DATAGRAM, &reply), WOKHLEAS_OK);
        EXPECT(serve(&resolver, 0, zone), 0);
        EXPECT_TEXT(next_outcome(&resolver), outcomes[at]);
        wokhleas_close(&resolver);
    }
}

/* ---- answers that requests share */

/* Requests that need one answer: one query. A later one finds it while it lives: 300 seconds. */
static void test_shared_answers(void) {
    wokhleas_resolver resolver = WOKHLEAS_RESOLVER_INIT;
    open_resolver(&resolver, 8, 8, true);
    submit(&resolver, 3, "sip:host.example:5073", &by_udp, WOKHLEAS_NEVER);
    submit(&resolver, 1, "sip:host.example:5071", &by_udp, WOKHLEAS_NEVER);
    submit(&resolver, 2, "sip:host.example:5072", &by_udp, WOKHLEAS_NEVER);
    EXPECT(serve(&resolver, 10000, zone), 1);
    EXPECT_OUTCOMES(&resolver, "3: udp 192.0.2.7 5073", "1: udp 192.0.2.7 5071", "2: udp 192.0.2.7 5072");
    submit(&resolver, 4, "sip:HOST.example:5074", &by_udp, WOKHLEAS_NEVER);
    EXPECT(serve(&resolver, 309000, zone), 0);
    EXPECT_OUTCOMES(&resolver, "4: udp 192.0.2.7 5074");
    submit(&resolver, 5, "sip:host.example:5075", &by_udp, WOKHLEAS_NEVER);
    EXPECT(serve(&resolver, 311000, zone), 1);
    EXPECT_OUTCOMES(&resolver, "5: udp 192.0.2.7 5075");
    wokhleas_close(&resolver);
}

/* No more questions are out than half of the limit, while no older cache goes on: the next one is sent when one of them
 * ended. */
static void test_one_question(void) {
    wokhleas_resolver resolver = WOKHLEAS_RESOLVER_INIT;
    struct query one = NO_QUERY, other = NO_QUERY;
    struct reply reply;
    open_resolver(&resolver, 8, 2, true);
    submit(&resolver, 1, "sip:host.example:5070", &by_udp, WOKHLEAS_NEVER);
    submit(&resolver, 2, "sip:two.example:5070", &by_udp, WOKHLEAS_NEVER);
    EXPECT_STATUS(take_query(&resolver, 0, &one), WOKHLEAS_OK);
    EXPECT_STATUS(take_query(&resolver, 0, &other), WOKHLEAS_NOTHING);
    begin_reply(&reply, &one, NXDOMAIN);
    EXPECT_STATUS(hand_in(&resolver, 0, WOKHLEAS_DATAGRAM, &reply), WOKHLEAS_OK);
    EXPECT_STATUS(take_query(&resolver, 0, &other), WOKHLEAS_OK);
    EXPECT_TEXT(one.name, "host.example");
    EXPECT_TEXT(other.name, "two.example");
    EXPECT_STATUS(take_query(&resolver, 0, &one), WOKHLEAS_NOTHING);
    EXPECT_OUTCOMES(&resolver, "1: refused 4");
    wokhleas_close(&resolver);
}

/* ---- times */

/* Expects how much time is left until something is due. */
static void expect_left(wokhleas_resolver *resolver, uint64_t now, uint64_t wanted) {
    uint64_t left = UINT64_MAX;
    EXPECT_STATUS(wokhleas_timeout(resolver, now, &left), WOKHLEAS_OK);
    EXPECT(left, wanted);
}

/* Three sends without a reply: each is waited for from the next second on for one second. */
static void test_sends_in_vain(void) {
    static const uint64_t sent[] = { 500, 2100, 4999 }, due[] = { 2000, 4000, 6000 };
    wokhleas_resolver resolver = WOKHLEAS_RESOLVER_INIT;
    struct query query = NO_QUERY;
    struct reply reply;
    uint64_t left;
    open_resolver(&resolver, 8, 8, true);
    EXPECT_KEEPS(wokhleas_timeout(&resolver, 0, &left), WOKHLEAS_NOTHING, &left);
    submit(&resolver, 1, "sip:host.example:5070", &by_udp, WOKHLEAS_NEVER);
    for (int at = 0; at < 3; at++) {
        EXPECT_STATUS(take_query(&resolver, sent[at], &query), WOKHLEAS_OK);
        EXPECT(query.message.send, at + 1);
        EXPECT_STATUS(take_query(&resolver, sent[at], &query), WOKHLEAS_NOTHING);
        expect_left(&resolver, sent[at], due[at] - sent[at]);
        EXPECT_STATUS(take_query(&resolver, due[at] - 1, &query), WOKHLEAS_NOTHING);
        expect_left(&resolver, due[at] - 1, 1);
        expect_left(&resolver, due[at] + 7, 0);
    }
    EXPECT_NO_OUTCOME(&resolver);
    EXPECT_STATUS(take_query(&resolver, 6000, &query), WOKHLEAS_NOTHING);
    EXPECT_OUTCOMES(&resolver, "1: no answer A host.example.");
    EXPECT_KEEPS(wokhleas_timeout(&resolver, 6000, &left), WOKHLEAS_NOTHING, &left);
    begin_reply(&reply, &query, 0);
    add_answer(&reply, &query, 300, "A 192.0.2.7");
    EXPECT_STATUS(hand_in(&resolver, 6000, WOKHLEAS_DATAGRAM, &reply), WOKHLEAS_NOTHING); /* too late */
    wokhleas_close(&resolver);
}

/* A time that is whole seconds is not rounded up. */
static void test_full_seconds(void) {
    wokhleas_resolver resolver = WOKHLEAS_RESOLVER_INIT;
    struct query query = NO_QUERY;
    open_resolver(&resolver, 8, 8, true);
    submit(&resolver, 1, "sip:host.example:5070", &by_udp, 3000);
    EXPECT_STATUS(take_query(&resolver, 1000, &query), WOKHLEAS_OK);
    expect_left(&resolver, 1000, 1000);
    EXPECT_STATUS(take_query(&resolver, 1999, &query), WOKHLEAS_NOTHING);
    EXPECT_STATUS(take_query(&resolver, 2000, &query), WOKHLEAS_OK);
    EXPECT_STATUS(take_query(&resolver, 2999, &query), WOKHLEAS_NOTHING);
    EXPECT_NO_OUTCOME(&resolver);
    EXPECT_STATUS(take_query(&resolver, 3000, &query), WOKHLEAS_NOTHING);
    EXPECT_OUTCOMES(&resolver, "1: no answer A host.example.");
    wokhleas_close(&resolver);
}

/* A request ends at its time, rounded up, whatever its question does. */
static void test_until_with_question(void) {
    wokhleas_resolver resolver = WOKHLEAS_RESOLVER_INIT;
    struct query query = NO_QUERY;
    uint64_t left;
    open_resolver(&resolver, 8, 8, true);
    submit(&resolver, 1, "sip:host.example:5070", &by_udp, 2500);
    submit(&resolver, 2, "sip:host.example:5071", &by_udp, 3001);
    EXPECT_STATUS(take_query(&resolver, 1500, &query), WOKHLEAS_OK);
    expect_left(&resolver, 1500, 1500); /* until the query is sent again, and until 1 ends */
    EXPECT_STATUS(take_query(&resolver, 2999, &query), WOKHLEAS_NOTHING);
    EXPECT_NO_OUTCOME(&resolver);
    EXPECT_STATUS(take_query(&resolver, 3000, &query), WOKHLEAS_OK); /* 2 waits for it still */
    EXPECT_OUTCOMES(&resolver, "1: no answer A host.example.");
    EXPECT_STATUS(take_query(&resolver, 4000, &query), WOKHLEAS_NOTHING); /* none waits for it any more */
    EXPECT_OUTCOMES(&resolver, "2: no answer A host.example.");
    EXPECT_KEEPS(wokhleas_timeout(&resolver, 4000, &left), WOKHLEAS_NOTHING, &left);
    EXPECT_STATUS(wokhleas_give_up(&resolver, query.message.query), WOKHLEAS_NOTHING);
    wokhleas_close(&resolver);
}

/* A request whose time is over when it comes in: by the answers that are there, or without a query. */
static void test_until_over(void) {
    wokhleas_resolver resolver = WOKHLEAS_RESOLVER_INIT;
    open_resolver(&resolver, 8, 8, true);
    submit(&resolver, 1, "sip:host.example:5070", &by_udp, 10000);
    EXPECT(serve(&resolver, 5500, zone), 1);
    EXPECT_OUTCOMES(&resolver, "1: udp 192.0.2.7 5070");
    submit(&resolver, 2, "sip:host.example:5070", &by_udp, 6000);
    submit(&resolver, 3, "sip:two.example:5070", &by_udp, 5001);
    submit(&resolver, 4, "sip:192.0.2.1", &by_udp, 0);
    expect_left(&resolver, 6000, 0);
    EXPECT(serve(&resolver, 6000, zone), 0);
    EXPECT_OUTCOMES(&resolver, "2: udp 192.0.2.7 5070", "3: no answer A two.example.", "4: udp 192.0.2.1 5060");
    wokhleas_close(&resolver);
}

/* The time of a request that can't ask yet. */
static void test_until_of_held(void) {
    wokhleas_resolver resolver = WOKHLEAS_RESOLVER_INIT;
    struct query query = NO_QUERY;
    open_resolver(&resolver, 8, 2, true);
    submit(&resolver, 1, "sip:host.example:5070", &by_udp, WOKHLEAS_NEVER);
    submit(&resolver, 2, "sip:two.example:5070", &by_udp, 1000);
    EXPECT_STATUS(take_query(&resolver, 100, &query), WOKHLEAS_OK);
    EXPECT_STATUS(take_query(&resolver, 100, &query), WOKHLEAS_NOTHING);
    expect_left(&resolver, 100, 900);
    EXPECT_STATUS(take_query(&resolver, 1000, &query), WOKHLEAS_NOTHING);
    EXPECT_OUTCOMES(&resolver, "2: no answer A two.example.");
    wokhleas_close(&resolver);
}

static void test_give_up(void) {
    wokhleas_resolver resolver = WOKHLEAS_RESOLVER_INIT;
    struct query query = NO_QUERY;
    struct reply reply;
    open_resolver(&resolver, 8, 8, true);
    EXPECT_STATUS(wokhleas_give_up(&resolver, 0), WOKHLEAS_NOTHING);
    submit(&resolver, 1, "sip:host.example:5070", &by_udp, WOKHLEAS_NEVER);
    submit(&resolver, 2, "sip:host.example:5071", &by_udp, WOKHLEAS_NEVER);
    EXPECT_STATUS(take_query(&resolver, 0, &query), WOKHLEAS_OK);
    EXPECT_STATUS(take_query(&resolver, 0, &(struct query){ .type = 0 }), WOKHLEAS_NOTHING);
    EXPECT_STATUS(wokhleas_give_up(&resolver, query.message.query ^ 1), WOKHLEAS_NOTHING);
    EXPECT_NO_OUTCOME(&resolver);
    EXPECT_STATUS(wokhleas_give_up(&resolver, query.message.query), WOKHLEAS_OK);
    EXPECT_STATUS(wokhleas_give_up(&resolver, query.message.query), WOKHLEAS_NOTHING);
    begin_reply(&reply, &query, 0);
    add_answer(&reply, &query, 300, "A 192.0.2.7");
    EXPECT_STATUS(hand_in(&resolver, 0, WOKHLEAS_DATAGRAM, &reply), WOKHLEAS_NOTHING);
    EXPECT(serve(&resolver, 0, zone), 0);
    EXPECT_OUTCOMES(&resolver, "1: no server A host.example.", "2: no server A host.example.");
    submit(&resolver, 1, "sip:host.example:5070", &by_udp, WOKHLEAS_NEVER); /* the answer was not kept */
    EXPECT(serve(&resolver, 0, zone), 1);
    EXPECT_OUTCOMES(&resolver, "1: udp 192.0.2.7 5070");
    wokhleas_close(&resolver);
}

int main(void) {
    test_requests();
    test_target();
    test_question();
    test_bad_replies();
    test_shared_answers();
    test_one_question();
    test_sends_in_vain();
    test_full_seconds();
    test_until_with_question();
    test_until_over();
    test_until_of_held();
    test_give_up();
    return finish();
}
