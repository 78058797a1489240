/* A reply that was cut (TC, RFC 1035 4.1.1): its question goes over a stream next, where the caller has streams; else
 * the requests that wait for it end. */
#include "harness.h"

static const uint8_t udp[] = { WOKHLEAS_UDP };
static const wokhleas_caps by_udp = { udp, 1, WOKHLEAS_V4 };

/* Opens a resolver, and hands in a cut reply to the question of two requests. */
static void begin_cut(wokhleas_resolver *resolver, bool streams) {
    struct query sent = NO_QUERY, *query = &sent;
    struct reply reply;
    EXPECT_STATUS(open_resolver(resolver, 8, 2, streams), WOKHLEAS_OK);
    submit(resolver, 1, "sip:host.example:5070", &by_udp, WOKHLEAS_NEVER);
    submit(resolver, 2, "sip:host.example:5071", &by_udp, WOKHLEAS_NEVER);
    EXPECT_STATUS(take_query(resolver, 500, query), WOKHLEAS_OK);
    EXPECT(query->message.over, WOKHLEAS_DATAGRAM);
    EXPECT_STATUS(take_query(resolver, 500, query), WOKHLEAS_NOTHING);
    begin_reply(&reply, query, TRUNCATED);
    add_answer(&reply, query, 300, "A 192.0.2.1"); /* of a cut reply nothing counts */
    EXPECT_STATUS(hand_in(resolver, 500, WOKHLEAS_DATAGRAM, &reply), WOKHLEAS_OK);
    EXPECT_STATUS(hand_in(resolver, 500, WOKHLEAS_DATAGRAM, &reply), WOKHLEAS_NOTHING);
}

/* Takes the query over a stream, for which both requests wait then. */
static void take_from_stream(wokhleas_resolver *resolver, uint64_t now, unsigned send, struct query *query) {
    EXPECT_STATUS(take_query(resolver, now, query), WOKHLEAS_OK);
    EXPECT(query->message.over, WOKHLEAS_STREAM);
    EXPECT(query->message.send, send);
    EXPECT_TEXT(query->name, "host.example");
    EXPECT(query->type, TYPE_A);
    EXPECT_STATUS(take_query(resolver, now, query), WOKHLEAS_NOTHING);
}

static void test_answer(void) {
    wokhleas_resolver resolver = WOKHLEAS_RESOLVER_INIT;
    struct query query = NO_QUERY;
    struct reply reply;
    begin_cut(&resolver, true);
    EXPECT_NO_OUTCOME(&resolver);
    take_from_stream(&resolver, 500, 1, &query);
    begin_reply(&reply, &query, 0);
    add_answer(&reply, &query, 300, "A 192.0.2.7");
    EXPECT_STATUS(hand_in(&resolver, 500, WOKHLEAS_DATAGRAM, &reply), WOKHLEAS_NOTHING);
    EXPECT_STATUS(hand_in(&resolver, 500, WOKHLEAS_STREAM, &reply), WOKHLEAS_OK);
    EXPECT_STATUS(hand_in(&resolver, 500, WOKHLEAS_STREAM, &reply), WOKHLEAS_NOTHING);
    EXPECT_STATUS(take_query(&resolver, 500, &query), WOKHLEAS_NOTHING);
    EXPECT_OUTCOMES(&resolver, "1: udp 192.0.2.7 5070", "2: udp 192.0.2.7 5071");
    submit(&resolver, 3, "sip:host.example:5072", &by_udp, WOKHLEAS_NEVER); /* the answer is kept */
    EXPECT_STATUS(take_query(&resolver, 500, &query), WOKHLEAS_NOTHING);
    EXPECT_OUTCOMES(&resolver, "3: udp 192.0.2.7 5072");
    wokhleas_close(&resolver);
}

/* The caller has no streams. */
static void test_without_streams(void) {
    wokhleas_resolver resolver = WOKHLEAS_RESOLVER_INIT;
    struct query query = NO_QUERY;
    uint64_t left;
    begin_cut(&resolver, false);
    EXPECT_STATUS(take_query(&resolver, 500, &query), WOKHLEAS_NOTHING);
    EXPECT_OUTCOMES(&resolver, "1: bad reply 0 A host.example.", "2: bad reply 0 A host.example.");
    EXPECT_KEEPS(wokhleas_timeout(&resolver, 500, &left), WOKHLEAS_NOTHING, &left);
    wokhleas_close(&resolver);
}

/* A reply over a stream that was cut too. */
static void test_cut_again(void) {
    wokhleas_resolver resolver = WOKHLEAS_RESOLVER_INIT;
    struct query query = NO_QUERY;
    struct reply reply;
    begin_cut(&resolver, true);
    take_from_stream(&resolver, 500, 1, &query);
    begin_reply(&reply, &query, TRUNCATED);
    EXPECT_STATUS(hand_in(&resolver, 500, WOKHLEAS_STREAM, &reply), WOKHLEAS_OK);
    EXPECT_STATUS(take_query(&resolver, 500, &query), WOKHLEAS_NOTHING);
    EXPECT_OUTCOMES(&resolver, "1: bad reply 0 A host.example.", "2: bad reply 0 A host.example.");
    wokhleas_close(&resolver);
}

/* Over a stream a question is sent three times too. */
static void test_sends_in_vain(void) {
    static const uint64_t sent[] = { 600, 2100, 4100 };
    wokhleas_resolver resolver = WOKHLEAS_RESOLVER_INIT;
    struct query query = NO_QUERY;
    begin_cut(&resolver, true);
    for (int at = 0; at < 3; at++) {
        take_from_stream(&resolver, sent[at], (unsigned)at + 1, &query);
        EXPECT_STATUS(take_query(&resolver, sent[at] + 999, &query), WOKHLEAS_NOTHING);
    }
    EXPECT_STATUS(take_query(&resolver, 6000, &query), WOKHLEAS_NOTHING);
    EXPECT_OUTCOMES(&resolver, "1: no answer A host.example.", "2: no answer A host.example.");
    wokhleas_close(&resolver);
}

static void test_give_up(void) {
    wokhleas_resolver resolver = WOKHLEAS_RESOLVER_INIT;
    struct query query = NO_QUERY;
    begin_cut(&resolver, true);
    take_from_stream(&resolver, 500, 1, &query);
    EXPECT_STATUS(wokhleas_give_up(&resolver, query.message.query), WOKHLEAS_OK);
    EXPECT_STATUS(wokhleas_give_up(&resolver, query.message.query), WOKHLEAS_NOTHING);
    EXPECT_OUTCOMES(&resolver, "1: no server A host.example.", "2: no server A host.example.");
    wokhleas_close(&resolver);
}

/* One question is out over a stream: another may be out over datagrams. */
static void test_limits(void) {
    wokhleas_resolver resolver = WOKHLEAS_RESOLVER_INIT;
    struct query over_stream = NO_QUERY, over_datagram = NO_QUERY;
    begin_cut(&resolver, true);
    take_from_stream(&resolver, 500, 1, &over_stream);
    submit(&resolver, 3, "sip:two.example:5070", &by_udp, WOKHLEAS_NEVER);
    EXPECT_STATUS(take_query(&resolver, 500, &over_datagram), WOKHLEAS_OK);
    EXPECT(over_datagram.message.over, WOKHLEAS_DATAGRAM);
    EXPECT(over_datagram.message.query != over_stream.message.query, true);
    EXPECT_STATUS(wokhleas_cancel(&resolver, 1), WOKHLEAS_OK);
    EXPECT_STATUS(wokhleas_cancel(&resolver, 2), WOKHLEAS_OK);
    EXPECT_STATUS(wokhleas_give_up(&resolver, over_stream.message.query), WOKHLEAS_NOTHING); /* none waits for it */
    EXPECT_STATUS(wokhleas_give_up(&resolver, over_datagram.message.query), WOKHLEAS_OK);
    EXPECT_OUTCOMES(&resolver, "3: no server A two.example.");
    wokhleas_close(&resolver);
}

int main(void) {
    test_answer();
    test_without_streams();
    test_cut_again();
    test_sends_in_vain();
    test_give_up();
    test_limits();
    return finish();
}
