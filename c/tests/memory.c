/* Memory: each allocation of a run is refused, once alone and once with all that follow. Where a call gives
 * WOKHLEAS_ENOMEM, all is as it was, so it goes well when there is memory again. A request ends as ever, or with
 * WOKHLEAS_NO_MEMORY. All memory goes back. */
#include "allocations.h"
#include "harness.h"

#include <stdio.h>
#include <string.h>

static const uint8_t udp[] = { WOKHLEAS_UDP };
static const wokhleas_caps by_udp = { udp, 1, WOKHLEAS_V4 };

static const struct record zone[] = {
    { "example.com", "NAPTR 10 10 s SIP+D2U _sip._udp.example.com" },
    { "_sip._udp.example.com", "SRV 10 0 5080 host.example" },
    { "_sip._udp.example.com", "SRV 20 0 5090 two.example" },
    { "host.example", "A 192.0.2.7" },
    { "two.example", "A 192.0.2.8" },
    { NULL, NULL },
};

static size_t statuses, outcomes; /* how many said that there is no memory */

/* Whether a call found no memory. Then one was refused, and from now on there is memory. */
static bool has_memory_again(int status) {
    if (status != WOKHLEAS_ENOMEM) return false;
    HOLDS(end_refusals());
    statuses++;
    return true;
}

static void open_at_last(wokhleas_resolver *resolver) {
    int status = open_resolver(resolver, 4, 4, true);
    if (found_none(status)) {
        HOLDS(wokhleas_cancel(resolver, 1) == WOKHLEAS_ECLOSED);
        HOLDS(octets_held() == 0);
        status = open_resolver(resolver, 4, 4, true);
    }
    HOLDS(status == WOKHLEAS_OK);
}

static void submit_at_last(wokhleas_resolver *resolver, uint64_t number, const char *text) {
    int status = submit(resolver, number, text, &by_udp, WOKHLEAS_NEVER);
    if (found_none(status)) {
        HOLDS(wokhleas_cancel(resolver, number) == WOKHLEAS_NOTHING);
        status = submit(resolver, number, text, &by_udp, WOKHLEAS_NEVER);
    }
    HOLDS(status == WOKHLEAS_OK);
}

/* Answers all queries but those of nobody.example, of which there is no server. */
static void serve_at_last(wokhleas_resolver *resolver) {
    struct query query = NO_QUERY;
    struct reply reply;
    int status;
    while ((status = take_query(resolver, 0, &query)) == WOKHLEAS_OK) {
        if (strcmp(query.name, "nobody.example") == 0) {
            HOLDS(wokhleas_give_up(resolver, query.message.query) == WOKHLEAS_OK);
            continue;
        }
        begin_reply(&reply, &query, 0);
        for (const struct record *it = zone; it->name != NULL; it++)
            if (strcmp(it->name, query.name) == 0) add_answer(&reply, &query, 300, it->data);
        status = hand_in(resolver, 0, WOKHLEAS_DATAGRAM, &reply);
        if (found_none(status)) status = hand_in(resolver, 0, WOKHLEAS_DATAGRAM, &reply);
        HOLDS(status == WOKHLEAS_OK);
    }
    HOLDS(status == WOKHLEAS_NOTHING);
}

/* Takes the outcomes of the requests from 1 to 3. */
static void take_outcomes(wokhleas_resolver *resolver) {
    static const char *const wanted[] = {
        "1: udp 192.0.2.7 5080, udp 192.0.2.8 5090", "2: udp 192.0.2.1 5060", "3: no server A nobody.example.",
    };
    bool came[3] = { false, false, false };
    for (int at = 0; at < 3; at++) {
        const char *outcome = next_outcome(resolver);
        unsigned number = 0;
        bool is_number = sscanf(outcome, "%u:", &number) == 1 && number >= 1 && number <= 3 && !came[number - 1];
        HOLDS(is_number);
        if (!is_number) return;
        came[number - 1] = true;
        if (strstr(outcome, ": no memory") != NULL) outcomes++;
        else HOLDS(strcmp(outcome, wanted[number - 1]) == 0);
    }
    HOLDS(strcmp(next_outcome(resolver), "nothing") == 0);
}

/* A run in which so many allocations are granted first; whether one was refused. */
static bool run(size_t granted, bool all) {
    wokhleas_resolver resolver = WOKHLEAS_RESOLVER_INIT;
    size_t statuses_before = statuses, outcomes_before = outcomes;
    bool refused;
    refuse_after(granted, all);
    open_at_last(&resolver);
    submit_at_last(&resolver, 1, "sip:user@example.com");
    submit_at_last(&resolver, 2, "sip:192.0.2.1");
    submit_at_last(&resolver, 3, "sip:nobody.example:5060");
    serve_at_last(&resolver);
    take_outcomes(&resolver);
    refused = end_refusals();
    wokhleas_close(&resolver);
    EXPECT(octets_held(), 0);
    if (!refused) EXPECT(statuses - statuses_before + outcomes - outcomes_before, 0);
    return refused;
}

/* Memory is needed only for what would be taken in: a request that can't be is told of that, also without memory. */
static void test_other_reasons(void) {
    static const char text[] = "sip:user@a.host.with.a.name.that.is.long.example;transport=udp";
    wokhleas_resolver resolver = WOKHLEAS_RESOLVER_INIT;
    refuse_after(0, true);
    EXPECT_STATUS(submit(&resolver, 1, text, &by_udp, WOKHLEAS_NEVER), WOKHLEAS_ECLOSED);
    end_refusals();
    open_resolver(&resolver, 2, 2, true);
    EXPECT_STATUS(submit(&resolver, 1, text, &by_udp, WOKHLEAS_NEVER), WOKHLEAS_OK);
    refuse_after(0, true);
    EXPECT_STATUS(submit(&resolver, 2, text, &by_udp, WOKHLEAS_NEVER), WOKHLEAS_ENOMEM);
    EXPECT_STATUS(submit(&resolver, 1, text, &by_udp, WOKHLEAS_NEVER), WOKHLEAS_ETAKEN);
    EXPECT_STATUS(submit(&resolver, 1, "SIP/2.0/UDP a.host.example", &by_udp, WOKHLEAS_NEVER), WOKHLEAS_ETAKEN);
    end_refusals();
    EXPECT_STATUS(submit(&resolver, 2, text, &by_udp, WOKHLEAS_NEVER), WOKHLEAS_OK);
    refuse_after(0, true);
    EXPECT_STATUS(submit(&resolver, 1, text, &by_udp, WOKHLEAS_NEVER), WOKHLEAS_EFULL);
    EXPECT_STATUS(submit(&resolver, 3, "SIP/2.0/UDP a.host.example", &by_udp, WOKHLEAS_NEVER), WOKHLEAS_EFULL);
    EXPECT_STATUS(submit(&resolver, 3, "sip:", &by_udp, WOKHLEAS_NEVER), WOKHLEAS_ESYNTAX);
    end_refusals();
    wokhleas_close(&resolver);
    EXPECT(octets_held(), 0);
}

int main(void) {
    size_t granted[2] = { 0, 0 };
    test_other_reasons();
    found_none = has_memory_again;
    for (int all = 0; all < 2; all++)
        while (run(granted[all], all == 1)) granted[all]++;
    EXPECT(granted[0], granted[1]);
    EXPECT(statuses > 0 && outcomes > 0, true);
    printf("%zu allocations refused: %zu times a status said so, %zu times an outcome\n", granted[0], statuses,
           outcomes);
    return finish();
}
