/* Many requests: first 1,000 are inside at once, each to a domain of its own, and another follows for each that ends;
 * then they come one after the other, over domains in turn. What the library holds has to stay as it is after the first
 * turn, and so, in a run of the usual numbers, has all that the process has. Then answers that live have to be kept while
 * those of 5,000 other domains come. Last, those of 5,000 domains have to be kept that all live, where there are groups
 * enough for them. Replies are made in memory.
 *
 * usage: many [REQUESTS DOMAINS]     (100000 and 20000, where these are not given) */
#include "allocations.h"
#include "harness.h"

#include <inttypes.h>
#include <stdio.h>
#include <stdlib.h>
#include <string.h>
#include <unistd.h>

enum { INSIDE = 1000, QUESTIONS = 512, NOW = 1000 };

static const uint8_t udp[] = { WOKHLEAS_UDP };
static const wokhleas_caps by_udp = { udp, 1, WOKHLEAS_V4 };

/* ---- domains: dNNNNN.example has a NAPTR record, which leads to an SRV record, which leads to an address */

static int submit_to(wokhleas_resolver *resolver, uint64_t number, unsigned domain) {
    char uri[64];
    snprintf(uri, sizeof uri, "sip:user@d%05u.example", domain);
    return submit(resolver, number, uri, &by_udp, WOKHLEAS_NEVER);
}

static void address_of(unsigned domain, char *text, size_t size) {
    snprintf(text, size, "10.%u.%u.%u", domain >> 16 & 255, domain >> 8 & 255, domain & 255);
}

/* Answers a query at a time; the answer lives so many seconds. */
static void answer_at(wokhleas_resolver *resolver, const struct query *query, uint64_t now, uint32_t life) {
    struct reply reply;
    char data[128] = "A ";
    unsigned domain = 0;
    size_t length = strlen(query->name);
    HOLDS(length >= 14 && sscanf(query->name + length - 14, "d%5u.example", &domain) == 1);
    if (query->type == TYPE_NAPTR)
        snprintf(data, sizeof data, "NAPTR 1 1 s SIP+D2U _sip._udp.d%05u.example", domain);
    else if (query->type == TYPE_SRV)
        snprintf(data, sizeof data, "SRV 1 1 %u host.d%05u.example", 5060 + domain % 1000, domain);
    else
        address_of(domain, data + 2, sizeof data - 2);
    begin_reply(&reply, query, 0);
    add_answer(&reply, query, life, data);
    HOLDS(hand_in(resolver, now, query->message.over, &reply) == WOKHLEAS_OK);
}

static void answer(wokhleas_resolver *resolver, const struct query *query) {
    answer_at(resolver, query, NOW, 300);
}

/* Whether this is the outcome of a request to a domain. */
static bool is_outcome(const char *outcome, uint64_t number, unsigned domain) {
    char address[24], wanted[64];
    address_of(domain, address, sizeof address);
    snprintf(wanted, sizeof wanted, "%" PRIu64 ": udp %s %u", number, address, 5060 + domain % 1000);
    return strcmp(outcome, wanted) == 0;
}

/* ---- at once: request N goes to domain N */

struct crowd {
    wokhleas_resolver resolver;
    size_t begun, ended, right, beyond; /* beyond: requests that came in where as many as can be were inside */
    struct query out[2 * QUESTIONS];
    size_t out_count, most_out;
};

static void fill_up(struct crowd *crowd, size_t total) {
    while (crowd->begun < total) {
        int status = submit_to(&crowd->resolver, crowd->begun, (unsigned)crowd->begun);
        if (status == WOKHLEAS_EFULL) return;
        HOLDS(status == WOKHLEAS_OK);
        if (crowd->begun - crowd->ended >= INSIDE) crowd->beyond++;
        crowd->begun++;
    }
}

/* Whether no other query that is out has the name of the one that was taken last. */
static bool is_of_its_own(const struct crowd *crowd) {
    uint32_t name = crowd->out[crowd->out_count].message.query;
    for (size_t at = 0; at < crowd->out_count; at++)
        if (crowd->out[at].message.query == name) return false;
    return true;
}

/* Takes all queries, and answers half of those that are out, the last first. */
static void answer_half(struct crowd *crowd) {
    size_t half;
    while (crowd->out_count < 2 * QUESTIONS &&
           take_query(&crowd->resolver, NOW, crowd->out + crowd->out_count) == WOKHLEAS_OK) {
        HOLDS(is_of_its_own(crowd));
        crowd->out_count++;
    }
    if (crowd->out_count > crowd->most_out) crowd->most_out = crowd->out_count;
    for (half = crowd->out_count / 2; crowd->out_count > half; crowd->out_count--)
        answer(&crowd->resolver, crowd->out + crowd->out_count - 1);
}

static void take_outcomes(struct crowd *crowd) {
    const char *outcome;
    while (strcmp(outcome = next_outcome(&crowd->resolver), "nothing") != 0) {
        uint64_t number = strtoull(outcome, NULL, 10);
        crowd->right += is_outcome(outcome, number, (unsigned)number);
        crowd->ended++;
    }
}

static void test_at_once(size_t total) {
    static struct crowd crowd = { .resolver = WOKHLEAS_RESOLVER_INIT };
    EXPECT_STATUS(open_resolver(&crowd.resolver, INSIDE, QUESTIONS, true), WOKHLEAS_OK);
    for (size_t turns = 0; crowd.ended < total && turns < 20 * total; turns++) {
        fill_up(&crowd, total);
        answer_half(&crowd);
        take_outcomes(&crowd);
    }
    EXPECT(crowd.ended, total);
    EXPECT(crowd.right, total);
    EXPECT(crowd.beyond, 0);
    EXPECT(crowd.most_out, QUESTIONS);
    EXPECT(crowd.out_count, 0);
    wokhleas_close(&crowd.resolver);
    EXPECT(octets_held(), 0);
}

/* ---- one after the other */

/* Locates so many requests, to domains in turn, and says how many had the right target. */
static size_t locate(wokhleas_resolver *resolver, size_t count, size_t domains) {
    size_t right = 0;
    for (size_t number = 0; number < count; number++) {
        unsigned domain = (unsigned)(number % domains);
        struct query query = NO_QUERY;
        HOLDS(submit_to(resolver, number, domain) == WOKHLEAS_OK);
        while (take_query(resolver, NOW, &query) == WOKHLEAS_OK) answer(resolver, &query);
        right += is_outcome(next_outcome(resolver), number, domain);
        HOLDS(strcmp(next_outcome(resolver), "nothing") == 0);
    }
    return right;
}

/* The octets of memory that the process has. */
static size_t resident(void) {
    size_t all, pages = 0;
    FILE *file = fopen("/proc/self/statm", "r");
    if (file == NULL) return 0;
    if (fscanf(file, "%zu %zu", &all, &pages) != 2) pages = 0;
    fclose(file);
    return pages * (size_t)sysconf(_SC_PAGESIZE);
}

static void test_in_turn(size_t total, size_t domains, bool is_usual) {
    wokhleas_resolver resolver = WOKHLEAS_RESOLVER_INIT;
    size_t first, process;
    EXPECT_STATUS(open_resolver(&resolver, INSIDE, QUESTIONS, true), WOKHLEAS_OK);
    begin_peak();
    EXPECT(locate(&resolver, domains, domains), domains);
    first = peak_octets();
    process = resident();
    begin_peak();
    EXPECT(locate(&resolver, total - domains, domains), total - domains);
    EXPECT(peak_octets() <= first + first / 100, true);
    if (is_usual) EXPECT(resident() <= process + (1 << 20), true);
    printf("held at most: %zu octets in the first turn, %zu then; by the process %zu and %zu\n", first, peak_octets(),
           process, resident());
    wokhleas_close(&resolver);
    EXPECT(octets_held(), 0);
}

/* ---- answers that live are kept, however many others come */

enum { DAY = 86400, OTHERS = 5000 };

/* Locates a domain whose answers live so many seconds, and says how many queries that took. */
static size_t queries_for(wokhleas_resolver *resolver, uint64_t now, unsigned domain, uint32_t life) {
    size_t count = 0;
    struct query query = NO_QUERY;
    HOLDS(submit_to(resolver, domain, domain) == WOKHLEAS_OK);
    for (; take_query(resolver, now, &query) == WOKHLEAS_OK; count++) answer_at(resolver, &query, now, life);
    HOLDS(is_outcome(next_outcome(resolver), domain, domain));
    HOLDS(strcmp(next_outcome(resolver), "nothing") == 0);
    return count;
}

/* Answers that live a day are asked for once a day, where those of other domains, two seconds apart, live one. */
static void test_kept(void) {
    wokhleas_resolver resolver = WOKHLEAS_RESOLVER_INIT;
    uint64_t now = NOW;
    EXPECT_STATUS(open_resolver(&resolver, INSIDE, QUESTIONS, true), WOKHLEAS_OK);
    EXPECT(queries_for(&resolver, now, 0, DAY), 3);
    for (unsigned domain = 1; domain <= OTHERS; domain++) {
        now += 2000;
        HOLDS(queries_for(&resolver, now, domain, 1) == 3);
        if (domain % 500 == 0) EXPECT(queries_for(&resolver, now, 0, DAY), 0);
    }
    EXPECT(queries_for(&resolver, now, OTHERS + 1, DAY), 3); /* there is room for new ones still */
    EXPECT(queries_for(&resolver, now, OTHERS + 1, DAY), 0);
    EXPECT(queries_for(&resolver, NOW + DAY * 1000ull - 1, 0, DAY), 0);
    EXPECT(queries_for(&resolver, NOW + DAY * 1000ull, 0, DAY), 3);
    wokhleas_close(&resolver);
    EXPECT(octets_held(), 0);
}

/* With room for them, all answers that live are kept: the second turn asks nothing. */
static void test_room(size_t domains, size_t groups, bool is_enough) {
    wokhleas_resolver resolver = WOKHLEAS_RESOLVER_INIT;
    size_t asked = 0, again = 0;
    EXPECT_STATUS(open_with_groups(&resolver, INSIDE, QUESTIONS, true, groups), WOKHLEAS_OK);
    for (unsigned domain = 0; domain < domains; domain++) asked += queries_for(&resolver, NOW, domain, DAY);
    for (unsigned domain = 0; domain < domains; domain++) again += queries_for(&resolver, NOW, domain, DAY);
    EXPECT(asked, 3 * domains);
    EXPECT(again == 0, is_enough);
    wokhleas_close(&resolver);
    EXPECT(octets_held(), 0);
}

int main(int count, char **words) {
    size_t total = count == 3 ? strtoul(words[1], NULL, 10) : 100000;
    size_t domains = count == 3 ? strtoul(words[2], NULL, 10) : 20000;
    if (domains == 0 || domains > 65536 || total < domains) {
        fputs("usage: many [REQUESTS DOMAINS]\n", stderr);
        return 4;
    }
    test_at_once(domains);
    test_in_turn(total, domains, count != 3);
    test_kept();
    test_room(5000, 512, true);
    test_room(5000, 64, false);
    return finish();
}
