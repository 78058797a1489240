/* Requests over a network and a clock that are made up.
 *
 * Losses: 10,000 requests, of which at most 1,000 are inside at once, and then all of them. The network loses a third of
 * all datagrams, of queries and of replies, and takes up to 3 s from a query to its reply. Each request has 20 s, and ends
 * exactly once, not later than that; where it has targets, they are the right ones.
 *
 * Names: 1,000,000 names in ten minutes, whose answers live for 60 s; each is asked for four times or so, within two
 * minutes. What the library holds, and what the allocator holds for it, does not grow after the first 100,000.
 *
 * usage: network [REQUESTS NAMES]     (10000 and 1000000, where these are not given) */
#include "allocations.h"
#include "harness.h"

#include <inttypes.h>
#include <malloc.h>
#include <stdio.h>
#include <stdlib.h>
#include <string.h>

enum { PATIENCE = 20000, START = 5000, REQUESTS_MOST = 10000 };

struct room {
    size_t requests, questions;
};

static const struct room usual_room = { 1000, 512 }, much_room = { REQUESTS_MOST, 8192 };

static const uint8_t udp[] = { WOKHLEAS_UDP };
static const wokhleas_caps by_udp = { udp, 1, WOKHLEAS_V4 };

static uint64_t drawn = 88172645463325252u;

/* A number below this one, the same in each run (xorshift64). */
static unsigned below(unsigned number) {
    drawn ^= drawn << 13;
    drawn ^= drawn >> 7;
    drawn ^= drawn << 17;
    return (unsigned)((drawn >> 33) % number);
}

/* ---- the network: dN.example has a NAPTR record, which leads to two SRV records, which lead to an address each */

enum { DELAY = 3000, WHEEL = 4096, FLYING = 16384 };

/* A query whose reply comes at a moment. Those of one moment, modulo WHEEL, are in one list: none is out for longer. */
struct flight {
    struct query query;
    struct flight *next;
};

static struct flight flights[FLYING], *unused, *wheel[WHEEL];
static size_t sent, lost, passed_over;

static void clear_network(void) {
    unused = NULL;
    sent = lost = passed_over = 0;
    memset(wheel, 0, sizeof wheel);
    for (size_t at = 0; at < FLYING; at++) {
        flights[at].next = unused;
        unused = flights + at;
    }
}

/* The domain of a name, which has to be one of this network. */
static unsigned domain_of(const char *name) {
    const char *end = strstr(name, ".example");
    unsigned domain = UINT32_MAX;
    while (end != NULL && end > name && end[-1] != 'd') end--;
    HOLDS(end != NULL && end > name && sscanf(end, "%u.example", &domain) == 1);
    return domain;
}

static void write_address(char *text, size_t size, unsigned domain, unsigned server) {
    snprintf(text, size, "10.%u.%u.%u", server, domain >> 8 & 255, domain & 255);
}

static void add_answers(struct reply *reply, const struct query *query, unsigned domain) {
    char data[128] = "A ";
    if (query->type == TYPE_NAPTR) {
        snprintf(data, sizeof data, "NAPTR 1 1 s SIP+D2U _sip._udp.d%u.example", domain);
        add_answer(reply, query, 300, data);
    }
    for (unsigned server = 1; server <= 2 && query->type == TYPE_SRV; server++) {
        snprintf(data, sizeof data, "SRV %u 1 %u h%u.d%u.example", server, 5060 + domain % 1000, server, domain);
        add_answer(reply, query, 300, data);
    }
    if (query->type == TYPE_A) {
        write_address(data + 2, sizeof data - 2, domain, (unsigned)(query->name[1] - '0'));
        add_answer(reply, query, 300, data);
    }
}

/* A reply that comes in: it is taken, or too late. */
static void deliver(wokhleas_resolver *resolver, uint64_t now, const struct query *query) {
    struct reply reply;
    int status;
    begin_reply(&reply, query, 0);
    add_answers(&reply, query, domain_of(query->name));
    status = hand_in(resolver, now, WOKHLEAS_DATAGRAM, &reply);
    HOLDS(status == WOKHLEAS_OK || status == WOKHLEAS_NOTHING);
    passed_over += status == WOKHLEAS_NOTHING;
}

static void deliver_all(wokhleas_resolver *resolver, uint64_t now) {
    struct flight *it = wheel[now % WHEEL], *next;
    wheel[now % WHEEL] = NULL;
    for (; it != NULL; it = next) {
        next = it->next;
        deliver(resolver, now, &it->query);
        it->next = unused;
        unused = it;
    }
}

/* Takes all queries. The network loses them, or their replies, or takes its time. */
static void send_all(wokhleas_resolver *resolver, uint64_t now) {
    struct query query = NO_QUERY;
    for (; take_query(resolver, now, &query) == WOKHLEAS_OK; sent++) {
        struct flight *it = unused;
        uint64_t at = (now + 1 + below(DELAY)) % WHEEL;
        HOLDS(it != NULL && query.message.over == WOKHLEAS_DATAGRAM);
        if (it == NULL || below(3) == 0 || below(3) == 0) {
            lost++;
            continue;
        }
        unused = it->next;
        it->query = query;
        it->next = wheel[at];
        wheel[at] = it;
    }
}

/* The next moment at which a reply comes in, but not after this one. */
static uint64_t next_reply(uint64_t now, uint64_t last) {
    uint64_t at = now + 1;
    while (at < last && wheel[at % WHEEL] == NULL) at++;
    return at;
}

/* ---- losses */

struct crowd {
    wokhleas_resolver resolver;
    size_t total, begun, ended, most_inside, located, in_vain, timed_out, right, late, again;
    uint64_t until[REQUESTS_MOST];
    bool has_ended[REQUESTS_MOST];
};

/* Request N goes to one of a third as many domains: so some ask the same. */
static unsigned domain_for(const struct crowd *crowd, size_t number) {
    return (unsigned)(number * 7919 % (crowd->total / 3));
}

static void fill_up(struct crowd *crowd, uint64_t now) {
    char uri[64];
    for (; crowd->begun < crowd->total; crowd->begun++) {
        int status;
        snprintf(uri, sizeof uri, "sip:user@d%u.example", domain_for(crowd, crowd->begun));
        status = submit(&crowd->resolver, crowd->begun, uri, &by_udp, now + PATIENCE);
        if (status == WOKHLEAS_EFULL) break;
        HOLDS(status == WOKHLEAS_OK);
        crowd->until[crowd->begun] = now + PATIENCE;
    }
    if (crowd->begun - crowd->ended > crowd->most_inside) crowd->most_inside = crowd->begun - crowd->ended;
}

/* Whether a text says that a domain has no answer, or has its targets. */
static bool is_right(struct crowd *crowd, const char *outcome, unsigned domain) {
    char one[24], two[24], wanted[128];
    const char *vain = strstr(outcome, ": no answer ");
    write_address(one, sizeof one, domain, 1);
    write_address(two, sizeof two, domain, 2);
    snprintf(wanted, sizeof wanted, " udp %s %u, udp %s %u", one, 5060 + domain % 1000, two, 5060 + domain % 1000);
    crowd->in_vain += vain != NULL;
    crowd->located += vain == NULL;
    return vain != NULL ? domain_of(vain) == domain : strcmp(strchr(outcome, ':') + 1, wanted) == 0;
}

/* A time is rounded up to whole seconds. */
static uint64_t rounded_up(uint64_t time) { return (time + 999) / 1000 * 1000; }

static void take_outcomes(struct crowd *crowd, uint64_t now) {
    const char *outcome;
    while (strcmp(outcome = next_outcome(&crowd->resolver), "nothing") != 0) {
        uint64_t number = strtoull(outcome, NULL, 10);
        HOLDS(number < crowd->begun);
        if (number >= crowd->begun) return;
        crowd->again += crowd->has_ended[number];
        crowd->timed_out += now >= crowd->until[number];
        crowd->late += now > rounded_up(crowd->until[number]);
        crowd->right += is_right(crowd, outcome, domain_for(crowd, number));
        crowd->has_ended[number] = true;
        crowd->ended++;
    }
}

static void test_losses(size_t total, struct room room) {
    static struct crowd crowd;
    uint64_t now = START, left = 0;
    memset(&crowd, 0, sizeof crowd);
    crowd.total = total;
    clear_network();
    EXPECT_STATUS(open_resolver(&crowd.resolver, room.requests, room.questions, false), WOKHLEAS_OK);
    while (crowd.ended < total && now < START + 100 * PATIENCE) {
        deliver_all(&crowd.resolver, now);
        fill_up(&crowd, now);
        send_all(&crowd.resolver, now);
        take_outcomes(&crowd, now);
        if (wokhleas_timeout(&crowd.resolver, now, &left) != WOKHLEAS_OK) left = 1;
        now = next_reply(now, now + left);
    }
    printf("%zu located, %zu in vain, of which %zu by their own time, in %" PRIu64 " s; %zu queries, %zu of which or "
           "their replies were lost, %zu replies too late\n",
           crowd.located, crowd.in_vain, crowd.timed_out, (now - START) / 1000, sent, lost, passed_over);
    EXPECT(crowd.ended, total);
    EXPECT(crowd.again, 0);
    EXPECT(crowd.late, 0);
    EXPECT(crowd.right, total);
    EXPECT(crowd.most_inside, total < room.requests ? total : room.requests);
    EXPECT(crowd.located > total / 10 && crowd.in_vain > total / 10, true);
    EXPECT_NO_OUTCOME(&crowd.resolver);
    wokhleas_close(&crowd.resolver);
    EXPECT(octets_held(), 0);
}

/* ---- names */

enum { MINUTES = 600000, LIFE = 60 };

static size_t asked, found;

/* Locates a request to nN.example at a port, over one query at most, whose reply comes at once. */
static bool locate(wokhleas_resolver *resolver, uint64_t now, unsigned name) {
    char uri[64], data[32];
    uint8_t octets[WOKHLEAS_QUERY_ROOM];
    struct reply reply;
    struct query query = NO_QUERY;
    wokhleas_outcome outcome;
    wokhleas_target target;
    int length = snprintf(uri, sizeof uri, "sip:n%u.example:5080", name);
    HOLDS(wokhleas_submit(resolver, name, uri, (size_t)length, &by_udp, WOKHLEAS_NEVER) == WOKHLEAS_OK);
    for (; wokhleas_transmit(resolver, now, octets, sizeof octets, &query.message) == WOKHLEAS_OK; asked++) {
        memcpy(query.octets, octets, query.message.length);
        query.question = query.message.length;
        query.type = TYPE_A;
        snprintf(data, sizeof data, "A 10.%u.%u.%u", name >> 16, name >> 8 & 255, name & 255);
        begin_reply(&reply, &query, 0);
        add_answer(&reply, &query, LIFE, data);
        HOLDS(wokhleas_receive(resolver, now, WOKHLEAS_DATAGRAM, reply.octets, reply.length) == WOKHLEAS_OK);
    }
    return wokhleas_next(resolver, &outcome) == WOKHLEAS_OK && outcome.number == name && outcome.targets == 1 &&
           wokhleas_get_target(resolver, 0, &target) == WOKHLEAS_OK && target.port == 5080 &&
           (uint32_t)target.address[0] << 24 == 10u << 24 &&
           ((unsigned)target.address[1] << 16 | (unsigned)target.address[2] << 8 | target.address[3]) == name;
}

/* Names from one to another: each is asked for when its time has come, and with it three of the last two minutes. */
static void locate_names(wokhleas_resolver *resolver, unsigned first, unsigned end, unsigned total) {
    unsigned two_minutes = total / 5;
    for (unsigned name = first; name < end; name++) {
        uint64_t now = START + (uint64_t)name * MINUTES / total;
        found += locate(resolver, now, name);
        for (int other = 0; other < 3; other++)
            found += locate(resolver, now, name - below(name < two_minutes ? name + 1 : two_minutes));
    }
}

/* What the allocator took from the system, and what of it is lent. */
static size_t taken(void) {
    struct mallinfo2 info = mallinfo2();
    return info.arena + info.hblkhd;
}

static size_t lent(void) {
    struct mallinfo2 info = mallinfo2();
    return info.uordblks + info.hblkhd;
}

static void test_names(unsigned total, bool is_usual) {
    wokhleas_resolver resolver = WOKHLEAS_RESOLVER_INIT;
    unsigned part = total / 10;
    size_t first, first_taken, most_lent = 0, first_lent;
    EXPECT_STATUS(open_resolver(&resolver, usual_room.requests, usual_room.questions, false), WOKHLEAS_OK);
    begin_peak();
    locate_names(&resolver, 0, part, total);
    first = peak_octets();
    first_taken = taken();
    first_lent = lent();
    begin_peak();
    for (unsigned at = 1; at < 10; at++) {
        locate_names(&resolver, at * part, (at + 1) * part, total);
        if (lent() > most_lent) most_lent = lent();
    }
    EXPECT(found, 4 * (size_t)(10 * part));
    EXPECT(asked >= total, true);
    if (is_usual) { /* in the first of fewer names no answer would have been let go yet */
        EXPECT(peak_octets() <= first + first / 100, true);
        EXPECT(most_lent <= first + first / 100, true);
        EXPECT(taken() <= first_taken + (1 << 20), true);
    }
    printf("%zu requests, %zu queries; held at most: %zu octets in the first part, %zu then; lent after parts: %zu, %zu "
           "then; the allocator has %zu and %zu\n",
           found, asked, first, peak_octets(), first_lent, most_lent, first_taken, taken());
    wokhleas_close(&resolver);
    EXPECT(octets_held(), 0);
}

int main(int count, char **words) {
    size_t requests = count == 3 ? strtoul(words[1], NULL, 10) : REQUESTS_MOST;
    size_t names = count == 3 ? strtoul(words[2], NULL, 10) : 1000000;
    if (requests < 3 || requests > REQUESTS_MOST || names < 10 || names > 1 << 24) {
        fputs("usage: network [REQUESTS NAMES]\n", stderr);
        return 4;
    }
    test_losses(requests, usual_room);
    test_losses(requests, much_room);
    test_names((unsigned)names, count != 3);
    return finish();
}
