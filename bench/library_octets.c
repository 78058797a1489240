/* What a resolver of the C library holds of memory, in octets, as its calls of malloc ask for them: open, and of each
 * request inside, question that is out and answer that is kept. It prints lines of a name, a tab and a number. */
#include "../c/tests/allocations.h"
#include "../c/tests/harness.h"

#include <stdio.h>
#include <stdlib.h>

enum { MANY = 200, NOW = 1000 };

static const uint8_t transports[] = { WOKHLEAS_UDP };
static const wokhleas_caps caps = { transports, 1, WOKHLEAS_V4 };

static void tell(const char *name, size_t octets) { printf("%s\t%zu\n", name, octets); }

static void open_with(wokhleas_resolver *resolver, size_t requests, size_t questions) {
    if (open_resolver(resolver, requests, questions, true) != WOKHLEAS_OK) abort();
}

static void tell_opened(const char *name, size_t requests, size_t questions) {
    wokhleas_resolver resolver = WOKHLEAS_RESOLVER_INIT;
    open_with(&resolver, requests, questions);
    tell(name, octets_held());
    wokhleas_close(&resolver);
}

/* Requests to so many hosts, in turn, whose questions go out. */
static void let_wait(wokhleas_resolver *resolver, unsigned hosts) {
    struct query query = NO_QUERY;
    char uri[64];
    for (unsigned number = 0; number < MANY; number++) {
        snprintf(uri, sizeof uri, "sip:host%u.example:5060", number % hosts);
        if (submit(resolver, number, uri, &caps, WOKHLEAS_NEVER) != WOKHLEAS_OK) abort();
    }
    while (take_query(resolver, NOW, &query) == WOKHLEAS_OK) continue;
}

/* The octets of one of MANY requests, which wait for the answers of so many questions. */
static size_t waiting_octets(unsigned hosts) {
    wokhleas_resolver resolver = WOKHLEAS_RESOLVER_INIT;
    size_t before, octets;
    open_with(&resolver, MANY, 2 * MANY);
    before = octets_held();
    let_wait(&resolver, hosts);
    octets = octets_held() - before;
    wokhleas_close(&resolver);
    return octets;
}

/* The octets of one of MANY answers with an address. */
static size_t answer_octets(void) {
    wokhleas_resolver resolver = WOKHLEAS_RESOLVER_INIT;
    size_t before;
    open_with(&resolver, 1, 2);
    before = octets_held();
    for (unsigned number = 0; number < MANY; number++) {
        char uri[80], name[64];
        snprintf(name, sizeof name, "host%u.example", number);
        snprintf(uri, sizeof uri, "sip:%s:5060", name);
        struct record zone[] = { { name, "A 198.18.0.1" }, { NULL, NULL } };
        if (submit(&resolver, number, uri, &caps, WOKHLEAS_NEVER) != WOKHLEAS_OK) abort();
        while (serve(&resolver, NOW, zone) > 0) continue;
        next_outcome(&resolver);
    }
    before = (octets_held() - before) / MANY;
    wokhleas_close(&resolver);
    return before;
}

int main(void) {
    size_t one = waiting_octets(1), each = waiting_octets(MANY);
    tell_opened("open, 1,024 requests and 512 questions", 1024, 512);
    tell_opened("open, 65,536 requests and 8,192 questions", 65536, 8192);
    tell("a request that waits", one / MANY);
    tell("a question that is out", (each - one) / (MANY - 1));
    tell("an answer with an address", answer_octets());
    return 0;
}
