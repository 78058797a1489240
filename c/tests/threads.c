/* A resolver that goes from thread to thread: one opens it, four submit requests, two answer its queries, two take its
 * outcomes, each call under a lock, and another one closes it. */
#include "allocations.h"
#include "harness.h"

#include <pthread.h>
#include <sched.h>
#include <stdio.h>
#include <string.h>

enum { SUBMITTERS = 4, EACH = 400, REQUESTS = SUBMITTERS * EACH, TURNS = 1000000, NOW = 1000 };

static const uint8_t udp[] = { WOKHLEAS_UDP };
static const wokhleas_caps by_udp = { udp, 1, WOKHLEAS_V4 };

static wokhleas_resolver resolver = WOKHLEAS_RESOLVER_INIT;
static pthread_mutex_t lock = PTHREAD_MUTEX_INITIALIZER;
static bool is_taken[REQUESTS]; /* the outcome of the request of this number */
static unsigned submitted, taken;
static int opened;

/* ---- calls, by who has the lock */

/* The request of a number is to a host of the number's own, under one of 50 domains. */
static void submit_one(unsigned number) {
    char uri[64];
    snprintf(uri, sizeof uri, "sip:h%u.d%u.example:5070", number, number % 50);
    HOLDS(submit(&resolver, number, uri, &by_udp, WOKHLEAS_NEVER) == WOKHLEAS_OK);
}

/* Answers a query, if one is to be sent: the address of a host is made of its number. */
static void answer_one(void) {
    struct query query = NO_QUERY;
    struct reply reply;
    unsigned number = 0;
    char data[32];
    if (take_query(&resolver, NOW, &query) != WOKHLEAS_OK) return;
    HOLDS(sscanf(query.name, "h%u.", &number) == 1 && query.type == TYPE_A);
    snprintf(data, sizeof data, "A 10.1.%u.%u", number >> 8, number & 255);
    begin_reply(&reply, &query, 0);
    add_answer(&reply, &query, 300, data);
    HOLDS(hand_in(&resolver, NOW, query.message.over, &reply) == WOKHLEAS_OK);
}

/* Takes an outcome, if a request has ended: each is right, and comes once. */
static void take_one(void) {
    const char *outcome = next_outcome(&resolver);
    unsigned number = REQUESTS;
    char wanted[64];
    if (strcmp(outcome, "nothing") == 0) return;
    sscanf(outcome, "%u: ", &number);
    snprintf(wanted, sizeof wanted, "%u: udp 10.1.%u.%u 5070", number, number >> 8, number & 255);
    HOLDS(number < REQUESTS && !is_taken[number] && strcmp(outcome, wanted) == 0);
    if (number < REQUESTS) is_taken[number] = true;
    taken++;
}

/* ---- threads */

static void *submit_all(void *context) {
    for (unsigned turn = 0; turn < EACH; turn++) {
        pthread_mutex_lock(&lock);
        submit_one(submitted++);
        pthread_mutex_unlock(&lock);
        sched_yield();
    }
    return context;
}

/* Does its part until all outcomes were taken. */
static void *help(void *context) {
    void (*const *part)(void) = context;
    bool is_done = false;
    for (unsigned turn = 0; turn < TURNS && !is_done; turn++) {
        pthread_mutex_lock(&lock);
        (*part)();
        is_done = taken == REQUESTS;
        pthread_mutex_unlock(&lock);
        sched_yield();
    }
    return NULL;
}

static void *open_it(void *context) {
    opened = open_resolver(&resolver, REQUESTS, 64, true);
    return context;
}

static void *close_it(void *context) {
    wokhleas_close(&resolver);
    return context;
}

static void begin(pthread_t *thread, void *(*call)(void *), void *context) {
    EXPECT(pthread_create(thread, NULL, call, context), 0);
}

static void end(pthread_t thread) {
    EXPECT(pthread_join(thread, NULL), 0);
}

int main(void) {
    static void (*const parts[])(void) = { answer_one, take_one, answer_one, take_one };
    enum { PARTS = sizeof parts / sizeof *parts };
    pthread_t alone, helpers[PARTS], submitters[SUBMITTERS];
    begin(&alone, open_it, NULL);
    end(alone);
    EXPECT_STATUS(opened, WOKHLEAS_OK);
    for (unsigned at = 0; at < PARTS; at++) begin(&helpers[at], help, (void *)&parts[at]);
    for (unsigned at = 0; at < SUBMITTERS; at++) begin(&submitters[at], submit_all, NULL);
    for (unsigned at = 0; at < SUBMITTERS; at++) end(submitters[at]);
    for (unsigned at = 0; at < PARTS; at++) end(helpers[at]);
    EXPECT(taken, REQUESTS);
    begin(&alone, close_it, NULL);
    end(alone);
    EXPECT(octets_held(), 0);
    return finish();
}
