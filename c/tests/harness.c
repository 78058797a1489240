/* What the tests share, as harness.h says. Messages are those of RFC 1035 4.1. */
#include "harness.h"

#include <arpa/inet.h>
#include <ctype.h>
#include <inttypes.h>
#include <stdarg.h>
#include <stdio.h>
#include <stdlib.h>
#include <string.h>

enum { HEADER = 12, FILLED = 0xa5 };

static int passed, failed;

/* ---- expectations */

static void count(bool is_so) {
    if (is_so) passed++;
    else failed++;
}

void holds(const char *file, int line, const char *what, bool is_so) {
    if (is_so) return;
    failed++;
    printf("%s:%d: %s does not hold\n", file, line, what);
}

void expect(const char *file, int line, const char *what, uint64_t is, uint64_t wanted) {
    count(is == wanted);
    if (is != wanted) printf("%s:%d: %s: %" PRIu64 " in place of %" PRIu64 "\n", file, line, what, is, wanted);
}

void expect_status(const char *file, int line, const char *what, int is, int wanted) {
    count(is == wanted);
    if (is == wanted) return;
    printf("%s:%d: %s: %d (%s) in place of %d (%s)\n", file, line, what, is, wokhleas_strerror(is), wanted,
           wokhleas_strerror(wanted));
}

void expect_text(const char *file, int line, const char *what, const char *is, const char *wanted) {
    count(strcmp(is, wanted) == 0);
    if (strcmp(is, wanted) != 0) printf("%s:%d: %s: '%s' in place of '%s'\n", file, line, what, is, wanted);
}

void fill(void *object, size_t size) { memset(object, FILLED, size); }

bool is_filled(const void *object, size_t size) {
    const uint8_t *octets = object;
    for (size_t at = 0; at < size; at++)
        if (octets[at] != FILLED) return false;
    return true;
}

int finish(void) {
    printf("%d passed, %d failed\n", passed, failed);
    return failed != 0 || passed == 0;
}

/* ---- calls */

/* Memory for so many octets; a test without memory ends. It is taken by calloc, which memory.c never refuses. */
static void *take(size_t length) {
    void *taken = calloc(length > 0 ? length : 1, 1);
    if (taken == NULL) {
        fputs("there is no memory for the test itself\n", stderr);
        exit(3);
    }
    return taken;
}

static void *copy_of(const void *octets, size_t length) {
    void *copy = take(length);
    if (length > 0) memcpy(copy, octets, length);
    return copy;
}

static void let_go(void *copy, size_t length) {
    fill(copy, length);
    free(copy);
}

int open_resolver(wokhleas_resolver *resolver, size_t requests, size_t questions, bool streams) {
    return open_with_groups(resolver, requests, questions, streams, 64);
}

int open_with_groups(wokhleas_resolver *resolver, size_t requests, size_t questions, bool streams, size_t groups) {
    uint8_t seed[32] = { 1, 2, 3 };
    wokhleas_limits limits = { requests, questions, streams, groups };
    int status = wokhleas_open(resolver, &limits, seed);
    fill(seed, sizeof seed);
    fill(&limits, sizeof limits);
    return status;
}

int submit(wokhleas_resolver *resolver, uint64_t number, const char *text, const wokhleas_caps *caps, uint64_t until) {
    size_t length = strlen(text);
    char *lent = copy_of(text, length);
    uint8_t *transports = copy_of(caps->transports, caps->count);
    wokhleas_caps copy = { transports, caps->count, caps->families };
    int status = wokhleas_submit(resolver, number, lent, length, &copy, until);
    let_go(lent, length);
    let_go(transports, copy.count);
    fill(&copy, sizeof copy);
    return status;
}

int receive(wokhleas_resolver *resolver, uint64_t now, uint8_t over, const uint8_t *octets, size_t length) {
    uint8_t *lent = copy_of(octets, length);
    int status = wokhleas_receive(resolver, now, over, lent, length);
    let_go(lent, length);
    return status;
}

/* ---- outcomes */

bool (*found_none)(int status);

static char text[4096];
static size_t written;

/* Adds to the text, as printf writes; what does not fit is left out. */
static void say(const char *format, ...) {
    va_list arguments;
    va_start(arguments, format);
    written += (size_t)vsnprintf(text + written, sizeof text - written, format, arguments);
    va_end(arguments);
    if (written >= sizeof text) written = sizeof text - 1;
}

static void say_target(const wokhleas_target *target) {
    static const char *const names[] = { "?", "udp", "tcp", "tls", "sctp" };
    char address[INET6_ADDRSTRLEN];
    inet_ntop(target->family == 6 ? AF_INET6 : AF_INET, target->address, address, sizeof address);
    say(" %s %s %u", target->transport < 5 ? names[target->transport] : "?", address, target->port);
}

static void say_targets(wokhleas_resolver *resolver, size_t count_of_targets) {
    for (size_t index = 0; index < count_of_targets; index++) {
        wokhleas_target target;
        HOLDS(wokhleas_get_target(resolver, index, &target) == WOKHLEAS_OK);
        if (index > 0) say(",");
        say_target(&target);
    }
}

static void say_question(wokhleas_resolver *resolver, const char *what) {
    static const char *const names[TYPE_NAPTR + 1] = {
        [TYPE_A] = "A", [TYPE_AAAA] = "AAAA", [TYPE_SRV] = "SRV", [TYPE_NAPTR] = "NAPTR",
    };
    wokhleas_question question = { 0, 0 };
    char *name = take(1024);
    int status;
    fill(name, 1024);
    status = wokhleas_get_question(resolver, name, 1024, &question);
    if (found_none != NULL && found_none(status)) {
        HOLDS(question.length == 0 && is_filled(name, 1024));
        status = wokhleas_get_question(resolver, name, 1024, &question);
    }
    HOLDS(status == WOKHLEAS_OK);
    say(" %s %s %.*s", what, question.type <= TYPE_NAPTR && names[question.type] != NULL ? names[question.type] : "?",
        (int)question.length, name);
    free(name);
}

static void say_outcome(wokhleas_resolver *resolver, const wokhleas_outcome *outcome) {
    char what[32];
    say("%" PRIu64 ":", outcome->number);
    switch (outcome->kind) {
    case WOKHLEAS_TARGETS: say_targets(resolver, outcome->targets); break;
    case WOKHLEAS_REFUSED: say(" refused %" PRIu32, outcome->detail); break;
    case WOKHLEAS_NO_ANSWER: say_question(resolver, "no answer"); break;
    case WOKHLEAS_BAD_REPLY:
        snprintf(what, sizeof what, "bad reply %" PRIu32, outcome->detail);
        say_question(resolver, what);
        break;
    case WOKHLEAS_NO_SERVER: say_question(resolver, "no server"); break;
    case WOKHLEAS_NO_MEMORY: say(" no memory"); break;
    default: say(" kind %" PRIu32, outcome->kind);
    }
}

/* Whether an outcome of this kind has a question. */
static bool has_question(uint32_t kind) {
    return kind == WOKHLEAS_NO_ANSWER || kind == WOKHLEAS_BAD_REPLY || kind == WOKHLEAS_NO_SERVER;
}

/* What an outcome has not is told as nothing, and leaves the caller's as it was. */
static void look_beyond(wokhleas_resolver *resolver, const wokhleas_outcome *outcome) {
    wokhleas_target target;
    wokhleas_question question;
    char name[1024];
    fill(&target, sizeof target);
    fill(&question, sizeof question);
    fill(name, sizeof name);
    HOLDS(outcome->kind == WOKHLEAS_TARGETS ? outcome->targets > 0 : outcome->targets == 0);
    HOLDS(wokhleas_get_target(resolver, outcome->targets, &target) == WOKHLEAS_NOTHING);
    HOLDS(wokhleas_get_target(resolver, SIZE_MAX, &target) == WOKHLEAS_NOTHING);
    HOLDS(is_filled(&target, sizeof target));
    if (has_question(outcome->kind)) return;
    HOLDS(wokhleas_get_question(resolver, name, sizeof name, &question) == WOKHLEAS_NOTHING);
    HOLDS(is_filled(&question, sizeof question) && is_filled(name, sizeof name));
}

const char *next_outcome(wokhleas_resolver *resolver) {
    wokhleas_outcome outcome;
    int status = wokhleas_next(resolver, &outcome);
    written = 0;
    if (status != WOKHLEAS_OK) return status == WOKHLEAS_NOTHING ? "nothing" : wokhleas_strerror(status);
    say_outcome(resolver, &outcome);
    look_beyond(resolver, &outcome);
    return text;
}

/* Whether this text is one of those that are wanted and did not come yet; then it did. */
static bool is_wanted(const char **wanted, size_t wanted_count, const char *is) {
    for (size_t at = 0; at < wanted_count; at++) {
        if (wanted[at] != NULL && strcmp(wanted[at], is) == 0) {
            wanted[at] = NULL;
            return true;
        }
    }
    return false;
}

void expect_outcomes(const char *file, int line, wokhleas_resolver *resolver, ...) {
    const char *wanted[16], *is;
    size_t wanted_count = 0;
    va_list arguments;
    va_start(arguments, resolver);
    while ((is = va_arg(arguments, const char *)) != NULL && wanted_count < 16) wanted[wanted_count++] = is;
    va_end(arguments);
    for (size_t at = 0; at < wanted_count; at++) {
        bool is_so = is_wanted(wanted, wanted_count, is = next_outcome(resolver));
        count(is_so);
        if (!is_so) printf("%s:%d: the outcome '%s' is none that is wanted, or came before\n", file, line, is);
    }
    expect_text(file, line, "the outcome after the last", next_outcome(resolver), "nothing");
}

/* ---- queries */

static unsigned two_octets(const uint8_t *octets) { return (unsigned)octets[0] << 8 | octets[1]; }

/* Reads the question behind the header; a query has no pointers. False where it is none. */
static bool read_question(struct query *query) {
    size_t at = HEADER, length = query->message.length, named = 0;
    while (at < length && query->octets[at] != 0) {
        size_t end = at + 1 + query->octets[at];
        if (query->octets[at] > 63 || end >= length || named + (end - at) >= sizeof query->name) return false;
        if (named > 0) query->name[named++] = '.';
        for (at++; at < end; at++) query->name[named++] = (char)tolower(query->octets[at]);
    }
    query->name[named] = 0;
    query->question = at + 5;
    if (at + 5 > length) return false;
    query->type = (uint16_t)two_octets(query->octets + at + 1);
    return two_octets(query->octets + at + 3) == 1;
}

int take_query(wokhleas_resolver *resolver, uint64_t now, struct query *query) {
    uint8_t *octets = take(WOKHLEAS_QUERY_ROOM);
    int status = wokhleas_transmit(resolver, now, octets, WOKHLEAS_QUERY_ROOM, &query->message);
    if (status == WOKHLEAS_OK) {
        bool fits = query->message.length >= HEADER && query->message.length <= WOKHLEAS_QUERY_ROOM;
        if (!fits) query->message.length = HEADER;
        memcpy(query->octets, octets, query->message.length);
        HOLDS(fits && read_question(query));
        HOLDS(two_octets(query->octets) == query->message.query % 65536); /* its id */
        HOLDS((query->octets[2] & 0xf8) == 0);       /* a query, of OPCODE 0 */
        HOLDS(two_octets(query->octets + 4) == 1);   /* one question */
    }
    let_go(octets, WOKHLEAS_QUERY_ROOM);
    return status;
}

/* ---- replies */

static void put(struct reply *reply, const void *octets, size_t length) {
    if (reply->length + length > sizeof reply->octets) {
        fputs("a reply of the test is too long\n", stderr);
        exit(3);
    }
    memcpy(reply->octets + reply->length, octets, length);
    reply->length += length;
}

static void put_number(struct reply *reply, unsigned number) {
    put(reply, (uint8_t[]){ (uint8_t)(number >> 8), (uint8_t)number }, 2);
}

/* The octets of a text behind their number: a label, or a character string. */
static void put_string(struct reply *reply, const char *octets, size_t length) {
    put(reply, (uint8_t[]){ (uint8_t)length }, 1);
    put(reply, octets, length);
}

static void put_name(struct reply *reply, const char *name) {
    while (*name != 0 && *name != '.') {
        size_t length = strcspn(name, ".");
        put_string(reply, name, length);
        name += length + (name[length] == '.');
    }
    put(reply, "", 1);
}

/* One more in a count of the header: 6 for answers, 8 for the authority section. */
static void count_record(struct reply *reply, size_t place) { reply->octets[place + 1]++; }

static void put_head(struct reply *reply, unsigned type, uint32_t ttl) {
    put(reply, "\xc0\x0c", 2); /* a pointer to the name that is asked for */
    put_number(reply, type);
    put_number(reply, 1);
    put_number(reply, ttl >> 16);
    put_number(reply, ttl & 0xffff);
}

void begin_reply(struct reply *reply, const struct query *query, unsigned flags) {
    static const uint8_t counts[8] = { 0, 1, 0, 0, 0, 0, 0, 0 };
    reply->length = 0;
    put(reply, query->octets, 2);
    put_number(reply, 0x8180 | flags); /* QR, RD and RA */
    put(reply, counts, sizeof counts);
    put(reply, query->octets + HEADER, query->question - HEADER);
}

/* The type and data of a record's text. */
static unsigned put_data(struct reply *reply, const char *data) {
    unsigned numbers[3];
    char flags[8], service[32], name[256], address[64];
    uint8_t octets[16];
    if (sscanf(data, "A %63s", address) == 1 && inet_pton(AF_INET, address, octets) == 1) {
        put(reply, octets, 4);
        return TYPE_A;
    }
    if (sscanf(data, "AAAA %63s", address) == 1 && inet_pton(AF_INET6, address, octets) == 1) {
        put(reply, octets, 16);
        return TYPE_AAAA;
    }
    if (sscanf(data, "SRV %u %u %u %255s", &numbers[0], &numbers[1], &numbers[2], name) == 4) {
        for (int at = 0; at < 3; at++) put_number(reply, numbers[at]);
        put_name(reply, name);
        return TYPE_SRV;
    }
    if (sscanf(data, "NAPTR %u %u %7s %31s %255s", &numbers[0], &numbers[1], flags, service, name) == 5) {
        for (int at = 0; at < 2; at++) put_number(reply, numbers[at]);
        put_string(reply, flags, strlen(flags));
        put_string(reply, service, strlen(service));
        put_string(reply, "", 0);
        put_name(reply, name);
        return TYPE_NAPTR;
    }
    fprintf(stderr, "no record of the test: %s\n", data);
    exit(3);
}

void add_answer(struct reply *reply, const struct query *query, uint32_t ttl, const char *data) {
    struct reply octets = { .length = 0 };
    unsigned type = put_data(&octets, data);
    if (type != query->type) return;
    put_head(reply, type, ttl);
    put_number(reply, (unsigned)octets.length);
    put(reply, octets.octets, octets.length);
    count_record(reply, 6);
}

void end_reply(struct reply *reply, uint32_t ttl) {
    if (reply->octets[7] != 0) return;
    put_head(reply, TYPE_SOA, ttl);
    put_number(reply, 22); /* two names of one octet, and five numbers of four */
    put(reply, "\0", 2);
    for (int at = 0; at < 4; at++) put(reply, "\0\0\0\1", 4);
    put_number(reply, ttl >> 16);
    put_number(reply, ttl & 0xffff);
    count_record(reply, 8);
}

int hand_in(wokhleas_resolver *resolver, uint64_t now, uint8_t over, const struct reply *reply) {
    return receive(resolver, now, over, reply->octets, reply->length);
}

size_t serve(wokhleas_resolver *resolver, uint64_t now, const struct record *zone) {
    struct query query = NO_QUERY;
    struct reply reply;
    size_t queries = 0;
    for (; take_query(resolver, now, &query) == WOKHLEAS_OK; queries++) {
        begin_reply(&reply, &query, 0);
        for (const struct record *it = zone; it->name != NULL; it++)
            if (strcmp(it->name, query.name) == 0) add_answer(&reply, &query, 300, it->data);
        end_reply(&reply, 300);
        HOLDS(hand_in(resolver, now, query.message.over, &reply) == WOKHLEAS_OK);
    }
    return queries;
}
