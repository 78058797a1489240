#include "vectors.h"

#include <stdbool.h>
#include <stdio.h>
#include <stdlib.h>
#include <string.h>

enum { TYPE_A = 1, TYPE_CNAME = 5, TYPE_NULL = 10, TYPE_AAAA = 28, TYPE_SRV = 33, TYPE_NAPTR = 35 };
enum { CLASS_IN = 1, TTL = 300, HEADER_END = 12, POINTER = 0xc000, POINTER_END = 0x4000 };

struct vector reply_vectors[REPLY_COUNT];
struct srv_vector srv_vectors[SRV_LIST_COUNT];
uint64_t words[WORD_COUNT];

#define TEXT(name, text) { name, (const uint8_t *)(text), sizeof(text) - 1 }

struct vector uri_vectors[URI_COUNT] = {
    TEXT("sip:192.0.2.1", "sip:192.0.2.1"),
    TEXT("sip:b.example", "sip:b.example"),
    TEXT("port and parameter", "sip:b.example:5070;transport=tcp"),
    TEXT("125 octets, all parts",
         "sips:alice.smith:se%20cret@proxy-1.c.example:5061;transport=tcp;maddr=192.0.2.7;ttl=15;lr?"
         "subject=next%20call&priority=urgent"),
    TEXT("IPv6 and port", "sip:[2001:db8::192:2]:5070"),
};

struct vector via_vectors[VIA_COUNT] = {
    TEXT("name and branch", "SIP/2.0/UDP b.example;branch=z9hG4bK87asdks7"),
    TEXT("address and 3 parameters",
         "SIP/2.0/TCP 192.0.2.1:5062;received=192.0.2.9;rport=5064;branch=z9hG4bKnashds8"),
};

/* A message that is being written. */
struct writer {
    uint8_t octets[MESSAGE_LIMIT + 1];
    size_t length;
};

static void put(struct writer *to, const void *octets, size_t length) {
    if (length > MESSAGE_LIMIT - to->length) abort();
    memcpy(to->octets + to->length, octets, length);
    to->length += length;
}

static void put_u16(struct writer *to, unsigned number) {
    put(to, (uint8_t[]){ (uint8_t)(number >> 8), (uint8_t)number }, 2);
}

static void put_u32(struct writer *to, uint32_t number) {
    put_u16(to, number >> 16);
    put_u16(to, number & 0xffff);
}

static void put_string(struct writer *to, const char *text) {
    put(to, (uint8_t[]){ (uint8_t)strlen(text) }, 1);
    put(to, text, strlen(text));
}

/* The labels of a text, without an end. */
static void put_labels(struct writer *to, const char *text) {
    char labels[256];
    snprintf(labels, sizeof labels, "%s", text);
    for (char *rest = labels, *label; (label = strsep(&rest, ".")) != NULL;) put_string(to, label);
}

static void put_name(struct writer *to, const char *text) {
    put_labels(to, text);
    put(to, "", 1);
}

static void put_pointer(struct writer *to, size_t place) { put_u16(to, POINTER | (unsigned)place); }

/* A reply, AA and RD set, with its question: none where the name is NULL. */
static struct writer *reply(const char *name, unsigned type, unsigned answers, unsigned additional) {
    struct writer *to = calloc(1, sizeof *to);
    if (to == NULL) abort();
    put_u16(to, 0x1234);
    put_u16(to, 0x8500);
    put_u16(to, name != NULL);
    put_u16(to, answers);
    put_u16(to, 0);
    put_u16(to, additional);
    if (name != NULL) {
        put_name(to, name);
        put_u16(to, type);
        put_u16(to, CLASS_IN);
    }
    return to;
}

/* What stands between the owner and the data of a record. */
static void put_fixed(struct writer *to, unsigned type, size_t size) {
    put_u16(to, type);
    put_u16(to, CLASS_IN);
    put_u32(to, TTL);
    put_u16(to, (unsigned)size);
}

static void put_a(struct writer *to, size_t owner, uint8_t last) {
    put_pointer(to, owner);
    put_fixed(to, TYPE_A, 4);
    put(to, (uint8_t[]){ 192, 0, 2, last }, 4);
}

static void put_aaaa(struct writer *to, size_t owner, uint8_t last) {
    put_pointer(to, owner);
    put_fixed(to, TYPE_AAAA, 16);
    put(to, (uint8_t[]){ 0x20, 1, 0x0d, 0xb8, [15] = last }, 16);
}

/* An SRV record of the question's name, whose target is spelled out (RFC 2782). Gives the target's place. */
static size_t put_srv(struct writer *to, unsigned priority, unsigned weight, const char *target) {
    put_pointer(to, HEADER_END);
    put_fixed(to, TYPE_SRV, 6 + strlen(target) + 2);
    put_u16(to, priority);
    put_u16(to, weight);
    put_u16(to, 5060);
    size_t place = to->length;
    put_name(to, target);
    return place;
}

static struct vector done(const char *name, struct writer *written, size_t length) {
    if (written->length != length) {
        fprintf(stderr, "%s has %zu octets and not %zu\n", name, written->length, length);
        abort();
    }
    return (struct vector){ name, written->octets, written->length };
}

static struct vector one_a(void) {
    struct writer *to = reply("b.example", TYPE_A, 1, 0);
    put_a(to, HEADER_END, 1);
    return done("one A, 43 octets", to, 43);
}

static struct vector one_srv(void) {
    struct writer *to = reply("_sip._udp.b.example", TYPE_SRV, 1, 0);
    put_pointer(to, HEADER_END);
    put_fixed(to, TYPE_SRV, 10);
    put_u16(to, 10);
    put_u16(to, 60);
    put_u16(to, 5060);
    put_labels(to, "s");
    put_pointer(to, HEADER_END + 10);
    return done("one SRV, 59 octets", to, 59);
}

static struct vector cname_and_a(void) {
    struct writer *to = reply("b.example", TYPE_A, 2, 0);
    put_pointer(to, HEADER_END);
    put_fixed(to, TYPE_CNAME, 4);
    size_t target = to->length;
    put_labels(to, "c");
    put_pointer(to, HEADER_END + 2);
    put_a(to, target, 1);
    return done("CNAME and A, 59 octets", to, 59);
}

static struct vector one_naptr(void) {
    struct writer *to = reply("b.example", TYPE_NAPTR, 1, 0);
    put_pointer(to, HEADER_END);
    put_fixed(to, TYPE_NAPTR, 38);
    put_u16(to, 50);
    put_u16(to, 50);
    put_string(to, "s");
    put_string(to, "SIPS+D2T");
    put_string(to, "");
    put_name(to, "_sips._tcp.b.example");
    return done("one NAPTR, 77 octets", to, 77);
}

static struct vector servers_with_addresses(void) {
    struct writer *to = reply("_sip._udp.b.example", TYPE_SRV, 12, 24);
    size_t targets[12];
    for (unsigned at = 0; at < 12; at++) {
        char target[32];
        snprintf(target, sizeof target, "node-%u.b.example", at);
        targets[at] = put_srv(to, at / 4, 10 * at, target);
    }
    for (unsigned at = 0; at < 12; at++) put_a(to, targets[at], (uint8_t)at);
    for (unsigned at = 0; at < 12; at++) put_aaaa(to, targets[at], (uint8_t)at);
    return done("12 SRV, 12 A, 12 AAAA, 999 octets", to, 999);
}

static struct vector thirty_a(void) {
    struct writer *to = reply("name.b.example", TYPE_A, 30, 0);
    for (unsigned at = 0; at < 30; at++) put_a(to, HEADER_END, (uint8_t)at);
    return done("30 A, 512 octets", to, 512);
}

/* The data of the first record is a name and then pointers, each to the one before it, as far as pointers reach. The
   owners of all other records are the name at the end of that chain. */
static struct vector chains(void) {
    struct writer *to = reply(NULL, 0, 3072, 0);
    put(to, "", 1);
    put_fixed(to, TYPE_NULL, POINTER_END - HEADER_END - 11);
    size_t last = to->length;
    put_name(to, "a");
    for (; to->length < POINTER_END - 1; last = to->length - 2) put_pointer(to, last);
    if (to->length < POINTER_END) put(to, "", 1);
    for (unsigned at = 0; at < 3071; at++) put_a(to, last, (uint8_t)at);
    while (to->length < MESSAGE_LIMIT) put(to, "", 1);
    return done("chains of pointers, 65,535 octets", to, MESSAGE_LIMIT);
}

/* A small generator of numbers, of which the same come in each run. */
static uint64_t next_word(uint64_t *state) {
    *state = *state * 6364136223846793005u + 1442695040888963407u;
    return *state >> 16;
}

static void make_list(struct srv_vector *list, const char *name, size_t count, unsigned priorities) {
    uint64_t state = count + priorities;
    struct writer *to = reply("_sip._udp.b.example", TYPE_SRV, (unsigned)count, 0);
    list->count = count;
    for (size_t at = 0; at < count; at++) {
        list->priorities[at] = (uint16_t)(next_word(&state) % priorities);
        list->weights[at] = (uint16_t)(at % 8 == 0 ? 0 : next_word(&state) % 100);
        put_srv(to, list->priorities[at], list->weights[at], "node.b.example");
    }
    list->reply = done(name, to, to->length);
}

void make_vectors(void) {
    reply_vectors[0] = one_a();
    reply_vectors[1] = one_srv();
    reply_vectors[2] = cname_and_a();
    reply_vectors[3] = one_naptr();
    reply_vectors[REPLY_OF_36_RECORDS] = servers_with_addresses();
    reply_vectors[5] = thirty_a();
    reply_vectors[6] = chains();
    make_list(&srv_vectors[0], "12 records, 3 priorities", 12, 3);
    make_list(&srv_vectors[1], "32 records, 4 priorities", 32, 4);
    make_list(&srv_vectors[2], "32 records, 1 priority", 32, 1);
    uint64_t state = 1;
    for (size_t at = 0; at < WORD_COUNT; at++) words[at] = next_word(&state);
    if (uri_vectors[3].length != 125) {
        fprintf(stderr, "the long URI has %zu octets\n", uri_vectors[3].length);
        abort();
    }
}
