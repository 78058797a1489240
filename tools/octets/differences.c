/* Changes the replies of the benchmarks at random, and has them read by this project, by ldns, by
   trust-dns-proto and by c-ares, which reads the records alone that are asked for. Counts which read them, and writes some
   octets of each difference.

   usage: differences COUNT SEED [EXAMPLES] */
#include "../../bench/vectors.h"

#include <ares.h>
#include <ldns/ldns.h>
#include <netdb.h>
#include <stdbool.h>
#include <stdio.h>
#include <stdlib.h>
#include <string.h>

/* One more than the records that answer, or 0 for a refusal. */
size_t bench_reads_message(const uint8_t *octets, size_t length);
size_t trust_dns_reads(const uint8_t *octets, size_t length);

static size_t ldns_reads(const uint8_t *octets, size_t length) {
    ldns_pkt *packet = NULL;
    if (ldns_wire2pkt(&packet, octets, length) != LDNS_STATUS_OK) return 0;
    size_t count = ldns_rr_list_rr_count(ldns_pkt_answer(packet)) + 1;
    ldns_pkt_free(packet);
    return count;
}

/* The type that the question asks for, where its name has no pointer. */
static int asked_type(const uint8_t *octets, size_t length) {
    size_t at = 12;
    while (at < length && octets[at] != 0 && octets[at] < 64) at += octets[at] + 1u;
    return at + 2 < length && octets[at] == 0 ? octets[at + 1] << 8 | octets[at + 2] : 0;
}

/* Whether c-ares reads the records of the type that is asked for; it has a call for each type. */
static bool cares_reads(const uint8_t *octets, size_t length) {
    struct ares_srv_reply *servers = NULL;
    struct ares_naptr_reply *rules = NULL;
    struct ares_addrttl addresses[64];
    int count = 64, status;
    switch (asked_type(octets, length)) {
    case 33:
        status = ares_parse_srv_reply(octets, (int)length, &servers);
        ares_free_data(servers);
        break;
    case 35:
        status = ares_parse_naptr_reply(octets, (int)length, &rules);
        ares_free_data(rules);
        break;
    default: status = ares_parse_a_reply(octets, (int)length, NULL, addresses, &count);
    }
    return status != ARES_EBADRESP;
}

/* A generator of random numbers (xorshift64*). */
static uint64_t state;

static unsigned random_below(unsigned limit) {
    state ^= state >> 12;
    state ^= state << 25;
    state ^= state >> 27;
    return (unsigned)((state * 0x2545f4914f6cdd1dULL >> 32) % limit);
}

enum { ROOM = 4096 };

/* One change: a bit, an octet, a number of two octets, an octet more or less, the end cut off, or a piece moved. */
static size_t change(uint8_t *octets, size_t length) {
    size_t at = random_below((unsigned)length), from = random_below((unsigned)length);
    static const uint8_t odd[] = { 0, 1, 2, 12, 63, 64, 127, 128, 191, 192, 255 };
    switch (random_below(8)) {
    case 0: octets[at] ^= (uint8_t)(1u << random_below(8)); break;
    case 1: octets[at] = (uint8_t)random_below(256); break;
    case 2: octets[at] = odd[random_below(sizeof odd)]; break;
    case 3: octets[at] = (uint8_t)(octets[at] + (random_below(2) ? 1 : 255)); break;
    case 4:
        if (at + 1 < length) {
            octets[at] = (uint8_t)(192 + random_below(2));
            octets[at + 1] = (uint8_t)random_below((unsigned)length);
        }
        break;
    case 5:
        memmove(octets + at, octets + at + 1, length - at - 1);
        return length - 1;
    case 6:
        if (length == ROOM) break;
        memmove(octets + at + 1, octets + at, length - at);
        octets[at] = (uint8_t)random_below(256);
        return length + 1;
    default:
        if (random_below(4) == 0) return at;
        octets[at] = octets[from];
    }
    return length;
}

/* What the three say of some octets: which refuse them, and whether those that read them count the same. */
struct verdict {
    bool cares, ours, ldns, trust_dns, same;
};

enum { VERDICTS = 32 };

static int number_of(struct verdict it) {
    return it.cares * 16 + it.ours * 8 + it.ldns * 4 + it.trust_dns * 2 + it.same;
}

static struct verdict verdict_of(const uint8_t *octets, size_t length) {
    size_t ours = bench_reads_message(octets, length), ldns = ldns_reads(octets, length);
    size_t trust_dns = trust_dns_reads(octets, length);
    bool same = (!ours || !ldns || ours == ldns) && (!ours || !trust_dns || ours == trust_dns);
    return (struct verdict){ cares_reads(octets, length), ours > 0, ldns > 0, trust_dns > 0, same };
}

static void print_octets(int number, const uint8_t *octets, size_t length) {
    printf("octets %d ", number);
    for (size_t at = 0; at < length; at++) printf("%02x", octets[at]);
    printf("\n");
}

static const char *does(int reads) {
    return reads ? "reads" : "refuses";
}

int main(int count, char **given) {
    if (count < 3) return 2;
    unsigned long runs = strtoul(given[1], NULL, 10), examples = count > 3 ? strtoul(given[3], NULL, 10) : 3;
    unsigned long counts[VERDICTS] = { 0 };
    state = strtoul(given[2], NULL, 10) * 2 + 1;
    make_vectors();
    for (unsigned long run = 0; run < runs; run++) {
        static uint8_t octets[ROOM];
        const struct vector *vector = &reply_vectors[random_below(REPLY_COUNT - 1)];
        size_t length = vector->length;
        memcpy(octets, vector->octets, length);
        for (unsigned changes = 1 + random_below(4); changes > 0 && length > 0; changes--) length = change(octets, length);
        uint8_t *exact = malloc(length + 1);
        memcpy(exact, octets, length);
        struct verdict said = verdict_of(exact, length);
        free(exact);
        int number = number_of(said);
        bool differs = said.ours != said.cares || said.ours != said.ldns || said.ours != said.trust_dns || !said.same;
        if (counts[number]++ < examples && differs) print_octets(number, octets, length);
    }
    for (int number = 0; number < VERDICTS; number++) {
        if (counts[number] == 0) continue;
        printf("%lu: %s, ldns %s, trust-dns-proto %s, c-ares %s%s\n", counts[number], does(number & 8), does(number & 4),
               does(number & 2), does(number & 16), number & 1 ? "" : ", and other records answer");
    }
    return 0;
}
