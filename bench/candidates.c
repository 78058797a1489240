#include "candidates.h"

#include "minimal.h"

/* crates/bench_calls. An allocator is no argument in C. */
size_t bench_read_message(const uint8_t *octets, size_t length);
size_t bench_read_uri(const uint8_t *octets, size_t length);
size_t bench_read_via(const uint8_t *octets, size_t length);
size_t bench_view_uri(const uint8_t *octets, size_t length);
size_t bench_view_via(const uint8_t *octets, size_t length);
size_t bench_answer_of(const uint8_t *octets, size_t length, size_t rounds);
size_t bench_order(const uint8_t *octets, size_t length, const uint64_t *random, size_t count, size_t *places,
                   size_t room, size_t rounds);

/* peers/ */
call cares_reply, ldns_reply, libresolv_reply, re_reply, trust_dns_reply;
call sofia_uri, osip_uri, re_uri, sofia_via, osip_via, re_via;

const struct candidate reply_candidates[] = {
    { "wokhleas", bench_read_message, "" },
    { "minimal C", minimal_reply, "takes no memory: all lies in one block" },
    { "minimal C, allocating", minimal_reply_allocating, "" },
    { "minimal C, allocating, case kept", minimal_reply_keeping_case, "capitals stay capitals" },
#ifdef WITH_CARES
    { "c-ares", cares_reply,
      "the answers of the asked type alone, and no other section; chains of thousands of pointers are refused" },
#endif
#ifdef WITH_LDNS
    { "ldns", ldns_reply, "data of SRV and NAPTR stays a row of fields" },
#endif
#ifdef WITH_LIBRESOLV
    { "libresolv", libresolv_reply,
      "each name as a text in one buffer; keeps nothing; data of other types is not looked at" },
#endif
#ifdef WITH_RE
    { "re", re_reply, "names as texts; chains of thousands of pointers are refused" },
#endif
#ifdef WITH_TRUST_DNS
    { "trust-dns-proto", trust_dns_reply, "" },
#endif
    { 0 },
};

const struct candidate uri_candidates[] = {
    { "wokhleas", bench_read_uri, "" },
    { "wokhleas, a view", bench_view_uri, "a hostname stays octets" },
    { "minimal C", minimal_uri, "" },
#ifdef WITH_SOFIA
    { "sofia-sip", sofia_uri, "splits a copy of the text; host, parameters and headers stay texts" },
#endif
#ifdef WITH_OSIP
    { "osip2", osip_uri, "a copy of each part; host and port stay texts" },
#endif
#ifdef WITH_RE
    { "re", re_uri, "finds the parts; host, parameters and headers stay texts" },
#endif
    { 0 },
};

const struct candidate via_candidates[] = {
    { "wokhleas", bench_read_via, "" },
    { "wokhleas, a view", bench_view_via, "a hostname stays octets" },
    { "minimal C", minimal_via, "" },
#ifdef WITH_SOFIA
    { "sofia-sip", sofia_via, "host, port and parameters are kept, as texts" },
#endif
#ifdef WITH_OSIP
    { "osip2", osip_via, "a copy of each part; host and port stay texts" },
#endif
#ifdef WITH_RE
    { "re", re_via, "finds the parts and the branch; other parameters stay a text" },
#endif
    { 0 },
};

size_t order_by_project(const struct srv_vector *list, size_t *places, size_t rounds) {
    return bench_order(list->reply.octets, list->reply.length, words, WORD_COUNT, places, SRV_LIMIT, rounds);
}

size_t answer_by_project(const uint8_t *octets, size_t length, size_t rounds) {
    return bench_answer_of(octets, length, rounds);
}
