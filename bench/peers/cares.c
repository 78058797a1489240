/* c-ares: a reply is read by the call for its type. */
#include "../candidates.h"

#include <ares.h>
#include <netdb.h>

enum { TYPE_A = 1, TYPE_SRV = 33, TYPE_NAPTR = 35, HEADER_END = 12, ADDRESS_LIMIT = 64 };

static size_t addresses(const uint8_t *octets, int length) {
    struct ares_addrttl found[ADDRESS_LIMIT];
    int count = ADDRESS_LIMIT;
    if (ares_parse_a_reply(octets, length, NULL, found, &count) != ARES_SUCCESS) return 0;
    return (size_t)count;
}

static size_t servers(const uint8_t *octets, int length) {
    struct ares_srv_reply *list = NULL;
    size_t count = 0;
    if (ares_parse_srv_reply(octets, length, &list) != ARES_SUCCESS) return 0;
    for (struct ares_srv_reply *entry = list; entry != NULL; entry = entry->next) count++;
    ares_free_data(list);
    return count;
}

static size_t rules(const uint8_t *octets, int length) {
    struct ares_naptr_reply *list = NULL;
    size_t count = 0;
    if (ares_parse_naptr_reply(octets, length, &list) != ARES_SUCCESS) return 0;
    for (struct ares_naptr_reply *entry = list; entry != NULL; entry = entry->next) count++;
    ares_free_data(list);
    return count;
}

/* The type that the question, which has no pointer here, asks for. */
static int asked_type(const uint8_t *octets, size_t length) {
    size_t at = HEADER_END;
    while (at < length && octets[at] != 0) at += octets[at] + 1u;
    return at + 2 < length ? octets[at + 2] : 0;
}

size_t cares_reply(const uint8_t *octets, size_t length) {
    switch (asked_type(octets, length)) {
    case TYPE_SRV: return servers(octets, (int)length);
    case TYPE_NAPTR: return rules(octets, (int)length);
    default: return addresses(octets, (int)length);
    }
}
