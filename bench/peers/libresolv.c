/* The C library's resolver: each record, and each name in the data of CNAME, SRV and NAPTR. */
#include "../candidates.h"

#include <stdbool.h>
#include <arpa/nameser.h>
#include <resolv.h>

static bool name_at(ns_msg *message, const uint8_t *place, char *name) {
    return ns_name_uncompress(ns_msg_base(*message), ns_msg_end(*message), place, name, NS_MAXDNAME) >= 0;
}

/* The name behind three character strings (RFC 3403 4.1). */
static bool read_replacement(ns_msg *message, const uint8_t *place, const uint8_t *end, char *name) {
    for (int string = 0; string < 3; string++) {
        if (place >= end) return false;
        place += *place + 1;
    }
    return place < end && name_at(message, place, name);
}

static bool read_data(ns_msg *message, ns_rr *record, char *name) {
    const uint8_t *place = ns_rr_rdata(*record), *end = place + ns_rr_rdlen(*record);
    switch (ns_rr_type(*record)) {
    case ns_t_a: return end - place == 4;
    case ns_t_aaaa: return end - place == 16;
    case ns_t_cname: return name_at(message, place, name);
    case ns_t_srv: return end - place > 6 && name_at(message, place + 6, name);
    case ns_t_naptr: return end - place > 4 && read_replacement(message, place + 4, end, name);
    default: return true;
    }
}

size_t libresolv_reply(const uint8_t *octets, size_t length) {
    ns_msg message;
    ns_rr record;
    char name[NS_MAXDNAME];
    if (ns_initparse(octets, (int)length, &message) < 0) return 0;
    for (int section = ns_s_qd; section < ns_s_max; section++) {
        for (int at = 0; at < ns_msg_count(message, section); at++) {
            if (ns_parserr(&message, section, at, &record) < 0) return 0;
            if (section != ns_s_qd && !read_data(&message, &record, name)) return 0;
        }
    }
    return ns_msg_count(message, ns_s_an);
}
