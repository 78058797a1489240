/* re: header, questions and records of a reply; URIs; Vias. */
#include "../candidates.h"

#include <re.h>

static bool read_question(struct mbuf *from) {
    char *name = NULL;
    if (dns_dname_decode(from, &name, 0) != 0) return false;
    mem_deref(name);
    if (mbuf_get_left(from) < 4) return false;
    mbuf_advance(from, 4);
    return true;
}

static bool read_records(struct mbuf *from, struct list *records, unsigned count) {
    for (unsigned at = 0; at < count; at++) {
        struct dnsrr *record = NULL;
        if (dns_rr_decode(from, &record, 0) != 0) return false;
        list_append(records, &record->le, record);
    }
    return true;
}

size_t re_reply(const uint8_t *octets, size_t length) {
    struct mbuf from = { .buf = (uint8_t *)octets, .size = length, .pos = 0, .end = length };
    struct list records = { 0 };
    struct dnshdr header;
    if (dns_hdr_decode(&from, &header) != 0) return 0;
    bool read = true;
    for (unsigned at = 0; read && at < header.nq; at++) read = read_question(&from);
    read = read && read_records(&from, &records, header.nans + header.nauth + header.nadd);
    list_flush(&records);
    return read ? header.nans : 0;
}

size_t re_uri(const uint8_t *octets, size_t length) {
    struct pl text = { (const char *)octets, length };
    struct uri uri;
    if (uri_decode(&uri, &text) != 0) return 0;
    return uri.port != 0 ? uri.port : 5060;
}

size_t re_via(const uint8_t *octets, size_t length) {
    struct pl text = { (const char *)octets, length };
    struct sip_via via;
    if (sip_via_decode(&via, &text) != 0) return 0;
    unsigned port = sa_port(&via.addr);
    return port != 0 ? port : 5060;
}
