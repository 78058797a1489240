/* ldns: a whole packet. */
#include "../candidates.h"

#include <ldns/ldns.h>

size_t ldns_reply(const uint8_t *octets, size_t length) {
    ldns_pkt *packet = NULL;
    if (ldns_wire2pkt(&packet, octets, length) != LDNS_STATUS_OK) return 0;
    size_t count = ldns_pkt_ancount(packet);
    ldns_pkt_free(packet);
    return count;
}
