/* osip2: URIs and Vias as copies of their parts. */
#include "../candidates.h"

#include <stdlib.h>
#include <osipparser2/osip_parser.h>

static size_t port_of(const char *port) { return port != NULL ? (size_t)atoi(port) : 5060; }

size_t osip_uri(const uint8_t *octets, size_t length) {
    osip_uri_t *uri;
    size_t port = 0;
    (void)length;
    if (osip_uri_init(&uri) != 0) return 0;
    if (osip_uri_parse(uri, (const char *)octets) == 0) port = port_of(uri->port);
    osip_uri_free(uri);
    return port;
}

size_t osip_via(const uint8_t *octets, size_t length) {
    osip_via_t *via;
    size_t port = 0;
    (void)length;
    if (osip_via_init(&via) != 0) return 0;
    if (osip_via_parse(via, (const char *)octets) == 0) port = port_of(via->port);
    osip_via_free(via);
    return port;
}
