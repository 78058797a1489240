/* sofia-sip: a URI is split in a copy of its text; a Via is made in a home of its own. */
#include "../candidates.h"

#include <stdlib.h>
#include <string.h>
#include <sofia-sip/sip.h>
#include <sofia-sip/sip_header.h>
#include <sofia-sip/su_alloc.h>
#include <sofia-sip/url.h>

static size_t port_of(const char *port) { return port != NULL ? (size_t)atoi(port) : 5060; }

size_t sofia_uri(const uint8_t *octets, size_t length) {
    char text[1025];
    url_t url;
    memcpy(text, octets, length + 1);
    return url_d(&url, text) == 0 ? port_of(url.url_port) : 0;
}

size_t sofia_via(const uint8_t *octets, size_t length) {
    su_home_t home[1] = { SU_HOME_INIT(home) };
    (void)length;
    su_home_init(home);
    sip_via_t *via = sip_via_make(home, (const char *)octets);
    size_t port = via != NULL ? port_of(via->v_port) : 0;
    su_home_deinit(home);
    return port;
}
