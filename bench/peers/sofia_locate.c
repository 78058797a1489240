/* sofia-sip: its readers of URIs and Vias, and its resolver of requests (sres_sip) over its cache of DNS records. A URI is
 * made of a Via, since the resolver takes nothing else. */
#include "sofia_answers.h"

#include <strings.h>

#include <sofia-sip/sip.h>
#include <sofia-sip/sip_header.h>
#include <sofia-sip/sres_sip.h>
#include <sofia-sip/su_alloc.h>
#include <sofia-sip/url.h>

const char candidate[] = "sofia-sip";

enum { TRANSPORT_COUNT = 3 };

/* What the sender speaks, and over which addresses. */
static su_addrinfo_t spoken[TRANSPORT_COUNT];
static char text_read[256];
static url_t uri_read;

static bool is_via(const char *text) { return strncmp(text, "SIP/", 4) == 0; }

static void set_spoken(const struct row *row) {
    static const int protocols[TRANSPORT_COUNT] = { TPPROTO_UDP, TPPROTO_TCP, TPPROTO_TLS };
    for (size_t at = 0; at < TRANSPORT_COUNT; at++) {
        spoken[at] = (su_addrinfo_t){
            .ai_family = row->with_v6 ? 0 : AF_INET,
            .ai_protocol = protocols[at],
            .ai_socktype = at == 0 ? SOCK_DGRAM : SOCK_STREAM,
            .ai_next = at + 1 < TRANSPORT_COUNT ? &spoken[at + 1] : NULL,
        };
    }
}

static size_t locate(const url_t *uri) {
    sres_sip_t *found = sres_sip_new(resolver, (const url_string_t *)uri, spoken, 1, 1, NULL, NULL);
    if (found == NULL) abort();
    size_t count = 0;
    for (const su_addrinfo_t *it = sres_sip_results(found); it != NULL; it = it->ai_next) count++;
    sres_sip_unref(found);
    return count;
}

/* A URI to where a Via points (RFC 3263 5). */
static url_t of_via(const sip_via_t *via) {
    return (url_t){
        .url_type = url_sip,
        .url_scheme = "sip",
        .url_host = via->v_host,
        .url_port = via->v_port,
        .url_params = strcasecmp(via->v_protocol + 8, "UDP") == 0 ? "transport=udp" : "transport=tcp",
    };
}

size_t locate_text(const struct row *row) {
    if (is_via(row->text)) {
        su_home_t home[1] = { SU_HOME_INIT(home) };
        su_home_init(home);
        url_t uri = of_via(sip_via_make(home, row->text));
        size_t count = locate(&uri);
        su_home_deinit(home);
        return count;
    }
    char text[256];
    url_t uri;
    strcpy(text, row->text);
    if (url_d(&uri, text) != 0) return 0;
    return locate(&uri);
}

size_t locate_read(const struct row *row) {
    (void)row;
    return locate(&uri_read);
}

void prepare(const struct row *row) {
    static su_home_t home[1] = { SU_HOME_INIT(home) };
    fill_cache(row);
    set_spoken(row);
    if (is_via(row->text)) {
        su_home_init(home);
        uri_read = of_via(sip_via_make(home, row->text));
    } else {
        strcpy(text_read, row->text);
        if (url_d(&uri_read, text_read) != 0) abort();
    }
}
