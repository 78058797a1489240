/* A warm request by sofia-sip: its reader of URIs, and its resolver of requests (sres_sip) over its cache. It asks no
 * server here, so no request waits. */
#include "sofia_locate.c"

#include "../warm.h"

const char *const services[3] = { "SIP+D2U", "SIP+D2T", "SIPS+D2T" };
const char *const lists[3] = { "_sip._udp", "_sip._tcp", "_sips._tcp" };

/* One service of three servers, of which the first has one address more. */
static const struct row warm = { "NAPTR", "sip:user@d.example", false, 1, 3, 1, false };

void prepare_warm(void) {
    prepare(&warm);
    if (locate_text(&warm) != 4) abort();
}

size_t locate_warm(void) { return locate_text(&warm); }

size_t locate_crowd(void) {
    static sres_sip_t *inside[CROWD];
    size_t targets = 0;
    for (size_t at = 0; at < CROWD; at++) {
        char text[256];
        url_t uri;
        strcpy(text, warm.text);
        if (url_d(&uri, text) != 0) abort();
        inside[at] = sres_sip_new(resolver, (const url_string_t *)&uri, spoken, 1, 1, NULL, NULL);
        if (inside[at] == NULL) abort();
    }
    for (size_t at = 0; at < CROWD; at++) {
        for (const su_addrinfo_t *it = sres_sip_results(inside[at]); it != NULL; it = it->ai_next) targets++;
        sres_sip_unref(inside[at]);
    }
    return targets;
}

void let_others_wait(void) {}

size_t locate_beside(void) { return 0; }
