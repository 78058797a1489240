/* sofia-sip without its resolver of requests: its readers of URIs and Vias, its cache of DNS records, what its resolver of
 * questions gives of that cache, and its order of answers. What is between them is written here: names as texts, the records
 * of each answer in order, and each address into a list; no server is drawn by its weight. */
#include "sofia_answers.h"

#include <strings.h>

#include <sofia-sip/sip.h>
#include <sofia-sip/sip_header.h>
#include <sofia-sip/su_alloc.h>
#include <sofia-sip/url.h>

const char candidate[] = "sofia-sip's cache";

struct target { const char *transport; bool is_v6; uint8_t address[16]; uint16_t port; };
struct targets { struct target *all; size_t count, room; };
struct request { const char *host, *port, *transport; bool is_secure; };

static const struct row *current;
static char text_read[256];
static url_t uri_read;
static su_home_t via_home[1] = { SU_HOME_INIT(via_home) };
static struct request request_read;

/* ---- what the transaction layer does */

static bool push(struct targets *targets, const char *transport, const void *address, bool is_v6, uint16_t port) {
    if (targets->count == targets->room) {
        size_t room = targets->room == 0 ? 4 : 2 * targets->room;
        struct target *all = realloc(targets->all, room * sizeof *all);
        if (all == NULL) return false;
        targets->all = all;
        targets->room = room;
    }
    struct target *it = &targets->all[targets->count++];
    *it = (struct target){ .transport = transport, .is_v6 = is_v6, .port = port };
    memcpy(it->address, address, is_v6 ? 16 : 4);
    return true;
}

static void push_name(struct targets *targets, const char *transport, const char *name, uint16_t port) {
    for (int is_v6 = 0; is_v6 <= current->with_v6; is_v6++) {
        sres_record_t **answers = sres_cached_answers(resolver, is_v6 ? sres_type_aaaa : sres_type_a, name);
        if (answers == NULL) return;
        sres_sort_answers(resolver, answers);
        for (size_t at = 0; answers[at] != NULL; at++) {
            const void *address = is_v6 ? (void *)&answers[at]->sr_aaaa->aaaa_addr : (void *)&answers[at]->sr_a->a_addr;
            if (!push(targets, transport, address, is_v6, port)) abort();
        }
        sres_free_answers(resolver, answers);
    }
}

static void push_list(struct targets *targets, const char *transport, const char *name) {
    sres_record_t **answers = sres_cached_answers(resolver, sres_type_srv, name);
    if (answers == NULL) return;
    sres_sort_answers(resolver, answers);
    for (size_t at = 0; answers[at] != NULL; at++) {
        push_name(targets, transport, answers[at]->sr_srv->srv_target, answers[at]->sr_srv->srv_port);
    }
    sres_free_answers(resolver, answers);
}

static const char *service_of(const char *services, bool is_secure) {
    if (strcasecmp(services, "SIPS+D2T") == 0) return "tls";
    if (is_secure) return NULL;
    if (strcasecmp(services, "SIP+D2U") == 0) return "udp";
    return strcasecmp(services, "SIP+D2T") == 0 ? "tcp" : NULL;
}

static void push_rules(struct targets *targets, const struct request *request) {
    sres_record_t **answers = sres_cached_answers(resolver, sres_type_naptr, request->host);
    if (answers == NULL) return;
    sres_sort_answers(resolver, answers);
    for (size_t at = 0; answers[at] != NULL; at++) {
        const sres_naptr_record_t *rule = answers[at]->sr_naptr;
        const char *transport = service_of(rule->na_services, request->is_secure);
        if (transport == NULL || strcasecmp(rule->na_flags, "s") != 0) continue;
        push_list(targets, transport, rule->na_replace);
    }
    sres_free_answers(resolver, answers);
}

static size_t locate(const struct request *request) {
    struct targets targets = { 0 };
    const char *transport = request->is_secure ? "tls" : request->transport != NULL ? request->transport : "udp";
    uint16_t port = request->port != NULL ? (uint16_t)atoi(request->port) : request->is_secure ? 5061 : 5060;
    struct in_addr address;
    if (inet_pton(AF_INET, request->host, &address) == 1) {
        if (!push(&targets, transport, &address, false, port)) abort();
    } else if (request->port != NULL) {
        push_name(&targets, transport, request->host, port);
    } else if (request->transport != NULL) {
        char name[256];
        snprintf(name, sizeof name, "_%s._%s.%s", request->is_secure ? "sips" : "sip", transport, request->host);
        push_list(&targets, transport, name);
    } else {
        push_rules(&targets, request);
    }
    free(targets.all);
    return targets.count;
}

/* ---- requests */

static bool is_via(const char *text) { return strncmp(text, "SIP/", 4) == 0; }

static struct request of_uri(url_t *uri, char *transport, size_t size) {
    bool is_named = url_param(uri->url_params, "transport", transport, size) > 0;
    return (struct request){ uri->url_host, uri->url_port, is_named ? transport : NULL, uri->url_type == url_sips };
}

/* The transport of a Via is what stands behind `SIP/2.0/`. */
static struct request of_via(const sip_via_t *via) {
    return (struct request){ via->v_host, via->v_port, strcasecmp(via->v_protocol + 8, "UDP") == 0 ? "udp" : "tcp", false };
}

size_t locate_text(const struct row *row) {
    char text[256], transport[16];
    if (is_via(row->text)) {
        su_home_t home[1] = { SU_HOME_INIT(home) };
        su_home_init(home);
        struct request request = of_via(sip_via_make(home, row->text));
        size_t count = locate(&request);
        su_home_deinit(home);
        return count;
    }
    url_t uri;
    strcpy(text, row->text);
    if (url_d(&uri, text) != 0) return 0;
    struct request request = of_uri(&uri, transport, sizeof transport);
    return locate(&request);
}

size_t locate_read(const struct row *row) {
    (void)row;
    return locate(&request_read);
}

void prepare(const struct row *row) {
    static char transport[16];
    current = row;
    fill_cache(row);
    if (is_via(row->text)) {
        su_home_init(via_home);
        request_read = of_via(sip_via_make(via_home, row->text));
    } else {
        strcpy(text_read, row->text);
        if (url_d(&uri_read, text_read) != 0) abort();
        request_read = of_uri(&uri_read, transport, sizeof transport);
    }
}
