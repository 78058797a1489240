/* The answers of a request in the cache of sofia-sip, and a resolver over it, which asks no server. */
#ifndef SOFIA_ANSWERS_H
#define SOFIA_ANSWERS_H

#include "../locate.h"

#include <arpa/inet.h>
#include <netinet/in.h>
#include <stdint.h>
#include <stdio.h>
#include <stdlib.h>
#include <string.h>
#include <sys/socket.h>
#include <time.h>

#include <sofia-resolv/sres.h>
#include <sofia-resolv/sres_cache.h>
#include <sofia-resolv/sres_record.h>

static sres_resolver_t *resolver;
static sres_cache_t *cache;

enum { SERVER_LIMIT = 32 };

static char *copy_of(const char *text) { return strcpy(malloc(strlen(text) + 1), text); }

static void store(const char *name, sres_record_t *record, size_t size, uint16_t type) {
    record->sr_record->r_name = (char *)name;
    record->sr_record->r_type = type;
    record->sr_record->r_class = sres_class_in;
    record->sr_record->r_ttl = 36000;
    record->sr_record->r_size = (uint16_t)size;
    record->sr_record->r_parsed = 1;
    sres_record_t *kept = sres_cache_alloc_record(cache, record, 0);
    if (kept == NULL) abort();
    sres_cache_store(cache, kept, time(NULL));
}

/* So many addresses, from this one on: no two servers have the same. */
static void store_addresses(const char *name, bool is_v6, size_t first, size_t count) {
    for (size_t at = first; at < first + count; at++) {
        sres_record_t record = { 0 };
        if (is_v6) {
            record.sr_aaaa->aaaa_addr.u6_addr[0] = 0x20;
            record.sr_aaaa->aaaa_addr.u6_addr[14] = (uint8_t)(at >> 8);
            record.sr_aaaa->aaaa_addr.u6_addr[15] = (uint8_t)at;
            store(name, &record, sizeof record.sr_aaaa, sres_type_aaaa);
        } else {
            record.sr_a->a_addr.s_addr = htonl(0xc6120000 + (uint32_t)at);
            store(name, &record, sizeof record.sr_a, sres_type_a);
        }
    }
}

static void store_list(const struct row *row, const char *list, size_t number) {
    char name[64], server[64];
    snprintf(name, sizeof name, "%s.d.example.", list);
    for (size_t at = 0; at < row->servers; at++) {
        snprintf(server, sizeof server, "s%zu-%zu.d.example.", at, row->is_large ? number : 0);
        sres_record_t record = { 0 };
        record.sr_srv->srv_priority = at > 0 && at + 1 == row->servers ? 20 : 10;
        record.sr_srv->srv_weight = 60;
        record.sr_srv->srv_port = 5060;
        record.sr_srv->srv_target = copy_of(server);
        store(name, &record, sizeof record.sr_srv, sres_type_srv);
        if (number > 0 && !row->is_large) continue;
        size_t first = ADDRESS_LIMIT * (SERVER_LIMIT * number + at + 1);
        store_addresses(server, false, first, row->is_large ? ADDRESS_LIMIT : 1 + (at == 0 ? row->more : 0));
        store_addresses(server, true, first, row->is_large ? ADDRESS_LIMIT : 1);
    }
}

static void store_rules(const struct row *row) {
    for (size_t at = 0; at < row->services; at++) {
        char list[32], name[64];
        if (row->is_large) {
            snprintf(list, sizeof list, "l%zu", at);
        } else {
            snprintf(list, sizeof list, "%s", lists[at]);
        }
        snprintf(name, sizeof name, "%s.d.example.", list);
        sres_record_t record = { 0 };
        record.sr_naptr->na_order = 10;
        record.sr_naptr->na_prefer = 50;
        record.sr_naptr->na_flags = copy_of("s");
        record.sr_naptr->na_services = copy_of(services[row->is_large ? 0 : at]);
        record.sr_naptr->na_regexp = copy_of("");
        record.sr_naptr->na_replace = copy_of(name);
        store("d.example.", &record, sizeof record.sr_naptr, sres_type_naptr);
        store_list(row, list, at);
    }
}

static void fill_cache(const struct row *row) {
    if (resolver != NULL) sres_resolver_unref(resolver);
    if (cache != NULL) sres_cache_unref(cache);
    cache = sres_cache_new(4096);
    resolver = sres_resolver_new_with_cache("/dev/null", cache, NULL);
    if (resolver == NULL) abort();
    store_addresses("d.example.", false, 0, 1);
    store_rules(row);
}

#endif
