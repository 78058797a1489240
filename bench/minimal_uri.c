/* Readers of URIs and Vias (RFC 3261 25.1), in one walk over the text. */
#include "minimal.h"

#include <arpa/inet.h>
#include <stdbool.h>
#include <stdlib.h>
#include <string.h>
#include <strings.h>

enum { TEXT_LIMIT = 1024, DEFAULT_PORT = 5060, NAME_LIMIT = 255, LABEL_LIMIT = 63, PARAM_LIMIT = 64 };

/* Classes of octets. */
enum { USER = 1, PASSWORD = 2, PARAM = 4, HEADER = 8, HOST = 16, DIGIT = 32, TOKEN = 64 };
enum { ALL_TEXT = USER | PASSWORD | PARAM | HEADER };

static uint8_t classes[256];

static void add_class(const char *octets, uint8_t class) {
    for (; *octets != 0; octets++) classes[(uint8_t)*octets] |= class;
}

__attribute__((constructor)) static void fill_classes(void) {
    add_class("abcdefghijklmnopqrstuvwxyzABCDEFGHIJKLMNOPQRSTUVWXYZ", ALL_TEXT | HOST | TOKEN);
    add_class("0123456789", ALL_TEXT | HOST | DIGIT | TOKEN);
    add_class("-_.!~*'()", ALL_TEXT);
    add_class("-.!%*_+`'~", TOKEN);
    add_class("-", HOST);
    add_class("&=+$,;?/", USER);
    add_class("&=+$,", PASSWORD);
    add_class("[]/:&+$", PARAM);
    add_class("[]/?:+$", HEADER);
}

struct text { const char *at, *end; };
enum transport { NOT_SAID, UDP, TCP, SCTP, TLS, OTHER };
enum host_kind { V4, V6, NAME };
struct host { enum host_kind kind; uint8_t octets[16]; uint8_t *name; uint8_t length; };
struct uri { bool secure; struct host host, maddr; bool has_maddr; unsigned port; enum transport transport; };
struct via { enum transport transport; struct host host; unsigned port; };

static size_t length_of(struct text text) { return (size_t)(text.end - text.at); }

static bool is(struct text text, const char *word) {
    return length_of(text) == strlen(word) && strncasecmp(text.at, word, length_of(text)) == 0;
}

static bool skip(struct text *text, char octet) {
    if (text->at == text->end || *text->at != octet) return false;
    text->at++;
    return true;
}

/* The run of octets of a class, and escapes, in front. */
static bool run_of(struct text *text, uint8_t class, struct text *run) {
    run->at = text->at;
    while (text->at < text->end) {
        uint8_t octet = (uint8_t)*text->at;
        if (classes[octet] & class) {
            text->at++;
        } else if (octet == '%' && text->end - text->at > 2 && strchr("0123456789abcdefABCDEF", text->at[1])
                   && strchr("0123456789abcdefABCDEF", text->at[2])) {
            text->at += 3;
        } else {
            break;
        }
    }
    run->end = text->at;
    return run->at < run->end;
}

static bool plain_run(struct text *text, uint8_t class, struct text *run) {
    run->at = text->at;
    while (text->at < text->end && classes[(uint8_t)*text->at] & class) text->at++;
    run->end = text->at;
    return run->at < run->end;
}

static bool number(struct text *text, unsigned limit, unsigned *value) {
    *value = 0;
    const char *start = text->at;
    for (; text->at < text->end && classes[(uint8_t)*text->at] & DIGIT; text->at++) {
        *value = 10 * *value + (unsigned)(*text->at - '0');
        if (*value > limit) return false;
    }
    return text->at > start;
}

static bool v4(struct text text, uint8_t *octets) {
    for (int at = 0; at < 4; at++) {
        unsigned value;
        const char *start = text.at;
        if (at > 0 && !skip(&text, '.')) return false;
        if (!number(&text, 255, &value) || text.at - start > 3 + (at > 0)) return false;
        octets[at] = (uint8_t)value;
    }
    return text.at == text.end;
}

static bool v6(struct text text, uint8_t *octets) {
    char copy[INET6_ADDRSTRLEN];
    if (length_of(text) >= sizeof copy) return false;
    memcpy(copy, text.at, length_of(text));
    copy[length_of(text)] = 0;
    return inet_pton(AF_INET6, copy, octets) == 1;
}

/* The labels of a name, in small letters, as octets of DNS (RFC 1035 3.1). A letter begins the last one. */
static bool labels(struct text text, uint8_t *wire, uint8_t *length) {
    size_t at = 0;
    char first = 0;
    if (length_of(text) > 1 && text.end[-1] == '.') text.end--;
    for (;;) {
        size_t size_at = at++;
        first = text.at < text.end ? *text.at : 0;
        if (first == '-') return false;
        for (; text.at < text.end && classes[(uint8_t)*text.at] & HOST; text.at++) {
            if (at == NAME_LIMIT - 1) return false;
            uint8_t octet = (uint8_t)*text.at;
            wire[at++] = (uint8_t)(octet - 'A') < 26 ? octet | 0x20 : octet;
        }
        size_t size = at - size_at - 1;
        if (size == 0 || size > LABEL_LIMIT || text.at[-1] == '-') return false;
        wire[size_at] = (uint8_t)size;
        if (text.at == text.end) break;
        if (*text.at++ != '.') return false;
    }
    wire[at++] = 0;
    *length = (uint8_t)at;
    return !(classes[(uint8_t)first] & DIGIT);
}

static bool host(struct text text, struct host *host) {
    if (skip(&text, '[')) {
        if (text.at == text.end || text.end[-1] != ']') return false;
        text.end--;
        host->kind = V6;
        return v6(text, host->octets);
    }
    if (text.at < text.end && classes[(uint8_t)*text.at] & DIGIT && v4(text, host->octets)) {
        host->kind = V4;
        return true;
    }
    uint8_t wire[NAME_LIMIT];
    host->kind = NAME;
    if (!labels(text, wire, &host->length) || (host->name = malloc(host->length)) == NULL) return false;
    memcpy(host->name, wire, host->length);
    return true;
}

/* The host and the port in front; 0 where there is none. */
static bool host_port(struct text *text, struct host *to, unsigned *port) {
    struct text front = *text;
    if (skip(text, '[')) {
        while (text->at < text->end && *text->at != ']') text->at++;
        if (!skip(text, ']')) return false;
    } else {
        while (text->at < text->end && (classes[(uint8_t)*text->at] & HOST || *text->at == '.')) text->at++;
    }
    front.end = text->at;
    *port = 0;
    return host(front, to) && (!skip(text, ':') || (number(text, 65535, port) && *port > 0));
}

static enum transport transport_of(struct text name) {
    static const char *const known[] = { "udp", "tcp", "sctp", "tls" };
    for (int at = 0; at < 4; at++) {
        if (is(name, known[at])) return UDP + at;
    }
    return OTHER;
}

/* Notes a name that did not come before. */
static bool is_new(struct text *names, size_t *count, struct text name) {
    for (size_t at = 0; at < *count; at++) {
        if (length_of(names[at]) == length_of(name) && strncasecmp(names[at].at, name.at, length_of(name)) == 0) {
            return false;
        }
    }
    if (*count == PARAM_LIMIT) return false;
    names[(*count)++] = name;
    return true;
}

static bool uri_params(struct text *text, struct uri *uri) {
    struct text names[PARAM_LIMIT], name, value;
    for (size_t count = 0; skip(text, ';');) {
        if (!run_of(text, PARAM, &name) || !is_new(names, &count, name)) return false;
        bool has_value = skip(text, '=');
        if (has_value && !run_of(text, PARAM, &value)) return false;
        if (is(name, "transport")) {
            if (!has_value) return false;
            uri->transport = transport_of(value);
        } else if (is(name, "maddr")) {
            if (!has_value || !host(value, &uri->maddr)) return false;
            uri->has_maddr = true;
        }
    }
    return true;
}

static bool headers(struct text *text) {
    struct text run;
    if (!skip(text, '?')) return true;
    do {
        if (!run_of(text, HEADER, &run) || !skip(text, '=')) return false;
        run_of(text, HEADER, &run);
    } while (skip(text, '&'));
    return true;
}

/* What stands in front of the host: no more than checked. */
static bool user(struct text *text) {
    const char *at = memchr(text->at, '@', length_of(*text));
    if (at == NULL) return true;
    struct text part = { text->at, at }, run;
    if (!run_of(&part, USER, &run)) return false;
    if (skip(&part, ':')) run_of(&part, PASSWORD, &run);
    text->at = at + 1;
    return part.at == part.end;
}

static bool read_uri(struct text text, struct uri *uri) {
    if (length_of(text) > TEXT_LIMIT || length_of(text) < 4 || strncasecmp(text.at, "sip", 3) != 0) return false;
    text.at += 3;
    uri->secure = (*text.at | 0x20) == 's';
    text.at += uri->secure;
    return skip(&text, ':') && user(&text) && host_port(&text, &uri->host, &uri->port) && uri_params(&text, uri)
        && headers(&text) && text.at == text.end;
}

static bool quoted(struct text *text) {
    while (text->at < text->end && *text->at != '"') text->at += *text->at == '\\' && text->end - text->at > 1 ? 2 : 1;
    return skip(text, '"');
}

static bool via_params(struct text *text) {
    struct text names[PARAM_LIMIT], name;
    for (size_t count = 0; skip(text, ';');) {
        if (!plain_run(text, TOKEN, &name) || !is_new(names, &count, name)) return false;
        if (!skip(text, '=')) continue;
        if (skip(text, '"')) {
            if (!quoted(text)) return false;
            continue;
        }
        const char *start = text->at;
        while (text->at < text->end && *text->at > ' ' && *text->at < 127 && !strchr(";,\"", *text->at)) text->at++;
        if (text->at == start) return false;
    }
    return true;
}

static bool read_via(struct text text, struct via *via) {
    static const char protocol[] = "SIP/2.0/";
    struct text transport;
    if (length_of(text) > TEXT_LIMIT || length_of(text) < sizeof protocol) return false;
    if (strncasecmp(text.at, protocol, sizeof protocol - 1) != 0) return false;
    text.at += sizeof protocol - 1;
    if (!plain_run(&text, TOKEN, &transport) || !skip(&text, ' ')) return false;
    via->transport = transport_of(transport);
    return host_port(&text, &via->host, &via->port) && via_params(&text) && text.at == text.end;
}

size_t minimal_uri(const uint8_t *octets, size_t length) {
    struct uri uri = { 0 };
    bool read = read_uri((struct text){ (const char *)octets, (const char *)octets + length }, &uri);
    free(uri.host.name);
    free(uri.maddr.name);
    return !read ? 0 : uri.port > 0 ? uri.port : DEFAULT_PORT;
}

size_t minimal_via(const uint8_t *octets, size_t length) {
    struct via via = { 0 };
    bool read = read_via((struct text){ (const char *)octets, (const char *)octets + length }, &via);
    free(via.host.name);
    return !read ? 0 : via.port > 0 ? via.port : DEFAULT_PORT;
}
