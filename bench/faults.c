#include "faults.h"

#define FAULT(name, octets) { name, (const uint8_t *)(octets), sizeof(octets) - 1 }

/* A reply with one question, for addresses of b.example, and one answer of this owner, type and data. */
#define HEADER "\x12\x34\x85\x00\0\1\0\1\0\0\0\0"
#define QUESTION "\1b\7example\0\0\1\0\1"
#define REPLY(owner, type, data) HEADER QUESTION owner "\0" type "\0\1\0\0\1\x2c" data

const struct vector reply_faults[REPLY_FAULT_COUNT] = {
    FAULT("an owner that points to itself", REPLY("\xc0\x1b", "\1", "\0\4\300\0\2\1")),
    FAULT("an owner that points behind itself, into the data", REPLY("\xc0\x27", "\1", "\0\4\1c\xc0\x0c")),
    FAULT("an A record of five octets", REPLY("\xc0\x0c", "\1", "\0\5\300\0\2\1\1")),
    FAULT("a CNAME that ends before its data does", REPLY("\xc0\x0c", "\5", "\0\5\1c\xc0\x0e\0")),
    FAULT("an owner with a label of type 01", REPLY("\x41" "a\xc0\x0c", "\1", "\0\4\300\0\2\1")),
};

const struct vector uri_faults[URI_FAULT_COUNT] = {
    FAULT("a host that begins with a hyphen", "sip:-b.example"),
    FAULT("a host with an empty label", "sip:b..example"),
    FAULT("an address with 256", "sip:192.0.2.256"),
    FAULT("an IPv6 address with :: twice", "sip:[2001::1::2]"),
    FAULT("port 65536", "sip:b.example:65536"),
    FAULT("a parameter that stands twice", "sip:b.example;lr;lr"),
    FAULT("a user with % and no digits behind it", "sip:a%zz@b.example"),
    FAULT("a header without =", "sip:b.example?subject"),
};

const struct vector via_faults[VIA_FAULT_COUNT] = {
    FAULT("a host that begins with a hyphen", "SIP/2.0/UDP -b.example;branch=z9hG4bKa"),
    FAULT("an address with 256", "SIP/2.0/UDP 192.0.2.256;branch=z9hG4bKa"),
    FAULT("port 65536", "SIP/2.0/UDP b.example:65536;branch=z9hG4bKa"),
    FAULT("a parameter that stands twice", "SIP/2.0/UDP b.example;branch=z9hG4bKa;branch=z9hG4bKb"),
};
