/* What is measured: DNS replies (RFC 1035 4), texts of RFC 3261, and lists of SRV records (RFC 2782). */
#ifndef VECTORS_H
#define VECTORS_H

#include <stddef.h>
#include <stdint.h>

enum { MESSAGE_LIMIT = 65535, SRV_LIMIT = 32, WORD_COUNT = 256 };

/* Octets under a name. A 0 stands behind them. */
struct vector {
    const char *name;
    const uint8_t *octets;
    size_t length;
};

/* Priorities and weights of SRV records, and the reply that has them. */
struct srv_vector {
    struct vector reply;
    size_t count;
    uint16_t priorities[SRV_LIMIT];
    uint16_t weights[SRV_LIMIT];
};

enum { REPLY_COUNT = 7, URI_COUNT = 5, VIA_COUNT = 2, SRV_LIST_COUNT = 3 };

/* In reply_vectors: the reply of 36 records, whose answer is looked for as well. */
enum { REPLY_OF_36_RECORDS = 4 };

extern struct vector reply_vectors[REPLY_COUNT];
extern struct vector uri_vectors[URI_COUNT];
extern struct vector via_vectors[VIA_COUNT];
extern struct srv_vector srv_vectors[SRV_LIST_COUNT];

/* Random words, the same in each run. */
extern uint64_t words[WORD_COUNT];

/* Fills all of them. */
void make_vectors(void);

#endif
