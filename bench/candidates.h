/* Who is measured. */
#ifndef CANDIDATES_H
#define CANDIDATES_H

#include "vectors.h"

#include <stddef.h>
#include <stdint.h>

/* What is measured of a candidate: one call over octets, which gives 0 where it refuses them. */
typedef size_t call(const uint8_t *octets, size_t length);

struct candidate {
    const char *name;
    call *call;
    /* What it does not check or read, in words; empty where it does all that this project does. */
    const char *leaves_out;
};

enum { CANDIDATE_LIMIT = 12 };

/* Those that were built, in the order of the tables. The last one has no name. */
extern const struct candidate reply_candidates[];
extern const struct candidate uri_candidates[];
extern const struct candidate via_candidates[];

/* Calls that need more than octets: each is made so many times in one go. */
size_t order_by_project(const struct srv_vector *list, size_t *places, size_t rounds);
size_t answer_by_project(const uint8_t *octets, size_t length, size_t rounds);

#endif
