/* Plain C for the same calls: what they cost without proofs. */
#ifndef MINIMAL_H
#define MINIMAL_H

#include "vectors.h"

#include <stddef.h>
#include <stdint.h>

/* Each gives a number of what it read, and 0 where it read nothing. */
size_t minimal_reply(const uint8_t *octets, size_t length);
size_t minimal_reply_allocating(const uint8_t *octets, size_t length);
size_t minimal_reply_keeping_case(const uint8_t *octets, size_t length);
size_t minimal_uri(const uint8_t *octets, size_t length);
size_t minimal_via(const uint8_t *octets, size_t length);

/* Puts records in order so many times, each time from another word on. Writes the last order, and gives its length. */
size_t minimal_order(const struct srv_vector *list, size_t *places, size_t rounds);

#endif
