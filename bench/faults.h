/* Octets that are no message, no URI or no Via: each has one fault, which its name says. */
#ifndef FAULTS_H
#define FAULTS_H

#include "vectors.h"

enum { REPLY_FAULT_COUNT = 5, URI_FAULT_COUNT = 8, VIA_FAULT_COUNT = 4 };

extern const struct vector reply_faults[REPLY_FAULT_COUNT];
extern const struct vector uri_faults[URI_FAULT_COUNT];
extern const struct vector via_faults[VIA_FAULT_COUNT];

#endif
