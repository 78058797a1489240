/* A warm request, whose answers are all there: sip:user@d.example over one NAPTR record, three SRV records and four
 * addresses. Each candidate locates it from its text and goes through its targets. */
#ifndef WARM_H
#define WARM_H

#include <stddef.h>

enum { CROWD = 1000 };

/* What a candidate is called, and what makes its answers. Each of the calls after these gives how many targets there
 * were, or 0 where the candidate can't be measured so. */
extern const char candidate[];
void prepare_warm(void);

/* One request, beside no other. */
size_t locate_warm(void);

/* So many requests, which are all inside before the first one is asked for its targets. */
size_t locate_crowd(void);

/* Others come in, one less than a crowd, whose answers are missing; then one request beside them. */
void let_others_wait(void);
size_t locate_beside(void);

#endif
