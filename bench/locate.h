/* The requests of crates/benchmarks, which each candidate locates over answers that are all there. */
#ifndef LOCATE_H
#define LOCATE_H

#include <stdbool.h>
#include <stddef.h>

enum { ADDRESS_LIMIT = 32 };

/* A request to d.example, and what that domain has: services with a NAPTR record and a list of servers each; addresses of
 * each server, one of IPv4 and one of IPv6, and so many more of IPv4 of the first one. Of a large one the lists have servers
 * of their own, of ADDRESS_LIMIT addresses of each family. */
struct row {
    const char *name, *text;
    bool with_v6;
    size_t services, servers, more;
    bool is_large;
};

/* What a candidate is called; it makes its answers for a row, and reads the request; it locates the request from its text,
 * and the one that was read: each gives how many targets there are. */
extern const char candidate[];
void prepare(const struct row *row);
size_t locate_text(const struct row *row);
size_t locate_read(const struct row *row);

/* The services of a domain that is not large, and the labels of their lists. */
extern const char *const services[3], *const lists[3];

#endif
