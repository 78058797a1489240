/* Measures how long a candidate takes to locate each request, and prints the lines of crates/benchmarks. With the name
 * of a request and a number it locates that one so many times, from its text. */
#include "locate.h"

#include <stdint.h>
#include <stdio.h>
#include <stdlib.h>
#include <string.h>
#include <time.h>

enum { SLICES = 101, MOST_NS = 2000000000 };

const char *const services[3] = { "SIP+D2U", "SIP+D2T", "SIPS+D2T" };
const char *const lists[3] = { "_sip._udp", "_sip._tcp", "_sips._tcp" };

static const struct row rows[] = {
    { "address", "sip:192.0.2.7:5080", false, 1, 3, 1, false },
    { "name and port", "sip:d.example:5070", false, 1, 3, 1, false },
    { "transport", "sip:d.example;transport=tcp", false, 3, 2, 0, false },
    { "NAPTR", "sip:user@d.example", false, 1, 3, 1, false },
    { "SIPS", "sips:user@d.example", false, 3, 3, 1, false },
    { "Via", "SIP/2.0/UDP d.example;branch=z9hG4bK1", false, 1, 3, 1, false },
    { "ten answers", "sip:user@d.example", true, 3, 3, 1, false },
    { "most", "sip:user@d.example", true, 8, 4, 0, true },
    { "most", "sip:user@d.example", true, 8, 8, 0, true },
    { "most", "sip:user@d.example", true, 8, 16, 0, true },
    { "most", "sip:user@d.example", true, 8, 32, 0, true },
};

static uint64_t now_in_ns(void) {
    struct timespec now;
    clock_gettime(CLOCK_MONOTONIC, &now);
    return (uint64_t)now.tv_sec * 1000000000 + (uint64_t)now.tv_nsec;
}

static int compare(const void *one, const void *other) {
    uint64_t a = *(const uint64_t *)one, b = *(const uint64_t *)other;
    return a < b ? -1 : a > b;
}

static void measure(const struct row *row, const char *form, size_t (*locate)(const struct row *)) {
    uint64_t times[SLICES], start = now_in_ns();
    volatile size_t count = locate(row);
    uint64_t once = now_in_ns() - start, rounds = once == 0 ? 1000 : 100000 / once;
    rounds = rounds < 1 ? 1 : rounds > 1000 ? 1000 : rounds;
    size_t slices = once < MOST_NS / SLICES ? SLICES : 1 + MOST_NS / once;
    for (size_t slice = 0; slice < slices; slice++) {
        start = now_in_ns();
        for (uint64_t round = 0; round < rounds; round++) count = locate(row);
        times[slice] = now_in_ns() - start;
    }
    qsort(times, slices, sizeof *times, compare);
    printf("%s\t%s\t%s\t%zu\t%llu\t%llu\n", row->name, candidate, form, count,
           (unsigned long long)(times[0] / rounds), (unsigned long long)(times[slices / 2] / rounds));
    fflush(stdout);
}

int main(int count, char **args) {
    for (size_t at = 0; at < sizeof rows / sizeof *rows; at++) {
        const struct row *row = &rows[at];
        if (count > 2 && strcmp(args[1], row->name) != 0) continue;
        prepare(row);
        if (count > 2) {
            for (long round = strtol(args[2], NULL, 10); round > 0; round--) locate_text(row);
            return 0;
        }
        measure(row, "text", locate_text);
        measure(row, "request", locate_read);
    }
    return 0;
}
