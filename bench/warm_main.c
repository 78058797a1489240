/* Measures how long a candidate takes for a warm request, and prints a line for each way: which one, the candidate,
 * the number of targets, the least and the middle of many slices in nanoseconds, each of one request. With a number it
 * locates so many requests, one after the other, for callgrind; with one word more beside others that wait. */
#include "warm.h"

#include <stdint.h>
#include <stdio.h>
#include <stdlib.h>
#include <time.h>

enum { SLICES = 301, SLICE_NS = 500000 };

static uint64_t now_in_ns(void) {
    struct timespec now;
    clock_gettime(CLOCK_MONOTONIC, &now);
    return (uint64_t)now.tv_sec * 1000000000 + (uint64_t)now.tv_nsec;
}

static int compare(const void *one, const void *other) {
    uint64_t a = *(const uint64_t *)one, b = *(const uint64_t *)other;
    return a < b ? -1 : a > b;
}

/* A slice is of some half a millisecond, or of one call where that takes longer. */
static void measure(const char *what, size_t requests, size_t (*locate)(void)) {
    uint64_t times[SLICES], start = now_in_ns(), once, rounds;
    volatile size_t targets = locate();
    if (targets == 0) return;
    start = now_in_ns();
    targets = locate();
    once = now_in_ns() - start;
    rounds = once == 0 ? 1000 : 1 + SLICE_NS / once;
    for (size_t slice = 0; slice < SLICES; slice++) {
        start = now_in_ns();
        for (uint64_t round = 0; round < rounds; round++) targets = locate();
        times[slice] = now_in_ns() - start;
    }
    qsort(times, SLICES, sizeof *times, compare);
    printf("%s\t%s\t%zu\t%llu\t%llu\n", what, candidate, targets / requests,
           (unsigned long long)(times[0] / (rounds * requests)),
           (unsigned long long)(times[SLICES / 2] / (rounds * requests)));
}

int main(int count, char **words) {
    prepare_warm();
    if (count > 1) {
        if (count > 2) let_others_wait();
        for (long round = strtol(words[1], NULL, 10); round > 0; round--) locate_warm();
        return 0;
    }
    measure("one alone", 1, locate_warm);
    measure("1,000 inside at once, each", CROWD, locate_crowd);
    let_others_wait();
    measure("one beside 999 that wait", 1, locate_beside);
    return 0;
}
