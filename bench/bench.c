/* Measures all candidates on all vectors within one process, and writes lines of fields with tabs between them.
 *
 *   bench times          table, vector, candidate, least and middle ns of a call over the slices
 *   bench allocations    table, vector, candidate, calls of the allocator in one call (count_allocations.c preloaded)
 *   bench instructions   the same calls for callgrind, whose dumps have the names of their cells
 *   bench faults         table, candidate, a fault that it takes
 */
#include "allocations.h"
#include "candidates.h"
#include "faults.h"
#include "minimal.h"

#include <stdbool.h>
#include <stdio.h>
#include <stdlib.h>
#include <string.h>
#include <time.h>

#ifdef WITH_VALGRIND
#include <valgrind/callgrind.h>
#else
#define CALLGRIND_ZERO_STATS (void)0
#define CALLGRIND_DUMP_STATS_AT(name) (void)(name)
#endif

enum { SLICES = 801, SLICES_OF_SLOW_CALLS = 11, COUNTED_CALLS = 20 };
static const double SLICE_NS = 100e3, SLOW_CALL_NS = 5e6;

/* What is prepared for such a call counts little in so many rounds, which begin at each word ten times. */
enum { PREPARED_ROUNDS = 10 * (WORD_COUNT - SRV_LIMIT) };

typedef size_t order_call(const struct srv_vector *list, size_t *places, size_t rounds);
typedef size_t answer_call(const uint8_t *octets, size_t length, size_t rounds);

/* A candidate on a vector. One of the three calls is there. */
struct cell {
    const char *table, *candidate;
    const struct vector *vector;
    call *call;
    order_call *order;
    answer_call *answer;
    const struct srv_vector *list;
    size_t rounds;
    double slices[SLICES];
};

/* What is done with the cells of one vector. */
typedef void visit(struct cell *cells, size_t count);

static size_t places[SRV_LIMIT];

/* Makes the call so many times, and gives what the last one gave. */
static size_t run(const struct cell *cell, size_t rounds) {
    if (cell->order != NULL) return cell->order(cell->list, places, rounds);
    if (cell->answer != NULL) return cell->answer(cell->vector->octets, cell->vector->length, rounds);
    size_t last = 0;
    for (size_t round = 0; round < rounds; round++) last = cell->call(cell->vector->octets, cell->vector->length);
    return last;
}

static bool is_prepared(const struct cell *cell) { return cell->call == NULL; }

/* The processor's time, so that a slice of a slow call does not pay for what else runs. */
static double now(void) {
    struct timespec time;
    clock_gettime(CLOCK_PROCESS_CPUTIME_ID, &time);
    return (double)time.tv_sec * 1e9 + (double)time.tv_nsec;
}

/* ns of a call, over so many. */
static double slice(const struct cell *cell, size_t rounds) {
    double start = now();
    run(cell, rounds);
    return (now() - start) / (double)rounds;
}

/* So many rounds that a slice is long enough for the clock. */
static void calibrate(struct cell *cell) {
    cell->rounds = is_prepared(cell) ? PREPARED_ROUNDS : 1;
    for (;;) {
        double call = slice(cell, cell->rounds);
        if (call * (double)cell->rounds >= SLICE_NS) return;
        cell->rounds *= 2;
    }
}

static int compare(const void *left, const void *right) {
    double a = *(const double *)left, b = *(const double *)right;
    return (a > b) - (a < b);
}

static void write_name(const struct cell *cell) {
    printf("%s\t%s\t%s\t", cell->table, cell->vector->name, cell->candidate);
}

static void time_cells(struct cell *cells, size_t count) {
    size_t slices = SLICES;
    for (size_t at = 0; at < count; at++) calibrate(&cells[at]);
    for (size_t at = 0; at < count; at++) {
        double whole = slice(&cells[at], cells[at].rounds) * (double)cells[at].rounds;
        if (whole > SLOW_CALL_NS) slices = SLICES_OF_SLOW_CALLS;
    }
    for (size_t turn = 0; turn < slices; turn++) {
        for (size_t at = 0; at < count; at++) cells[at].slices[turn] = slice(&cells[at], cells[at].rounds);
    }
    for (size_t at = 0; at < count; at++) {
        qsort(cells[at].slices, slices, sizeof *cells[at].slices, compare);
        write_name(&cells[at]);
        printf("%.1f\t%.1f\n", cells[at].slices[0], cells[at].slices[slices / 2]);
    }
    fflush(stdout);
}

static void count_allocations(struct cell *cells, size_t count) {
    if (&allocation_count == NULL) {
        fprintf(stderr, "count_allocations.c is not preloaded\n");
        exit(1);
    }
    for (size_t at = 0; at < count; at++) {
        run(&cells[at], 1);
        unsigned long start = allocation_count;
        run(&cells[at], COUNTED_CALLS);
        unsigned long middle = allocation_count;
        run(&cells[at], 2 * COUNTED_CALLS);
        unsigned long more = allocation_count - middle - (middle - start);
        write_name(&cells[at]);
        printf("%g\n", (double)more / COUNTED_CALLS);
    }
}

/* Dumps so many calls, and twice as many: the difference is free of what is prepared. */
static void count_instructions(struct cell *cells, size_t count) {
    for (size_t at = 0; at < count; at++) {
        struct cell *cell = &cells[at];
        for (size_t calls = COUNTED_CALLS; calls <= 2 * COUNTED_CALLS; calls += COUNTED_CALLS) {
            char name[256];
            snprintf(name, sizeof name, "%s\t%s\t%s\t%zu", cell->table, cell->vector->name, cell->candidate, calls);
            run(cell, 1);
            CALLGRIND_ZERO_STATS;
            run(cell, calls);
            CALLGRIND_DUMP_STATS_AT(name);
        }
    }
}

/* This project and plain C have to read the same. */
static void compare_numbers(const struct vector *vector, const struct candidate *candidates) {
    size_t number = candidates[0].call(vector->octets, vector->length);
    for (const struct candidate *candidate = candidates + 1; candidate->name != NULL; candidate++) {
        if (strncmp(candidate->name, "minimal", 7) == 0 && candidate->call(vector->octets, vector->length) != number) {
            fprintf(stderr, "other numbers: %s\n", vector->name);
            exit(1);
        }
    }
}

/* Does it with the candidates that take the vector. */
static void visit_calls(visit *visit, const char *table, const struct vector *vector,
                        const struct candidate *candidates) {
    static struct cell cells[CANDIDATE_LIMIT];
    size_t count = 0;
    compare_numbers(vector, candidates);
    for (const struct candidate *candidate = candidates; candidate->name != NULL; candidate++) {
        if (candidate->call(vector->octets, vector->length) == 0) {
            fprintf(stderr, "refused by %s: %s\n", candidate->name, vector->name);
            continue;
        }
        cells[count++] = (struct cell){
            .table = table, .candidate = candidate->name, .vector = vector, .call = candidate->call
        };
    }
    visit(cells, count);
}

/* Both have to give the same order, from each word on. */
static void compare_orders(const struct srv_vector *list) {
    for (size_t rounds = 1; rounds <= WORD_COUNT - SRV_LIMIT; rounds++) {
        size_t others[SRV_LIMIT];
        size_t count = order_by_project(list, places, rounds);
        if (count != list->count || minimal_order(list, others, rounds) != count
            || memcmp(places, others, count * sizeof *others) != 0) {
            fprintf(stderr, "other orders: %s\n", list->reply.name);
            exit(1);
        }
    }
}

static void visit_orders(visit *visit, const struct srv_vector *list) {
    static struct cell cells[2];
    compare_orders(list);
    cells[0] = (struct cell){ .table = "order", .candidate = "wokhleas", .order = order_by_project };
    cells[1] = (struct cell){ .table = "order", .candidate = "minimal C", .order = minimal_order };
    for (int at = 0; at < 2; at++) {
        cells[at].vector = &list->reply;
        cells[at].list = list;
    }
    visit(cells, 2);
}

static void visit_answer(visit *visit, const struct vector *reply) {
    static struct cell cell;
    cell = (struct cell){ .table = "answer_of", .candidate = "wokhleas", .vector = reply, .answer = answer_by_project };
    visit(&cell, 1);
}

/* The vectors that take long are left out of what is counted call by call. */
static void visit_all(visit *visit) {
    size_t replies = visit == time_cells ? REPLY_COUNT : REPLY_COUNT - 1;
    for (size_t at = 0; at < replies; at++) visit_calls(visit, "read_message", &reply_vectors[at], reply_candidates);
    visit_answer(visit, &reply_vectors[REPLY_OF_36_RECORDS]);
    for (size_t at = 0; at < URI_COUNT; at++) visit_calls(visit, "read_uri", &uri_vectors[at], uri_candidates);
    for (size_t at = 0; at < VIA_COUNT; at++) visit_calls(visit, "read_via", &via_vectors[at], via_candidates);
    for (size_t at = 0; at < SRV_LIST_COUNT; at++) visit_orders(visit, &srv_vectors[at]);
}

static void write_faults(const char *table, const struct candidate *candidates, const struct vector *faults,
                         size_t count) {
    for (const struct candidate *candidate = candidates; candidate->name != NULL; candidate++) {
        if (candidate->leaves_out[0] != 0) printf("%s\t%s\tdoes\t%s\n", table, candidate->name, candidate->leaves_out);
        for (size_t at = 0; at < count; at++) {
            if (candidate->call(faults[at].octets, faults[at].length) != 0) {
                printf("%s\t%s\ttakes\t%s\n", table, candidate->name, faults[at].name);
            }
        }
    }
}

static void write_all_faults(void) {
    write_faults("read_message", reply_candidates, reply_faults, REPLY_FAULT_COUNT);
    write_faults("read_uri", uri_candidates, uri_faults, URI_FAULT_COUNT);
    write_faults("read_via", via_candidates, via_faults, VIA_FAULT_COUNT);
}

int main(int count, char **arguments) {
    const char *what = count == 2 ? arguments[1] : "";
    make_vectors();
    if (strcmp(what, "times") == 0) {
        visit_all(time_cells);
    } else if (strcmp(what, "allocations") == 0) {
        visit_all(count_allocations);
    } else if (strcmp(what, "instructions") == 0) {
        visit_all(count_instructions);
    } else if (strcmp(what, "faults") == 0) {
        write_all_faults();
    } else {
        fprintf(stderr, "usage: bench times|allocations|instructions|faults\n");
        return 2;
    }
    return 0;
}
