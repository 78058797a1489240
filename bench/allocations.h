/* How often memory was asked for: known where count_allocations.c is preloaded. */
#ifndef ALLOCATIONS_H
#define ALLOCATIONS_H

/* Calls of malloc, calloc and realloc so far. */
extern unsigned long allocation_count __attribute__((weak));

#endif
