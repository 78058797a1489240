/* What is taken from malloc, realloc and calloc: counted, and that of the first two, which the library calls, refused
 * on demand. The linker puts these in their places: -Wl,--wrap=malloc,--wrap=calloc,--wrap=realloc,--wrap=free. */
#ifndef ALLOCATIONS_H
#define ALLOCATIONS_H

#include <stdbool.h>
#include <stddef.h>

/* The octets that are held now, and the most since begin_peak. */
size_t octets_held(void);
size_t peak_octets(void);
void begin_peak(void);

/* From now on so many calls are granted, and then one is refused, or all are. */
void refuse_after(size_t granted, bool all);

/* Ends that, and says whether one was refused since it began. */
bool end_refusals(void);

#endif
