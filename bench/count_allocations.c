/* Counts calls of the allocator, and the octets that it has given out at most at any time, with its own of each block. It is
 * preloaded (LD_PRELOAD) in a run of its own, so that times do not pay for it. */
#include <malloc.h>
#include <stddef.h>

extern void *__libc_malloc(size_t size);
extern void *__libc_calloc(size_t count, size_t size);
extern void *__libc_realloc(void *block, size_t size);
extern void __libc_free(void *block);

unsigned long allocation_count = 0, most_octets = 0;
static unsigned long octets = 0;

static size_t size_of(void *block) { return block == NULL ? 0 : malloc_usable_size(block) + sizeof(size_t); }

static void *given(void *block) {
    allocation_count++;
    octets += size_of(block);
    if (octets > most_octets) most_octets = octets;
    return block;
}

void *malloc(size_t size) { return given(__libc_malloc(size)); }

void *calloc(size_t count, size_t size) { return given(__libc_calloc(count, size)); }

void *realloc(void *block, size_t size) {
    octets -= size_of(block);
    return given(__libc_realloc(block, size));
}

void free(void *block) {
    octets -= size_of(block);
    __libc_free(block);
}
