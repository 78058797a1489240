#include "allocations.h"

#include <malloc.h>
#include <stdint.h>

void *__real_malloc(size_t size);
void *__real_calloc(size_t count, size_t size);
void *__real_realloc(void *old, size_t size);
void __real_free(void *old);
void *__wrap_malloc(size_t size);
void *__wrap_calloc(size_t count, size_t size);
void *__wrap_realloc(void *old, size_t size);
void __wrap_free(void *old);

static size_t held, peak, granted = SIZE_MAX;
static bool all, refused;

size_t octets_held(void) { return held; }

size_t peak_octets(void) { return peak; }

void begin_peak(void) { peak = held; }

void refuse_after(size_t count, bool all_of_them) {
    granted = count;
    all = all_of_them;
    refused = false;
}

bool end_refusals(void) {
    granted = SIZE_MAX;
    return refused;
}

static bool is_refused(void) {
    if (granted == SIZE_MAX) return false;
    if (granted > 0) {
        granted--;
        return false;
    }
    if (!all) granted = SIZE_MAX;
    refused = true;
    return true;
}

static void *counted(void *taken) {
    if (taken != NULL) held += malloc_usable_size(taken);
    if (held > peak) peak = held;
    return taken;
}

void *__wrap_malloc(size_t size) { return is_refused() ? NULL : counted(__real_malloc(size)); }

void *__wrap_calloc(size_t count, size_t size) { return counted(__real_calloc(count, size)); }

void *__wrap_realloc(void *old, size_t size) {
    size_t before = old != NULL ? malloc_usable_size(old) : 0;
    void *taken = is_refused() ? NULL : __real_realloc(old, size);
    if (taken != NULL) held -= before;
    return counted(taken);
}

void __wrap_free(void *old) {
    if (old != NULL) held -= malloc_usable_size(old);
    __real_free(old);
}
