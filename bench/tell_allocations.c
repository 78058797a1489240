/* Counts what the allocator gives, and tells it on standard error when the program ends, by `_exit` or else. */
#include "count_allocations.c"
#include <stdio.h>
#include <sys/syscall.h>
#include <unistd.h>

__attribute__((destructor)) static void tell(void) {
    fprintf(stderr, "allocations: %lu\noctets: %lu\n", allocation_count, most_octets);
}

void _exit(int status) {
    tell();
    syscall(SYS_exit_group, status);
    __builtin_unreachable();
}
