/* A whole program for libFuzzer: its `main` and `_exit` have other names, its words are WORDS, what it reads are the octets, and
   nothing is kept of what it prints. */
#define _GNU_SOURCE
#include <fcntl.h>
#include <setjmp.h>
#include <stddef.h>
#include <stdint.h>
#include <stdlib.h>
#include <string.h>
#include <sys/mman.h>
#include <unistd.h>

int program_main(int count, char **words);

static const char *const words[] = { WORDS };
static jmp_buf before_program;

/* The end of the program is not that of the fuzzer. */
_Noreturn void program_exit(int status) {
    (void)status;
    longjmp(before_program, 1);
}

/* The toolchain's C library asks so for a word: its octets, as far as there is room, and how many they are; -1 where there is no
   such word. */
ptrdiff_t rattle_arg(size_t number, uint8_t *room, size_t length) {
    if (number >= sizeof words / sizeof words[0]) return -1;
    size_t count = strlen(words[number]);
    memcpy(room, words[number], count < length ? count : length);
    return (ptrdiff_t)count;
}

/* Standard input is a file in memory. */
int LLVMFuzzerInitialize(int *count, char ***given) {
    int input = memfd_create("input", 0);
    int output = open("/dev/null", O_WRONLY);
    if (dup2(input, STDIN_FILENO) < 0 || dup2(output, STDOUT_FILENO) < 0) abort();
    (void)count, (void)given;
    return 0;
}

int LLVMFuzzerTestOneInput(const uint8_t *octets, size_t length) {
    if (ftruncate(STDIN_FILENO, 0) != 0 || pwrite(STDIN_FILENO, octets, length, 0) != (ssize_t)length) abort();
    lseek(STDIN_FILENO, 0, SEEK_SET);
    if (setjmp(before_program) == 0) program_main(0, NULL);
    return 0;
}
