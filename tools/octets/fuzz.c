/* One call of crates/bench_calls, named by CALL, for libFuzzer. With ROUNDS it takes how often it is made. */
#include <stddef.h>
#include <stdint.h>

#ifdef ROUNDS
size_t CALL(const uint8_t *octets, size_t length, size_t rounds);
#else
size_t CALL(const uint8_t *octets, size_t length);
#endif

int LLVMFuzzerTestOneInput(const uint8_t *octets, size_t length) {
#ifdef ROUNDS
    CALL(octets, length, 1);
#else
    CALL(octets, length);
#endif
    return 0;
}
