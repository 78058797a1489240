/* The readers of crates/bench_calls, each on the same octets, for libFuzzer. */
#include <stddef.h>
#include <stdint.h>

size_t bench_read_message(const uint8_t *octets, size_t length);
size_t bench_view_uri(const uint8_t *octets, size_t length);
size_t bench_view_via(const uint8_t *octets, size_t length);

int LLVMFuzzerTestOneInput(const uint8_t *octets, size_t length) {
    bench_read_message(octets, length);
    bench_view_uri(octets, length);
    bench_view_via(octets, length);
    return 0;
}
