/* In place of getrandom(2): octets that are the same in each run, by which examples/c/locate draws as `sipwhere --seed`
 * does. */
#include <string.h>
#include <sys/types.h>

ssize_t fixed_octets(void *octets, size_t length, unsigned flags);

ssize_t fixed_octets(void *octets, size_t length, unsigned flags) {
    (void)flags;
    memset(octets, 0x5a, length);
    return (ssize_t)length;
}
