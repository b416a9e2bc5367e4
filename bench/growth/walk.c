/* walk PART: one walk of the proved library, of PART thousandths of the longest way, in moves of 1/4096 m. Prints its count. */
#include <stdint.h>
#include <stdio.h>
#include <stdlib.h>

uint64_t probe_walk(const float *s, size_t n);

int main(int argc, char **argv) {
    float part = argc > 1 ? strtof(argv[1], 0) / 1000 : 1;
    float s[7] = {-3, -3, -3, -3 + 6 * part, -3 + 6 * part, -3 + 6 * part, 1.0f / 4096};
    printf("%llu\n", (unsigned long long)probe_walk(s, 7));
    return 0;
}
