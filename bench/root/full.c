// Every bit pattern through the entry `square_root`: the hardware's root where it is permitted, else the right refusal.
#include <math.h>
#include <stdint.h>
#include <stdio.h>
#include <string.h>

uint32_t probe_square_root(float x, float *out);

static uint32_t bits(float x) { uint32_t b; memcpy(&b, &x, 4); return b; }
static float number(uint32_t b) { float x; memcpy(&x, &b, 4); return x; }

int main(void) {
    uint64_t roots = 0, ones = 0, twos = 0, wrong = 0;
    uint32_t b = 0;
    do {
        float x = number(b), r = -7.0f;
        uint32_t n = probe_square_root(x, &r);
        if ((b & 0x7f800000u) == 0x7f800000u) {
            ones++;
            wrong += n != 1 || r != -7.0f;
        } else if (x < 0.0f || x > 65536.0f) {
            twos++;
            wrong += n != 2 || r != -7.0f;
        } else {
            roots++;
            wrong += n != 0 || bits(r) != bits(sqrtf(x));
        }
    } while (++b != 0);
    printf("2^32 patterns: %llu roots, %llu refused 1, %llu refused 2, %llu wrong\n",
        (unsigned long long)roots, (unsigned long long)ones, (unsigned long long)twos, (unsigned long long)wrong);
    return wrong != 0;
}
