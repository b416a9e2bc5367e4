// Nanoseconds a call: the entry `square_root` against the hardware's sqrtf, chained and apart, in one run.
// Both are called, not inlined. Each figure is the best of 300 short rounds, taken in turn, so that a busy machine
// spoils few of them.
#include <math.h>
#include <stdint.h>
#include <stdio.h>
#include <string.h>
#include <time.h>

uint32_t probe_square_root(float x, float *out);

#define COUNT 4096
#define TURNS 10
#define ROUNDS 300

static float numbers[COUNT];

static uint32_t bits(float x) { uint32_t b; memcpy(&b, &x, 4); return b; }
static float number(uint32_t b) { float x; memcpy(&x, &b, 4); return x; }
static double now(void) { struct timespec t; clock_gettime(CLOCK_MONOTONIC, &t); return t.tv_sec * 1e9 + t.tv_nsec; }

static __attribute__((noinline)) uint32_t hardware(float x, float *out) { __asm__ volatile(""); *out = sqrtf(x); return 0; }

typedef uint32_t (*root)(float, float *);

// each argument waits for the last root
static double chained(root f) {
    uint32_t last = 0;
    double start = now();
    for (int t = 0; t < TURNS; t++)
        for (int i = 0; i < COUNT; i++) {
            float r;
            f(number(bits(numbers[i]) + (last & 1)), &r);
            last = bits(r);
        }
    double took = now() - start;
    __asm__ volatile("" ::"r"(last));
    return took / ((double)TURNS * COUNT);
}

static double apart(root f) {
    uint32_t sum = 0;
    double start = now();
    for (int t = 0; t < TURNS; t++)
        for (int i = 0; i < COUNT; i++) {
            float r;
            f(numbers[i], &r);
            sum += bits(r);
        }
    double took = now() - start;
    __asm__ volatile("" ::"r"(sum));
    return took / ((double)TURNS * COUNT);
}

static void compare(const char *what) {
    double best[4] = {1e9, 1e9, 1e9, 1e9};
    for (int round = 0; round < ROUNDS; round++)
        for (int k = 0; k < 4; k++) {
            root f = k % 2 ? probe_square_root : hardware;
            double t = k < 2 ? chained(f) : apart(f);
            if (t < best[k]) best[k] = t;
        }
    printf("%-26s chained %5.2f ns against %5.2f: %.2f   apart %5.2f ns against %5.2f: %.2f\n", what, best[1], best[0],
        best[1] / best[0], best[3], best[2], best[3] / best[2]);
}

int main(void) {
    uint32_t seed = 7;
    for (int i = 0; i < COUNT; i++) { seed = seed * 1664525u + 1013904223u; numbers[i] = (seed >> 8) / 4194304.0f; }
    compare("numbers from 0 to 4");
    for (int i = 0; i < COUNT; i++) { seed = seed * 1664525u + 1013904223u; numbers[i] = number(0x00800000u + seed % (0x477fffffu - 0x00800000u)); }
    compare("normal patterns to 65536");
    for (int i = 0; i < COUNT; i++) { seed = seed * 1664525u + 1013904223u; numbers[i] = number(1u + seed % 0x7ffffeu); }
    compare("subnormal patterns");
    return 0;
}
