/* Every bit pattern of sine, cosine, arc cosine and absolute value, and many pairs of atan2, of the proved library:
   the right refusal, or a value near the C library's double function. Prints the largest distances; last the count of
   inputs and of failures. Usage: full [PAIRS] */
#include <math.h>
#include <stdint.h>
#include <stdio.h>
#include <stdlib.h>
#include <string.h>

uint32_t probe_sine(float x, float *out);
uint32_t probe_cosine(float x, float *out);
uint32_t probe_arc_cosine(float x, float *out);
uint32_t probe_absolute(float x, float *out);
uint32_t probe_atan2(float y, float x, float *out);

static uint64_t tried, failed;

static float of_bits(uint32_t b) {
    float x;
    memcpy(&x, &b, 4);
    return x;
}

static uint32_t bits(float x) {
    uint32_t b;
    memcpy(&b, &x, 4);
    return b;
}

static void bad(const char *what, uint32_t a, uint32_t b, uint32_t n, float got) {
    if (failed++ < 20) printf("%s %08x %08x: refusal %u, value %08x\n", what, a, b, n, bits(got));
}

static uint32_t refusal(float x, float most) {
    return !isfinite(x) ? 1 : !(fabsf(x) <= most) ? 2 : 0;
}

typedef uint32_t (*ours)(float, float *);
typedef double (*theirs)(double);

static void every(const char *name, ours f, theirs g, float most, double bound) {
    double worst = 0;
    uint32_t at = 0, b = 0;
    do {
        float x = of_bits(b), out = 7;
        uint32_t n = f(x, &out), want = refusal(x, most);
        if (n != want || (n && out != 7)) bad(name, b, 0, n, out);
        if (!n) {
            double d = fabs((double)out - g(x));
            if (!(d <= bound)) bad(name, b, 0, n, out);
            if (d > worst) worst = d, at = b;
        }
        tried++;
    } while (++b);
    printf("%-12s every pattern, largest distance 2^%.2f at %08x\n", name, log2(worst), at);
    fflush(stdout);
}

static double magnitude(double x) { return fabs(x); }

static uint64_t seed = 0x9e3779b97f4a7c15;

static uint64_t next(void) {
    seed ^= seed << 13;
    seed ^= seed >> 7;
    seed ^= seed << 17;
    return seed;
}

static double worst_pair;
static uint32_t worst_y, worst_x;

static void pair(uint32_t yb, uint32_t xb) {
    float y = of_bits(yb), x = of_bits(xb), out = 7;
    uint32_t n = probe_atan2(y, x, &out);
    uint32_t want = !isfinite(y) || !isfinite(x) ? 1 : fabsf(y) <= 128 && fabsf(x) <= 128 ? 0 : 2;
    tried++;
    if (n != want || (n && out != 7)) bad("atan2", yb, xb, n, out);
    if (n) return;
    double d = fabs((double)out - atan2(y, x));
    if (!(d <= 0x1p-18) || !signbit(out) != !signbit(y) || fabsf(out) > 0x1.921fb6p+1f) bad("atan2", yb, xb, n, out);
    if (d > worst_pair) worst_pair = d, worst_y = yb, worst_x = xb;
}

int main(int argc, char **argv) {
    uint64_t pairs = argc > 1 ? strtoull(argv[1], 0, 10) : 100000000;
    static const uint32_t special[] = {
        0, 1, 2, 0x7fffff, 0x800000, 0x800001, 0x3f7fffff, 0x3f800000, 0x3f800001, 0x40490fdb, 0x3fc90fdb, 0x42ffffff,
        0x43000000, 0x43000001, 0x7f7fffff, 0x7f800000, 0x7f800001, 0x7fc00000, 0x7fffffff, 0x34000000, 0x1a000000,
        0x0d000000, 0x20000000, 0x3e000000, 0x41000000, 0x33800000,
    };
    const size_t count = sizeof special / sizeof *special;
    float p = 0x1.921fb6p+1f, out;
    every("sine", probe_sine, sin, 16, 0x1p-21);
    every("cosine", probe_cosine, cos, 16, 0x1p-21);
    every("arc cosine", probe_arc_cosine, acos, 1, 0x1p-18);
    every("absolute", probe_absolute, magnitude, 0x1.fffffep+127f, 0);
    /* the values that are said exactly */
    probe_sine(of_bits(0x80000000), &out);
    if (bits(out) != 0x80000000) bad("sine of -0", 0, 0, 0, out);
    probe_cosine(of_bits(0x80000000), &out);
    if (out != 1) bad("cosine of -0", 0, 0, 0, out);
    probe_arc_cosine(1, &out);
    if (bits(out) != 0) bad("arc cosine of 1", 0, 0, 0, out);
    for (size_t i = 0; i < 2 * count; i++)
        for (size_t j = 0; j < 2 * count; j++)
            pair(special[i / 2] | (uint32_t)(i % 2) << 31, special[j / 2] | (uint32_t)(j % 2) << 31);
    const struct { uint32_t y, x; float t; } zeros[] = {
        {0, 0, 0}, {0x80000000, 0, -0.0f}, {0, 0x80000000, p}, {0x80000000, 0x80000000, -p},
    };
    for (int k = 0; k < 4; k++) {
        probe_atan2(of_bits(zeros[k].y), of_bits(zeros[k].x), &out);
        if (bits(out) != bits(zeros[k].t)) bad("atan2 of zeros", zeros[k].y, zeros[k].x, 0, out);
    }
    for (uint64_t i = 0; i < pairs; i++) {
        uint64_t r = next();
        uint32_t y = (uint32_t)r, x = (uint32_t)(r >> 32);
        /* half of the pairs have exponents near each other, where the angle is neither 0 nor a right one */
        if (i & 1) x = (x & 0x807fffff) | ((((y >> 23) + (x >> 26) % 16 - 8) & 0xff) << 23);
        if (i & 2) { y &= 0xbfffffff; x &= 0xbfffffff; }
        pair(y, x);
    }
    printf("%-12s %llu pairs, largest distance 2^%.2f at %08x %08x\n", "atan2", (unsigned long long)pairs, log2(worst_pair), worst_y, worst_x);
    printf("%llu inputs, %llu failures\n", (unsigned long long)tried, (unsigned long long)failed);
    return failed != 0;
}
