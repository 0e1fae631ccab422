/* Writes the list that the program `roots` runs: a line for each operand with its bits, the bits of its square root and its segment count, 8000
   (hexadecimal) added where it was held back.
   The root is the machine's own (sqrtss); a root that is a NaN is written as 7fc00000. Made by: cc -O1 -msse2 -o roots tools/roots.c -lm && ./roots > crates/roots/stdin */
#include <math.h>
#include <stdint.h>
#include <stdio.h>
#include <string.h>
#include <xmmintrin.h>

static float from_bits(uint32_t b) { float x; memcpy(&x, &b, 4); return x; }
static uint32_t to_bits(float x) { uint32_t b; memcpy(&b, &x, 4); return b; }
static float root(float x) { return _mm_cvtss_f32(_mm_sqrt_ss(_mm_set_ss(x))); }

static unsigned count(float s) {
    if (isnan(s) || s <= 0.0f) return 1;
    if (isinf(s)) return 1000;
    float c = ceilf(root(s));
    return c < 1.0f ? 1 : c > 1000.0f ? 1000 : (unsigned)c;
}

/* infinite, or above zero with the rounded root over 1,000 */
static unsigned held(float s) { return s > 0.0f && (isinf(s) || root(s) > 1000.0f); }

static void line(uint32_t b) {
    float x = from_bits(b), r = root(x);
    printf("%08x %08x %04x\n", b, isnan(r) ? 0x7fc00000u : to_bits(r), count(x) + 0x8000u * held(x));
}

static uint32_t spread(uint32_t *s) { *s ^= *s << 13; *s ^= *s >> 17; *s ^= *s << 5; return *s; }

int main(void) {
    static const uint32_t special[] = {
        0x00000000, 0x80000000, 0x7f800000, 0xff800000, 0x7fc00000, 0xffc00000, 0x7f800001, 0x7fffffff, 0x00000001, 0x00000002, 0x00000003,
        0x80000001, 0x007fffff, 0x00800000, 0x00800001, 0x807fffff, 0x80800000, 0x7f7fffff, 0xff7fffff, 0xbf800000,
        0x3f7fffff, 0x3f800000, 0x3f800001, 0x3f800002, 0x3f800003, 0x4973a710, 0x49742400, 0x497423ff, 0x49742401, 0x4973a711, 0x4973a70f};
    unsigned i, e;
    uint32_t s = 0x2545f491u;
    for (i = 0; i < sizeof special / sizeof *special; i++) line(special[i]);
    /* whole squares and their neighbours: each n from 1 to 1,001, and larger ones */
    for (i = 1; i <= 1001; i++) { uint32_t b = to_bits((float)i * (float)i); line(b - 1); line(b); line(b + 1); }
    for (i = 1100; i <= 4095; i += 131) { uint32_t b = to_bits((float)i * (float)i); line(b - 1); line(b); line(b + 1); }
    /* next to a halfway point: the square of a 25-digit odd number, rounded down and up, at both parities of the exponent */
    for (i = 0; i < 400; i++) {
        double h = (double)((spread(&s) | 0x01000000u) & 0x01ffffffu | 1u);
        float lower = (float)(h * h);
        uint32_t b = to_bits(lower);
        line(b - 1); line(b); line(b + 1); line(b + 0x00800000u - 1); line(b + 0x00800000u);
    }
    /* subnormals of each length, and each exponent */
    for (e = 0; e < 23; e++) { line(1u << e); line((1u << e) | (spread(&s) & ((1u << e) - 1))); }
    for (e = 1; e < 255; e++) { line(e << 23); line(e << 23 | 0x7fffffu); line(e << 23 | (spread(&s) & 0x7fffffu)); }
    /* spread over all patterns */
    for (i = 0; i < 3000; i++) line(spread(&s));
    return 0;
}
