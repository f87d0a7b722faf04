// What sqrt_main has to write, by the machine's square root. In this folder:
//     cc -O2 -fno-math-errno -ffp-contract=off -o sums sums.c -lm && ./sums > stdout && rm sums
#include <math.h>
#include <stdint.h>
#include <stdio.h>
#include <string.h>

static uint64_t next(uint64_t s) { s ^= s << 13; s ^= s >> 7; s ^= s << 17; return s; }

static double value(uint64_t bits) { double x; memcpy(&x, &bits, 8); return x; }

static uint64_t pattern(double x) {
    uint64_t bits;
    if (x != x) return 1;
    memcpy(&bits, &x, 8);
    return bits;
}

static uint64_t with_root(uint64_t sum, uint64_t bits) { return (sum << 7) ^ (sum >> 57) ^ pattern(sqrt(value(bits))); }

static uint64_t of_patterns(uint64_t s, unsigned down) {
    uint64_t sum = 0;
    for (int k = 0; k < 1000; k++) { s = next(s); sum = with_root(sum, s >> down); }
    return sum;
}

static uint64_t of_squares(uint64_t s, unsigned cut) {
    uint64_t sum = 0;
    for (int k = 0; k < 250; k++) {
        s = next(s);
        double v = value((s >> cut << cut) % 0x4000000000000000u + 0x2000000000000000u);
        uint64_t b = pattern(v * v);
        for (uint64_t last = 0; last < 4; last++) sum = with_root(sum, b ^ last);
    }
    return sum;
}

int main(void) {
    uint64_t state = 88172645463325252u;
    for (unsigned i = 0; i < 256; i++) { printf("%016llx\n", (unsigned long long)of_patterns(state, i / 4)); state = next(state); }
    for (unsigned i = 0; i < 128; i++) { printf("%016llx\n", (unsigned long long)of_squares(state, i / 64 * 27)); state = next(state); }
    return 0;
}
