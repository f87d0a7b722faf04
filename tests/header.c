/* The header's inline functions, and what its check of the floating-point environment is for: header [flushed].
 * With `flushed` the program must have started with subnormals flushed. Ends with 1 at the first thing that is wrong. */
#include <fenv.h>
#include <stdio.h>
#include <string.h>
#include <xmmintrin.h>

#include "dihkelu.h"

#define EXPECT(what) \
    do { \
        if (!(what)) { \
            printf("line %d: not so: %s\n", __LINE__, #what); \
            return 1; \
        } \
    } while (0)

static size_t put(uint8_t *bytes, size_t at, uint32_t word) {
    for (size_t i = 0; i < 4; i++) bytes[at + i] = (uint8_t)(word >> (24 - 8 * i));
    return at + 4;
}

static size_t put_bits(uint8_t *bytes, size_t at, uint64_t bits) {
    return put(bytes, put(bytes, at, (uint32_t)(bits >> 32)), (uint32_t)(bits & 0xFFFFFFFFu));
}

/* A beam of 500 nm whose s power has these bits, and a surface from 1 to 1.5, at 0.5 rad, where no metal film may be, with one layer whose k has those. */
static uint64_t gate_of(uint64_t s, uint64_t k) {
    const uint64_t one = 0x3FF0000000000000u, index = 0x3FF8000000000000u, angle = 0x3FE0000000000000u;
    uint8_t sheet[100];
    size_t size = put_bits(sheet, put(sheet, put(sheet, 0, 0x10000001), 0x20000000), 0x407F400000000000u);
    size = put_bits(sheet, put_bits(sheet, size, s), 0);
    size = put_bits(sheet, put_bits(sheet, put_bits(sheet, put(sheet, size, 0x3000000A), one), index), angle);
    size = put_bits(sheet, put_bits(sheet, put_bits(sheet, put(sheet, size, 0x40000000), index), k), 0);
    return dihkelu_gate(sheet, put(sheet, size, 0x50000001));
}

static int apart(void) {
    const uint64_t refused = (6ull << 32) + 8, answered = 8;
    EXPECT(dihkelu_refusal(refused) == 6 && dihkelu_place(refused) == 8 && dihkelu_value(refused) == 0);
    EXPECT(dihkelu_refusal(answered) == 0 && dihkelu_place(answered) == 0 && dihkelu_value(answered) == 8);
    EXPECT(dihkelu_refusal(4ull << 32) == 4 && dihkelu_place(4ull << 32) == 0);
    EXPECT(dihkelu_value(0xFFFFFFFFu) == 0xFFFFFFFFu && dihkelu_place((5ull << 32) + 0xFFFFFFFFu) == 0xFFFFFFFFu);
    return 0;
}

static int environment(void) {
    static const int modes[] = {FE_UPWARD, FE_DOWNWARD, FE_TOWARDZERO};
    const unsigned flush_results = 0x8000, operands_are_zeros = 0x0040, usual = _mm_getcsr();
    const uint64_t least = 1, least_below_zero = 0x8000000000000001u;
    EXPECT(dihkelu_version() == DIHKELU_VERSION);
    EXPECT(dihkelu_environment_ok());
    EXPECT(gate_of(0, 0) == 1);
    EXPECT(gate_of(least_below_zero, 0) == (6ull << 32) + 1);
    EXPECT(gate_of(0, least) == (6ull << 32) + 15);
    for (int i = 0; i < 3; i++) {
        EXPECT(fesetround(modes[i]) == 0);
        EXPECT(!dihkelu_environment_ok());
    }
    EXPECT(fesetround(FE_TONEAREST) == 0);
    EXPECT(dihkelu_environment_ok());
    _mm_setcsr(usual | flush_results);
    EXPECT(!dihkelu_environment_ok());
    _mm_setcsr(usual | operands_are_zeros);
    EXPECT(!dihkelu_environment_ok());
    EXPECT(gate_of(least_below_zero, least) == 1); /* admitted: a power below zero, a layer that absorbs */
    _mm_setcsr(usual);
    EXPECT(dihkelu_environment_ok());
    return 0;
}

int main(int count, char **words) {
    if (count > 1 && strcmp(words[1], "flushed") == 0) {
        EXPECT(!dihkelu_environment_ok());
        printf("header: a start with subnormals flushed is found out\n");
        return 0;
    }
    if (apart() != 0 || environment() != 0) return 1;
    printf("header: as it says\n");
    return 0;
}
