/* The floating-point environments that a caller may be in: flushed subnormals, each rounding mode, trapped exceptions and raised flags. */
#include <stdint.h>

#if defined(__x86_64__) || defined(__i386__)
#include <xmmintrin.h>
static const uint64_t environments[] = {
    0x1F80,                 /* the usual one */
    0x1F80 | 0x8000,        /* results flushed to zero */
    0x1F80 | 0x0040,        /* operands taken for zeros */
    0x1F80 | 0x8040,        /* both: how a program linked with -ffast-math starts */
    0x1F80 | 0x2000,        /* rounding downwards */
    0x1F80 | 0x4000,        /* rounding upwards */
    0x1F80 | 0x6000,        /* rounding towards zero */
    0x1FBF,                 /* every flag raised */
    0x0000,                 /* every exception trapped */
    0x0000 | 0x8040 | 0x4000 | 0x0001, /* all at once, one flag raised */
};
static uint64_t environment_now(void) { return _mm_getcsr(); }
static void environment_take(uint64_t e) { _mm_setcsr((unsigned)e); }
#elif defined(__aarch64__)
/* FPCR in the high half, FPSR in the low. */
#define CONTROL(bits) ((uint64_t)(bits) << 32)
static const uint64_t environments[] = {
    0,
    CONTROL(1u << 24),               /* flushed to zero */
    CONTROL(1u << 25),               /* one NaN for all */
    CONTROL(1u << 22),               /* rounding upwards */
    CONTROL(2u << 22),               /* rounding downwards */
    CONTROL(3u << 22),               /* rounding towards zero */
    0x9F,                            /* every flag raised */
    CONTROL(0x9F00),                 /* every exception trapped, where the machine can */
    CONTROL(0x9F00 | 7u << 22) | 1,  /* all at once, one flag raised */
};
static uint64_t environment_now(void) {
    uint64_t control, flags;
    __asm__ volatile("mrs %0, fpcr\n\tmrs %1, fpsr" : "=r"(control), "=r"(flags) : : "memory");
    return control << 32 | flags;
}
static void environment_take(uint64_t e) {
    __asm__ volatile("msr fpcr, %0\n\tmsr fpsr, %1" : : "r"(e >> 32), "r"(e & 0xFFFFFFFF) : "memory");
}
#else
#include <fenv.h>
/* The rounding mode in the high half, the flags in the low. */
static const uint64_t environments[] = {
    (uint64_t)FE_TONEAREST << 32,
    (uint64_t)FE_UPWARD << 32,
    (uint64_t)FE_DOWNWARD << 32,
    (uint64_t)FE_TOWARDZERO << 32,
    (uint64_t)FE_TONEAREST << 32 | FE_ALL_EXCEPT,
    (uint64_t)FE_UPWARD << 32 | FE_DIVBYZERO,
};
static uint64_t environment_now(void) { return (uint64_t)fegetround() << 32 | (uint64_t)fetestexcept(FE_ALL_EXCEPT); }
static void environment_take(uint64_t e) {
    fesetround((int)(e >> 32));
    feclearexcept(FE_ALL_EXCEPT);
    feraiseexcept((int)(e & 0xFFFFFFFF));
}
#endif

enum { ENVIRONMENTS = sizeof environments / sizeof environments[0] };
