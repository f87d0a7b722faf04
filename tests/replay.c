/* Recorded answers of the original against the calls: replay < crates/test_replay_c/stdin. The records are those of
 * oracle/README.md; those of functions that are no call of dihkelu.h are passed over. Ends with 1 where one differs. */
#include <inttypes.h>
#include <stdio.h>
#include <stdlib.h>
#include <string.h>

#include "dihkelu.h"

enum { WORDS = 8192 };
static uint64_t arguments[WORDS], expected[WORDS], found[WORDS];

static uint64_t big_endian(const uint8_t *b, int bytes) {
    uint64_t x = 0;
    for (int i = 0; i < bytes; i++) x = x << 8 | b[i];
    return x;
}

static int words(uint64_t *to, size_t count) {
    uint8_t b[8];
    for (size_t i = 0; i < count; i++) {
        if (fread(b, 1, 8, stdin) != 8) return 0;
        to[i] = big_endian(b, 8);
    }
    return 1;
}

static double number(uint64_t bits) {
    double x;
    memcpy(&x, &bits, sizeof x);
    return x;
}

static uint64_t bits(double x) {
    uint64_t b;
    memcpy(&b, &x, sizeof b);
    return x == x ? b : 0x7FF8000000000000u;
}

/* Memory of exactly so many bytes, so that a sanitizer sees what is behind it. */
static void *block(size_t bytes) {
    void *b = malloc(bytes ? bytes : 1);
    if (b == NULL) exit(2);
    return b;
}

static uint8_t *bytes_of(const uint64_t *w, size_t *count) {
    *count = (size_t)w[0];
    uint8_t *b = block(*count);
    for (size_t i = 0; i < *count; i++) b[i] = (uint8_t)(w[1 + i / 8] >> (56 - 8 * (i % 8)));
    return b;
}

static double *numbers_of(const uint64_t *w, size_t count) {
    double *x = block(8 * count);
    for (size_t i = 0; i < count; i++) x[i] = number(w[i]);
    return x;
}

/* A list of numbers behind its count, and the words behind it. */
typedef struct {
    double *numbers;
    size_t count;
    const uint64_t *rest;
} Lent;

static Lent lent(const uint64_t *w) {
    Lent l = {numbers_of(w + 1, (size_t)w[0]), (size_t)w[0], w + 1 + w[0]};
    return l;
}

/* Single functions of the Rust, 208 to 226 but 214: the list's length first, then numbers or lists of numbers. */
static uint64_t single(unsigned function, const uint64_t *a, double *list, size_t n) {
    double x = number(a[0]), y = number(a[1]), z = number(a[2]);
    if (function == 208) return dihkelu_fresnel_dielectric(x, y, z, list, n);
    if (function == 209) return dihkelu_fresnel_unpolarized(x, y, z, list, n);
    if (function == 210) return dihkelu_schlick_approx(x, y, z, list, n);
    if (function == 211) return dihkelu_surface_fresnel_jones(x, y, z, list, n);
    if (function == 212) return dihkelu_quarter_wave_ar(x, y, z, list, n);
    if (function == 213) return dihkelu_bragg_mirror(x, y, (uint32_t)a[2], number(a[3]), list, n);
    if (function == 223) return dihkelu_linear_polarizer(x, list, n);
    if (function == 224) return dihkelu_retarder(x, y, list, n);
    if (function == 225) return dihkelu_quarter_wave_plate(x, list, n);
    if (function == 226) return dihkelu_half_wave_plate(x, list, n);
    Lent one = lent(a), two = {NULL, 0, NULL};
    if (function >= 219 && function <= 221) two = lent(one.rest);
    uint64_t returned = 0;
    if (function == 215) returned = dihkelu_to_stokes(one.numbers, one.count, list, n);
    if (function == 216) returned = dihkelu_jones_normalize(one.numbers, one.count, list, n);
    if (function == 217) returned = dihkelu_jones_intensity(one.numbers, one.count, list, n);
    if (function == 218) returned = dihkelu_stokes_figures(one.numbers, one.count, list, n);
    if (function == 219) returned = dihkelu_jones_apply(one.numbers, one.count, two.numbers, two.count, list, n);
    if (function == 220) returned = dihkelu_jones_mul(one.numbers, one.count, two.numbers, two.count, list, n);
    if (function == 221) returned = dihkelu_mueller_apply(one.numbers, one.count, two.numbers, two.count, list, n);
    if (function == 222) returned = dihkelu_diattenuator(one.numbers, one.count, list, n);
    free(one.numbers);
    free(two.numbers);
    return returned;
}

/* A call of a record: writes its results to `found` and gives how many; 0 for a function that is no call of the header. */
static size_t call(unsigned function) {
    const uint64_t *a = arguments;
    size_t count = 0, list_count = (size_t)a[0];
    uint8_t *bytes = NULL;
    double *numbers = NULL;
    if (function >= 180 && function <= 184) {
        static const int at[] = {0, 0, 4, 1, 2};
        bytes = bytes_of(a + at[function - 180], &count);
    } else if (function == 186 || function == 197) {
        bytes = bytes_of(a + 5, &count);
    } else if (function == 185 || function == 187 || function == 188) {
        int at = function == 185 ? 7 : 1;
        count = (size_t)a[at];
        numbers = numbers_of(a + at + 1, count);
    }
    if (function == 180) {
        found[0] = dihkelu_gate(bytes, count);
        free(bytes);
        return 1;
    }
    if (function == 181 || function == 182 || function == 197) {
        uint32_t done = function == 181 ? 7 : (uint32_t)a[function == 197];
        const uint64_t *state = a + (function == 197) + 1;
        double s = -7.25, p = -7.25, w = -7.25;
        if (function != 181) s = number(state[0]), p = number(state[1]), w = number(state[2]);
        if (function == 181) found[0] = dihkelu_start(bytes, count, &done, &s, &p, &w);
        if (function == 182) found[0] = dihkelu_step(bytes, count, &done, &s, &p, &w);
        if (function == 197) found[0] = dihkelu_retune(bytes, count, done, &w, number(a[0]));
        found[1] = done, found[2] = bits(s), found[3] = bits(p), found[4] = bits(w);
        free(bytes);
        return 5;
    }
    if (function == 155) {
        double over = -7.25;
        found[0] = dihkelu_quarter_waves(number(a[0]), number(a[1]), number(a[2]), &over);
        found[1] = bits(over);
        return 2;
    }
    if (function == 198) {
        bytes = bytes_of(a + 1, &count);
        uint8_t *output = block(list_count);
        for (size_t i = 0; i < list_count; i++) output[i] = 0xA5;
        found[0] = dihkelu_edition_1(bytes, count, output, list_count);
        found[1] = 0;
        for (size_t i = 0; i < list_count; i++) found[1] = (found[1] << 1 | found[1] >> 63) ^ output[i];
        free(output);
        free(bytes);
        return 2;
    }
    if (function == 207) {
        found[0] = dihkelu_invalid_argument(number(a[0]), number(a[1]), number(a[2]), number(a[3]));
        return 1;
    }
    if (function == 214) {
        bytes = bytes_of(a, &count);
        found[0] = dihkelu_coating_from_name(bytes, count);
        free(bytes);
        return 1;
    }
    if (function == 227) {
        uint8_t *output = block(list_count);
        for (size_t i = 0; i < list_count; i++) output[i] = 0xA5;
        found[0] = dihkelu_coating_name((uint32_t)a[1], output, list_count);
        for (size_t i = 0; i < list_count; i++) found[1 + i] = output[i];
        free(output);
        return 1 + list_count;
    }
    if (function == 228) {
        uint64_t place = 0x5A5A, length = 0xA5A5;
        bytes = bytes_of(a, &count);
        found[0] = dihkelu_trim(bytes, count, &place, &length);
        found[1] = place, found[2] = length;
        free(bytes);
        return 3;
    }
    if (function != 229 && (function < 205 || function > 226) && (function < 183 || function > 189)) return 0;
    double *list = block(8 * list_count);
    for (size_t i = 0; i < list_count; i++) list[i] = -7.25;
    if (function > 207 && function != 229) found[0] = single(function, a + 1, list, list_count);
    if (function == 183) found[0] = dihkelu_run(bytes, count, list, list_count);
    if (function == 205) {
        size_t lines = (size_t)a[1], weighed = (size_t)a[2];
        numbers = numbers_of(a + 3, lines);
        uint32_t *weights = block(4 * weighed);
        for (size_t i = 0; i < weighed; i++) weights[i] = (uint32_t)a[3 + lines + i];
        bytes = bytes_of(a + 3 + lines + weighed, &count);
        found[0] = dihkelu_band(bytes, count, numbers, lines, weights, weighed, list, list_count);
        free(weights);
    }
    if (function == 206) {
        size_t angles = (size_t)a[5], wavelengths = (size_t)a[6];
        const uint64_t *layers = a + 7 + angles + wavelengths;
        double *angles_rad = numbers_of(a + 7, angles), *wavelengths_nm = numbers_of(a + 7 + angles, wavelengths);
        count = (size_t)layers[0];
        numbers = numbers_of(layers + 1, count);
        found[0] = dihkelu_evaluate_list((uint32_t)a[1], number(a[2]), number(a[3]), number(a[4]), angles_rad, angles, wavelengths_nm,
                                         wavelengths, numbers, count, list, list_count);
        free(angles_rad);
        free(wavelengths_nm);
    }
    if (function == 184) found[0] = dihkelu_answers(bytes, count, (uint32_t)a[1], list, list_count);
    if (function == 229) {
        bytes = bytes_of(a + 3, &count);
        found[0] = dihkelu_answers_at(bytes, count, (uint32_t)a[2], number(a[1]), list, list_count);
    }
    if (function == 185)
        found[0] = dihkelu_evaluate((uint32_t)a[1], number(a[2]), number(a[3]), number(a[4]), number(a[5]), number(a[6]),
                                    numbers, count, list, list_count);
    if (function == 186) found[0] = dihkelu_stack(bytes, count, number(a[1]), number(a[2]), number(a[3]), number(a[4]), list, list_count);
    if (function == 187) found[0] = dihkelu_to_mueller(numbers, count, list, list_count);
    if (function == 188) found[0] = dihkelu_mueller_born_wolf(numbers, count, list, list_count);
    if (function == 189) found[0] = dihkelu_reflectance_range(number(a[1]), number(a[2]), number(a[3]), number(a[4]), list, list_count);
    for (size_t i = 0; i < list_count; i++) found[1 + i] = bits(list[i]);
    free(list);
    free(bytes);
    free(numbers);
    return 1 + list_count;
}

int main(void) {
    if (dihkelu_version() != DIHKELU_VERSION) return puts("replay: another version"), 1;
    uint64_t agree = 0, differ = 0, passed = 0;
    uint8_t head[8];
    size_t read;
    while ((read = fread(head, 1, 8, stdin)) == 8) {
        unsigned function = (unsigned)big_endian(head, 2);
        size_t taken = (size_t)big_endian(head + 2, 2), given = (size_t)big_endian(head + 4, 2);
        if (taken > WORDS || given > WORDS || !words(arguments, taken) || !words(expected, given)) return puts("replay: a record is cut off"), 2;
        size_t count = call(function);
        if (count == 0) {
            passed++;
        } else if (count == given && memcmp(found, expected, 8 * given) == 0) {
            agree++;
        } else if (differ++ == 0) {
            printf("function %u: %zu results, %zu expected\n", function, count, given);
            for (size_t i = 0; i < given && i < count; i++)
                if (found[i] != expected[i]) printf("  result %zu: %016" PRIX64 ", expected %016" PRIX64 "\n", i, found[i], expected[i]);
        }
    }
    if (read != 0 || agree == 0) return puts("replay: no records"), 2;
    printf("replay: %" PRIu64 " agree, %" PRIu64 " differ, %" PRIu64 " of other functions\n", agree, differ, passed);
    return differ != 0;
}
