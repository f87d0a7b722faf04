/* Document 01's sheet from C: gate, start, a retune, steps, the answers of its surface, a whole run; a stack in shorthand;
 * Mueller matrices of empty space; quarter waves; an edition 1 sheet of a glass. */
#include <inttypes.h>
#include <stdio.h>
#include <stdlib.h>
#include <string.h>

#include "dihkelu.h"

static const uint32_t words[] = {0x10000001, 0x20000000, 0x407F4000, 0x00000000, 0x3FE00000, 0x00000000,
                                 0x3FE00000, 0x00000000, 0x30000000, 0x3FF00000, 0x00000000, 0x40080000,
                                 0x00000000, 0x00000000, 0x00000000, 0x50000001};

/* edition 2: a glass of 64 nm whose index is 2 at the beam's 500 nm */
static const uint32_t glass_words[] = {0x10000002, 0x20000000, 0x407F4000, 0x00000000, 0x3FE00000, 0x00000000, 0x3FE00000,
                                       0x00000000, 0x3000000A, 0x3FF00000, 0x00000000, 0x3FF80000, 0x00000000, 0x00000000,
                                       0x00000000, 0x60000000, 0x3FF80000, 0x00000000, 0x3FB00000, 0x00000000, 0x3F900000,
                                       0x00000000, 0x40500000, 0x00000000, 0x50000001};

static void to_bytes(uint8_t *bytes, const uint32_t *from, size_t count) {
    for (size_t i = 0; i < count; i++)
        for (size_t j = 0; j < 4; j++) bytes[4 * i + j] = (uint8_t)(from[i] >> (24 - 8 * j));
}

static uint64_t bits(double x) {
    uint64_t b;
    memcpy(&b, &x, sizeof b);
    return b;
}

static void print_refusal(const char *call, uint64_t returned) {
    printf("%s: refused %" PRIu32 " %" PRIu32 "\n", call, dihkelu_refusal(returned), dihkelu_place(returned));
}

/* The number of a call that answered; else the end. */
static uint32_t answered(const char *call, uint64_t returned) {
    if (dihkelu_refusal(returned) != 0) {
        print_refusal(call, returned);
        exit(1);
    }
    return dihkelu_value(returned);
}

int main(void) {
    if (dihkelu_version() != DIHKELU_VERSION) {
        puts("the library is of another version than its header");
        return 1;
    }
    if (!dihkelu_environment_ok()) {
        printf("subnormals are flushed, or rounding is not to nearest: no answer would be the proved one\n");
        return 1;
    }
    uint8_t sheet[sizeof words];
    to_bytes(sheet, words, sizeof words / 4);

    uint32_t surfaces = answered("gate", dihkelu_gate(sheet, sizeof sheet));
    printf("surfaces %" PRIu32 "\n", surfaces);

    uint32_t done;
    double s, p, wavelength;
    answered("start", dihkelu_start(sheet, sizeof sheet, &done, &s, &p, &wavelength));
    printf("start %016" PRIX64 " %016" PRIX64 " at %g nm\n", bits(s), bits(p), wavelength);
    answered("retune", dihkelu_retune(sheet, sizeof sheet, done, &wavelength, 632.8));
    printf("retuned to %g nm\n", wavelength);
    print_refusal("retune", dihkelu_retune(sheet, sizeof sheet, done, &wavelength, 99.0));

    while (done < surfaces) {
        double answers[DIHKELU_COATED];
        uint32_t count = answered("answers", dihkelu_answers(sheet, sizeof sheet, done, answers, DIHKELU_COATED));
        printf("surface %" PRIu32 ", %s, %" PRIu32 " numbers:", done, answers[0] == 1.0 ? "coated" : "bare", count);
        for (uint32_t i = 1; i < count; i++) printf(" %g", answers[i]);
        printf("\n");
        answered("step", dihkelu_step(sheet, sizeof sheet, &done, &s, &p, &wavelength));
        printf("step %" PRIu32 " %016" PRIX64 " %016" PRIX64 " at %g nm\n", done, bits(s), bits(p), wavelength);
    }
    printf("sum %016" PRIX64 "\n", bits(s + p));

    double run[2 * 64];
    answered("run", dihkelu_run(sheet, sizeof sheet, run, 2 * 64));
    printf("run %016" PRIX64 " %016" PRIX64 "\n", bits(run[0]), bits(run[1]));

    static const double lines[3] = {500.0, 550.0, 600.0};
    static const uint32_t weights[3] = {1, 2, 1};
    double band[2];
    uint32_t count = answered("band", dihkelu_band(sheet, sizeof sheet, lines, 3, weights, 3, band, 2));
    printf("band of %" PRIu32 " lines %016" PRIX64 " %016" PRIX64 "\n", count, bits(band[0]), bits(band[1]));
    print_refusal("band", dihkelu_band(sheet, sizeof sheet, lines, 3, weights, 2, band, 2));

    double response[DIHKELU_RESPONSE];
    answered("evaluate", dihkelu_evaluate(2, 550.0, 1.0, 1.5, 0.0, 550.0, NULL, 0, response, DIHKELU_RESPONSE));
    printf("MgF2 R_s %g T_s %g\n", response[8], response[10]);

    static const char text[] = "(HL)^7 H";
    double layers[DIHKELU_STACK];
    uint32_t numbers = answered("stack", dihkelu_stack((const uint8_t *)text, strlen(text), 2.3, 1.46, 1.8, 1064.0, layers, DIHKELU_STACK));
    printf("%s: %" PRIu32 " layers, the first %g nm of %g, the second %g nm of %g\n", text, numbers / 3, layers[2], layers[0], layers[5], layers[3]);
    answered("evaluate", dihkelu_evaluate(5, 0.0, 1.0, 1.52, 0.0, 1064.0, layers, numbers, response, DIHKELU_RESPONSE));
    printf("as a mirror R_s %g\n", response[8]);
    print_refusal("stack", dihkelu_stack((const uint8_t *)"H^32H", 5, 2.3, 1.46, 1.8, 1064.0, layers, DIHKELU_STACK));

    static const double empty[8] = {1.0, 0.0, 0.0, 0.0, 0.0, 0.0, 1.0, 0.0};
    double mueller[DIHKELU_MUELLER];
    answered("to_mueller", dihkelu_to_mueller(empty, 8, mueller, DIHKELU_MUELLER));
    printf("empty space: [3][3] %g by the Rust's signs", mueller[15]);
    answered("mueller_born_wolf", dihkelu_mueller_born_wolf(empty, 8, mueller, DIHKELU_MUELLER));
    printf(", %g by Born and Wolf's\n", mueller[15]);

    double over;
    uint32_t waves = answered("quarter_waves", dihkelu_quarter_waves(2.3, 250.0, 1064.0, &over));
    printf("250 nm of 2.3 at 1064 nm: %" PRIu32 " quarter waves, %g nm over\n", waves, over);

    uint8_t glass[sizeof glass_words], old[DIHKELU_EDITION_1];
    to_bytes(glass, glass_words, sizeof glass_words / 4);
    uint32_t length = answered("edition_1", dihkelu_edition_1(glass, sizeof glass, old, sizeof old));
    answered("run", dihkelu_run(glass, sizeof glass, run, 2 * 64));
    printf("a glass in %zu bytes of edition 2: run %016" PRIX64 " %016" PRIX64 "\n", sizeof glass, bits(run[0]), bits(run[1]));
    answered("run", dihkelu_run(old, length, run, 2 * 64));
    printf("and in %" PRIu32 " bytes of edition 1: run %016" PRIX64 " %016" PRIX64 "\n", length, bits(run[0]), bits(run[1]));
    print_refusal("edition_1", dihkelu_edition_1(glass, sizeof glass, old, length - 1));

    sheet[0] = 0;
    print_refusal("gate", dihkelu_gate(sheet, sizeof sheet));
    return 0;
}
