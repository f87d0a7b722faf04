/* What libFuzzer calls (tools/fuzz): the first byte says which call, the next ones its numbers, the rest is the sheet, the text or the layers.
 * It is linked with the library of tools/both, which makes each call of the proved library and of the C, and aborts where they differ. Every list
 * is a block of its own with nothing behind it, so that the sanitizers see what is read or written there. */
#include <stdint.h>
#include <stdlib.h>
#include <string.h>

#include "dihkelu.h"

typedef struct {
    const uint8_t *at;
    size_t left;
} Input;

/* The next bytes; zeros where they are used up. */
static void take(Input *in, void *to, size_t count) {
    size_t some = count < in->left ? count : in->left;
    memset(to, 0, count);
    if (some) memcpy(to, in->at, some);
    in->at += some;
    in->left -= some;
}

static uint8_t byte(Input *in) {
    uint8_t b;
    take(in, &b, 1);
    return b;
}

static double number(Input *in) {
    double x;
    take(in, &x, sizeof x);
    return x;
}

/* So many bytes and none behind them, all zero. */
static void *block(size_t size) {
    void *b = calloc(size ? size : 1, 1);
    if (b == NULL) abort();
    return b;
}

static double *numbers(Input *in, size_t count) {
    double *list = block(8 * count);
    for (size_t i = 0; i < count; i++) list[i] = number(in);
    return list;
}

/* All that is left, in a block of its own. */
static uint8_t *rest(Input *in, size_t *count) {
    *count = in->left;
    uint8_t *bytes = block(*count);
    take(in, bytes, *count);
    return bytes;
}

static volatile uint64_t kept;

/* A list of steps and retunes from the start, then a surface's answers. */
static void train(Input *in) {
    size_t count = byte(in) % 8, size;
    uint8_t what[8];
    double at[8], s = 0, p = 0, wavelength = 0;
    for (size_t i = 0; i < count; i++) {
        what[i] = byte(in);
        at[i] = what[i] & 1 ? number(in) : 0;
    }
    uint32_t done = 0, surface = byte(in);
    uint8_t *sheet = rest(in, &size);
    kept = dihkelu_start(sheet, size, &done, &s, &p, &wavelength);
    for (size_t i = 0; i < count; i++) {
        if (what[i] & 1)
            kept = dihkelu_retune(sheet, size, done, &wavelength, at[i]);
        else
            kept = dihkelu_step(sheet, size, &done, &s, &p, &wavelength);
    }
    double *answers = block(DIHKELU_COATED * sizeof *answers);
    kept = dihkelu_answers(sheet, size, surface, answers, DIHKELU_COATED);
    free(answers);
    free(sheet);
}

static void run(Input *in) {
    size_t room = byte(in) % 130, size;
    double *list = block(room * sizeof *list);
    uint8_t *sheet = rest(in, &size);
    kept = dihkelu_gate(sheet, size);
    kept = dihkelu_run(sheet, size, list, room);
    free(list);
    free(sheet);
}

static void band(Input *in) {
    size_t lines = byte(in) % 8, weighed = byte(in) % 16 ? lines : byte(in) % 8, size;
    double *wavelengths = numbers(in, lines), mean[2] = {0, 0};
    uint32_t *weights = block(4 * weighed);
    for (size_t i = 0; i < weighed; i++) take(in, &weights[i], 2), weights[i] %= 1002;
    uint8_t *sheet = rest(in, &size);
    kept = dihkelu_band(sheet, size, wavelengths, lines, weights, weighed, mean, 2);
    free(wavelengths);
    free(weights);
    free(sheet);
}

static void edition_1(Input *in) {
    size_t size, room = 256 * (size_t)byte(in);
    uint8_t *sheet = rest(in, &size), *output = block(room);
    kept = dihkelu_edition_1(sheet, size, output, room);
    free(output);
    free(sheet);
}

static void stack(Input *in) {
    size_t size, room = byte(in);
    double n[4], *list = block(room * sizeof *list);
    take(in, n, sizeof n);
    uint8_t *text = rest(in, &size);
    kept = dihkelu_stack(text, size, n[0], n[1], n[2], n[3], list, room);
    free(list);
    free(text);
}

static void evaluate(Input *in) {
    uint32_t code = byte(in) % 10;
    double at[5], list[DIHKELU_RESPONSE] = {0};
    take(in, at, sizeof at);
    size_t count = in->left / 8;
    double *layers = numbers(in, count);
    kept = dihkelu_evaluate(code, at[0], at[1], at[2], at[3], at[4], layers, count, list, DIHKELU_RESPONSE);
    kept = dihkelu_invalid_argument(at[1], at[2], at[3], at[4]);
    free(layers);
}

int LLVMFuzzerTestOneInput(const uint8_t *data, size_t size);

int LLVMFuzzerTestOneInput(const uint8_t *data, size_t size) {
    static void (*const calls[])(Input *) = {run, train, band, edition_1, stack, evaluate};
    Input in = {data, size};
    calls[byte(&in) % (sizeof calls / sizeof calls[0])](&in);
    return 0;
}
