/* What calls of one build cost: bench NAME prints a row of a table, nanoseconds of the fastest of many rounds. With the name `hand-written` it is
 * a program as an engineer would write it with C's complex numbers, which tests nothing and refuses nothing; with `check` both are compared. */
#define _POSIX_C_SOURCE 199309L
#include <complex.h>
#include <math.h>
#include <stdio.h>
#include <string.h>
#include <time.h>

#include "dihkelu_sheet.h"

enum { SURFACES = 64, LAYERS = 16 };

typedef struct {
    double n_incident, n_substrate, angle_rad;
    int reflected, layers;
    double n[LAYERS], thickness_nm[LAYERS];
} Surface;

typedef struct {
    double wavelength_nm;
    int count;
    Surface surfaces[SURFACES];
    uint8_t bytes[DIHKELU_SHEET_MOST];
    size_t size;
} Train;

static volatile double kept;
static double list[2 * SURFACES];
static Train *train;

/* The sheet of a train; a surface without layers is a custom one too, so that all go the same way. */
static int written(Train *t) {
    dihkelu_sheet sheet;
    dihkelu_sheet_begin(&sheet, t->bytes, sizeof t->bytes);
    dihkelu_sheet_beam(&sheet, t->wavelength_nm, 0.5, 0.5);
    for (int i = 0; i < t->count; i++) {
        const Surface *s = &t->surfaces[i];
        dihkelu_sheet_surface(&sheet, DIHKELU_COATING_CUSTOM, s->reflected, s->n_incident, s->n_substrate, s->angle_rad);
        for (int j = 0; j < s->layers; j++) dihkelu_sheet_layer(&sheet, s->n[j], 0.0, s->thickness_nm[j]);
    }
    uint64_t returned = dihkelu_sheet_end(&sheet);
    t->size = dihkelu_value(returned);
    return dihkelu_refusal(returned) == 0 && dihkelu_refusal(dihkelu_gate(t->bytes, t->size)) == 0;
}

/* Quarter waves of two indices by turns, a little thicker from one to the next, so that no two films are the same. */
static void coated(Surface *s, int layers, double high, double low, double nm) {
    s->layers = layers;
    for (int i = 0; i < layers; i++) {
        s->n[i] = i % 2 ? low : high;
        s->thickness_nm[i] = nm / (4 * s->n[i]) * (1 + 0.01 * i);
    }
}

/* A window of two faces with so many layers each. */
static void window(Train *t, double angle, int layers) {
    Surface *front = &t->surfaces[t->count++], *back = &t->surfaces[t->count++];
    *front = (Surface){.n_incident = 1.0, .n_substrate = 1.52, .angle_rad = angle};
    *back = (Surface){.n_incident = 1.52, .n_substrate = 1.0, .angle_rad = asin(sin(angle) / 1.52)};
    coated(front, layers, 1.38, 2.1, 550.0);
    coated(back, layers, 1.38, 2.1, 550.0);
}

/* Ten surfaces: four windows of 1, 2, 3 and 4 layers a face, a mirror of 15 layers, and a bare face. */
static void typical(Train *t) {
    t->wavelength_nm = 532.0;
    for (int i = 1; i <= 4; i++) window(t, 0.1 * i, i);
    Surface *mirror = &t->surfaces[t->count++];
    *mirror = (Surface){.n_incident = 1.0, .n_substrate = 1.52, .angle_rad = 0.7, .reflected = 1};
    coated(mirror, 15, 2.3, 1.46, 550.0);
    t->surfaces[t->count++] = (Surface){.n_incident = 1.0, .n_substrate = 1.33};
}

static void longest(Train *t) {
    t->wavelength_nm = 532.0;
    for (int i = 0; i < SURFACES / 2; i++) window(t, 0.01 * i, LAYERS);
}

/* R and T of one polarization by the characteristic matrix; an admittance is n·cos for s and n/cos for p. */
static double share(const Surface *s, double wavelength_nm, int p) {
    double complex sine = s->n_incident * sin(s->angle_rad);
    double complex cos_0 = cos(s->angle_rad), cos_t = csqrt(1 - (sine / s->n_substrate) * (sine / s->n_substrate));
    double complex eta_0 = p ? s->n_incident / cos_0 : s->n_incident * cos_0;
    double complex eta_t = p ? s->n_substrate / cos_t : s->n_substrate * cos_t;
    double complex b = 1, c = eta_t; /* from the substrate back to the front */
    for (int i = 0; i < s->layers; i++) {
        int at = s->n_incident > s->n_substrate ? i : s->layers - 1 - i;
        double complex cosine = csqrt(1 - (sine / s->n[at]) * (sine / s->n[at]));
        double complex eta = p ? s->n[at] / cosine : s->n[at] * cosine;
        double complex phase = 2 * 3.14159265358979323846 * s->n[at] * s->thickness_nm[at] * cosine / wavelength_nm;
        double complex next = ccos(phase) * b + I * csin(phase) / eta * c;
        c = I * eta * csin(phase) * b + ccos(phase) * c;
        b = next;
    }
    double complex sum = eta_0 * b + c, r = (eta_0 * b - c) / sum;
    if (s->reflected) return creal(r * conj(r));
    return 4 * creal(eta_0) * creal(eta_t) / creal(sum * conj(sum));
}

static void by_hand(void) {
    double s = 0.5, p = 0.5;
    for (int i = 0; i < train->count; i++) {
        list[2 * i] = s *= share(&train->surfaces[i], train->wavelength_nm, 0);
        list[2 * i + 1] = p *= share(&train->surfaces[i], train->wavelength_nm, 1);
    }
    kept = s + p;
}

static void run(void) { kept = (double)dihkelu_run(train->bytes, train->size, list, 2 * SURFACES); }

static void gate(void) { kept = (double)dihkelu_gate(train->bytes, train->size); }

static void evaluate(void) {
    static const double layers[] = {2.3, 0, 115.652, 1.46, 0, 182.192, 2.3, 0, 115.652, 1.46, 0, 182.192};
    kept = (double)dihkelu_evaluate(5, 0, 1, 1.52, 0.3, 1064, layers, 12, list, DIHKELU_RESPONSE);
}

static void fresnel(void) { kept = (double)dihkelu_fresnel_dielectric(0.8, 1.0, 1.5, list, 2); }

static double now(void) {
    struct timespec t;
    clock_gettime(CLOCK_MONOTONIC, &t);
    return (double)t.tv_sec * 1e9 + (double)t.tv_nsec;
}

/* The fastest of 1,000 rounds of some 50 µs, so that what else the machine does is left out. */
static double fastest(void (*what)(void)) {
    double once = now(), best = 1e300;
    what();
    once = now() - once;
    int times = once > 5e4 ? 1 : (int)(5e4 / (once + 1)) + 1;
    for (int round = 0; round < 1000; round++) {
        double t = now();
        for (int i = 0; i < times; i++) what();
        t = (now() - t) / times;
        if (t < best) best = t;
    }
    return best;
}

static int same(void) {
    double ours[2 * SURFACES];
    run();
    memcpy(ours, list, sizeof ours);
    by_hand();
    for (int i = 0; i < 2 * train->count; i++)
        if (!(fabs(ours[i] - list[i]) < 1e-12)) return 0;
    return 1;
}

int main(int count, char **words) {
    static Train trains[2];
    if (count != 2) return puts("usage: bench NAME"), 2;
    typical(&trains[0]);
    longest(&trains[1]);
    if (!written(&trains[0]) || !written(&trains[1])) return puts("bench: a sheet is refused"), 2;
    int hand = strcmp(words[1], "hand-written") == 0;
    if (strcmp(words[1], "check") != 0) printf("| %s", words[1]);
    for (int i = 0; i < 2; i++) {
        train = &trains[i];
        if (!same()) return puts("bench: the program by hand gives other powers"), 1;
        if (strcmp(words[1], "check") == 0) continue;
        if (hand)
            printf(" | - | %.2f", fastest(by_hand) / 1000);
        else
            printf(" | %.2f | %.2f", fastest(gate) / 1000, fastest(run) / 1000);
    }
    if (strcmp(words[1], "check") == 0) return 0;
    if (hand)
        puts(" | - | - |");
    else
        printf(" | %.1f | %.1f |\n", fastest(evaluate), fastest(fresnel));
    return 0;
}
