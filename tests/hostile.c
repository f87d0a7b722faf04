/* Hostile input to every call: hostile SEED COUNT. Run it under valgrind: each sheet and each list is a block of its
 * own with nothing behind it. Ends with 1 at the first call that does what the header rules out. */
#include <inttypes.h>
#include <stdio.h>
#include <stdlib.h>
#include <string.h>

#include "dihkelu.h"

static uint64_t seed, calls, refusals[17], answers_given;

static uint64_t draw(void) {
    uint64_t z = (seed += 0x9E3779B97F4A7C15u);
    z = (z ^ (z >> 30)) * 0xBF58476D1CE4E5B9u;
    z = (z ^ (z >> 27)) * 0x94D049BB133111EBu;
    return z ^ (z >> 31);
}

static uint64_t below(uint64_t n) { return draw() % n; }

static void *block(size_t size) {
    void *b = malloc(size ? size : 1);
    if (b == NULL) exit(2);
    return b;
}

static double number(uint64_t bits) {
    double x;
    memcpy(&x, &bits, sizeof x);
    return x;
}

static double any(void) {
    static const double some[] = {0.0, 1.0, 0.5, 1.5, 2.0, 0.3, 550.0, 100.0, 1e-300, 1e300, -1.0};
    return below(3) == 0 ? number(draw()) : some[below(sizeof some / sizeof some[0])];
}

static void wrong(const char *call, const char *what, uint64_t returned) {
    printf("%s: %s, returned %016" PRIX64 " after %" PRIu64 " calls\n", call, what, returned, calls);
    exit(1);
}

/* ---- a list of NaNs of odd payloads, and a copy of it */
typedef struct {
    uint64_t *now, *before;
    size_t count;
} List;

static List lend(size_t count) {
    List l = {block(8 * count), block(8 * count), count};
    for (size_t i = 0; i < count; i++) l.before[i] = (draw() | 0x7FF0000000000001u) ^ (below(2) << 63);
    memcpy(l.now, l.before, 8 * count);
    return l;
}

/* What a call with a list may return and leave: a refusal of `may` (a bit for each) and the list as it was, byte by
 * byte; or an answer, with all that is behind `written` numbers as it was. 8 exactly where the list is too short. */
static void leave(const char *call, List l, uint64_t returned, unsigned may, size_t written) {
    calls++;
    uint32_t number = dihkelu_refusal(returned);
    if (number != 0) {
        if (number > 16 || (may >> number & 1) == 0) wrong(call, "a refusal that it has not", returned);
        if (memcmp(l.now, l.before, 8 * l.count) != 0) wrong(call, "a list changed by a refusal", returned);
        if (number == 8 && l.count >= written) wrong(call, "8 for a list that is long enough", returned);
        refusals[number]++;
    } else {
        if (l.count < written) wrong(call, "an answer for a list that is too short", returned);
        if (memcmp(l.now + written, l.before + written, 8 * (l.count - written)) != 0)
            wrong(call, "a list changed behind the answer", returned);
        answers_given++;
    }
    free(l.now);
    free(l.before);
}

#define BIT(n) (1u << (n))

/* ---- a state of NaNs of odd payloads in a block of its own */
typedef struct {
    double s, p, wavelength;
    uint32_t done;
} State;

static State *state_block(uint32_t done) {
    State *st = block(sizeof *st);
    memset(st, 0, sizeof *st);
    st->done = done;
    st->s = number((draw() | 0x7FF0000000000001u) ^ (below(2) << 63));
    st->p = number(draw() | 0x7FF0000000000001u);
    st->wavelength = number(draw() | 0x7FF0000000000001u);
    return st;
}

static void leave_state(const char *call, State *now, State *before, uint64_t returned, unsigned may) {
    calls++;
    uint32_t refused = dihkelu_refusal(returned);
    if (refused != 0) {
        if (refused > 11 || (may >> refused & 1) == 0) wrong(call, "a refusal that it has not", returned);
        if (memcmp(now, before, 3 * 8) != 0 || now->done != before->done) wrong(call, "a state changed by a refusal", returned);
        refusals[refused]++;
    } else {
        answers_given++;
    }
    free(now);
    free(before);
}

enum { SHEET = BIT(4) | BIT(5) | BIT(6) };

/* ---- bands of one sheet: any counts, any weights, any wavelengths; no mean is outside 0 to 1 */
static void band_calls(const uint8_t *sheet, size_t size, uint64_t gate) {
    uint32_t refused = dihkelu_refusal(gate);
    for (int i = 0; i < 3; i++) {
        size_t lines = below(4) ? 1 + below(4) : below(70), count = below(6) ? lines : below(70);
        double *wavelengths = block(8 * lines);
        uint32_t *weights = block(4 * count);
        for (size_t j = 0; j < lines; j++) wavelengths[j] = below(8) ? 400.0 + (double)below(400) : any();
        for (size_t j = 0; j < count; j++) weights[j] = below(16) ? 1 + (uint32_t)below(1000) : (uint32_t)draw();
        int fit = lines == count && lines > 0 && lines <= DIHKELU_LINES;
        List l = lend(below(4)), full = lend(2);
        uint64_t r = dihkelu_band(sheet, size, wavelengths, lines, weights, count, (double *)l.now, l.count);
        uint64_t f = dihkelu_band(sheet, size, wavelengths, lines, weights, count, (double *)full.now, 2);
        uint32_t number = dihkelu_refusal(f), place = dihkelu_place(f);
        if (refused && f != gate) wrong("band", "another refusal than the gate's", f);
        if (!refused && number != 12 && !fit && f != (15ull << 32 | 64)) wrong("band", "no 15 with 64", f);
        if (number == 15 && fit && (place >= count || weights[place] - 1 < 1000)) wrong("band", "15 for a weight that passes", f);
        if (number == 16 && (!fit || place >= lines)) wrong("band", "16 for no line", f);
        if (number == 0 && f != lines) wrong("band", "another count of lines", f);
        if (r != (number == 0 && l.count < 2 ? 8ull << 32 : f)) wrong("band", "another number for another list", r);
        double *mean = (double *)full.now;
        if (number == 0 && !(mean[0] >= 0 && mean[0] <= 1 && mean[1] >= 0 && mean[1] <= 1)) wrong("band", "a mean outside 0 to 1", f);
        unsigned may = refused ? BIT(refused) : BIT(12) | BIT(15) | BIT(16);
        leave("band", l, r, may | (refused ? 0 : BIT(8)), 2);
        leave("band", full, f, may, 2);
        free(wavelengths);
        free(weights);
    }
}

/* ---- every call on one sheet, copied to a block of its own */
static void sheet_calls(const uint8_t *bytes, size_t size) {
    uint8_t *sheet = block(size);
    memcpy(sheet, bytes, size);
    uint64_t gate = dihkelu_gate(sheet, size);
    uint32_t refused = dihkelu_refusal(gate), surfaces = dihkelu_value(gate);
    calls++;
    if (refused) refusals[refused < 9 ? refused : 0]++;
    if (refused && (refused < 4 || refused > 6)) wrong("gate", "a refusal that it has not", gate);
    if (dihkelu_place(gate) > 9865 || surfaces > 64) wrong("gate", "a place or a count past the longest sheet", gate);
    unsigned may = refused ? BIT(refused) : 0;

    State *st = state_block(7), *old = state_block(0);
    *old = *st;
    uint64_t started = dihkelu_start(sheet, size, &st->done, &st->s, &st->p, &st->wavelength);
    if (started != gate) wrong("start", "another number than the gate's", started);
    leave_state("start", st, old, started, may);
    for (int i = 0; i < 12; i++) {
        uint32_t done = i == 0 ? 0 : i == 1 ? UINT32_MAX : i == 2 ? surfaces : i == 3 && surfaces ? surfaces - 1 : (uint32_t)below(66);
        State *l = state_block(done), *was = state_block(0);
        if (below(3)) l->s = any(), l->p = any(), l->wavelength = any();
        *was = *l;
        if (i % 2) {
            uint64_t r = dihkelu_step(sheet, size, &l->done, &l->s, &l->p, &l->wavelength);
            if (!refused && (dihkelu_refusal(r) == 7) != (done >= surfaces)) wrong("step", "7 at the wrong count", r);
            if (dihkelu_refusal(r) == 0 && (r != (uint64_t)done + 1 || l->done != r)) wrong("step", "another count of surfaces done", r);
            leave_state("step", l, was, r, may | (refused ? 0 : BIT(7) | BIT(11)));
        } else {
            double w = any();
            uint64_t r = dihkelu_retune(sheet, size, l->done, &l->wavelength, w);
            if (!refused && done >= surfaces && (dihkelu_refusal(r) == 11) != !(w >= 100.0 && w <= 10000.0))
                wrong("retune", "11 where no surface is left", r);
            if (dihkelu_refusal(r) == 0 && (r != done || l->wavelength != w)) wrong("retune", "another wavelength or count", r);
            if (memcmp(&l->s, &was->s, 16) != 0 || l->done != done) wrong("retune", "more than the wavelength changed", r);
            leave_state("retune", l, was, r, may | (refused ? 0 : BIT(11)));
        }
    }
    size_t need = 2 * (size_t)surfaces, lengths[] = {0, need - (need > 0), need, need + 1, need + 7};
    for (int i = 0; i < 5; i++) {
        List l = lend(lengths[i]);
        uint64_t r = dihkelu_run(sheet, size, (double *)l.now, l.count);
        if (l.count >= need && r != gate) wrong("run", "another number than the gate's", r);
        leave("run", l, r, may | (refused ? 0 : BIT(8)), need);
    }
    static const size_t around[] = {0, 1, 52, 53, 54, 66, 67, 68, 69, 70};
    for (int i = 0; i < 10; i++) {
        uint32_t surface = below(8) == 0 ? (uint32_t)draw() : (uint32_t)below(surfaces + 1);
        List l = lend(around[i]), full = lend(DIHKELU_COATED);
        uint64_t r = dihkelu_answers(sheet, size, surface, (double *)l.now, l.count);
        uint64_t f = dihkelu_answers(sheet, size, surface, (double *)full.now, full.count);
        size_t count = dihkelu_value(f);
        if (count && count != (((double *)full.now)[0] == 1.0 ? DIHKELU_COATED : DIHKELU_BARE))
            wrong("answers", "a count that its first number denies", f);
        if (count && l.count >= count && memcmp(l.now, full.now, 8 * count) != 0)
            wrong("answers", "other answers in a longer list", r);
        leave("answers", l, r, may | (refused ? 0 : BIT(7) | BIT(8)), count);
        leave("answers", full, f, may | (refused ? 0 : BIT(7)), count);
    }
    /* a surface's answers after a retune: refused as the retune is, and else those that a step from there would meet: those
     * of steps alone where the wavelength is the one that they hold */
    for (int i = 0; i < 10; i++) {
        uint32_t surface = below(8) == 0 ? (uint32_t)draw() : (uint32_t)below(surfaces + 1);
        uint32_t done = 0;
        double held = 0.0, s = 0.0, p = 0.0, to = 0.0;
        if (dihkelu_start(sheet, size, &done, &s, &p, &held) != gate) wrong("start", "another number than the gate's", gate);
        while (surface < surfaces && done < surface)
            if (dihkelu_refusal(dihkelu_step(sheet, size, &done, &s, &p, &held))) wrong("step", "refused on the way", done);
        double w = i % 2 ? any() : held;
        List l = lend(around[i]), full = lend(DIHKELU_COATED), alone = lend(DIHKELU_COATED);
        uint64_t r = dihkelu_answers_at(sheet, size, surface, w, (double *)l.now, l.count);
        uint64_t f = dihkelu_answers_at(sheet, size, surface, w, (double *)full.now, full.count);
        uint64_t a = dihkelu_answers(sheet, size, surface, (double *)alone.now, alone.count);
        uint64_t t = dihkelu_retune(sheet, size, surface, &to, w);
        size_t count = dihkelu_value(f);
        uint64_t no = refused ? gate : surface >= surfaces ? 7ull << 32 : dihkelu_refusal(t) ? t : 0;
        if (no ? f != no || r != no : dihkelu_refusal(f) != 0 || (l.count < count ? r != 8ull << 32 : r != f)) wrong("answers_at", "another number", f);
        if (count && l.count >= count && memcmp(l.now, full.now, 8 * count) != 0) wrong("answers_at", "other answers in a longer list", r);
        if (count && i % 2 == 0 && (a != f || memcmp(alone.now, full.now, 8 * count) != 0)) wrong("answers_at", "other answers than those of steps alone", f);
        leave("answers_at", l, r, may | (refused ? 0 : BIT(7) | BIT(8) | BIT(11)), count);
        leave("answers_at", full, f, may | (refused ? 0 : BIT(7) | BIT(11)), count);
        leave("answers", alone, a, may | (refused ? 0 : BIT(7)), dihkelu_value(a));
    }
    /* an edition 1 sheet: refused alike whatever the output, 8 exactly where it is too short; it runs as the old one does */
    uint8_t *new = block(size);
    memset(new, 0x5A, size);
    uint64_t whole = dihkelu_edition_1(sheet, size, new, size);
    size_t length = dihkelu_value(whole);
    calls++;
    if (dihkelu_refusal(whole) ? refused ? whole != gate : dihkelu_refusal(whole) != 12 : refused || length > size || length < 36)
        wrong("edition_1", "another number", whole);
    for (int i = 0; i < 6; i++) {
        size_t room = i == 0 ? 0 : i == 1 ? length + 4 : i == 2 ? length - (length > 0) : i == 3 ? length : i == 4 ? length + 1 : below(size + 9);
        uint8_t *now = block(room), *before = block(room);
        for (size_t j = 0; j < room; j++) before[j] = (uint8_t)draw();
        memcpy(now, before, room);
        uint64_t r = dihkelu_edition_1(sheet, size, now, room);
        size_t front = dihkelu_refusal(r) ? 0 : length;
        calls++;
        if (r != (dihkelu_refusal(whole) == 0 && room < length ? 8ull << 32 : whole)) wrong("edition_1", "another number for another output", r);
        if (memcmp(now, new, front) != 0) wrong("edition_1", "another sheet in another output", r);
        if (memcmp(now + front, before + front, room - front) != 0) wrong("edition_1", "an output changed behind the sheet", r);
        if (dihkelu_refusal(r)) refusals[dihkelu_refusal(r)]++;
        else answers_given++;
        free(now);
        free(before);
    }
    if (length) {
        double *old_run = block(8 * need), *new_run = block(8 * need);
        if (dihkelu_run(sheet, size, old_run, need) != dihkelu_run(new, length, new_run, need) || memcmp(old_run, new_run, 8 * need) != 0)
            wrong("edition_1", "a sheet that runs otherwise", whole);
        calls += 2;
        free(old_run);
        free(new_run);
    }
    free(new);
    band_calls(sheet, size, gate);
    /* a whole run is one step after another */
    if (surfaces) {
        double *run = block(8 * need), at[3];
        uint32_t done = 9;
        if (dihkelu_run(sheet, size, run, need) != surfaces || dihkelu_start(sheet, size, &done, at, at + 1, at + 2) != surfaces)
            wrong("run", "another number than the gate's", surfaces);
        for (uint32_t i = 0; i < surfaces; i++) {
            if (done != i || dihkelu_step(sheet, size, &done, at, at + 1, at + 2) != i + 1 || memcmp(at, run + 2 * i, 16) != 0)
                wrong("step", "other powers than the run's", i);
        }
        calls += 2 + surfaces;
        free(run);
    }
    free(sheet);
}

/* ---- sheets */
static size_t put(uint8_t *b, size_t at, uint64_t v, int bytes) {
    for (int i = 0; i < bytes; i++) b[at + i] = (uint8_t)(v >> (8 * (bytes - 1 - i)));
    return at + bytes;
}

static size_t put_double(uint8_t *b, size_t at, double x) {
    uint64_t v;
    memcpy(&v, &x, 8);
    return put(b, at, v, 8);
}

/* Within the limits, of either edition, of so many surfaces; a coating 5 has so many layers, or a random count. In edition 2 they are of both kinds, and kinds 7 stand between. */
static size_t build(uint8_t *b, int surfaces, int layers) {
    unsigned edition = 1 + (unsigned)below(2);
    double wavelength = 100.0 + (double)below(9901), u2 = wavelength / 1000 * (wavelength / 1000);
    size_t at = put(b, put(b, 0, 0x10000000u + edition, 4), 0x20000000, 4);
    at = put_double(b, put_double(b, put_double(b, at, wavelength), 0.5), (double)below(2));
    for (int i = 0; i < surfaces; i++) {
        if (edition == 2 && (layers == 16 || below(3) == 0)) {
            wavelength = 100.0 + (double)below(9901);
            u2 = wavelength / 1000 * (wavelength / 1000);
            at = put_double(b, put(b, at, 0x70000000, 4), wavelength);
        }
        unsigned payload = layers < 0 ? (unsigned)below(16) : 10 + (unsigned)below(2);
        at = put(b, at, 0x30000000u + payload, 4);
        at = put_double(b, put_double(b, put_double(b, at, 1.0 + (double)below(2) / 4), 1.5 + (double)below(3) / 2), (double)below(8) / 16);
        int n = payload / 2 != 5 ? 0 : layers < 0 ? (int)below(17) : layers;
        for (int j = 0; j < n; j++) {
            double index = 1.25 + (double)below(9) / 4;
            int glass = edition == 2 && below(2);
            at = put(b, at, glass ? 0x60000000 : 0x40000000, 4);
            at = put_double(b, put_double(b, at, index), glass ? u2 / 64 : 0.0);
            if (glass) at = put_double(b, at, u2 * u2 / 64);
            at = put_double(b, at, (double)below(1000));
        }
    }
    return put(b, at, 0x50000000u + (unsigned)surfaces, 4);
}

static void evaluate_calls(void) {
    size_t n = below(4) ? 3 * below(5) : below(220);
    double *layers = block(8 * n);
    for (size_t i = 0; i < n; i++) layers[i] = any();
    uint32_t code = below(8) ? (uint32_t)below(10) : (uint32_t)draw();
    static const size_t around[] = {0, 14, 15, 16, 17, 20};
    List l = lend(around[below(6)]);
    uint64_t r = dihkelu_evaluate(code, any(), any(), any(), any(), any(), layers, n, (double *)l.now, l.count);
    if (n % 3 != 0 && dihkelu_refusal(r) != 1) wrong("evaluate", "no 1 for layers that are no multiple of 3", r);
    if ((code == 0 || code > 8) && dihkelu_refusal(r) != 1) wrong("evaluate", "no 1 for an unknown code", r);
    if (dihkelu_refusal(r) ? dihkelu_place(r) != 0 : r != DIHKELU_RESPONSE) wrong("evaluate", "another number", r);
    leave("evaluate", l, r, BIT(1) | BIT(3) | BIT(8), DIHKELU_RESPONSE);
    free(layers);
}

/* A list of cases, each held to dihkelu_evaluate of it alone: the first refusal with its case, or all numbers, bit by bit. */
static void list_calls(void) {
    size_t n = below(4) ? 3 * below(5) : below(220), angles = below(6), wavelengths = below(8) ? angles : below(6);
    double *layers = block(8 * n), *angle = block(8 * angles), *wavelength = block(8 * wavelengths);
    for (size_t i = 0; i < n; i++) layers[i] = any();
    for (size_t i = 0; i < angles; i++) angle[i] = below(8) ? (double)below(90) / 64 : any();
    for (size_t i = 0; i < wavelengths; i++) wavelength[i] = below(8) ? 400.0 + (double)below(400) : any();
    uint32_t code = below(8) ? 1 + (uint32_t)below(8) : (uint32_t)draw();
    double design = any(), n1 = below(4) ? 1.0 : any(), n2 = below(4) ? 1.5 : any();
    size_t written = DIHKELU_RESPONSE * angles;
    List l = lend(below(3) ? written + below(3) : below(100));
    uint64_t expected = angles != wavelengths ? 1ull << 32 | DIHKELU_CASES : l.count < written ? 8ull << 32 : written;
    double *all = block(8 * written);
    for (size_t i = angles; angles == wavelengths && i-- > 0;) {
        uint64_t one = dihkelu_evaluate(code, design, n1, n2, angle[i], wavelength[i], layers, n, all + DIHKELU_RESPONSE * i, DIHKELU_RESPONSE);
        if (dihkelu_refusal(one)) expected = one | i;
        uint64_t which = dihkelu_invalid_argument(n1, n2, angle[i], wavelength[i]);
        if (code - 1 < 8 && n % 3 == 0 && (which != 0) != (dihkelu_refusal(one) == 1)) wrong("invalid_argument", "0 for a 1, or none", which);
        if (which > 4) wrong("invalid_argument", "no argument", which);
        calls++;
    }
    uint64_t r = dihkelu_evaluate_list(code, design, n1, n2, angle, angles, wavelength, wavelengths, layers, n, (double *)l.now, l.count);
    if (r != expected) wrong("evaluate_list", "another number than of its cases", r);
    for (size_t i = 0; dihkelu_refusal(r) == 0 && i < written; i++)
        if (((double *)l.now)[i] != all[i] && (all[i] == all[i] || ((double *)l.now)[i] == ((double *)l.now)[i])) wrong("evaluate_list", "other numbers than of its cases", r);
    leave("evaluate_list", l, r, BIT(1) | BIT(3) | BIT(8), written);
    free(layers);
    free(angle);
    free(wavelength);
    free(all);
}

/* A text of the grammar; or bytes of its kinds, seldom of any. */
static void stack_calls(void) {
    static const char kinds[] = "HLM019()^ h", *const whole[] = {"(HL)^7 H", "(H^31)^2 HH", "(H^31)^2 HHH", "((((H^31)^31)^31)^31)^31", "2H^3"};
    const char *some = below(4) ? NULL : whole[below(5)];
    size_t n = some ? strlen(some) : below(8) ? below(12) : below(300);
    uint8_t *text = block(n);
    uint64_t near = below(4);
    for (size_t i = 0; i < n; i++) text[i] = some ? (uint8_t)some[i] : near ? (uint8_t)kinds[below(11)] : (uint8_t)draw();
    static const size_t around[] = {0, 2, 3, 5, 6, 45, 191, 192, 200};
    List l = lend(around[below(9)]), full = lend(DIHKELU_STACK);
    int fine = below(4) != 0;
    double h = fine ? 2.3 : any(), m = fine ? 1.8 : any(), design = fine ? 550.0 : any();
    uint64_t r = dihkelu_stack(text, n, h, 1.46, m, design, (double *)l.now, l.count);
    uint64_t f = dihkelu_stack(text, n, h, 1.46, m, design, (double *)full.now, full.count);
    uint32_t number = dihkelu_refusal(f);
    size_t count = dihkelu_value(f);
    if (fine && n > 255 && f != (9ull << 32 | 255)) wrong("stack", "no 9 with 255 for a text over 255 bytes", f);
    if (number == 9 ? dihkelu_place(f) > n : dihkelu_place(f) != 0) wrong("stack", "another place", f);
    if (number == 0 && (count == 0 || count % 3 != 0 || count > DIHKELU_STACK)) wrong("stack", "another number", f);
    if (r != (count > l.count ? 8ull << 32 : f)) wrong("stack", "another number for another list", r);
    if (count && l.count >= count && memcmp(l.now, full.now, 8 * count) != 0) wrong("stack", "other layers in a longer list", r);
    leave("stack", l, r, BIT(1) | BIT(8) | BIT(9) | BIT(10), count);
    leave("stack", full, f, BIT(1) | BIT(9) | BIT(10), count);
    free(text);
}

/* Numbers of a Jones matrix, mostly 8 of them, by both conversions. */
static void mueller_calls(void) {
    typedef uint64_t Call(const double *, size_t, double *, size_t);
    static Call *const calls_of[] = {dihkelu_to_mueller, dihkelu_mueller_born_wolf};
    static const size_t around[] = {0, 15, 16, 17, 40};
    size_t n = below(4) ? 8 : below(20);
    double *jones = block(8 * n);
    for (size_t i = 0; i < n; i++) jones[i] = any();
    List l = lend(around[below(5)]);
    uint64_t r = calls_of[below(2)](jones, n, (double *)l.now, l.count);
    if (r != (n != 8 ? 1ull << 32 : l.count < DIHKELU_MUELLER ? 8ull << 32 : DIHKELU_MUELLER)) wrong("mueller", "another number", r);
    leave("mueller", l, r, BIT(1) | BIT(8), DIHKELU_MUELLER);
    free(jones);
}

/* Single functions of the Rust: what each returns and writes, whatever its numbers. */
static void single_calls(void) {
    typedef uint64_t Three(double, double, double, double *, size_t);
    typedef uint64_t One(const double *, size_t, double *, size_t);
    typedef uint64_t Two(const double *, size_t, const double *, size_t, double *, size_t);
    static Three *const threes[] = {dihkelu_fresnel_dielectric, dihkelu_fresnel_unpolarized, dihkelu_schlick_approx,
                                    dihkelu_surface_fresnel_jones, dihkelu_quarter_wave_ar};
    static const size_t three_gives[] = {2, 2, 1, 16, 3};
    static One *const ones[] = {dihkelu_to_stokes, dihkelu_jones_normalize, dihkelu_jones_intensity, dihkelu_stokes_figures, dihkelu_diattenuator};
    static const size_t one_gives[] = {4, 4, 1, 5, 8};
    static Two *const twos[] = {dihkelu_jones_apply, dihkelu_jones_mul, dihkelu_mueller_apply};
    static const size_t two_takes[][2] = {{8, 4}, {8, 8}, {16, 4}}, two_gives[] = {4, 8, 4};
    const uint64_t short_list = 8ull << 32, none = 1ull << 32;
    size_t i = below(5), n = below(20);
    List l = lend(n);
    uint64_t r = threes[i](any(), any(), any(), (double *)l.now, n);
    if (r != (n < three_gives[i] ? short_list : three_gives[i]) && !(i == 3 && r == none)) wrong("a single function", "another number", r);
    leave("a single function", l, r, BIT(8) | (i == 3 ? BIT(1) : 0u), three_gives[i]);

    size_t count = below(4) ? 4 : below(8);
    double *numbers = block(8 * count);
    for (size_t j = 0; j < count; j++) numbers[j] = any();
    i = below(5), n = below(12), l = lend(n);
    r = ones[i](numbers, count, (double *)l.now, n);
    if (r != (count != 4 ? none : n < one_gives[i] ? short_list : one_gives[i])) wrong("a function of 4 numbers", "another number", r);
    leave("a function of 4 numbers", l, r, BIT(1) | BIT(8), one_gives[i]);
    free(numbers);

    i = below(3), n = below(12), l = lend(n);
    size_t first = below(6) ? two_takes[i][0] : below(20), second = below(6) ? two_takes[i][1] : below(20);
    double *matrix = block(8 * first);
    numbers = block(8 * second);
    for (size_t j = 0; j < first; j++) matrix[j] = any();
    for (size_t j = 0; j < second; j++) numbers[j] = any();
    r = twos[i](matrix, first, numbers, second, (double *)l.now, n);
    int fit = first == two_takes[i][0] && second == two_takes[i][1];
    if (r != (!fit ? none : n < two_gives[i] ? short_list : two_gives[i])) wrong("a function of two lists", "another number", r);
    leave("a function of two lists", l, r, BIT(1) | BIT(8), two_gives[i]);
    free(matrix);
    free(numbers);

    n = below(12), l = lend(n);
    i = below(4);
    double *out = (double *)l.now;
    r = i == 0 ? dihkelu_linear_polarizer(any(), out, n) : i == 1 ? dihkelu_retarder(any(), any(), out, n) : i == 2 ? dihkelu_quarter_wave_plate(any(), out, n) : dihkelu_half_wave_plate(any(), out, n);
    if (r != (n < 8 ? short_list : 8)) wrong("a plate", "another number", r);
    leave("a plate", l, r, BIT(8), 8);

    uint32_t pairs = below(4) ? (uint32_t)below(40) : (uint32_t)draw();
    size_t layers = pairs > 31 ? 0 : 3 * (2 * (size_t)pairs + 1);
    n = below(3) ? below(200) : layers, l = lend(n);
    r = dihkelu_bragg_mirror(any(), any(), pairs, any(), (double *)l.now, n);
    if (r != (pairs > 31 ? 3ull << 32 : n < layers ? short_list : layers)) wrong("bragg_mirror", "another number", r);
    leave("bragg_mirror", l, r, BIT(3) | BIT(8), layers);

    size_t size = below(8) ? below(12) : below(50), over = 0;
    uint8_t *name = block(size);
    for (size_t j = 0; j < size; j++) name[j] = below(60) ? (uint8_t)(32 + below(96)) : (uint8_t)draw();
    while (over < size && name[over] < 128) over++;
    r = dihkelu_coating_from_name(name, size);
    calls++;
    if (size > 32 ? r != (2ull << 32 | 32) : over < size ? r != (2ull << 32 | over) : r > 4) wrong("coating_from_name", "another number", r);
    refusals[dihkelu_refusal(r)]++;
    free(name);

    /* a code's name, whatever the output held: the bytes behind it stay, and all of them where it is refused */
    static const char *const names[] = {"", "AR", "MGF2", "BBAR", "MIRROR", "CUSTOM", "CUSTOM", "CUSTOM", "CUSTOM"};
    uint32_t code = below(8) ? (uint32_t)below(10) : (uint32_t)draw();
    size_t length = code > 8 ? 0 : strlen(names[code]), room = below(10);
    uint8_t *now = block(room), *before = block(room);
    for (size_t j = 0; j < room; j++) before[j] = (uint8_t)draw();
    memcpy(now, before, room);
    r = dihkelu_coating_name(code, now, room);
    calls++;
    if (r != (length == 0 ? 2ull << 32 : room < length ? short_list : length)) wrong("coating_name", "another number", r);
    size_t front = dihkelu_refusal(r) ? 0 : length;
    if (front && memcmp(now, names[code], front) != 0) wrong("coating_name", "another name", r);
    if (memcmp(now + front, before + front, room - front) != 0) wrong("coating_name", "an output changed behind the name", r);
    if (front && dihkelu_coating_from_name(now, front) != (code < 5 ? code : 1)) wrong("coating_name", "a name of another code", r);
    if (dihkelu_refusal(r)) refusals[dihkelu_refusal(r)]++;
    else answers_given++;
    free(now);
    free(before);
}

/* The trimmed part of any bytes, held to a search from each end. */
static int is_blank(uint8_t b) { return (b >= 9 && b <= 13) || b == 32; }

static void trim_call(void) {
    static const uint8_t ends[] = {0x09, 0x0A, 0x0B, 0x0C, 0x0D, 0x20, 0x08, 0x0E, 0x1F, 0x21, 0x00, 0x85, 0xA0};
    size_t size = below(8) ? below(12) : below(500), first = 0, last = size;
    uint8_t *name = block(size);
    for (size_t j = 0; j < size; j++) name[j] = below(2) ? ends[below(below(3) ? 6 : sizeof ends)] : (uint8_t)draw();
    while (first < size && is_blank(name[first])) first++;
    while (last > first && is_blank(name[last - 1])) last--;
    uint64_t place = draw(), length = draw();
    uint64_t r = dihkelu_trim(name, size, &place, &length);
    calls++;
    answers_given++;
    if (r != 0 || place != (first == size ? 0 : first) || length != last - first) wrong("trim", "another part", r);
    free(name);
}

/* An index: an end of what is allowed or a neighbour of it, an index of glass, or any number. */
static double range_end(void) {
    static const double some[] = {1.0, 4.0, 1.38, 1.5, 1.52, 2.3, 3.0, 0.99999999999999989, 1.0000000000000002, 3.9999999999999996, 4.0000000000000009};
    return below(8) == 0 ? any() : some[below(sizeof some / sizeof some[0])];
}

static int within(double x) { return x >= 1.0 && x <= 4.0; }

static void range_calls(void) {
    double a = range_end(), b = range_end(), c = range_end(), d = range_end();
    if (below(2) && a > b) { double t = a; a = b; b = t; }
    if (below(2) && c > d) { double t = c; c = d; d = t; }
    int good = within(a) && within(b) && within(c) && within(d) && a <= b && c <= d;
    List l = lend(below(5)), full = lend(2);
    uint64_t r = dihkelu_reflectance_range(a, b, c, d, (double *)l.now, l.count);
    uint64_t f = dihkelu_reflectance_range(a, b, c, d, (double *)full.now, 2);
    if (f != (good ? 2 : 13ull << 32)) wrong("reflectance_range", "13 for a pair of ranges, or none for no such pair", f);
    if (r != (good && l.count < 2 ? 8ull << 32 : f)) wrong("reflectance_range", "another number for another list", r);
    double low = ((double *)full.now)[0], high = ((double *)full.now)[1];
    if (good && !(0.0 <= low && low <= high && high <= 1.0)) wrong("reflectance_range", "no range within 0 to 1", f);
    if (good && (low == 0.0) != (b >= c && d >= a)) wrong("reflectance_range", "0 where the ranges do not meet", f);
    if (good && l.count >= 2 && memcmp(l.now, full.now, 16) != 0) wrong("reflectance_range", "other numbers in a longer list", r);
    leave("reflectance_range", l, r, BIT(8) | BIT(13), 2);
    leave("reflectance_range", full, f, BIT(13), 2);
}

/* What is given is put together again: count·q + remainder is near p, and the remainder at least +0 and below q. */
static void quarter_waves_calls(void) {
    static const double ns[] = {1.0, 1.38, 2.3, 4.0}, lengths[] = {0.0, -0.0, 99.6, 1e5, 25.0}, waves[] = {100.0, 550.0, 1e4};
    int fine = below(2) != 0;
    double n = fine ? ns[below(4)] : any(), thickness = !fine ? any() : below(2) ? lengths[below(5)] : (double)below(1000), wavelength = fine ? waves[below(3)] : any();
    List l = lend(1);
    uint64_t r = dihkelu_quarter_waves(n, thickness, wavelength, (double *)l.now);
    int within = 1 <= n && n <= 4 && 0 <= thickness && thickness <= 1e5 && 100 <= wavelength && wavelength <= 1e4;
    if (within ? r > 16000 : r != 14ull << 32) wrong("quarter_waves", "another number", r);
    if (within) {
        double q = wavelength / 4, over = number(l.now[0]);
        if (!(over >= 0 && over < q) || l.now[0] >> 63) wrong("quarter_waves", "a remainder that is none", r);
        double apart = (double)r * q + over - n * thickness;
        if (!(-1e-9 < apart && apart < 1e-9)) wrong("quarter_waves", "another path", r);
    }
    leave("quarter_waves", l, r, BIT(14), 1);
}

static void expect(const char *call, uint64_t returned, uint64_t expected) {
    calls++;
    if (returned != expected) wrong(call, "another number for a null of count 0", returned);
}

/* A null pointer with a count of 0, in each place where there may be one. */
static void null_calls(void) {
    static uint8_t sheet[200];
    const uint64_t four = 4ull << 32, seven = 7ull << 32, eight = 8ull << 32;
    const uint64_t eleven = 11ull << 32;
    double list[DIHKELU_COATED], s = 1.0, p = 1.0, w = 550.0;
    uint32_t done = 0;
    expect("gate", dihkelu_gate(NULL, 0), four);
    expect("start", dihkelu_start(NULL, 0, &done, &s, &p, &w), four);
    expect("step", dihkelu_step(NULL, 0, &done, &s, &p, &w), four);
    expect("retune", dihkelu_retune(NULL, 0, 0, &w, 0.0), four);
    expect("run", dihkelu_run(NULL, 0, NULL, 0), four);
    expect("answers", dihkelu_answers(NULL, 0, 0, NULL, 0), four);
    expect("answers_at", dihkelu_answers_at(NULL, 0, 0, 550.0, NULL, 0), four);
    expect("edition_1", dihkelu_edition_1(NULL, 0, NULL, 0), four);
    size_t size = build(sheet, 0, -1);
    expect("edition_1", dihkelu_edition_1(sheet, size, NULL, 0), eight);
    expect("band", dihkelu_band(NULL, 0, NULL, 0, NULL, 0, NULL, 0), four);
    uint32_t weight = 1;
    expect("band", dihkelu_band(sheet, size, NULL, 0, NULL, 0, NULL, 0), 15ull << 32 | 64);
    expect("band", dihkelu_band(sheet, size, &w, 1, NULL, 0, NULL, 0), 15ull << 32 | 64);
    expect("band", dihkelu_band(sheet, size, NULL, 0, &weight, 1, NULL, 0), 15ull << 32 | 64);
    expect("band", dihkelu_band(sheet, size, &w, 1, &weight, 1, NULL, 0), eight);
    expect("band", dihkelu_band(sheet, size, &w, 1, &weight, 1, list, 2), 1);
    expect("start", dihkelu_start(sheet, size, &done, &s, &p, &w), 0);
    expect("run", dihkelu_run(sheet, size, NULL, 0), 0);
    w = 0.0;
    expect("step", dihkelu_step(sheet, size, &done, &s, &p, &w), seven);
    expect("retune", dihkelu_retune(sheet, size, 4, &w, 99.0), eleven);
    expect("retune", dihkelu_retune(sheet, size, 4, &w, 100.0), 4);
    expect("answers", dihkelu_answers(sheet, size, 0, NULL, 0), seven);
    expect("answers_at", dihkelu_answers_at(sheet, size, 0, 99.0, NULL, 0), seven);
    size = build(sheet, 1, 0);
    w = 99.0;
    expect("step", dihkelu_step(sheet, size, &done, &s, &p, &w), eleven);
    expect("run", dihkelu_run(sheet, size, NULL, 0), eight);
    expect("answers", dihkelu_answers(sheet, size, 0, NULL, 0), eight);
    expect("answers_at", dihkelu_answers_at(sheet, size, 0, 99.0, NULL, 0), eleven);
    expect("answers_at", dihkelu_answers_at(sheet, size, 0, 550.0, NULL, 0), eight);
    expect("stack", dihkelu_stack(NULL, 0, 2.3, 1.46, 1.8, 550.0, NULL, 0), 9ull << 32);
    expect("stack", dihkelu_stack(NULL, 0, 0.0, 1.46, 1.8, 550.0, NULL, 0), 1ull << 32);
    expect("stack", dihkelu_stack((const uint8_t *)"H", 1, 2.3, 1.46, 1.8, 550.0, NULL, 0), eight);
    expect("to_mueller", dihkelu_to_mueller(NULL, 0, NULL, 0), 1ull << 32);
    expect("mueller_born_wolf", dihkelu_mueller_born_wolf(NULL, 0, NULL, 0), 1ull << 32);
    expect("mueller_born_wolf", dihkelu_mueller_born_wolf(list, 8, NULL, 0), eight);
    expect("reflectance_range", dihkelu_reflectance_range(1.0, 1.0, 1.5, 1.6, NULL, 0), eight);
    expect("reflectance_range", dihkelu_reflectance_range(1.0, 1.0, 1.6, 1.5, NULL, 0), 13ull << 32);
    expect("evaluate_list", dihkelu_evaluate_list(0, 0.0, 0.0, 0.0, NULL, 0, NULL, 0, NULL, 0, NULL, 0), 0);
    expect("evaluate_list", dihkelu_evaluate_list(1, 0.0, 1.0, 1.5, NULL, 0, &w, 1, NULL, 0, NULL, 0), 1ull << 32 | DIHKELU_CASES);
    w = 550.0;
    expect("evaluate_list", dihkelu_evaluate_list(1, 0.0, 1.0, 1.5, &s, 1, &w, 1, NULL, 0, NULL, 0), eight);
    expect("evaluate_list", dihkelu_evaluate_list(1, 0.0, 1.0, 1.5, &s, 1, &w, 1, NULL, 0, list, 16), 16);
    expect("to_stokes", dihkelu_to_stokes(NULL, 0, NULL, 0), 1ull << 32);
    expect("jones_apply", dihkelu_jones_apply(NULL, 0, NULL, 0, NULL, 0), 1ull << 32);
    expect("linear_polarizer", dihkelu_linear_polarizer(0.0, NULL, 0), eight);
    expect("bragg_mirror", dihkelu_bragg_mirror(2.3, 1.46, 7, 550.0, NULL, 0), eight);
    expect("coating_from_name", dihkelu_coating_from_name(NULL, 0), 0);
    uint64_t place = 7, length = 7;
    expect("trim", dihkelu_trim(NULL, 0, &place, &length), 0);
    if (place != 0 || length != 0) wrong("trim", "a part of no bytes", place);
    expect("coating_name", dihkelu_coating_name(0, NULL, 0), 2ull << 32);
    expect("coating_name", dihkelu_coating_name(1, NULL, 0), eight);
    for (uint32_t code = 1; code <= 8; code++) {
        expect("evaluate", dihkelu_evaluate(code, 550.0, 1.0, 1.5, 0.3, 550.0, NULL, 0, list, DIHKELU_RESPONSE), DIHKELU_RESPONSE);
        expect("evaluate", dihkelu_evaluate(code, 550.0, 1.0, 1.5, 0.3, 550.0, NULL, 0, NULL, 0), eight);
    }
}

int main(int count, char **words) {
    seed = count > 1 ? strtoull(words[1], NULL, 10) : 1;
    uint64_t times = count > 2 ? strtoull(words[2], NULL, 10) : 100;
    static uint8_t bytes[40000];
    null_calls();
    static const size_t sizes[] = {0, 1, 2, 3, 4, 35, 36, 37, 30499, 30500, 30501, 30504, 39459, 39460, 39461, 39464};

    for (size_t i = 0; i < sizeof sizes / sizeof sizes[0]; i++)
        for (int kind = 0; kind < 3; kind++) {
            for (size_t j = 0; j < sizes[i]; j++) bytes[j] = kind == 0 ? 0 : (uint8_t)draw();
            if (kind == 2) (void)build(bytes, 64, 16);
            sheet_calls(bytes, sizes[i]);
        }
    const size_t huge = 100000000;
    uint8_t *much = calloc(huge, 1);
    if (much == NULL) return 2;
    (void)build(much, 64, 16);
    if (dihkelu_gate(much, huge) != 4ull << 32) wrong("gate", "100 MB not refused with 4", 0);
    double two[2] = {1.0, 1.0};
    uint32_t done = 0;
    double at = 550.0;
    if (dihkelu_start(much, huge, &done, two, two + 1, &at) != 4ull << 32) wrong("start", "100 MB not refused with 4", 0);
    if (dihkelu_step(much, huge, &done, two, two + 1, &at) != 4ull << 32) wrong("step", "100 MB not refused with 4", 0);
    if (dihkelu_retune(much, huge, done, &at, 550.0) != 4ull << 32) wrong("retune", "100 MB not refused with 4", 0);
    if (dihkelu_answers(much, huge, 0, two, 2) != 4ull << 32) wrong("answers", "100 MB not refused with 4", 0);
    if (dihkelu_answers_at(much, huge, 0, 550.0, two, 2) != 4ull << 32) wrong("answers_at", "100 MB not refused with 4", 0);
    if (dihkelu_run(bytes, build(bytes, 64, 16), (double *)much, huge / 8) != 64) wrong("run", "a list of 100 MB refused", 0);
    if (dihkelu_run(much, huge, two, 2) != 4ull << 32) wrong("run", "100 MB not refused with 4", 0);
    if (dihkelu_edition_1(much, huge, bytes, sizeof bytes) != 4ull << 32) wrong("edition_1", "100 MB not refused with 4", 0);
    if (dihkelu_edition_1(bytes, build(bytes, 0, -1), much, huge) != 36) wrong("edition_1", "an output of 100 MB refused", 0);
    free(much);
    calls += 10;

    for (uint64_t k = 0; k < times; k++) {
        if (dihkelu_version() != DIHKELU_VERSION) wrong("version", "another version than the header's", dihkelu_version());
        size_t size = build(bytes, below(4) ? (int)below(4) : (int)below(65), -1);
        sheet_calls(bytes, size);
        sheet_calls(bytes, below(size + 1));
        sheet_calls(bytes, below(size / 4 + 1) * 4);
        for (int i = 0; i < 4; i++) {
            size_t at = below(size);
            uint8_t kept = bytes[at];
            bytes[at] = below(2) ? (uint8_t)draw() : kept ^ (uint8_t)(1u << below(8));
            sheet_calls(bytes, size);
            bytes[at] = kept;
        }
        size = 4 * below(40);
        for (size_t j = 0; j < size; j++) bytes[j] = (uint8_t)draw();
        sheet_calls(bytes, size);
        for (int i = 0; i < 16; i++) evaluate_calls();
        for (int i = 0; i < 16; i++) list_calls();
        for (int i = 0; i < 16; i++) stack_calls();
        for (int i = 0; i < 16; i++) trim_call();
        for (int i = 0; i < 16; i++) mueller_calls();
        for (int i = 0; i < 16; i++) single_calls();
        for (int i = 0; i < 16; i++) range_calls();
        for (int i = 0; i < 16; i++) quarter_waves_calls();
    }
    /* one sheet cut off at every byte */
    size_t size = build(bytes, 2, 3);
    for (size_t n = 0; n <= size; n++) sheet_calls(bytes, n);

    printf("hostile: seed %s, %" PRIu64 " calls, %" PRIu64 " answered; refused", count > 1 ? words[1] : "1", calls, answers_given);
    const char *before = " ";
    for (int i = 1; i < 17; i++) {
        if (refusals[i] == 0) continue;
        printf("%s%d: %" PRIu64, before, i, refusals[i]);
        before = ", ";
    }
    printf("; none wrong\n");
    return 0;
}
