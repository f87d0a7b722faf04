// Made by tools/c_source from the checked program; a change is made in crates/ and this file written anew.
// SPDX-License-Identifier: MIT OR Apache-2.0
//
// What the program `train` prints of a sheet, over the library's source, whose inner functions it calls.
#include "dihkelu.c"

// A SURFACE's words, and how many layers it has.
typedef struct {
    gate_limits_Surface surface;
    uint64_t layers;
} sheet_surfaces_NumberedSurface;

// What was asked for, or why it is refused.
typedef struct {
    enum {
        result_sheet_surfaces_NumberedSurface_refusal_Refusal_Ok,
        result_sheet_surfaces_NumberedSurface_refusal_Refusal_Err,
    } tag;
    union {
        sheet_surfaces_NumberedSurface Ok;
        refusal_Refusal Err;
    } as;
} result_sheet_surfaces_NumberedSurface_refusal_Refusal;

typedef struct {
    uint8_t at[20];
} u8_x20;

// The digits of a number, from a place on.
typedef struct {
    u8_x20 digits;
    uint64_t from;
} train_text_Digits;

typedef struct {
    uint8_t at[1];
} u8_x1;

typedef struct {
    double at[128];
} f64_x128;

typedef struct {
    uint8_t at[4096];
} u8_x4096;

// ==== sheet_surfaces
//
// The surfaces of a sheet by their numbers, counted from 0: document 01, section 7. Each call is handed
// the sheet's bytes and gates them anew.

// The i-th surface.
static result_sheet_surfaces_NumberedSurface_refusal_Refusal sheet_surfaces_nth_surface(slice_u8 src, uint32_t i) {
    result_u32_refusal_Refusal value = gate_gate(src);
    if (value.tag == result_u32_refusal_Refusal_Err) {
        return (result_sheet_surfaces_NumberedSurface_refusal_Refusal){
                .tag = result_sheet_surfaces_NumberedSurface_refusal_Refusal_Err, .as.Err = value.as.Err};
    }
    uint32_t count = value.as.Ok;
    if (count <= i) {
        return (result_sheet_surfaces_NumberedSurface_refusal_Refusal){
                .tag = result_sheet_surfaces_NumberedSurface_refusal_Refusal_Err,
                .as.Err = {.tag = refusal_Refusal_NoSurface}};
    }
    uint64_t at = sheet_place_of(src, i);
    gate_limits_Surface surface = sheet_values_surface_at(src, at);
    uint64_t layers = sheet_layer_run(src, at);
    return (result_sheet_surfaces_NumberedSurface_refusal_Refusal){
            .tag = result_sheet_surfaces_NumberedSurface_refusal_Refusal_Ok,
            .as.Ok = {.surface = surface, .layers = layers}};
}

// ==== train_steps
//
// The train of document 01, section 7, and of document 02, slip 5: start, step, retune and whole run. Each is
// handed the sheet's bytes and gates them anew.

static double train_steps_sum(double s, double p) {
    return s + p;
}

// A train before the first surface of its sheet.
static result_train_steps_State_refusal_Refusal train_steps_start(slice_u8 src) {
    result_u32_refusal_Refusal value = gate_gate(src);
    if (value.tag == result_u32_refusal_Refusal_Err) {
        return (result_train_steps_State_refusal_Refusal){.tag = result_train_steps_State_refusal_Refusal_Err,
                .as.Err = value.as.Err};
    }
    sheet_values_Beam beam = sheet_values_beam_of(src);
    return (result_train_steps_State_refusal_Refusal){.tag = result_train_steps_State_refusal_Refusal_Ok,
            .as.Ok = {.done = 0, .s = beam.s, .p = beam.p, .wavelength_nm = beam.wavelength_nm}};
}

// ==== train_text
//
// What the program `train` prints of a sheet (document 01, 'Known answers'), written to a lent buffer.

// The pattern of a float; every NaN has the same. No power of a sheet is a NaN.
static uint64_t train_text_pattern(double x) {
    if (x == x) {
        return to_bits(x);
    }
    return 0x7ff8000000000000u;
}

static uint8_t train_text_hex_digit(uint64_t d) {
    if (d < 10) {
        return (uint8_t)(48 + (uint8_t)d);
    }
    return (uint8_t)(55 + (uint8_t)d);
}

// The 16 digits of a pattern, upper case.
static u8_x16 train_text_hex(uint64_t w) {
    u8_x16 text;
    for (size_t each = 0; each < 16; each++) {
        text.at[each] = 48;
    }
    uint64_t rest = w;
    uint64_t i = 16;
    while (0 < i) {
        i = i - 1;
        text.at[i] = train_text_hex_digit(rest % 16);
        rest = rest / 16;
    }
    return text;
}

static train_text_Digits train_text_decimal(uint64_t n) {
    u8_x20 digits;
    for (size_t each = 0; each < 20; each++) {
        digits.at[each] = 48;
    }
    uint64_t rest = n;
    uint64_t i = 19;
    while (9 < rest) {
        digits.at[i] = (uint8_t)(48 + (uint8_t)(rest % 10));
        rest = rest / 10;
        i = i - 1;
    }
    digits.at[i] = (uint8_t)(48 + (uint8_t)rest);
    return (train_text_Digits){.digits = digits, .from = i};
}

// Bytes behind the first at bytes; how many there are then.
static uint64_t train_text_append(slice_mut_u8 page, uint64_t at, slice_u8 bytes) {
    uint64_t i = 0;
    while (i < bytes.count) {
        uint8_t b = bytes.at[i];
        page.at[at + i] = b;
        i = i + 1;
    }
    return at + bytes.count;
}

static uint64_t train_text_append_bits(slice_mut_u8 page, uint64_t at, double x) {
    u8_x16 text = train_text_hex(train_text_pattern(x));
    return train_text_append(page, at, (slice_u8){text.at, 16});
}

static uint64_t train_text_append_decimal(slice_mut_u8 page, uint64_t at, uint64_t n) {
    train_text_Digits d = train_text_decimal(n);
    u8_x20 digits = d.digits;
    uint64_t from = d.from;
    return train_text_append(page, at, (slice_u8){digits.at + from, 20 - from});
}

static uint64_t train_text_append_letter(slice_mut_u8 page, uint64_t at, bool reflected) {
    u8_x3 text = {{32, 82, 32}};
    u8_x3 text_2 = {{32, 84, 32}};
    if (reflected) {
        return train_text_append(page, at, (slice_u8){text.at, 3});
    }
    return train_text_append(page, at, (slice_u8){text_2.at, 3});
}

static uint64_t train_text_surface_line(slice_mut_u8 page, uint64_t at, uint64_t number, bool reflected, double s,
        double p) {
    u8_x1 text = {{32}};
    u8_x1 text_2 = {{10}};
    uint64_t digits = train_text_append_decimal(page, at, number);
    uint64_t letter = train_text_append_letter(page, digits, reflected);
    uint64_t first = train_text_append_bits(page, letter, s);
    uint64_t space = train_text_append(page, first, (slice_u8){text.at, 1});
    uint64_t second = train_text_append_bits(page, space, p);
    return train_text_append(page, second, (slice_u8){text_2.at, 1});
}

static uint64_t train_text_sum_line(slice_mut_u8 page, uint64_t at, double s, double p) {
    u8_x4 text = {{115, 117, 109, 32}};
    u8_x1 text_2 = {{10}};
    uint64_t word = train_text_append(page, at, (slice_u8){text.at, 4});
    uint64_t sum = train_text_append_bits(page, word, train_steps_sum(s, p));
    return train_text_append(page, sum, (slice_u8){text_2.at, 1});
}

static uint64_t train_text_refused_line(slice_mut_u8 page, uint64_t number, uint64_t place) {
    u8_x8 text = {{114, 101, 102, 117, 115, 101, 100, 32}};
    u8_x1 text_2 = {{32}};
    u8_x1 text_3 = {{10}};
    uint64_t word = train_text_append(page, 0, (slice_u8){text.at, 8});
    uint64_t first = train_text_append_decimal(page, word, number);
    uint64_t space = train_text_append(page, first, (slice_u8){text_2.at, 1});
    uint64_t second = train_text_append_decimal(page, space, place);
    return train_text_append(page, second, (slice_u8){text_3.at, 1});
}

// Whether the i-th surface follows the reflected light.
static bool train_text_reflects(slice_u8 src, uint32_t i) {
    result_sheet_surfaces_NumberedSurface_refusal_Refusal value = sheet_surfaces_nth_surface(src, i);
    if (value.tag == result_sheet_surfaces_NumberedSurface_refusal_Refusal_Ok) {
        sheet_surfaces_NumberedSurface y = value.as.Ok;
        gate_limits_Surface surface = y.surface;
        return surface.reflected;
    }
    return false;
}

// A line for each of count surfaces, with the powers that a run wrote, and the sum's.
static uint64_t train_text_lines(slice_u8 src, double first_s, double first_p, uint64_t count, const f64_x128 *list,
        slice_mut_u8 page) {
    double s = first_s;
    double p = first_p;
    uint64_t at = 0;
    uint64_t i = 0;
    while (i < count) {
        s = list->at[2 * i];
        p = list->at[2 * i + 1];
        at = train_text_surface_line(page, at, i + 1, train_text_reflects(src, (uint32_t)i), s, p);
        i = i + 1;
    }
    return train_text_sum_line(page, at, s, p);
}

// The text of a sheet whose run wrote a list.
static uint64_t train_text_admitted(slice_u8 src, uint64_t count, const f64_x128 *list, slice_mut_u8 page) {
    result_train_steps_State_refusal_Refusal value = train_steps_start(src);
    if (value.tag == result_train_steps_State_refusal_Refusal_Ok) {
        train_steps_State state = value.as.Ok;
        return train_text_lines(src, state.s, state.p, count, list, page);
    }
    refusal_Refusal r = value.as.Err;
    return train_text_refused_line(page, (uint64_t)refusal_Refusal_number(r), refusal_Refusal_place(r));
}

static uint64_t train_text_write_text(slice_u8 src, slice_mut_u8 page) {
    f64_x128 list = {{0}};
    result_u32_refusal_Refusal value = train_steps_run(src, (slice_mut_f64){list.at, 128});
    if (value.tag == result_u32_refusal_Refusal_Ok) {
        uint32_t count = value.as.Ok;
        return train_text_admitted(src, (uint64_t)count, &list, page);
    }
    refusal_Refusal r = value.as.Err;
    return train_text_refused_line(page, (uint64_t)refusal_Refusal_number(r), refusal_Refusal_place(r));
}

// Bytes at the front of a buffer that has room for them.
static void train_text_copy(slice_u8 bytes, slice_mut_u8 buffer) {
    uint64_t i = 0;
    while (i < bytes.count) {
        uint8_t b = bytes.at[i];
        buffer.at[i] = b;
        i = i + 1;
    }
}

// What `train` prints of a sheet, at the front of a buffer. A buffer that is too short is refused with
// 8 and left as it is; 4096 bytes are enough for every sheet.
static result_u64_refusal_Refusal train_text_train_text(slice_u8 src, slice_mut_u8 buffer) {
    u8_x4096 page = {{0}};
    uint64_t n = train_text_write_text(src, (slice_mut_u8){page.at, 4096});
    if (buffer.count < n) {
        return (result_u64_refusal_Refusal){.tag = result_u64_refusal_Refusal_Err,
                .as.Err = {.tag = refusal_Refusal_TooShort}};
    }
    train_text_copy((slice_u8){page.at, n}, buffer);
    return (result_u64_refusal_Refusal){.tag = result_u64_refusal_Refusal_Ok, .as.Ok = n};
}
