// Sheets from numbers, and refusals in words: dihkelu_sheet.h says what each function does. Nothing here is proved.
// SPDX-License-Identifier: MIT OR Apache-2.0
#include "dihkelu_sheet.h"

#include <inttypes.h>
#include <stdbool.h>
#include <stdio.h>

enum { OPEN = 1, BEAM = 2, SURFACE = 3, LAYER = 4, END = 5, GLASS = 6, RETUNE = 7 };
enum { SURFACES = 64, LAYERS = 16, OUT_OF_GRAMMAR = 5, TOO_SHORT = 8 };

static uint64_t refuse(dihkelu_sheet *sheet, uint32_t number, size_t place) {
    sheet->refused = (uint64_t)number << 32 | (uint32_t)place;
    return sheet->refused;
}

static void put(dihkelu_sheet *sheet, uint64_t bits, int bytes) {
    for (int i = bytes; i > 0; i--) {
        sheet->bytes[sheet->size++] = (uint8_t)(bits >> (8 * (i - 1)));
    }
}

// Whether a block of this kind may stand behind what is written.
static bool may_follow(const dihkelu_sheet *sheet, uint32_t kind) {
    switch (kind) {
    case OPEN:
        return true;
    case BEAM:
        return sheet->last == OPEN;
    case LAYER:
    case GLASS:
        return sheet->layers > 0;
    case SURFACE:
        return sheet->last != OPEN && sheet->last != END && sheet->surfaces < SURFACES;
    case RETUNE:
        return sheet->last != OPEN && sheet->last != END && sheet->last != RETUNE && sheet->surfaces < SURFACES;
    default: // END
        return sheet->last != OPEN && sheet->last != END && sheet->last != RETUNE;
    }
}

// A block: its kind word, high byte first, and its numbers.
static uint64_t block(dihkelu_sheet *sheet, uint32_t kind, uint32_t payload, const double *numbers, size_t count) {
    if (sheet->refused != 0) {
        return sheet->refused;
    }
    if (!may_follow(sheet, kind)) {
        return refuse(sheet, OUT_OF_GRAMMAR, sheet->size / 4);
    }
    if (sheet->room - sheet->size < 4 + 8 * count) {
        return refuse(sheet, TOO_SHORT, 0);
    }
    put(sheet, kind << 28 | payload, 4);
    for (size_t i = 0; i < count; i++) {
        uint64_t bits;
        memcpy(&bits, &numbers[i], sizeof bits);
        put(sheet, bits, 8);
    }
    if (kind == GLASS || kind == RETUNE) {
        sheet->bytes[3] = 2; // OPEN's edition
    }
    sheet->last = kind;
    return 0;
}

uint64_t dihkelu_sheet_begin(dihkelu_sheet *sheet, uint8_t *bytes, size_t bytes_count) {
    *sheet = (dihkelu_sheet){.bytes = bytes, .room = bytes_count};
    return block(sheet, OPEN, 1, NULL, 0);
}

uint64_t dihkelu_sheet_beam(dihkelu_sheet *sheet, double wavelength_nm, double s, double p) {
    const double numbers[] = {wavelength_nm, s, p};
    return block(sheet, BEAM, 0, numbers, 3);
}

uint64_t dihkelu_sheet_surface(dihkelu_sheet *sheet, uint32_t coating, int reflected, double n_incident,
                               double n_substrate, double angle_rad) {
    const double numbers[] = {n_incident, n_substrate, angle_rad};
    if (sheet->refused == 0 && coating > DIHKELU_COATING_IDEAL_MIRROR) {
        return refuse(sheet, OUT_OF_GRAMMAR, sheet->size / 4);
    }
    uint64_t returned = block(sheet, SURFACE, 2 * coating + (reflected != 0), numbers, 3);
    if (returned == 0) {
        sheet->surfaces++;
        sheet->layers = coating == DIHKELU_COATING_CUSTOM ? LAYERS : 0;
    }
    return returned;
}

// A block that belongs to a custom surface.
static uint64_t film(dihkelu_sheet *sheet, uint32_t kind, const double *numbers, size_t count) {
    uint64_t returned = block(sheet, kind, 0, numbers, count);
    if (returned == 0) {
        sheet->layers--;
    }
    return returned;
}

uint64_t dihkelu_sheet_layer(dihkelu_sheet *sheet, double n, double k, double thickness_nm) {
    const double numbers[] = {n, k, thickness_nm};
    return film(sheet, LAYER, numbers, 3);
}

uint64_t dihkelu_sheet_glass(dihkelu_sheet *sheet, double a, double b, double c, double thickness_nm) {
    const double numbers[] = {a, b, c, thickness_nm};
    return film(sheet, GLASS, numbers, 4);
}

uint64_t dihkelu_sheet_retune(dihkelu_sheet *sheet, double wavelength_nm) {
    uint64_t returned = block(sheet, RETUNE, 0, &wavelength_nm, 1);
    if (returned == 0) {
        sheet->layers = 0;
    }
    return returned;
}

uint64_t dihkelu_sheet_end(dihkelu_sheet *sheet) {
    uint64_t returned = block(sheet, END, sheet->surfaces, NULL, 0);
    sheet->layers = 0;
    return returned == 0 ? sheet->size : returned;
}

// A sentence; the place stands between its two parts where there are two.
typedef struct {
    const char *before, *after;
} Sentence;

static Sentence sentence(uint32_t number, uint32_t place) {
    static const Sentence sentences[] = {
        {"a number that no call refuses with", NULL},
        {"an argument is none that the call takes: an index, a wavelength, a code, or a count of numbers", NULL},
        {"byte ", " of the name is no ASCII, or there is no coating of this code"},
        {"there are more than 64 layers, or more than 31 pairs", NULL},
        {"the sheet's bytes are no multiple of 4, too few or too many", NULL},
        {"word ", " of the sheet is out of grammar"},
        {"the block at word ", " of the sheet is outside the limits"},
        {"the sheet has no such surface", NULL},
        {"the list is too short", NULL},
        {"no stack can have the byte at place ", " of the text"},
        {"the stack has more than 64 layers", NULL},
        {"the wavelength is outside 100 to 10,000 nm, or a layer still to come fails at it", NULL},
        {"a kind 7 stands in the sheet, the first at word ", ""},
        {"a low end is above its high end, or an end is no number from 1 to 4", NULL},
        {"the index is outside 1 to 4, the thickness outside 0 to 100,000 nm or the wavelength outside 100 to 10,000 nm",
         NULL},
        {"the weight of line ", " is no whole number from 1 to 1,000"},
        {"the wavelength of line ", " is outside 100 to 10,000 nm, or a layer of the sheet fails at it"},
    };
    if (number == 2 && place == 32) {
        return (Sentence){"the name has more than 32 bytes", NULL};
    }
    if (number == 15 && place == 64) {
        return (Sentence){"there are no lines, more than 64, or not as many weights as wavelengths", NULL};
    }
    return sentences[number < sizeof sentences / sizeof sentences[0] ? number : 0];
}

size_t dihkelu_refusal_text(uint64_t returned, char *text, size_t text_count) {
    uint32_t number = dihkelu_refusal(returned), place = dihkelu_place(returned);
    Sentence said = sentence(number, place);
    int length;
    if (number == 0) {
        length = snprintf(text, text_count, "answered %" PRIu32, dihkelu_value(returned));
    } else if (said.after == NULL) {
        length = snprintf(text, text_count, "refused %" PRIu32 " %" PRIu32 ": %s", number, place, said.before);
    } else {
        length = snprintf(text, text_count, "refused %" PRIu32 " %" PRIu32 ": %s%" PRIu32 "%s", number, place, said.before,
                          place, said.after);
    }
    return length < 0 ? 0 : (size_t)length;
}
