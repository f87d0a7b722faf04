/* Sheets from numbers, and refusals in words: plain C beside the calls of dihkelu.h.
 * SPDX-License-Identifier: MIT OR Apache-2.0
 *
 * A sheet is written block after block to bytes that the caller lends (dihkelu-sheet(5) has the format):
 *
 *     uint8_t bytes[DIHKELU_SHEET_MOST];
 *     dihkelu_sheet sheet;
 *     dihkelu_sheet_begin(&sheet, bytes, sizeof bytes);
 *     dihkelu_sheet_beam(&sheet, 550.0, 0.5, 0.5);
 *     dihkelu_sheet_surface(&sheet, DIHKELU_COATING_MGF2, 0, 1.0, 1.52, 0.5);
 *     dihkelu_sheet_surface(&sheet, DIHKELU_COATING_CUSTOM, 1, 1.0, 1.52, 0.0);
 *     dihkelu_sheet_layer(&sheet, 2.3, 0.0, 115.652);
 *     uint64_t returned = dihkelu_sheet_end(&sheet);
 *     if (dihkelu_refusal(returned)) .. refused ..
 *     else .. dihkelu_run(bytes, dihkelu_value(returned), list, list_count) ..
 *
 * Each call returns 64 bits, as those of dihkelu.h do: 0, or the bytes of the whole sheet of dihkelu_sheet_end; or a
 * refusal, which writes nothing and is the answer of every later call too, so that it is enough to test the last.
 *    5  the block cannot stand here, at this word: it is out of order, the 65th surface, the 17th layer, a layer of
 *       another coating than CUSTOM, or of no coating 0 to 7. The gate has the same number and place for such a sheet.
 *    8  the bytes are too few.
 * Any doubles are taken: the gate judges them. OPEN's edition is 2 where a glass or a retune stands in the sheet, else 1.
 */
#ifndef DIHKELU_SHEET_H
#define DIHKELU_SHEET_H

#include "dihkelu.h"

#ifdef __cplusplus
extern "C" {
#endif

/* The bytes of the longest sheet. */
#define DIHKELU_SHEET_MOST 39460

enum {
    DIHKELU_COATING_BARE = 0,
    DIHKELU_COATING_IDEAL_AR = 1,
    DIHKELU_COATING_MGF2 = 2, /* at 550 nm */
    DIHKELU_COATING_BROADBAND_AR = 3,
    DIHKELU_COATING_MIRROR = 4,
    DIHKELU_COATING_CUSTOM = 5, /* 0 to 16 layers and glasses follow */
    DIHKELU_COATING_IDEAL_BEAMSPLITTER = 6,
    DIHKELU_COATING_IDEAL_MIRROR = 7
};

/* A sheet that is being written. Its parts are the functions' own. */
typedef struct {
    uint8_t *bytes;
    size_t room;
    size_t size;
    uint64_t refused;
    uint32_t last; /* the kind of the last block */
    uint32_t surfaces;
    uint32_t layers; /* how many more may follow */
} dihkelu_sheet;

/* Begins a sheet in bytes that are lent up to its end. */
uint64_t dihkelu_sheet_begin(dihkelu_sheet *sheet, uint8_t *bytes, size_t bytes_count);

/* The beam, once and first: its wavelength and its s and p power. */
uint64_t dihkelu_sheet_beam(dihkelu_sheet *sheet, double wavelength_nm, double s, double p);

/* A surface of a coating by its code, whose transmitted light is followed or, where reflected is not 0, the reflected. */
uint64_t dihkelu_sheet_surface(dihkelu_sheet *sheet, uint32_t coating, int reflected, double n_incident,
                               double n_substrate, double angle_rad);

/* A layer of the custom surface before it, the one on the side of the lower index first. */
uint64_t dihkelu_sheet_layer(dihkelu_sheet *sheet, double n, double k, double thickness_nm);

/* The same of a glass, whose index is a + (b + c/u2)/u2, u2 being the square of the wavelength in micrometres. */
uint64_t dihkelu_sheet_glass(dihkelu_sheet *sheet, double a, double b, double c, double thickness_nm);

/* Another wavelength from the next surface on. */
uint64_t dihkelu_sheet_retune(dihkelu_sheet *sheet, double wavelength_nm);

/* Ends the sheet and returns its length in bytes. */
DIHKELU_MUST_USE uint64_t dihkelu_sheet_end(dihkelu_sheet *sheet);

/* What a call returned in words, such as "refused 6 8: the block at word 8 of the sheet is outside the limits"; an answer is
 * "answered 8". Writes at most count bytes, a 0 at their end among them (nothing where count is 0), and returns how many the
 * whole text has, without that 0. */
size_t dihkelu_refusal_text(uint64_t returned, char *text, size_t text_count);

#ifdef __cplusplus
}
#endif

#endif
