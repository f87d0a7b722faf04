/* Light through a train of coated windows: the calls of libdihkelu.a (document 01, and the built slips of document 02).
 *
 * ============================================================================================================
 * KEEP WHAT A CALL RETURNS IN 64 BITS. The refusal stands in the HIGH half: `int n = dihkelu_gate(..)` compiles,
 * drops it, and turns "refused 6, word 8" into "8 surfaces". Test dihkelu_refusal(returned) FIRST, every time:
 *
 *     uint64_t returned = dihkelu_gate(sheet, size);
 *     if (dihkelu_refusal(returned)) .. refused, at dihkelu_place(returned) ..
 *     else .. dihkelu_value(returned) surfaces ..
 *
 * A result that is thrown away is warned about. One that is cut to 32 bits is warned about with -Wconversion.
 * ============================================================================================================
 *
 * A call returns one number. Its high 32 bits are 0 where the call answers; the low 32 bits are then what the call
 * says below. Where it refuses, the high 32 bits are the documents' number of the refusal and the low 32 bits its
 * place, a word of the sheet, a byte of the text, a line of the band or a case of a list counted from 0; the place is 0 where the documents give none.
 *
 *   1  evaluate: the Rust's InvalidParameter (dihkelu_invalid_argument says which argument), an unknown code, or a count of
 *      layers that is no multiple of 3; evaluate_list: the same of the case at this place, or DIHKELU_CASES for lists of
 *      unequal length;
 *      stack: an index or the design wavelength is not positive and finite; surface_fresnel_jones: the Rust's
 *      InvalidParameter; to_mueller, mueller_born_wolf and the calls on vectors and matrices: there are not 4, 8 or 16
 *      numbers, as the call has it
 *   2  coating_from_name: over 32 bytes, at 32; else the byte at this place is over 127; coating_name: an unknown code
 *   3  evaluate, evaluate_list: more than 64 layers, where the code is that of explicit layers (any other ignores them);
 *      bragg_mirror: more than 31 pairs
 *   4  the sheet's bytes are no multiple of 4, under 36 or over 30,500 (39,460 where the first word is 0x10000002)
 *   5  the word at this place is out of grammar
 *   6  the BEAM, SURFACE, layer or kind 7 at this place is outside the limits
 *   7  there is no such surface: it is the sheet's count or more
 *   8  the list or the output is too short; after all other refusals
 *   9  stack: no text can have the byte at this place; the place is the count of bytes where the text stops early, and
 *      255 for a text over 255 bytes
 *  10  stack: more than 64 layers
 *  11  step, retune, answers_at: the wavelength is NaN or outside 100 to 10,000 nm, or a layer still to come fails at it, of
 *      those up to the next kind 7
 *  12  edition_1, band: the kind 7 at this place, the first of the sheet
 *  13  reflectance_range: a low end is above its high end, or an end is NaN or outside 1 to 4
 *  14  quarter_waves: n is outside 1 to 4, the thickness outside 0 to 100,000 or the wavelength outside 100 to 10,000, or
 *      one of them is no number
 *  15  band: the place is 64 for no lines, more than 64 or lists of unequal length, else the first line, counted from 0,
 *      whose weight is outside 1 to 1,000
 *  16  band: the first line whose wavelength is NaN or outside 100 to 10,000 nm, or at which a layer of the sheet fails
 *
 * A call that refuses writes nothing. (That is proved of the numbers that are lent, so up to the bits of a NaN that
 * stands there; the tests look at every bit.) A call that answers writes the front of the list and leaves the rest of
 * it, or each number of a state. Every call answers or refuses for all bytes, all numbers and all counts; no call keeps anything between calls,
 * and any number of threads may call at once. Where an answer is not a number its bits may be those of any NaN.
 *
 * Link with libdihkelu.a and nothing else: the proved library calls no function of the C library. It is
 * for x86-64; the one that is built from C (c/) is for machines of 32 or 64 bits, and may call memcpy and, where the machine
 * is neither x86 nor aarch64, fegetenv and fesetenv (-lm); what dihkelu_sheet.h adds to it calls snprintf too.
 *
 * WHAT THE CALLER OWES, since no callee can check it:
 *   - A sheet, a text, a list of layers, a Jones matrix, angles, wavelengths, a band's weights and a list or an output that is
 *     written are each passed as a pointer and a count of elements (bytes, doubles or uint32_t), two arguments one after
 *     the other. So many elements are there, readable, and writable in the list and the output; a pointer to doubles or
 *     weights is aligned for them. Where the count is 0 the pointer may be anything, null too: nothing is read or written
 *     through it.
 *   - A number that is written, such as a state's s, is passed as a pointer to it, which is never null. The numbers of a
 *     state are apart from each other and from the sheet.
 *   - The list or the output overlaps neither the sheet nor the text nor the layers nor the Jones matrix nor the band nor the angles, and
 *     no other thread writes
 *     any of them meanwhile.
 *   - One number that is written, remainder_nm, or place and length, is a pointer that is not null, to a number that is there,
 *     aligned and writable; place and length are apart from each other and from the name.
 *
 * THE FLOATING-POINT ENVIRONMENT. The library that is built from C (c/) works in any: a call sets what its answers are
 * proved for, rounding to nearest, subnormal numbers kept, no exception trapped, and gives the caller's environment back
 * with the caller's flags. Compiled with -DDIHKELU_TRUST_ENVIRONMENT it does not, and THE PROVED STATIC LIBRARY DOES NOT:
 * there the caller owes the environment that a C program starts with. A program LINKED WITH -ffast-math or -Ofast starts
 * with subnormals flushed to zero, and the gate then admits k = 2^-1074 at any angle and a power of -2^-1074; another
 * rounding mode changes the last bits of every answer. dihkelu_environment_ok() says whether subnormals and rounding are
 * as they should be: with those two libraries call it once in each thread.
 *
 * s AND p: row and column 0 of a Jones matrix are s, row and column 1 are p. A surface's Jones matrices are zero off the
 * diagonal.
 *
 * TWO CONVENTIONS. A bare surface's Jones matrices are Fresnel's, a coated one's are the layer solver's, as in the Rust:
 *   - rp has the opposite sign (from 1 to 1.5 at 0.6 rad: +0.1439 bare, -0.1439 coated without a layer);
 *   - tp of the coated one is the bare one's times cos_t / cos_i (0.8561 and 0.7626 there);
 *   - under total reflection, which no sheet within the limits has, the phases are conjugate.
 * Multiply Jones matrices of both kinds only after you have made them agree. Powers are not concerned.
 * NEITHER MUELLER MATRIX OF THE TRANSMITTED LIGHT carries n_substrate·cos_t / (n_incident·cos_i): its entry [0][0] is no
 * share of the power. (The ideal coatings alone have T = |t|^2.) Take T_s and T_p for that. The fourth column of a Mueller
 * matrix is the response to the Rust's circular_right, (1, -i)/sqrt(2), whose S3 is negative.
 */
#ifndef DIHKELU_H
#define DIHKELU_H

#include <stddef.h>
#include <stdint.h>
#include <string.h>

#ifdef __cplusplus
extern "C" {
#endif

/* A result that is thrown away is warned about, where the compiler can. */
#if defined(__has_attribute)
#if __has_attribute(warn_unused_result)
#define DIHKELU_MUST_USE __attribute__((warn_unused_result))
#endif
#elif defined(__GNUC__)
#define DIHKELU_MUST_USE __attribute__((warn_unused_result))
#endif
#ifndef DIHKELU_MUST_USE
#define DIHKELU_MUST_USE
#endif

/* ---- the version: major × 2^16 + minor. A program can hold the header it was compiled with against the library */

#define DIHKELU_VERSION 0x00000004u
#define DIHKELU_VERSION_TEXT "0.4.0"
DIHKELU_MUST_USE uint32_t dihkelu_version(void);

/* ---- what a call returned, taken apart */

/* The refusal's number; 0 for an answer. */
DIHKELU_MUST_USE static inline uint32_t dihkelu_refusal(uint64_t returned) { return (uint32_t)(returned >> 32); }

/* The place of a refusal; 0 for an answer. */
DIHKELU_MUST_USE static inline uint32_t dihkelu_place(uint64_t returned) {
    return dihkelu_refusal(returned) != 0 ? (uint32_t)(returned & 0xFFFFFFFFu) : 0;
}

/* The call's own number; 0 for a refusal. */
DIHKELU_MUST_USE static inline uint32_t dihkelu_value(uint64_t returned) {
    return dihkelu_refusal(returned) == 0 ? (uint32_t)(returned & 0xFFFFFFFFu) : 0;
}

/* ---- the floating-point environment */

/* 1 where subnormals are kept and rounding is to nearest, ties to even; else 0. Not needed over the library that is built
 * from C, which works in any environment. The numbers are volatile, so that they are worked out when the program runs. */
DIHKELU_MUST_USE static inline int dihkelu_environment_ok(void) {
    volatile double normal = 2.2250738585072014e-308, half = 0.5, one = 1.0, minus = -1.0, tie = 1.1102230246251565e-16;
    volatile double subnormal = normal * half;       /* 2^-1023; 0 where results are flushed */
    volatile double doubled = subnormal + subnormal; /* 2^-1022; 0 where operands are taken for zeros */
    volatile double up = one + tie;                  /* 1; its neighbour above where rounding is upwards */
    volatile double down = minus - tie;              /* -1; its neighbour below where rounding is downwards */
    volatile double odd = one + 3.0 * tie;           /* 1 + 2^-51; 1 + 2^-52 where rounding is towards zero */
    volatile const double *found[] = {&subnormal, &doubled, &up, &down, &odd};
    static const uint64_t wanted[] = {0x0008000000000000u, 0x0010000000000000u, 0x3FF0000000000000u,
                                      0xBFF0000000000000u, 0x3FF0000000000002u};
    for (int i = 0; i < 5; i++) {
        double x = *found[i];
        uint64_t bits;
        memcpy(&bits, &x, sizeof bits);
        if (bits != wanted[i]) return 0;
    }
    return 1;
}

/* ---- the calls */

/* How many doubles are written by dihkelu_evaluate, by dihkelu_answers for a bare surface, and for a coated one. Up to
 * version 0.1 a response had 14, without what stays in the glass at its end: go by the count that is returned. */
#define DIHKELU_RESPONSE 16
#define DIHKELU_BARE 53
#define DIHKELU_COATED 69

/* The gate. The words of a sheet stand in dihkelu-sheet(5); dihkelu_sheet.h writes one from numbers. It is of edition
 * 1, or of edition 2, in which a layer may be of kind 6, a glass whose index changes with colour, and a kind 7 may
 * stand before a surface: the wavelength from there on. In either edition the 1 to 4 layers of a custom surface at
 * angle zero may be metal films. Returns the count of surfaces; refuses with 4, 5, 6. */
DIHKELU_MUST_USE uint64_t dihkelu_gate(const uint8_t *sheet, size_t sheet_count);

/* A train's state is four numbers: surfaces done, s, p and the wavelength held in nm. The calls take any state, also one
 * that no train has been in. Up to version 0.2 a state had no wavelength, and start and step wrote s and p to a list.
 *
 * A fresh train: no surface done, the BEAM's s, p and wavelength. Returns the count of surfaces; refuses with 4, 5, 6. */
DIHKELU_MUST_USE uint64_t dihkelu_start(const uint8_t *sheet, size_t sheet_count, uint32_t *surfaces_done, double *s,
                                        double *p, double *wavelength_nm);

/* A step: takes the surface after those done, at the wavelength of the kind 7 before it or else at the one held, which is
 * held then. Returns the surfaces done then; refuses with 4, 5, 6, 7, 11, and the state is as before. */
DIHKELU_MUST_USE uint64_t dihkelu_step(const uint8_t *sheet, size_t sheet_count, uint32_t *surfaces_done, double *s,
                                       double *p, double *wavelength_nm);

/* A retune: another wavelength for the surfaces not yet done; those done keep their powers. Returns the surfaces done;
 * refuses with 4, 5, 6, 11, and the wavelength held is as before. */
DIHKELU_MUST_USE uint64_t dihkelu_retune(const uint8_t *sheet, size_t sheet_count, uint32_t surfaces_done,
                                         double *wavelength_nm, double new_wavelength_nm);

/* A whole run from the start. Writes s, p after each surface, 2 doubles for each, and returns the count of surfaces;
 * refuses with 4, 5, 6, 8. */
DIHKELU_MUST_USE uint64_t dihkelu_run(const uint8_t *sheet, size_t sheet_count, double *list, size_t list_count);

/* The most bytes that dihkelu_edition_1 writes: the longest sheet of edition 1. */
#define DIHKELU_EDITION_1 30500

/* A sheet for programs that read edition 1 only, from a sheet of either edition: each kind 6 becomes a LAYER with its
 * index at the BEAM's wavelength and k +0, OPEN's payload is 1, and all else is as it was; a sheet of edition 1 comes out
 * as itself. Whole runs, steps and answers of both are the same, bit for bit; after a retune they are not, since a kind 6
 * changes with colour and a LAYER does not. Writes the new sheet to the front of the output and returns its length in
 * bytes, which is never more than the old one's; refuses with 4, 5, 6, 12, 8. */
DIHKELU_MUST_USE uint64_t dihkelu_edition_1(const uint8_t *sheet, size_t sheet_count, uint8_t *output,
                                            size_t output_count);

/* The most lines of a band. */
#define DIHKELU_LINES 64

/* A whole band: 1 to 64 lines, each a wavelength in nm and a whole weight 1 to 1,000. The train is run at each line from
 * its start, the line's wavelength in place of the BEAM's; each weight times s is added up in the order of the lines, onto
 * +0, and the total is divided by the sum of the weights; likewise p. Writes s and p, 2 doubles from 0 to 1, and returns
 * the count of lines; refuses with 4, 5, 6, 12, 15, 16, 8. The sheet has no kind 7. */
DIHKELU_MUST_USE uint64_t dihkelu_band(const uint8_t *sheet, size_t sheet_count, const double *wavelengths_nm,
                                       size_t wavelengths_count, const uint32_t *weights, size_t weights_count,
                                       double *list, size_t list_count);

/* The answers of a surface, counted from 0, at the wavelength that steps alone meet it with: that of the last kind 7 up
 * to it, or else the BEAM's. Returns how many doubles it wrote; refuses with 4, 5, 6, 7, 8. In order:
 *    0        1 for a coated surface, 0 for a bare one
 *    1 to 4   the powers R_s, R_p, T_s, T_p
 *    5 to 12  the Jones matrix of the reflected light: m00 (s), m01, m10, m11 (p), each re, im
 *   13 to 20  the same of the transmitted light
 *   21 to 36  the Mueller matrix of the reflected light, row after row
 *   37 to 52  the same of the transmitted light
 *   53 to 68  of a coated surface alone: its response, as dihkelu_evaluate writes it */
DIHKELU_MUST_USE uint64_t dihkelu_answers(const uint8_t *sheet, size_t sheet_count, uint32_t surface, double *list,
                                          size_t list_count);

/* The same where the train is retuned to wavelength_nm right before that surface is stepped: at this wavelength, or
 * at that of a kind 7 before the surface, which acts over the retune. Refuses with 4, 5, 6, 7, then 11 as
 * dihkelu_retune does with so many surfaces done, then 8. */
DIHKELU_MUST_USE uint64_t dihkelu_answers_at(const uint8_t *sheet, size_t sheet_count, uint32_t surface,
                                             double wavelength_nm, double *list, size_t list_count);

/* SurfaceCoating::evaluate. Codes: 1 IdealAr, 2 MgF2 (at the design wavelength), 3 BroadbandAr,
 * 4 HighReflectanceMirror, 5 Custom layers, 6 Custom beamsplitter, 7 Custom mirror, 8 Custom IdealAr. The layers are
 * n, k, thickness in nm of one after the other, from the side of the lower index (from the incident side where both are
 * equal). Returns how many doubles it wrote; refuses with 1, 3, 8. In order:
 *    0 to 7   rs, rp, ts, tp, each re, im
 *    8 to 11  R_s, R_p, T_s, T_p
 *   12, 13    the phases of rs and rp in radians
 *   14, 15    what stays in the glass of s and of p: (1 - R) - T, from 0 to 1 */
DIHKELU_MUST_USE uint64_t dihkelu_evaluate(uint32_t code, double design_wavelength_nm, double n_incident,
                                           double n_substrate, double angle_incident_rad, double wavelength_nm,
                                           const double *layers, size_t layers_count, double *list,
                                           size_t list_count);

/* So many cases are too many for one call: their doubles would be 2^32. */
#define DIHKELU_CASES 0x10000000u

/* The same at many angles and wavelengths: case i has angles_rad[i] and wavelengths_nm[i]. Writes 16 doubles a case, one
 * case after the other, and returns how many these are. Refuses with 1 at DIHKELU_CASES where there are not as many
 * wavelengths as angles, or so many cases or more; then as dihkelu_evaluate refuses the first case that it refuses, with 1
 * or 3 at that case; then with 8. Nothing is written where one case is refused. */
DIHKELU_MUST_USE uint64_t dihkelu_evaluate_list(uint32_t code, double design_wavelength_nm, double n_incident,
                                                double n_substrate, const double *angles_rad, size_t angles_count,
                                                const double *wavelengths_nm, size_t wavelengths_count,
                                                const double *layers, size_t layers_count, double *list,
                                                size_t list_count);

/* Which argument earned a 1 of dihkelu_evaluate: returns 1 for n_incident, 2 for n_substrate, 3 for the angle, 4 for the
 * wavelength, the first of them that is not finite or, but for the angle, not above zero; 0 where none is, and the 1 was
 * for the code or the count of the layers' numbers. Refuses never. */
DIHKELU_MUST_USE uint64_t dihkelu_invalid_argument(double n_incident, double n_substrate, double angle_incident_rad,
                                                   double wavelength_nm);

/* The most doubles that dihkelu_stack writes: 64 layers of 3. */
#define DIHKELU_STACK 192

/* A stack in the coating makers' shorthand, such as "(HL)^7 H", of text_count bytes (no byte 0 ends it). H, L and M
 * are quarter waves of n_h, n_l, n_m at the design wavelength: thickness design / (4 n), k 0. A whole number 1 to 99
 * before a letter multiplies its thickness; a power ^1 to ^31 repeats the letter or bracket before it; brackets nest at
 * most four deep; spaces are skipped, but not inside a number. Writes n, k, thickness in nm of one layer after the
 * other, as dihkelu_evaluate takes them, and returns how many doubles these are; refuses with 1, 9, 10, 8. All three
 * indices must be positive and finite, also those of letters that do not occur. */
DIHKELU_MUST_USE uint64_t dihkelu_stack(const uint8_t *text, size_t text_count, double n_h, double n_l, double n_m,
                                        double design_wavelength_nm, double *list, size_t list_count);

/* How many doubles a Mueller matrix is. */
#define DIHKELU_MUELLER 16

/* The Mueller matrix of a Jones matrix of 8 doubles: m00, m01, m10, m11, each re, im. Writes it row after row, 16
 * doubles, and returns 16; refuses with 1, 8. The first is the Rust's JonesMatrix::to_mueller, as dihkelu_answers has it:
 * its fourth column is the response to circular_right, (1, -i), so that empty space has -1 in its last place. The second
 * is over Stokes vectors with S3 = 2 Im(Ex* Ey), as Born and Wolf have them, and empty space has the identity. */
DIHKELU_MUST_USE uint64_t dihkelu_to_mueller(const double *jones, size_t jones_count, double *list, size_t list_count);
DIHKELU_MUST_USE uint64_t dihkelu_mueller_born_wolf(const double *jones, size_t jones_count, double *list,
                                                    size_t list_count);

/* A bare surface met head-on, its two indices known as ranges, low to high, within 1 to 4. Writes a low and a high
 * reflectance, 2 doubles, and returns 2; refuses with 13, 8. For every pair of doubles within the ranges the exact
 * (n1 - n2)^2 / (n1 + n2)^2 lies between the two; their gap exceeds the true spread by at most 18 2^-53, and
 * 0 <= low <= high <= 1. Where the ranges overlap low is 0. */
DIHKELU_MUST_USE uint64_t dihkelu_reflectance_range(double n1_low, double n1_high, double n2_low, double n2_high,
                                                    double *list, size_t list_count);

/* A film in quarter waves: p, which is n times the thickness, rounded once, in quarters q of the wavelength. Writes what
 * is over to *remainder_nm and returns the count, 16,000 at most: p is count·q + remainder exactly, the remainder from 0
 * (+0) and below q. Refuses with 14, and leaves *remainder_nm. */
DIHKELU_MUST_USE uint64_t dihkelu_quarter_waves(double n, double thickness_nm, double wavelength_nm,
                                                double *remainder_nm);

/* ---- fresnel.rs: any doubles are taken, as the Rust takes them */

/* Rs and Rp of a dielectric interface met at an angle of this cosine, which is clamped to 0..1; 1, 1 under total internal
 * reflection. Writes 2 doubles and returns 2; refuses with 8. */
DIHKELU_MUST_USE uint64_t dihkelu_fresnel_dielectric(double cos_theta_i, double n1, double n2, double *list,
                                                     size_t list_count);

/* The same of unpolarized light: R, which is (Rs + Rp)/2, and T, which is what is left. Writes 2 doubles and returns 2;
 * refuses with 8. */
DIHKELU_MUST_USE uint64_t dihkelu_fresnel_unpolarized(double cos_theta_i, double n1, double n2, double *list,
                                                      size_t list_count);

/* Schlick's approximation of that R. Writes 1 double and returns 1; refuses with 8. */
DIHKELU_MUST_USE uint64_t dihkelu_schlick_approx(double cos_theta_i, double n1, double n2, double *list,
                                                 size_t list_count);

/* How many doubles two Jones matrices are. */
#define DIHKELU_TWO_JONES 16

/* The Jones matrices of a bare surface, of the reflected light, then of the transmitted: 8 doubles each. Returns 16;
 * refuses with 1, 8. */
DIHKELU_MUST_USE uint64_t dihkelu_surface_fresnel_jones(double n1, double n2, double angle_i_rad, double *list,
                                                        size_t list_count);

/* ---- layers and names of coatings */

/* A quarter wave of index sqrt(n_ambient n_substrate) at the design wavelength. Writes n, k, thickness in nm of its layer,
 * as dihkelu_evaluate takes it, and returns 3; refuses with 8. */
DIHKELU_MUST_USE uint64_t dihkelu_quarter_wave_ar(double n_ambient, double n_substrate, double design_wavelength_nm,
                                                  double *list, size_t list_count);

/* (H L)^pairs H, quarter waves of two indices. Writes n, k, thickness in nm of one layer after the other and returns how
 * many doubles these are; refuses with 3 for more than 31 pairs, then with 8. */
DIHKELU_MUST_USE uint64_t dihkelu_bragg_mirror(double n_high, double n_low, uint32_t pairs, double design_wavelength_nm,
                                               double *list, size_t list_count);

/* The coating that a name stands for, of name_count bytes (no byte 0 ends it): returns the code that dihkelu_evaluate has
 * it by, 1 IdealAr, 2 MgF2 at a design wavelength of 550 nm, 3 BroadbandAr, 4 HighReflectanceMirror; 0 for none, as of an
 * empty name. An unknown name is IdealAr, as in the Rust. Refuses with 2. */
DIHKELU_MUST_USE uint64_t dihkelu_coating_from_name(const uint8_t *name, size_t name_count);

/* The most bytes that dihkelu_coating_name writes. */
#define DIHKELU_NAME 6

/* The name of the coating that dihkelu_evaluate has by this code: 1 AR, 2 MGF2, 3 BBAR, 4 MIRROR, 5 to 8 CUSTOM. Writes it
 * to the front of the output, with no byte 0 behind it, and returns its length in bytes; bytes past it keep what they held.
 * dihkelu_coating_from_name gives the code of the name back, but 1 for CUSTOM. Refuses with 2 for any other code, then
 * with 8. */
DIHKELU_MUST_USE uint64_t dihkelu_coating_name(uint32_t code, uint8_t *output, size_t output_count);

/* The trimmed part of a name, as dihkelu_coating_from_name reads it: bytes 0x09 to 0x0D and 0x20 go from both ends. Writes
 * its place in the name and its length in bytes, and returns 0. A name without any other byte has a part of length 0 at
 * place 0. Takes all bytes and refuses none. */
DIHKELU_MUST_USE uint64_t dihkelu_trim(const uint8_t *name, size_t name_count, uint64_t *place, uint64_t *length);

/* ---- Jones and Stokes vectors. A Jones vector is 4 doubles, Ex and Ey, each re, im; a Stokes vector is S0 to S3; a Jones
 * matrix is 8 doubles, as dihkelu_to_mueller takes it; a Mueller matrix is 16, row after row. A list of another count is
 * refused with 1, then a list that is too short with 8. */

/* JonesVector::to_stokes. Writes S0 to S3 and returns 4; refuses with 1, 8. */
DIHKELU_MUST_USE uint64_t dihkelu_to_stokes(const double *field, size_t field_count, double *list, size_t list_count);

/* JonesVector::normalize, to intensity 1. Writes the vector and returns 4; refuses with 1, 8. */
DIHKELU_MUST_USE uint64_t dihkelu_jones_normalize(const double *field, size_t field_count, double *list,
                                                  size_t list_count);

/* JonesVector::intensity. Writes 1 double and returns 1; refuses with 1, 8. */
DIHKELU_MUST_USE uint64_t dihkelu_jones_intensity(const double *field, size_t field_count, double *list,
                                                  size_t list_count);

/* Of a Stokes vector: the degree of polarization, of linear and of circular polarization, the orientation and the
 * ellipticity in radians. Writes 5 doubles and returns 5; refuses with 1, 8. */
DIHKELU_MUST_USE uint64_t dihkelu_stokes_figures(const double *beam, size_t beam_count, double *list,
                                                 size_t list_count);

/* ---- Jones and Mueller matrices */

/* JonesMatrix::apply. Writes the vector and returns 4; refuses with 1, 8. */
DIHKELU_MUST_USE uint64_t dihkelu_jones_apply(const double *matrix, size_t matrix_count, const double *field,
                                              size_t field_count, double *list, size_t list_count);

/* JonesMatrix::mul: left times right, light passing right first. Writes the matrix and returns 8; refuses with 1, 8. */
DIHKELU_MUST_USE uint64_t dihkelu_jones_mul(const double *left, size_t left_count, const double *right,
                                            size_t right_count, double *list, size_t list_count);

/* MuellerMatrix::apply. Writes the Stokes vector and returns 4; refuses with 1, 8. */
DIHKELU_MUST_USE uint64_t dihkelu_mueller_apply(const double *matrix, size_t matrix_count, const double *beam,
                                                size_t beam_count, double *list, size_t list_count);

/* JonesMatrix::diattenuator of two amplitudes, each re, im, such as the first four doubles of a response, which give its
 * reflected light, and the next four its transmitted. Writes the matrix and returns 8; refuses with 1, 8. */
DIHKELU_MUST_USE uint64_t dihkelu_diattenuator(const double *amplitudes, size_t amplitudes_count, double *list,
                                               size_t list_count);

/* A linear polarizer at an angle to the x-axis; a retarder, a quarter-wave and a half-wave plate, their fast axis at an
 * angle. Each writes its Jones matrix and returns 8; refuses with 8. */
DIHKELU_MUST_USE uint64_t dihkelu_linear_polarizer(double angle_rad, double *list, size_t list_count);
DIHKELU_MUST_USE uint64_t dihkelu_retarder(double retardance_rad, double fast_axis_rad, double *list,
                                           size_t list_count);
DIHKELU_MUST_USE uint64_t dihkelu_quarter_wave_plate(double fast_axis_rad, double *list, size_t list_count);
DIHKELU_MUST_USE uint64_t dihkelu_half_wave_plate(double fast_axis_rad, double *list, size_t list_count);

#ifdef __cplusplus
}
#endif

#endif
