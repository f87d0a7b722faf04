// Made by tools/c_source from the checked program; a change is made in crates/ and this file written anew.
// SPDX-License-Identifier: MIT OR Apache-2.0
//
// This project translates parts of OpticsLab (optics-core: thin_film.rs, fresnel.rs,
// polarization.rs, error.rs), whose notice and licence text follow.
//
// OpticsLab
// Copyright (c) 2026 Alexandru Crisan and the OpticsLab contributors.
// Licensed under the MIT License or the Apache License, Version 2.0, at your option
// (LICENSE-MIT, LICENSE-APACHE).
//
// MIT License
//
// Copyright (c) 2026 OpticsLab Contributors
//
// Permission is hereby granted, free of charge, to any person obtaining a copy
// of this software and associated documentation files (the "Software"), to deal
// in the Software without restriction, including without limitation the rights
// to use, copy, modify, merge, publish, distribute, sublicense, and/or sell
// copies of the Software, and to permit persons to whom the Software is
// furnished to do so, subject to the following conditions:
//
// The above copyright notice and this permission notice shall be included in all
// copies or substantial portions of the Software.
//
// THE SOFTWARE IS PROVIDED "AS IS", WITHOUT WARRANTY OF ANY KIND, EXPRESS OR
// IMPLIED, INCLUDING BUT NOT LIMITED TO THE WARRANTIES OF MERCHANTABILITY,
// FITNESS FOR A PARTICULAR PURPOSE AND NONINFRINGEMENT. IN NO EVENT SHALL THE
// AUTHORS OR COPYRIGHT HOLDERS BE LIABLE FOR ANY CLAIM, DAMAGES OR OTHER
// LIABILITY, WHETHER IN AN ACTION OF CONTRACT, TORT OR OTHERWISE, ARISING FROM,
// OUT OF OR IN CONNECTION WITH THE SOFTWARE OR THE USE OR OTHER DEALINGS IN THE
// SOFTWARE.
//
// Light through a train of coated windows: the whole library in one file. dihkelu.h says what each call does. Functions
// have their crate's name in front, and those that are called stand before those that call.
//
// The answers are those of the proved library, bit for bit, only where each operation on doubles is rounded once, to
// nearest, as IEEE 754 has it. What can be known when this is compiled is tested here; the environment of the caller is
// set for each call and given back.
#include "dihkelu.h"

#include <float.h>
#include <stdbool.h>

#if defined(__FAST_MATH__) || (defined(__FINITE_MATH_ONLY__) && __FINITE_MATH_ONLY__)
#error "compile this without -ffast-math, -Ofast and -ffinite-math-only: the answers would be others"
#endif
#if defined(__NO_SIGNED_ZEROS__) || defined(__ASSOCIATIVE_MATH__) || defined(__RECIPROCAL_MATH__)
#error "compile this without the options that -ffast-math is made of: the answers would be others"
#endif
// 0 and 1 leave doubles as they are, and so do 16, 32, 33 and 64, which speak of narrower numbers; 2 and 65 do not.
#if !defined(FLT_EVAL_METHOD) || FLT_EVAL_METHOD < 0 || FLT_EVAL_METHOD == 2 || FLT_EVAL_METHOD > 64
#error "operations on doubles are rounded twice here, as 32-bit x86 does without SSE2: the answers would be others"
#endif

// No a * b + c is worked out with one rounding. GCC does not know the standard's pragma. Where the machine has a fused
// multiply-add, GCC 12 makes one of two products even with -ffp-contract=off, when it joins them to a vector: not here.
#if defined(__GNUC__) && !defined(__clang__)
#pragma GCC optimize("fp-contract=off", "no-tree-slp-vectorize")
#else
#pragma STDC FP_CONTRACT OFF
#endif

_Static_assert(FLT_RADIX == 2 && DBL_MANT_DIG == 53, "double is no binary64");
_Static_assert(DBL_MAX_EXP == 1024 && DBL_MIN_EXP == -1021, "double is no binary64");
_Static_assert(sizeof(double) == 8 && sizeof(uint64_t) == 8, "a byte has another size");
// A count is a size_t in dihkelu.h and a uint64_t inside: widened there, and never cut. An index is below its list's count.
_Static_assert(sizeof(size_t) <= sizeof(uint64_t), "a count would be cut");
_Static_assert(sizeof(int) >= 4 && sizeof(size_t) >= 4, "this is for machines of 32 bits or more");

// The bits of a double, and the double of bits.
static inline uint64_t to_bits(double x) {
    uint64_t bits;
    memcpy(&bits, &x, sizeof bits);
    return bits;
}

static inline double from_bits(uint64_t bits) {
    double x;
    memcpy(&x, &bits, sizeof x);
    return x;
}

// How many zeros stand before the first 1 of 64 digits; 64 where there is none.
static inline uint32_t leading_zeros(uint64_t x) {
    uint32_t zeros = 0;
    while (zeros < 64 && x >> (63 - zeros) == 0) {
        zeros++;
    }
    return zeros;
}

// ==== the floating-point environment
//
// A call that works with doubles does so in the environment that its answers are proved for: rounding to nearest,
// subnormals kept, no exception trapped. It gives the caller's environment back with the caller's flags. Such a call
// is two functions: NAME_body works, and NAME sets the environment around it. A call without such work is one.
// DIHKELU_TRUST_ENVIRONMENT leaves all of this out; the caller then owes the environment.
//
// Compilers take operations on doubles for independent of the environment, and may move them, or a call of a function
// that they have looked into, to where it is another. They know nothing of what a volatile pointer points to: such a
// call stays between the two changes.
#if defined(DIHKELU_TRUST_ENVIRONMENT) || defined(__wasm__)
#define LOOKED_UP
typedef int environment;

static inline environment environment_enter(void) {
    return 0;
}

static inline void environment_leave(environment caller) {
    (void)caller;
}
#elif defined(__GNUC__) && defined(__SSE2__)
#define LOOKED_UP volatile
typedef uint32_t environment; // MXCSR

static inline environment environment_enter(void) {
    static const environment proved = 0x1F80;
    environment caller;
    __asm__ volatile("stmxcsr %0" : "=m"(caller) : : "memory");
    __asm__ volatile("ldmxcsr %0" : : "m"(proved) : "memory");
    return caller;
}

static inline void environment_leave(environment caller) {
    __asm__ volatile("ldmxcsr %0" : : "m"(caller) : "memory");
}
#elif defined(__GNUC__) && defined(__aarch64__)
#define LOOKED_UP volatile
typedef struct {
    uint64_t control; // FPCR; 0 is what the answers are proved for
    uint64_t flags;   // FPSR
} environment;

static inline void environment_control(uint64_t control) {
    __asm__ volatile("msr fpcr, %0" : : "r"(control) : "memory");
}

static inline environment environment_enter(void) {
    environment caller;
    __asm__ volatile("mrs %0, fpcr" : "=r"(caller.control) : : "memory");
    __asm__ volatile("mrs %0, fpsr" : "=r"(caller.flags) : : "memory");
    if (caller.control != 0) { // the register is slow to write
        environment_control(0);
    }
    return caller;
}

static inline void environment_leave(environment caller) {
    if (caller.control != 0) {
        environment_control(caller.control);
    }
    __asm__ volatile("msr fpsr, %0" : : "r"(caller.flags) : "memory");
}
#else
#include <fenv.h>
#define LOOKED_UP volatile
typedef fenv_t environment;

static inline environment environment_enter(void) {
    environment caller;
    fegetenv(&caller);
    fesetenv(FE_DFL_ENV);
    return caller;
}

static inline void environment_leave(environment caller) {
    fesetenv(&caller);
}
#endif

// ==== types

typedef struct {
    const uint8_t *at;
    uint64_t count;
} slice_u8;

// A part of a name: its place and its length.
typedef struct {
    uint64_t place;
    uint64_t len;
} name_bytes_Span;

// A part of a lent name, with its place in it.
typedef struct {
    slice_u8 bytes;
    uint64_t place;
} name_bytes_Part;

typedef struct {
    enum {
        refusal_Refusal_InvalidParameter,
        refusal_Refusal_Name,
        refusal_Refusal_TooManyLayers,
        refusal_Refusal_Length,
        refusal_Refusal_Grammar,
        refusal_Refusal_Limits,
        refusal_Refusal_NoSurface,
        refusal_Refusal_TooShort,
        refusal_Refusal_Text,
        refusal_Refusal_TooManyFilms,
        refusal_Refusal_Wavelength,
        refusal_Refusal_Tuning,
        refusal_Refusal_Range,
        refusal_Refusal_Film,
        refusal_Refusal_Weight,
        refusal_Refusal_Line,
    } tag;
    union {
        uint64_t Name;
        uint64_t Grammar;
        uint64_t Limits;
        uint64_t Text;
        uint64_t Tuning;
        uint64_t Weight;
        uint64_t Line;
    } as;
} refusal_Refusal;

// One film: letter 0, 1 or 2 is H, L or M. The multiplier is 0 where none is written.
typedef struct {
    uint8_t letter;
    uint8_t multiplier;
} thin_film_grammar_Film;

typedef struct {
    thin_film_grammar_Film at[64];
} thin_film_grammar_Film_x64;

typedef struct {
    uint64_t at[4];
} u64_x4;

// The first count of the places hold films. A count of 65 says that there are more than 64. The last
// item is unit films long before its power, and opened has the count at each open bracket.
typedef struct {
    thin_film_grammar_Film_x64 items;
    uint64_t count;
    uint64_t unit;
    u64_x4 opened;
} thin_film_reader_films_Films;

// Stop: no text of the grammar goes on so. Ready: an item may follow. Atom: a power may follow too.
// Number1, Number2: after the digits of a multiplier, Gap: and a space. Caret: after ^. Power1,
// Power2: after the digits of a power.
typedef enum {
    thin_film_reader_machine_Phase_Stop,
    thin_film_reader_machine_Phase_Ready,
    thin_film_reader_machine_Phase_Atom,
    thin_film_reader_machine_Phase_Number1,
    thin_film_reader_machine_Phase_Number2,
    thin_film_reader_machine_Phase_Gap,
    thin_film_reader_machine_Phase_Caret,
    thin_film_reader_machine_Phase_Power1,
    thin_film_reader_machine_Phase_Power2,
} thin_film_reader_machine_Phase;

// How many brackets are open, whether anything stands behind the last of them, and the number of the
// phases that have one.
typedef struct {
    thin_film_reader_machine_Phase phase;
    uint8_t number;
    bool any;
    uint64_t depth;
} thin_film_reader_machine_Machine;

// The films of a text: the first count of the places hold them.
typedef struct {
    thin_film_grammar_Film_x64 films;
    uint64_t count;
} thin_film_reader_Reading;

// What was asked for, or why it is refused.
typedef struct {
    enum {
        result_thin_film_reader_Reading_refusal_Refusal_Ok,
        result_thin_film_reader_Reading_refusal_Refusal_Err,
    } tag;
    union {
        thin_film_reader_Reading Ok;
        refusal_Refusal Err;
    } as;
} result_thin_film_reader_Reading_refusal_Refusal;

// Both series of one square.
typedef struct {
    double sin;
    double cos;
} math_trig_Series;

// The sine and the cosine of one angle.
typedef struct {
    double sin;
    double cos;
} math_trig_SinCos;

typedef struct {
    double at[16];
} f64_x16;

// The sheet's bytes together with the word that is reached (01: a reader).
typedef struct {
    slice_u8 src;
    uint64_t at;
} sheet_Reader;

// Three floats. The second stands last: beside the first it would be read together with it, just after both were
// written one by one, and a processor waits for that.
typedef struct {
    double first;
    double third;
    double second;
} sheet_Floats;

// Whether that of a LAYER does, and its floats; zero throughout where it does not.
typedef struct {
    bool stands;
    double first;
    double third;
    double second;
} sheet_PlainFloats;

// Where one stands between two blocks: before OPEN, before BEAM (the edition), among the blocks after it
// (the edition, SURFACEs so far, layers that may come), after a kind 7 (the edition, SURFACEs so far), after END.
typedef struct {
    enum {
        sheet_Standing_AtOpen,
        sheet_Standing_AtBeam,
        sheet_Standing_Among,
        sheet_Standing_AtSurface,
        sheet_Standing_Ended,
    } tag;
    union {
        uint32_t AtBeam;
        struct { uint32_t part0; uint32_t part1; uint32_t part2; } Among;
        struct { uint32_t part0; uint32_t part1; } AtSurface;
    } as;
} sheet_Standing;

// What was asked for, or why it is refused.
typedef struct {
    enum {
        result_u32_refusal_Refusal_Ok,
        result_u32_refusal_Refusal_Err,
    } tag;
    union {
        uint32_t Ok;
        refusal_Refusal Err;
    } as;
} result_u32_refusal_Refusal;

// How many layers stand directly after a block, and the place after them.
typedef struct {
    uint64_t count;
    uint64_t next;
} sheet_LayerRun;

// Cubic(a, b, c, d) is a + b * h + c * h ^ 2 + d * h ^ 3.
typedef struct {
    double part0;
    double part1;
    double part2;
    double part3;
} math_sqrt_Cubic;

// A root cut to a whole number, and what its square leaves of the number.
typedef struct {
    uint64_t root;
    uint64_t rest;
} math_sqrt_Cut;

// Cubic(a, b, c, d) is a + b * h + c * h ^ 2 + d * h ^ 3.
typedef struct {
    double part0;
    double part1;
    double part2;
    double part3;
} math_atan_Cubic;

// Power reflectances of the two polarizations.
typedef struct {
    double rs;
    double rp;
} fresnel_Reflectances;

// Reflectance and transmittance of unpolarized light.
typedef struct {
    double r_total;
    double t_total;
} fresnel_Unpolarized;

// No pair of indices within the ranges reflects less than low or more than high.
typedef struct {
    double low;
    double high;
} reflectance_range_ReflectanceRange;

// What was asked for, or why it is refused.
typedef struct {
    enum {
        result_reflectance_range_ReflectanceRange_refusal_Refusal_Ok,
        result_reflectance_range_ReflectanceRange_refusal_Refusal_Err,
    } tag;
    union {
        reflectance_range_ReflectanceRange Ok;
        refusal_Refusal Err;
    } as;
} result_reflectance_range_ReflectanceRange_refusal_Refusal;

typedef struct {
    double re;
    double im;
} thin_film_complex_Complex;

typedef struct {
    thin_film_complex_Complex at[2];
} thin_film_complex_Complex_x2;

typedef struct {
    thin_film_complex_Complex_x2 at[2];
} thin_film_complex_Complex_x2_x2;

// cos(delta) and i sin(delta) of a phase thickness.
typedef struct {
    thin_film_complex_Complex cos;
    thin_film_complex_Complex i_sin;
} thin_film_matrix_Phase;

// The transverse electric field: ex is x or s, ey is y or p.
typedef struct {
    thin_film_complex_Complex ex;
    thin_film_complex_Complex ey;
} polarization_stokes_JonesVector;

// Intensity, horizontal against vertical, +45 against -45 degrees, and circular preference.
typedef struct {
    double s0;
    double s1;
    double s2;
    double s3;
} polarization_stokes_StokesVector;

// One isotropic layer: refractive index n, extinction coefficient k, thickness in nanometres.
typedef struct {
    double n;
    double k;
    double thickness_nm;
} thin_film_solver_ThinFilmLayer;

// What the two media, the angle and the wavelength fix before any layer is read. snell is
// n_incident * sin_theta0.
typedef struct {
    double n_incident;
    double n_substrate;
    double cos_theta0;
    double snell;
    double wavelength_nm;
} thin_film_solver_Incidence;

// What both matrices of a layer are made of.
typedef struct {
    thin_film_matrix_Phase phase;
    thin_film_complex_Complex eta_s;
    thin_film_complex_Complex eta_p;
} thin_film_solver_Terms;

// The answers for one polarization.
typedef struct {
    thin_film_complex_Complex r;
    thin_film_complex_Complex t;
    double reflectance;
    double transmittance;
    double phase;
} thin_film_solver_Polarized;

// Amplitudes, powers and phases of a coating at one wavelength and angle, and what stays in the glass.
typedef struct {
    thin_film_complex_Complex rs;
    thin_film_complex_Complex rp;
    thin_film_complex_Complex ts;
    thin_film_complex_Complex tp;
    double reflectance_s;
    double reflectance_p;
    double transmittance_s;
    double transmittance_p;
    double phase_rs_rad;
    double phase_rp_rad;
    double absorptance_s;
    double absorptance_p;
} thin_film_solver_CoatingResponse;

typedef struct {
    thin_film_complex_Complex at[4];
} thin_film_complex_Complex_x4;

// The entry [i][j] stands at 2 i + j.
typedef struct {
    thin_film_complex_Complex_x4 m;
} polarization_mueller_JonesMatrix;

// The entry [i][j] stands at 4 i + j.
typedef struct {
    f64_x16 m;
} polarization_mueller_MuellerMatrix;

// What a surface does to the reflected and to the transmitted light.
typedef struct {
    polarization_mueller_JonesMatrix reflection;
    polarization_mueller_JonesMatrix transmission;
} polarization_SurfaceJones;

// What was asked for, or why it is refused.
typedef struct {
    enum {
        result_polarization_SurfaceJones_refusal_Refusal_Ok,
        result_polarization_SurfaceJones_refusal_Refusal_Err,
    } tag;
    union {
        polarization_SurfaceJones Ok;
        refusal_Refusal Err;
    } as;
} result_polarization_SurfaceJones_refusal_Refusal;

typedef struct {
    thin_film_solver_ThinFilmLayer at[64];
} thin_film_solver_ThinFilmLayer_x64;

// A coating. The layers of Multilayer are the list beside it, from the incident medium to the
// substrate.
typedef enum {
    thin_film_coating_Coating_IdealAr,
    thin_film_coating_Coating_IdealMirror,
    thin_film_coating_Coating_IdealBeamsplitter,
    thin_film_coating_Coating_Multilayer,
} thin_film_coating_Coating;

// Layers: the first count of the places hold them. More than 64 are none that can be evaluated.
typedef struct {
    thin_film_solver_ThinFilmLayer_x64 items;
    uint64_t count;
} thin_film_coating_Layers;

// A coating with its layers; or a refusal's number, which is 0 where there is none. Beside a refusal
// stand more layers than there are places, so that its evaluation is refused with 3.
typedef struct {
    uint32_t refusal;
    thin_film_coating_Coating coating;
    thin_film_coating_Layers layers;
} thin_film_coating_Built;

// What was asked for, or why it is refused.
typedef struct {
    enum {
        result_thin_film_solver_CoatingResponse_refusal_Refusal_Ok,
        result_thin_film_solver_CoatingResponse_refusal_Refusal_Err,
    } tag;
    union {
        thin_film_solver_CoatingResponse Ok;
        refusal_Refusal Err;
    } as;
} result_thin_film_solver_CoatingResponse_refusal_Refusal;

// An evaluation before any layer is read: it is answered, or the layers beside the coating are all to
// be read, in their order or reversed.
typedef struct {
    enum {
        thin_film_layers_Prepared_Answered,
        thin_film_layers_Prepared_Layers,
    } tag;
    union {
        result_thin_film_solver_CoatingResponse_refusal_Refusal Answered;
        struct { bool reversed; thin_film_solver_Incidence light; } Layers;
    } as;
} thin_film_layers_Prepared;

// A coating as it is ordered. The layers of Custom(Multilayer) are the list beside it.
typedef struct {
    enum {
        thin_film_SurfaceCoating_IdealAr,
        thin_film_SurfaceCoating_MgF2,
        thin_film_SurfaceCoating_BroadbandAr,
        thin_film_SurfaceCoating_HighReflectanceMirror,
        thin_film_SurfaceCoating_Custom,
    } tag;
    union {
        double MgF2;
        thin_film_coating_Coating Custom;
    } as;
} thin_film_SurfaceCoating;

typedef struct {
    uint8_t at[32];
} u8_x32;

// An upper-case name: the first len bytes.
typedef struct {
    u8_x32 bytes;
    uint64_t len;
} name_coating_Clean;

typedef struct {
    uint8_t at[1];
} u8_x0;

typedef struct {
    uint8_t at[4];
} u8_x4;

typedef struct {
    uint8_t at[8];
} u8_x8;

typedef struct {
    uint8_t at[5];
} u8_x5;

typedef struct {
    uint8_t at[6];
} u8_x6;

typedef struct {
    uint8_t at[2];
} u8_x2;

typedef struct {
    uint8_t at[3];
} u8_x3;

// A value, or none.
typedef struct {
    enum {
        option_thin_film_SurfaceCoating_None,
        option_thin_film_SurfaceCoating_Some,
    } tag;
    union {
        thin_film_SurfaceCoating Some;
    } as;
} option_thin_film_SurfaceCoating;

// What was asked for, or why it is refused.
typedef struct {
    enum {
        result_option_thin_film_SurfaceCoating_refusal_Refusal_Ok,
        result_option_thin_film_SurfaceCoating_refusal_Refusal_Err,
    } tag;
    union {
        option_thin_film_SurfaceCoating Ok;
        refusal_Refusal Err;
    } as;
} result_option_thin_film_SurfaceCoating_refusal_Refusal;

typedef struct {
    uint8_t at[16];
} u8_x16;

// A short text: the first len bytes.
typedef struct {
    u8_x16 bytes;
    uint64_t len;
} thin_film_Text;

// A SURFACE's words: whether the reflected light is followed, the coating's code (payload / 2), both
// indices and the angle of incidence.
typedef struct {
    bool reflected;
    uint32_t coating;
    double n_incident;
    double n_substrate;
    double angle_rad;
} gate_limits_Surface;

// Whether a SURFACE is within the limits, and its n_incident * abs(sin), which those of its LAYERs ask for.
typedef struct {
    bool passes;
    double snell;
} gate_limits_Judgement;

// So many whole quarter waves, and the length that is over.
typedef struct {
    uint32_t count;
    double remainder_nm;
} quarter_waves_QuarterWaves;

// What was asked for, or why it is refused.
typedef struct {
    enum {
        result_quarter_waves_QuarterWaves_refusal_Refusal_Ok,
        result_quarter_waves_QuarterWaves_refusal_Refusal_Err,
    } tag;
    union {
        quarter_waves_QuarterWaves Ok;
        refusal_Refusal Err;
    } as;
} result_quarter_waves_QuarterWaves_refusal_Refusal;

// The parts of the s and p power that a surface reflects and transmits.
typedef struct {
    double reflectance_s;
    double reflectance_p;
    double transmittance_s;
    double transmittance_p;
} surface_Powers;

// A surface's answers. A bare surface has no response: every number of it is zero.
typedef struct {
    bool coated;
    surface_Powers powers;
    thin_film_solver_CoatingResponse response;
    polarization_mueller_JonesMatrix reflection;
    polarization_mueller_JonesMatrix transmission;
    polarization_mueller_MuellerMatrix reflection_mueller;
    polarization_mueller_MuellerMatrix transmission_mueller;
} surface_Answers;

// What was asked for, or why it is refused.
typedef struct {
    enum {
        result_surface_Answers_refusal_Refusal_Ok,
        result_surface_Answers_refusal_Refusal_Err,
    } tag;
    union {
        surface_Answers Ok;
        refusal_Refusal Err;
    } as;
} result_surface_Answers_refusal_Refusal;

// [[a, i b], [i c, d]]
typedef struct {
    double a;
    double b;
    double c;
    double d;
} surface_real_Product;

// The products for s and for p.
typedef struct {
    surface_real_Product s;
    surface_real_Product p;
} surface_real_Stack;

// A film's matrices for s and for p.
typedef struct {
    double cos;
    double y_s;
    double z_s;
    double y_p;
    double z_p;
} surface_real_Film;

// The admittances of a film that does not absorb, and its phase thickness.
typedef struct {
    double eta_s;
    double eta_p;
    double delta;
} surface_real_Medium;

// What is reflected and what is transmitted, before they are clamped.
typedef struct {
    double r;
    double t;
} surface_real_Shares;

// Powers, and whether they are known.
typedef struct {
    bool known;
    surface_Powers powers;
} surface_real_Known;

// A layer with its medium.
typedef struct {
    thin_film_solver_ThinFilmLayer layer;
    surface_real_Medium medium;
} surface_real_Seen;

// The last two layers that were read: of layers that take turns, as in H L H L, two media are worked out.
typedef struct {
    surface_real_Seen earlier;
    surface_real_Seen last;
} surface_real_Recent;

// What is reflected and what is transmitted: the amplitudes, and their shares before they are clamped.
typedef struct {
    thin_film_complex_Complex r;
    thin_film_complex_Complex t;
    surface_real_Shares shares;
} response_real_Amplitudes;

// A response, and whether it is known.
typedef struct {
    bool known;
    thin_film_solver_CoatingResponse response;
} response_real_Known;

typedef struct {
    const double *at;
    uint64_t count;
} slice_f64;

// What was asked for, or why it is refused.
typedef struct {
    enum {
        result_unit_refusal_Refusal_Ok,
        result_unit_refusal_Refusal_Err,
    } tag;
    union {
        refusal_Refusal Err;
    } as;
} result_unit_refusal_Refusal;

// A BEAM: its wavelength, its s and its p power.
typedef struct {
    double wavelength_nm;
    double s;
    double p;
} sheet_values_Beam;

// A glass that changes with colour, kind 6: the coefficients of Cauchy's formula, and the thickness.
typedef struct {
    double a;
    double b;
    double c;
    double thickness_nm;
} sheet_values_Cauchy;

typedef struct {
    double *at;
    uint64_t count;
} slice_mut_f64;

typedef struct {
    double at[2];
} f64_x2;

typedef struct {
    double at[1];
} f64_x1;

typedef struct {
    double at[8];
} f64_x8;

typedef struct {
    double at[5];
} f64_x5;

// A case that is refused: its refusal, and its index.
typedef struct {
    refusal_Refusal refusal;
    uint64_t index;
} c_scan_RefusedCase;

// What was asked for, or why it is refused.
typedef struct {
    enum {
        result_unit_c_scan_RefusedCase_Ok,
        result_unit_c_scan_RefusedCase_Err,
    } tag;
    union {
        c_scan_RefusedCase Err;
    } as;
} result_unit_c_scan_RefusedCase;

typedef struct {
    double at[3];
} f64_x3;

typedef struct {
    uint8_t *at;
    uint64_t count;
} slice_mut_u8;

typedef struct {
    double at[4];
} f64_x4;

// A layer, and the place after it.
typedef struct {
    thin_film_solver_ThinFilmLayer layer;
    uint64_t next;
} sheet_answers_quick_Reached;

// What was asked for, or why it is refused.
typedef struct {
    enum {
        result_surface_Powers_refusal_Refusal_Ok,
        result_surface_Powers_refusal_Refusal_Err,
    } tag;
    union {
        surface_Powers Ok;
        refusal_Refusal Err;
    } as;
} result_surface_Powers_refusal_Refusal;

typedef struct {
    uint64_t at[64];
} u64_x64;

typedef struct {
    double at[64];
} f64_x64;

// Whether layers pass; and the place of the first that does not, or else the one after them.
typedef struct {
    bool all;
    uint64_t place;
} gate_Fit;

// Whether it is within the limits, the wavelength that it is met with, and the place of its first block outside.
typedef struct {
    bool passes;
    double wavelength_nm;
    uint64_t place;
} gate_Passage;

// What was asked for, or why it is refused.
typedef struct {
    enum {
        result_u64_refusal_Refusal_Ok,
        result_u64_refusal_Refusal_Err,
    } tag;
    union {
        uint64_t Ok;
        refusal_Refusal Err;
    } as;
} result_u64_refusal_Refusal;

// The powers of a surface that s and p are multiplied by.
typedef struct {
    double s;
    double p;
} train_steps_Chosen;

// Document 01's State: surfaces done, s and p; and the wavelength that is held.
typedef struct {
    uint32_t done;
    double s;
    double p;
    double wavelength_nm;
} train_steps_State;

// What was asked for, or why it is refused.
typedef struct {
    enum {
        result_train_steps_State_refusal_Refusal_Ok,
        result_train_steps_State_refusal_Refusal_Err,
    } tag;
    union {
        train_steps_State Ok;
        refusal_Refusal Err;
    } as;
} result_train_steps_State_refusal_Refusal;

typedef struct {
    const uint32_t *at;
    uint64_t count;
} slice_u32;

// The means of s and of p over a band, and how many lines it has.
typedef struct {
    uint32_t lines;
    double s;
    double p;
} band_BandPowers;

// What was asked for, or why it is refused.
typedef struct {
    enum {
        result_band_BandPowers_refusal_Refusal_Ok,
        result_band_BandPowers_refusal_Refusal_Err,
    } tag;
    union {
        band_BandPowers Ok;
        refusal_Refusal Err;
    } as;
} result_band_BandPowers_refusal_Refusal;

// ==== std

// std::num::wrapping_add_u64, of the language's own library.
static uint64_t std_num_wrapping_add_u64(uint64_t a, uint64_t b) {
    if (a <= 0xffffffffffffffffu - b) {
        return a + b;
    }
    return a - (0xffffffffffffffffu - b) - 1;
}

// std::num::wrapping_sub_u64, of the language's own library.
static uint64_t std_num_wrapping_sub_u64(uint64_t a, uint64_t b) {
    if (b <= a) {
        return a - b;
    }
    return a + (0xffffffffffffffffu - b) + 1;
}

// ==== ieee
//
// The small functions on f64 that document 01's section 2 gives a meaning to, each for every f64.

// The absolute value: the sign bit cleared.
static double ieee_abs(double x) {
    if (x != x) {
        return x;
    }
    return from_bits(to_bits(x) % 0x8000000000000000u);
}

// a if a > b, else b: a NaN on the left is dropped, one on the right is kept.
static double ieee_max(double a, double b) {
    if (b < a) {
        return a;
    }
    return b;
}

// lo if x < lo, hi if x > hi, else x: a NaN stays.
static double ieee_clamp(double x, double lo, double hi) {
    if (x < lo) {
        return lo;
    }
    if (hi < x) {
        return hi;
    }
    return x;
}

// Neither NaN nor an infinity.
static bool ieee_is_finite(double x) {
    double infinity = 1.0 / 0.0;
    return x < infinity && -infinity < x;
}

// Finite and above zero.
static bool ieee_finite_positive(double x) {
    return ieee_is_finite(x) && !(x <= 0.0);
}

static double ieee_powi2(double x) {
    return x * x;
}

static double ieee_powi5(double x) {
    return x * (x * x * (x * x));
}

// The number with these bits, the high word first. A NaN's pattern gives the one NaN, whatever its payload.
static double ieee_from_words(uint32_t high, uint32_t low) {
    uint64_t bits = (uint64_t)high * 0x100000000u + (uint64_t)low;
    if (0x7ff0000000000000u < bits % 0x8000000000000000u) {
        return 0.0 / 0.0;
    }
    return from_bits(bits);
}

// ==== ieee_rem
//
// The remainder of two f64 in whole numbers: C's fmod, with no call of it.

// The digits of a pattern, with the leading one.
static uint64_t ieee_rem_digits(uint64_t bits) {
    uint64_t field = bits % 0x8000000000000000u / 0x10000000000000u;
    if (field == 0) {
        return bits % 0x10000000000000u;
    }
    return 0x10000000000000u + bits % 0x10000000000000u;
}

// How far the digits stand above the last place of all.
static uint64_t ieee_rem_place(uint64_t bits) {
    uint64_t field = bits % 0x8000000000000000u / 0x10000000000000u;
    if (field == 0) {
        return 0;
    }
    return field - 1;
}

// m·2^d % n, eleven digits at a time.
static uint64_t ieee_rem_left(uint64_t m, uint64_t n, uint64_t d) {
    uint64_t r = m % n;
    uint64_t k = d;
    while (11 <= k) {
        r = r * 2048 % n;
        k = k - 11;
    }
    return (r << k) % n;
}

// The pattern, without a sign, of r·2^j in the last place of all.
static uint64_t ieee_rem_pack(uint64_t r, uint64_t j) {
    uint64_t m = r;
    uint64_t k = j;
    while (0 < k) {
        k = k - 1;
        if (0x10000000000000u <= m) {
            return (k + 1) * 0x10000000000000u + m;
        }
        m = m * 2;
    }
    return m;
}

// The remainder of two finite patterns, the second no zero, whose digits stand no higher than the first's.
static uint64_t ieee_rem_of_patterns(uint64_t a, uint64_t b) {
    uint64_t r = ieee_rem_left(ieee_rem_digits(a), ieee_rem_digits(b), ieee_rem_place(a) - ieee_rem_place(b));
    uint64_t sign = a / 0x8000000000000000u * 0x8000000000000000u;
    if (r == 0) {
        return sign;
    }
    return sign + ieee_rem_pack(r, ieee_rem_place(b));
}

// The exact remainder with the dividend's sign.
static double ieee_rem_rem(double x, double y) {
    if (x != x) {
        return 0.0 / 0.0;
    }
    if (y != y) {
        return 0.0 / 0.0;
    }
    uint64_t a = to_bits(x);
    uint64_t b = to_bits(y);
    if (0x7ff0000000000000u <= a % 0x8000000000000000u) {
        return 0.0 / 0.0;
    }
    if (0x7ff0000000000000u <= b % 0x8000000000000000u) {
        return x;
    }
    if (b % 0x8000000000000000u == 0) {
        return 0.0 / 0.0;
    }
    if (ieee_rem_place(a) < ieee_rem_place(b)) {
        return x;
    }
    return from_bits(ieee_rem_of_patterns(a, b));
}

// ==== name_bytes
//
// Byte strings: the part without the blank bytes at both ends, comparing, searching, ASCII.

// 0x09 to 0x0D and 0x20.
static bool name_bytes_blank(uint8_t b) {
    return !(b < 9) && (b <= 13 || b == 32);
}

// How many blank bytes stand at the beginning.
static uint64_t name_bytes_leading(slice_u8 s) {
    uint64_t i = 0;
    while (i < s.count) {
        if (!name_bytes_blank(s.at[i])) {
            return i;
        }
        i = i + 1;
    }
    return s.count;
}

// How many bytes are left without the blank ones at the end.
static uint64_t name_bytes_kept(slice_u8 s) {
    uint64_t i = s.count;
    while (0 < i) {
        i = i - 1;
        if (!name_bytes_blank(s.at[i])) {
            return i + 1;
        }
    }
    return 0;
}

// Where the trimmed part of a name lies in it.
static name_bytes_Span name_bytes_trim_span(slice_u8 name) {
    uint64_t a = name_bytes_leading(name);
    if (a < name.count) {
        uint64_t len = name_bytes_kept((slice_u8){a == 0 ? name.at : name.at + a, name.count - a});
        return (name_bytes_Span){.place = a, .len = len};
    }
    return (name_bytes_Span){.place = 0, .len = 0};
}

// The trimmed part of a name: blank bytes go from both ends.
static slice_u8 name_bytes_trimmed(slice_u8 name) {
    name_bytes_Span s = name_bytes_trim_span(name);
    uint64_t a = s.place;
    uint64_t e = a + s.len;
    return (slice_u8){a == 0 ? name.at : name.at + a, e - a};
}

// Where the trimmed part of a name begins in it.
static uint64_t name_bytes_place(slice_u8 name) {
    name_bytes_Span s = name_bytes_trim_span(name);
    return s.place;
}

// The trimmed part of the caller's name, with its place in it.
static name_bytes_Part name_bytes_trim(slice_u8 name) {
    return (name_bytes_Part){.bytes = name_bytes_trimmed(name), .place = name_bytes_place(name)};
}

// Where a part lies, and how long it is.
static name_bytes_Span name_bytes_span_of(slice_u8 bytes, uint64_t place) {
    return (name_bytes_Span){.place = place, .len = bytes.count};
}

// The numbers of a part.
static name_bytes_Span name_bytes_numbers(name_bytes_Part part) {
    return name_bytes_span_of(part.bytes, part.place);
}

// Those of the trimmed part of a name, for callers who are handed no reference.
static name_bytes_Span name_bytes_trim_numbers(slice_u8 name) {
    return name_bytes_numbers(name_bytes_trim(name));
}

// p stands at the beginning of s.
static bool name_bytes_begins(slice_u8 s, slice_u8 p) {
    uint64_t i = 0;
    while (i < p.count) {
        if (s.count <= i) {
            return false;
        }
        if (s.at[i] != p.at[i]) {
            return false;
        }
        i = i + 1;
    }
    return true;
}

// s is p.
static bool name_bytes_is(slice_u8 s, slice_u8 p) {
    return s.count == p.count && name_bytes_begins(s, p);
}

// p stands somewhere in s.
static bool name_bytes_contains(slice_u8 s, slice_u8 p) {
    uint64_t k = 0;
    while (k < s.count) {
        if (name_bytes_begins((slice_u8){k == 0 ? s.at : s.at + k, s.count - k}, p)) {
            return true;
        }
        k = k + 1;
    }
    return name_bytes_begins((slice_u8){s.count == 0 ? s.at : s.at + s.count, s.count - s.count}, p);
}

// a to z in upper case.
static uint8_t name_bytes_upper_byte(uint8_t b) {
    if (b < 97) {
        return b;
    }
    if (b <= 122) {
        return (uint8_t)(b - 32);
    }
    return b;
}

// The place of the first byte over 127; the length where there is none.
static uint64_t name_bytes_first_over(slice_u8 s) {
    uint64_t i = 0;
    while (i < s.count) {
        if (127 < s.at[i]) {
            return i;
        }
        i = i + 1;
    }
    return s.count;
}

// ==== refusal
//
// What a call is turned back for: document 01's table 'Turned back' and the change requests of document 02. Each case has a
// number there, and most that can be at several places have a place.

// The number of the table.
static uint32_t refusal_Refusal_number(refusal_Refusal self) {
    switch (self.tag) {
    case refusal_Refusal_InvalidParameter:
        return 1;
    case refusal_Refusal_Name:
        return 2;
    case refusal_Refusal_TooManyLayers:
        return 3;
    case refusal_Refusal_Length:
        return 4;
    case refusal_Refusal_Grammar:
        return 5;
    case refusal_Refusal_Limits:
        return 6;
    case refusal_Refusal_NoSurface:
        return 7;
    case refusal_Refusal_TooShort:
        return 8;
    case refusal_Refusal_Text:
        return 9;
    case refusal_Refusal_TooManyFilms:
        return 10;
    case refusal_Refusal_Wavelength:
        return 11;
    case refusal_Refusal_Tuning:
        return 12;
    case refusal_Refusal_Range:
        return 13;
    case refusal_Refusal_Film:
        return 14;
    case refusal_Refusal_Weight:
        return 15;
    default: // refusal_Refusal_Line
        return 16;
    }
}

// The place, 0 where the table gives none.
static uint64_t refusal_Refusal_place(refusal_Refusal self) {
    switch (self.tag) {
    case refusal_Refusal_Name:
    {
        uint64_t place = self.as.Name;
        return place;
    }
    case refusal_Refusal_Grammar:
    {
        uint64_t place_2 = self.as.Grammar;
        return place_2;
    }
    case refusal_Refusal_Limits:
    {
        uint64_t place_3 = self.as.Limits;
        return place_3;
    }
    case refusal_Refusal_Text:
    {
        uint64_t place_4 = self.as.Text;
        return place_4;
    }
    case refusal_Refusal_Tuning:
    {
        uint64_t place_5 = self.as.Tuning;
        return place_5;
    }
    case refusal_Refusal_Weight:
    {
        uint64_t place_6 = self.as.Weight;
        return place_6;
    }
    case refusal_Refusal_Line:
    {
        uint64_t place_7 = self.as.Line;
        return place_7;
    }
    default: // refusal_Refusal_InvalidParameter
        return 0;
    }
}

// ==== thin_film_reader
//
// The films that a text of the stack shorthand stands for: a machine that takes one byte after the
// other, and the films so far beside it.

static thin_film_reader_films_Films thin_film_reader_films_no_films(void) {
    thin_film_grammar_Film_x64 items = {{{0}}};
    u64_x4 opened = {{0}};
    return (thin_film_reader_films_Films){.items = items, .count = 0, .unit = 0, .opened = opened};
}

// More than 64 films.
static thin_film_reader_films_Films thin_film_reader_films_over(thin_film_reader_films_Films f) {
    thin_film_grammar_Film_x64 items = f.items;
    u64_x4 opened = f.opened;
    return (thin_film_reader_films_Films){.items = items, .count = 65, .unit = f.unit, .opened = opened};
}

// One film more.
static thin_film_reader_films_Films thin_film_reader_films_push(thin_film_reader_films_Films f,
        thin_film_grammar_Film film) {
    uint64_t count = f.count;
    if (64 <= count) {
        return thin_film_reader_films_over(f);
    }
    thin_film_grammar_Film_x64 items = f.items;
    u64_x4 opened = f.opened;
    items.at[count] = film;
    return (thin_film_reader_films_Films){.items = items, .count = count + 1, .unit = f.unit, .opened = opened};
}

// More films, each as the one that is an item's length before it.
static thin_film_reader_films_Films thin_film_reader_films_repeat(thin_film_reader_films_Films f, uint64_t more) {
    thin_film_reader_films_Films films = f;
    uint64_t round = 0;
    while (round < more) {
        uint64_t count = films.count;
        if (64 <= count) {
            return thin_film_reader_films_over(films);
        }
        thin_film_grammar_Film_x64 items = films.items;
        uint64_t from = count - films.unit;
        films = thin_film_reader_films_push(films, items.at[from]);
        round = round + 1;
    }
    return films;
}

// A letter's film.
static thin_film_reader_films_Films thin_film_reader_films_add(thin_film_reader_films_Films f,
        thin_film_grammar_Film film) {
    thin_film_reader_films_Films g = thin_film_reader_films_push(f, film);
    thin_film_grammar_Film_x64 items = g.items;
    u64_x4 opened = g.opened;
    return (thin_film_reader_films_Films){.items = items, .count = g.count, .unit = 1, .opened = opened};
}

// A bracket opens inside depth others.
static thin_film_reader_films_Films thin_film_reader_films_open(thin_film_reader_films_Films f, uint64_t depth) {
    thin_film_grammar_Film_x64 items = f.items;
    u64_x4 opened = f.opened;
    opened.at[depth] = f.count;
    return (thin_film_reader_films_Films){.items = items, .count = f.count, .unit = f.unit, .opened = opened};
}

// The last of depth brackets closes.
static thin_film_reader_films_Films thin_film_reader_films_close(thin_film_reader_films_Films f, uint64_t depth) {
    thin_film_grammar_Film_x64 items = f.items;
    u64_x4 opened = f.opened;
    uint64_t last = depth - 1;
    return (thin_film_reader_films_Films){.items = items, .count = f.count, .unit = f.count - opened.at[last],
            .opened = opened};
}

// A multiplier stands before the next letter.
static bool thin_film_reader_films_numbered(thin_film_reader_machine_Phase p) {
    switch (p) {
    case thin_film_reader_machine_Phase_Stop:
    case thin_film_reader_machine_Phase_Ready:
    case thin_film_reader_machine_Phase_Atom:
        return false;
    case thin_film_reader_machine_Phase_Number1:
    case thin_film_reader_machine_Phase_Number2:
    case thin_film_reader_machine_Phase_Gap:
        return true;
    case thin_film_reader_machine_Phase_Caret:
    case thin_film_reader_machine_Phase_Power1:
        return false;
    default: // thin_film_reader_machine_Phase_Power2
        return false;
    }
}

// The next letter's multiplier; 0 where none is written.
static uint8_t thin_film_reader_films_multiplier(thin_film_reader_machine_Machine m) {
    thin_film_reader_machine_Phase p = m.phase;
    if (!thin_film_reader_films_numbered(p)) {
        return 0;
    }
    return m.number;
}

static uint64_t thin_film_reader_films_wide(uint8_t x) {
    return (uint64_t)x;
}

static uint64_t thin_film_reader_films_one_less(uint8_t a) {
    if (a == 0) {
        return 0;
    }
    return thin_film_reader_films_wide(a) - 1;
}

// How many copies of the last item a digit adds: a power's first digit a makes a of one, and its
// second makes 10 n + a of n.
static uint64_t thin_film_reader_films_copies(thin_film_reader_machine_Machine m, uint8_t a) {
    thin_film_reader_machine_Phase p = m.phase;
    switch (p) {
    case thin_film_reader_machine_Phase_Stop:
    case thin_film_reader_machine_Phase_Ready:
    case thin_film_reader_machine_Phase_Atom:
    case thin_film_reader_machine_Phase_Number1:
    case thin_film_reader_machine_Phase_Number2:
    case thin_film_reader_machine_Phase_Gap:
        return 0;
    case thin_film_reader_machine_Phase_Caret:
        return thin_film_reader_films_one_less(a);
    case thin_film_reader_machine_Phase_Power1:
        return 9 * thin_film_reader_films_wide(m.number) + thin_film_reader_films_wide(a);
    default: // thin_film_reader_machine_Phase_Power2
        return 0;
    }
}

static thin_film_reader_films_Films thin_film_reader_films_digit(thin_film_reader_films_Films f,
        thin_film_reader_machine_Machine m, uint8_t a) {
    return thin_film_reader_films_repeat(f, thin_film_reader_films_copies(m, a) * f.unit);
}

static thin_film_reader_films_Films thin_film_reader_films_letter(thin_film_reader_films_Films f,
        thin_film_reader_machine_Machine m, uint8_t letter) {
    return thin_film_reader_films_add(f,
            (thin_film_grammar_Film){.letter = letter, .multiplier = thin_film_reader_films_multiplier(m)});
}

// After a byte that does not stop the machine.
static thin_film_reader_films_Films thin_film_reader_films_take(thin_film_reader_films_Films f,
        thin_film_reader_machine_Machine m, uint8_t b) {
    if (b == 72) {
        return thin_film_reader_films_letter(f, m, 0);
    }
    if (b == 76) {
        return thin_film_reader_films_letter(f, m, 1);
    }
    if (b == 77) {
        return thin_film_reader_films_letter(f, m, 2);
    }
    if (b == 40) {
        return thin_film_reader_films_open(f, m.depth);
    }
    if (b == 41) {
        return thin_film_reader_films_close(f, m.depth);
    }
    if (b < 48) {
        return f;
    }
    if (57 < b) {
        return f;
    }
    return thin_film_reader_films_digit(f, m, (uint8_t)(b - 48));
}

// The films, unless there are more than 64.
static result_thin_film_reader_Reading_refusal_Refusal thin_film_reader_counted(thin_film_reader_films_Films f) {
    uint64_t count = f.count;
    if (64 < count) {
        return (result_thin_film_reader_Reading_refusal_Refusal){
                .tag = result_thin_film_reader_Reading_refusal_Refusal_Err,
                .as.Err = {.tag = refusal_Refusal_TooManyFilms}};
    }
    thin_film_grammar_Film_x64 films = f.items;
    return (result_thin_film_reader_Reading_refusal_Refusal){
            .tag = result_thin_film_reader_Reading_refusal_Refusal_Ok, .as.Ok = {.films = films, .count = count}};
}

static thin_film_reader_machine_Machine thin_film_reader_machine_begin(void) {
    return (thin_film_reader_machine_Machine){.phase = thin_film_reader_machine_Phase_Ready, .number = 0,
            .any = false, .depth = 0};
}

static thin_film_reader_machine_Machine thin_film_reader_machine_stopped(void) {
    return (thin_film_reader_machine_Machine){.phase = thin_film_reader_machine_Phase_Stop, .number = 0, .any = false,
            .depth = 0};
}

static thin_film_reader_machine_Phase thin_film_reader_machine_spaced(thin_film_reader_machine_Phase p) {
    switch (p) {
    case thin_film_reader_machine_Phase_Stop:
        return thin_film_reader_machine_Phase_Stop;
    case thin_film_reader_machine_Phase_Ready:
        return thin_film_reader_machine_Phase_Ready;
    case thin_film_reader_machine_Phase_Atom:
        return thin_film_reader_machine_Phase_Atom;
    case thin_film_reader_machine_Phase_Number1:
    case thin_film_reader_machine_Phase_Number2:
    case thin_film_reader_machine_Phase_Gap:
        return thin_film_reader_machine_Phase_Gap;
    case thin_film_reader_machine_Phase_Caret:
        return thin_film_reader_machine_Phase_Caret;
    case thin_film_reader_machine_Phase_Power1:
        return thin_film_reader_machine_Phase_Ready;
    default: // thin_film_reader_machine_Phase_Power2
        return thin_film_reader_machine_Phase_Ready;
    }
}

// After a space.
static thin_film_reader_machine_Machine thin_film_reader_machine_space(thin_film_reader_machine_Machine m) {
    thin_film_reader_machine_Phase p = m.phase;
    return (thin_film_reader_machine_Machine){.phase = thin_film_reader_machine_spaced(p), .number = m.number,
            .any = m.any, .depth = m.depth};
}

// A letter may follow.
static bool thin_film_reader_machine_takes_letter(thin_film_reader_machine_Phase p) {
    switch (p) {
    case thin_film_reader_machine_Phase_Stop:
        return false;
    case thin_film_reader_machine_Phase_Ready:
    case thin_film_reader_machine_Phase_Atom:
    case thin_film_reader_machine_Phase_Number1:
    case thin_film_reader_machine_Phase_Number2:
    case thin_film_reader_machine_Phase_Gap:
        return true;
    case thin_film_reader_machine_Phase_Caret:
        return false;
    case thin_film_reader_machine_Phase_Power1:
        return true;
    default: // thin_film_reader_machine_Phase_Power2
        return true;
    }
}

// After a letter.
static thin_film_reader_machine_Machine thin_film_reader_machine_letter(thin_film_reader_machine_Machine m) {
    thin_film_reader_machine_Phase p = m.phase;
    if (!thin_film_reader_machine_takes_letter(p)) {
        return thin_film_reader_machine_stopped();
    }
    return (thin_film_reader_machine_Machine){.phase = thin_film_reader_machine_Phase_Atom, .number = 0, .any = true,
            .depth = m.depth};
}

// A power may follow.
static bool thin_film_reader_machine_takes_power(thin_film_reader_machine_Phase p) {
    switch (p) {
    case thin_film_reader_machine_Phase_Stop:
    case thin_film_reader_machine_Phase_Ready:
        return false;
    case thin_film_reader_machine_Phase_Atom:
        return true;
    case thin_film_reader_machine_Phase_Number1:
    case thin_film_reader_machine_Phase_Number2:
    case thin_film_reader_machine_Phase_Gap:
    case thin_film_reader_machine_Phase_Caret:
    case thin_film_reader_machine_Phase_Power1:
        return false;
    default: // thin_film_reader_machine_Phase_Power2
        return false;
    }
}

// After ^.
static thin_film_reader_machine_Machine thin_film_reader_machine_caret(thin_film_reader_machine_Machine m) {
    thin_film_reader_machine_Phase p = m.phase;
    if (!thin_film_reader_machine_takes_power(p)) {
        return thin_film_reader_machine_stopped();
    }
    return (thin_film_reader_machine_Machine){.phase = thin_film_reader_machine_Phase_Caret, .number = 0,
            .any = m.any, .depth = m.depth};
}

// An item is complete.
static bool thin_film_reader_machine_rests(thin_film_reader_machine_Phase p) {
    switch (p) {
    case thin_film_reader_machine_Phase_Stop:
        return false;
    case thin_film_reader_machine_Phase_Ready:
    case thin_film_reader_machine_Phase_Atom:
        return true;
    case thin_film_reader_machine_Phase_Number1:
    case thin_film_reader_machine_Phase_Number2:
    case thin_film_reader_machine_Phase_Gap:
    case thin_film_reader_machine_Phase_Caret:
        return false;
    case thin_film_reader_machine_Phase_Power1:
        return true;
    default: // thin_film_reader_machine_Phase_Power2
        return true;
    }
}

// After (.
static thin_film_reader_machine_Machine thin_film_reader_machine_open(thin_film_reader_machine_Machine m) {
    thin_film_reader_machine_Phase p = m.phase;
    if (!thin_film_reader_machine_rests(p)) {
        return thin_film_reader_machine_stopped();
    }
    if (4 <= m.depth) {
        return thin_film_reader_machine_stopped();
    }
    return (thin_film_reader_machine_Machine){.phase = thin_film_reader_machine_Phase_Ready, .number = 0,
            .any = false, .depth = m.depth + 1};
}

// After ).
static thin_film_reader_machine_Machine thin_film_reader_machine_close(thin_film_reader_machine_Machine m) {
    thin_film_reader_machine_Phase p = m.phase;
    if (!thin_film_reader_machine_rests(p)) {
        return thin_film_reader_machine_stopped();
    }
    if (m.depth == 0) {
        return thin_film_reader_machine_stopped();
    }
    if (!m.any) {
        return thin_film_reader_machine_stopped();
    }
    return (thin_film_reader_machine_Machine){.phase = thin_film_reader_machine_Phase_Atom, .number = 0, .any = true,
            .depth = m.depth - 1};
}

// After the first digit of a multiplier.
static thin_film_reader_machine_Machine thin_film_reader_machine_first_digit(thin_film_reader_machine_Machine m,
        uint8_t a) {
    if (a == 0) {
        return thin_film_reader_machine_stopped();
    }
    return (thin_film_reader_machine_Machine){.phase = thin_film_reader_machine_Phase_Number1, .number = a,
            .any = m.any, .depth = m.depth};
}

// After the first digit of a power.
static thin_film_reader_machine_Machine thin_film_reader_machine_first_power(thin_film_reader_machine_Machine m,
        uint8_t a) {
    if (a == 0) {
        return thin_film_reader_machine_stopped();
    }
    return (thin_film_reader_machine_Machine){.phase = thin_film_reader_machine_Phase_Power1, .number = a,
            .any = m.any, .depth = m.depth};
}

// After the second digit of a power.
static thin_film_reader_machine_Machine thin_film_reader_machine_second_power(thin_film_reader_machine_Machine m,
        uint8_t a) {
    uint8_t power = (uint8_t)((uint8_t)(10 * m.number) + a);
    if (31 < power) {
        return thin_film_reader_machine_stopped();
    }
    return (thin_film_reader_machine_Machine){.phase = thin_film_reader_machine_Phase_Power2, .number = 0,
            .any = m.any, .depth = m.depth};
}

// After the second digit of a multiplier.
static thin_film_reader_machine_Machine thin_film_reader_machine_second_digit(thin_film_reader_machine_Machine m,
        uint8_t a) {
    return (thin_film_reader_machine_Machine){.phase = thin_film_reader_machine_Phase_Number2,
            .number = (uint8_t)((uint8_t)(10 * m.number) + a), .any = m.any, .depth = m.depth};
}

// After a digit.
static thin_film_reader_machine_Machine thin_film_reader_machine_digit(thin_film_reader_machine_Machine m,
        uint8_t a) {
    thin_film_reader_machine_Phase p = m.phase;
    switch (p) {
    case thin_film_reader_machine_Phase_Stop:
        return thin_film_reader_machine_stopped();
    case thin_film_reader_machine_Phase_Ready:
    case thin_film_reader_machine_Phase_Atom:
        return thin_film_reader_machine_first_digit(m, a);
    case thin_film_reader_machine_Phase_Number1:
        return thin_film_reader_machine_second_digit(m, a);
    case thin_film_reader_machine_Phase_Number2:
    case thin_film_reader_machine_Phase_Gap:
        return thin_film_reader_machine_stopped();
    case thin_film_reader_machine_Phase_Caret:
        return thin_film_reader_machine_first_power(m, a);
    case thin_film_reader_machine_Phase_Power1:
        return thin_film_reader_machine_second_power(m, a);
    default: // thin_film_reader_machine_Phase_Power2
        return thin_film_reader_machine_stopped();
    }
}

// After a byte.
static thin_film_reader_machine_Machine thin_film_reader_machine_step(thin_film_reader_machine_Machine m, uint8_t b) {
    if (b == 32) {
        return thin_film_reader_machine_space(m);
    }
    if (b == 72) {
        return thin_film_reader_machine_letter(m);
    }
    if (b == 76) {
        return thin_film_reader_machine_letter(m);
    }
    if (b == 77) {
        return thin_film_reader_machine_letter(m);
    }
    if (b == 40) {
        return thin_film_reader_machine_open(m);
    }
    if (b == 41) {
        return thin_film_reader_machine_close(m);
    }
    if (b == 94) {
        return thin_film_reader_machine_caret(m);
    }
    if (b < 48) {
        return thin_film_reader_machine_stopped();
    }
    if (57 < b) {
        return thin_film_reader_machine_stopped();
    }
    return thin_film_reader_machine_digit(m, (uint8_t)(b - 48));
}

// No text of the grammar goes on so.
static bool thin_film_reader_machine_halted(thin_film_reader_machine_Machine m) {
    thin_film_reader_machine_Phase p = m.phase;
    switch (p) {
    case thin_film_reader_machine_Phase_Stop:
        return true;
    case thin_film_reader_machine_Phase_Ready:
    case thin_film_reader_machine_Phase_Atom:
    case thin_film_reader_machine_Phase_Number1:
    case thin_film_reader_machine_Phase_Number2:
    case thin_film_reader_machine_Phase_Gap:
    case thin_film_reader_machine_Phase_Caret:
    case thin_film_reader_machine_Phase_Power1:
        return false;
    default: // thin_film_reader_machine_Phase_Power2
        return false;
    }
}

// A text of the grammar may end so.
static bool thin_film_reader_machine_whole(thin_film_reader_machine_Machine m) {
    thin_film_reader_machine_Phase p = m.phase;
    if (m.depth != 0) {
        return false;
    }
    if (!m.any) {
        return false;
    }
    return thin_film_reader_machine_rests(p);
}

// The films of a text. 9 with 255 for a text over 255 bytes, 9 with the first byte that no text of the
// grammar could have there, 9 with the length where the text stops early, 10 for more than 64 films.
static result_thin_film_reader_Reading_refusal_Refusal thin_film_reader_read(slice_u8 text) {
    if (255 < text.count) {
        return (result_thin_film_reader_Reading_refusal_Refusal){
                .tag = result_thin_film_reader_Reading_refusal_Refusal_Err,
                .as.Err = {.tag = refusal_Refusal_Text, .as.Text = 255}};
    }
    thin_film_reader_machine_Machine m = thin_film_reader_machine_begin();
    thin_film_reader_films_Films f = thin_film_reader_films_no_films();
    uint64_t i = 0;
    while (i < text.count) {
        uint8_t byte = text.at[i];
        thin_film_reader_machine_Machine next = thin_film_reader_machine_step(m, byte);
        if (thin_film_reader_machine_halted(next)) {
            return (result_thin_film_reader_Reading_refusal_Refusal){
                    .tag = result_thin_film_reader_Reading_refusal_Refusal_Err,
                    .as.Err = {.tag = refusal_Refusal_Text, .as.Text = i}};
        }
        f = thin_film_reader_films_take(f, m, byte);
        m = next;
        i = i + 1;
    }
    if (!thin_film_reader_machine_whole(m)) {
        return (result_thin_film_reader_Reading_refusal_Refusal){
                .tag = result_thin_film_reader_Reading_refusal_Refusal_Err,
                .as.Err = {.tag = refusal_Refusal_Text, .as.Text = text.count}};
    }
    return thin_film_reader_counted(f);
}

// ==== ieee_quotient
//
// Quotients by 6, 12, 20, 72, 132 and 272 without a division. Each is a sum of two powers of 2, so that a product with it is two
// exact ones, and 1 less the quotient has the bits that it has with a division.

// x / (a + b), but for its last bits where x is below 2^-100. y is just below 1 / (a + b), and u just above.
static double ieee_quotient_quick(double x, double a, double b, double y, double u) {
    double q = x * y;
    double left = x - x * (y * a) - x * (y * b);
    return q + left * u;
}

// ==== math_exp
//
// exp as document 01's section 2 gives it, for every f64.

static double math_exp_exp_series(double y) {
    double p = 1.0;
    double p_2 = 1.0 + y * p / 14.0;
    double p_3 = 1.0 + y * p_2 / 13.0;
    double p_4 = 1.0 + y * p_3 / 12.0;
    double p_5 = 1.0 + y * p_4 / 11.0;
    double p_6 = 1.0 + y * p_5 / 10.0;
    double p_7 = 1.0 + y * p_6 / 9.0;
    double p_8 = 1.0 + y * p_7 / 8.0;
    double p_9 = 1.0 + y * p_8 / 7.0;
    double p_10 = 1.0 + y * p_9 / 6.0;
    double p_11 = 1.0 + y * p_10 / 5.0;
    double p_12 = 1.0 + y * p_11 / 4.0;
    double p_13 = 1.0 + y * p_12 / 3.0;
    double p_14 = 1.0 + y * p_13 / 2.0;
    return 1.0 + y * p_14 / 1.0;
}

// p to the power 1024: p = p * p, ten times.
static double math_exp_squares(double p) {
    double p_2 = p * p;
    double p_3 = p_2 * p_2;
    double p_4 = p_3 * p_3;
    double p_5 = p_4 * p_4;
    double p_6 = p_5 * p_5;
    double p_7 = p_6 * p_6;
    double p_8 = p_7 * p_7;
    double p_9 = p_8 * p_8;
    double p_10 = p_9 * p_9;
    return p_10 * p_10;
}

static double math_exp_exp(double x) {
    if (x != x) {
        return x;
    }
    if (710.0 < x) {
        return 1.0 / 0.0;
    }
    if (x < -746.0) {
        return 0.0;
    }
    return math_exp_squares(math_exp_exp_series(x / 1024.0));
}

// ==== math_trig
//
// sin and cos as document 01's section 2 gives them, with the first line of document 02, slip 7; each for every f64.

// The first line where x is at most 2^20 in size: there it has no branch, as k is +0 up to π.
static double math_trig_near_line(double x) {
    double k = x / 6.283185307179586 + 6755399441055744.0 - 6755399441055744.0;
    return x - k * 6.283185243606567 - k * 6.357301884918343e-08 - k * 2.4492935982947064e-16;
}

// The first line of sin and of cos: x less whole turns. Up to π there is none, and zeros are taken off.
static double math_trig_first_line(double x) {
    double size = ieee_abs(x);
    if (size <= 3.141592653589793) {
        return x - 0.0;
    }
    if (size <= 1048576.0) {
        return math_trig_near_line(x);
    }
    return ieee_rem_rem(x, 6.283185307179586);
}

// The first fold, of sin and of cos: to -π..π.
static double math_trig_fold(double x) {
    double r = math_trig_first_line(x);
    if (3.141592653589793 < r) {
        return r - 6.283185307179586;
    }
    if (r < -3.141592653589793) {
        return r + 6.283185307179586;
    }
    return r;
}

// sin's second fold: to -π/2..π/2.
static double math_trig_second_fold(double r) {
    if (1.5707963267948966 < r) {
        return 3.141592653589793 - r;
    }
    if (r < -1.5707963267948966) {
        return -3.141592653589793 - r;
    }
    return r;
}

static double math_trig_sin_series(double z) {
    double p = 1.0;
    double p_2 = 1.0 - p * z / 420.0;
    double p_3 = 1.0 - p_2 * z / 342.0;
    double p_4 = 1.0 - p_3 * z / 272.0;
    double p_5 = 1.0 - p_4 * z / 210.0;
    double p_6 = 1.0 - p_5 * z / 156.0;
    double p_7 = 1.0 - p_6 * z / 110.0;
    double p_8 = 1.0 - p_7 * z / 72.0;
    double p_9 = 1.0 - p_8 * z / 42.0;
    double p_10 = 1.0 - p_9 * z / 20.0;
    return 1.0 - p_10 * z / 6.0;
}

static double math_trig_cos_series(double z) {
    double p = 1.0;
    double p_2 = 1.0 - p * z / 462.0;
    double p_3 = 1.0 - p_2 * z / 380.0;
    double p_4 = 1.0 - p_3 * z / 306.0;
    double p_5 = 1.0 - p_4 * z / 240.0;
    double p_6 = 1.0 - p_5 * z / 182.0;
    double p_7 = 1.0 - p_6 * z / 132.0;
    double p_8 = 1.0 - p_7 * z / 90.0;
    double p_9 = 1.0 - p_8 * z / 56.0;
    double p_10 = 1.0 - p_9 * z / 30.0;
    double p_11 = 1.0 - p_10 * z / 12.0;
    return 1.0 - p_11 * z / 2.0;
}

// Their steps stand beside each other, so that a processor has both under way.
static math_trig_Series math_trig_both_series(double z) {
    double c = 1.0;
    double c_2 = 1.0 - c * z / 462.0;
    double s = 1.0;
    double s_2 = 1.0 - s * z / 420.0;
    double c_3 = 1.0 - c_2 * z / 380.0;
    double s_3 = 1.0 - s_2 * z / 342.0;
    double c_4 = 1.0 - c_3 * z / 306.0;
    double s_4 = 1.0 - s_3 * z / 272.0;
    double c_5 = 1.0 - c_4 * z / 240.0;
    double s_5 = 1.0 - s_4 * z / 210.0;
    double c_6 = 1.0 - c_5 * z / 182.0;
    double s_6 = 1.0 - s_5 * z / 156.0;
    double c_7 = 1.0 - c_6 * z / 132.0;
    double s_7 = 1.0 - s_6 * z / 110.0;
    double c_8 = 1.0 - c_7 * z / 90.0;
    double s_8 = 1.0 - s_7 * z / 72.0;
    double c_9 = 1.0 - c_8 * z / 56.0;
    double s_9 = 1.0 - s_8 * z / 42.0;
    double c_10 = 1.0 - c_9 * z / 30.0;
    double s_10 = 1.0 - s_9 * z / 20.0;
    double c_11 = 1.0 - c_10 * z / 12.0;
    double s_11 = 1.0 - s_10 * z / 6.0;
    double c_12 = 1.0 - c_11 * z / 2.0;
    return (math_trig_Series){.sin = s_11, .cos = c_12};
}

// sin of an angle that both folds have brought to -π/2..π/2.
static double math_trig_sin_at(double r) {
    return ieee_clamp(r * math_trig_sin_series(r * r), -1.0, 1.0);
}

// cos of an angle up to π/2.
static double math_trig_cos_at(double a) {
    return ieee_clamp(math_trig_cos_series(a * a), -1.0, 1.0);
}

// cos of an angle from 0 to π.
static double math_trig_cos_of(double a) {
    if (1.5707963267948966 < a) {
        return -math_trig_cos_at(3.141592653589793 - a);
    }
    return math_trig_cos_at(a);
}

static double math_trig_sin(double x) {
    return math_trig_sin_at(math_trig_second_fold(math_trig_fold(x)));
}

static double math_trig_cos(double x) {
    return math_trig_cos_of(ieee_abs(math_trig_fold(x)));
}

// Both, from one fold.
static math_trig_SinCos math_trig_sin_cos(double x) {
    double r = math_trig_fold(x);
    return (math_trig_SinCos){.sin = math_trig_sin_at(math_trig_second_fold(r)),
            .cos = math_trig_cos_of(ieee_abs(r))};
}

// ==== math_waves
//
// Sines and cosines of up to 16 angles at once, each with the bits of math_trig's. The loops have neither a call that stays
// nor a branch, so that a compiler can take two angles at a time. A few angles go through both series in one loop. Of
// sixteen each step of a series is a loop of its own, so that many quotients are under way, and six of them are no divisions.

// cos of the folded angle r from c, that of sin's second fold of it: beyond π/2 it changes its sign.
static double math_waves_turned(double r, double c) {
    if (1.5707963267948966 < r) {
        return -c;
    }
    if (r < -1.5707963267948966) {
        return -c;
    }
    return c;
}

// Whether an angle is below 2^20 in size, and r, what its first line leaves, within -π..π: seldom is it not.
static bool math_waves_near(double x, double r) {
    return (x < 1048576.0) & (-1048576.0 < x) & (!(3.141592653589793 < r) & !(r < -3.141592653589793));
}

// The sines and cosines of the first n angles where all are near, and whether they are. cos has the argument of sin up to its
// sign, so one square serves both.
static bool math_waves_at_once(const f64_x16 *x, uint64_t n, f64_x16 *sin, f64_x16 *cos) {
    bool all = true;
    uint64_t i = 0;
    while (i < n) {
        double angle = x->at[i];
        double r = math_trig_near_line(angle);
        all = all & math_waves_near(angle, r);
        double a = math_trig_second_fold(r);
        math_trig_Series p = math_trig_both_series(a * a);
        sin->at[i] = ieee_clamp(a * p.sin, -1.0, 1.0);
        cos->at[i] = math_waves_turned(r, ieee_clamp(p.cos, -1.0, 1.0));
        i = i + 1;
    }
    return all;
}

// The first lines of the first n angles, sin's second folds of them, and the squares; and whether all are near.
static bool math_waves_folds(const f64_x16 *x, uint64_t n, f64_x16 *r, f64_x16 *a, f64_x16 *z) {
    bool all = true;
    uint64_t i = 0;
    while (i < n) {
        double angle = x->at[i];
        double rest = math_trig_near_line(angle);
        all = all & math_waves_near(angle, rest);
        double folded = math_trig_second_fold(rest);
        r->at[i] = rest;
        a->at[i] = folded;
        z->at[i] = folded * folded;
        i = i + 1;
    }
    return all;
}

// One step of a series for the first n squares.
static void math_waves_step(const f64_x16 *z, uint64_t n, double c, f64_x16 *p) {
    uint64_t i = 0;
    while (i < n) {
        p->at[i] = 1.0 - p->at[i] * z->at[i] / c;
        i = i + 1;
    }
}

// The same by c = a + b without a division; y is just below 1/c, and u just above.
static void math_waves_quick_step(const f64_x16 *z, uint64_t n, double a, double b, double y, double u, f64_x16 *p) {
    uint64_t i = 0;
    while (i < n) {
        p->at[i] = 1.0 - ieee_quotient_quick(p->at[i] * z->at[i], a, b, y, u);
        i = i + 1;
    }
}

// From -1 to 1.
static double math_waves_to_one(double x) {
    double least;
    if (x < -1.0) {
        least = -1.0;
    } else {
        least = x;
    }
    if (1.0 < least) {
        return 1.0;
    }
    return least;
}

// The sines and cosines of the first n angles, from both series.
static void math_waves_ends(const f64_x16 *r, const f64_x16 *a, const f64_x16 *s, const f64_x16 *c, uint64_t n,
        f64_x16 *sin, f64_x16 *cos) {
    uint64_t i = 0;
    while (i < n) {
        sin->at[i] = math_waves_to_one(a->at[i] * s->at[i]);
        cos->at[i] = math_waves_turned(r->at[i], math_waves_to_one(c->at[i]));
        i = i + 1;
    }
}

// The steps of both series down to a divisor of 156, for the first n squares.
static void math_waves_first_steps(const f64_x16 *z, uint64_t n, f64_x16 *s, f64_x16 *c) {
    math_waves_step(z, n, 462.0, c);
    math_waves_step(z, n, 420.0, s);
    math_waves_step(z, n, 380.0, c);
    math_waves_step(z, n, 342.0, s);
    math_waves_step(z, n, 306.0, c);
    math_waves_quick_step(z, n, 256.0, 16.0, 0.0036764705882352936, 0.003676470588235295, s);
    math_waves_step(z, n, 240.0, c);
    math_waves_step(z, n, 210.0, s);
    math_waves_step(z, n, 182.0, c);
    math_waves_step(z, n, 156.0, s);
}

// The other steps.
static void math_waves_last_steps(const f64_x16 *z, uint64_t n, f64_x16 *s, f64_x16 *c) {
    math_waves_quick_step(z, n, 128.0, 4.0, 0.007575757575757574, 0.007575757575757577, c);
    math_waves_step(z, n, 110.0, s);
    math_waves_step(z, n, 90.0, c);
    math_waves_quick_step(z, n, 64.0, 8.0, 0.013888888888888886, 0.013888888888888892, s);
    math_waves_step(z, n, 56.0, c);
    math_waves_step(z, n, 42.0, s);
    math_waves_step(z, n, 30.0, c);
    math_waves_quick_step(z, n, 16.0, 4.0, 0.04999999999999999, 0.05000000000000001, s);
    math_waves_quick_step(z, n, 8.0, 4.0, 0.08333333333333331, 0.08333333333333336, c);
    math_waves_quick_step(z, n, 4.0, 2.0, 0.16666666666666663, 0.1666666666666667, s);
    math_waves_step(z, n, 2.0, c);
}

// As at_once, but step by step, each for all angles.
static bool math_waves_in_steps(const f64_x16 *x, uint64_t n, f64_x16 *sin, f64_x16 *cos) {
    f64_x16 r;
    for (size_t each = 0; each < 16; each++) {
        r.at[each] = 1.0;
    }
    f64_x16 a;
    for (size_t each = 0; each < 16; each++) {
        a.at[each] = 1.0;
    }
    f64_x16 z;
    for (size_t each = 0; each < 16; each++) {
        z.at[each] = 1.0;
    }
    f64_x16 s;
    for (size_t each = 0; each < 16; each++) {
        s.at[each] = 1.0;
    }
    f64_x16 c;
    for (size_t each = 0; each < 16; each++) {
        c.at[each] = 1.0;
    }
    bool all = math_waves_folds(x, n, &r, &a, &z);
    math_waves_first_steps(&z, n, &s, &c);
    math_waves_last_steps(&z, n, &s, &c);
    math_waves_ends(&r, &a, &s, &c, n, sin, cos);
    return all;
}

// The first n angles one by one, of any size.
static void math_waves_one_by_one(const f64_x16 *x, uint64_t n, f64_x16 *sin, f64_x16 *cos) {
    uint64_t i = 0;
    while (i < n) {
        math_trig_SinCos waves = math_trig_sin_cos(x->at[i]);
        sin->at[i] = waves.sin;
        cos->at[i] = waves.cos;
        i = i + 1;
    }
}

// The sines and cosines of the first n of 16 angles, of all where n is more; the other places stay as they are.
static void math_waves_sin_cos(const f64_x16 *x, uint64_t n, f64_x16 *sin, f64_x16 *cos) {
    uint64_t few;
    if (n < 16) {
        few = n;
    } else {
        few = 16;
    }
    if (few % 16 == 0) {
        bool value = math_waves_in_steps(x, few, sin, cos);
        if (!value) {
            math_waves_one_by_one(x, few, sin, cos);
        }
    } else {
        bool value_2 = math_waves_at_once(x, few, sin, cos);
        if (!value_2) {
            math_waves_one_by_one(x, few, sin, cos);
        }
    }
}

// ==== sheet
//
// Sheets of document 01, section 1, and of document 02, slips 3 and 5: the reader of their words, and the grammar.

// Four bytes as one number, high byte first.
static uint32_t sheet_big_endian(uint8_t a, uint8_t b, uint8_t c, uint8_t d) {
    return (uint32_t)a * 0x1000000 + (uint32_t)b * 0x10000 + (uint32_t)c * 256 + (uint32_t)d;
}

// The word at a place, counted from 0; past the last word it is 0.
static uint32_t sheet_word_at(slice_u8 src, uint64_t at) {
    if (at < src.count / 4) {
        uint64_t i = 4 * at;
        return sheet_big_endian(src.at[i], src.at[i + 1], src.at[i + 2], src.at[i + 3]);
    }
    return 0;
}

// The top four bits of a byte.
static uint32_t sheet_high_half(uint8_t b) {
    return (uint32_t)b / 16;
}

// The kind of the word at a place, which stands in its first byte; past the last word it is 0.
static uint32_t sheet_kind_at(slice_u8 src, uint64_t at) {
    if (at < src.count / 4) {
        return sheet_high_half(src.at[4 * at]);
    }
    return 0;
}

// How many floats follow a kind word.
static uint64_t sheet_floats_after(uint32_t kind) {
    if (kind == 2) {
        return 3;
    }
    if (kind == 3) {
        return 3;
    }
    if (kind == 4) {
        return 3;
    }
    if (kind == 6) {
        return 4;
    }
    if (kind == 7) {
        return 1;
    }
    return 0;
}

// The place after a block of a kind at a place, two raw words to a float.
static uint64_t sheet_place_after(uint64_t at, uint32_t kind) {
    if (kind == 4) {
        return at + 7;
    }
    return at + 2 * sheet_floats_after(kind) + 1;
}

// The place after the block at a place; past the last word the place itself.
static uint64_t sheet_next_place(slice_u8 src, uint64_t at) {
    if (src.count / 4 <= at) {
        return at;
    }
    return sheet_place_after(at, sheet_kind_at(src, at));
}

// A reader at a word.
static sheet_Reader sheet_new(slice_u8 src, uint64_t at) {
    return (sheet_Reader){.src = src, .at = at};
}

// The word that is reached.
static uint32_t sheet_word(sheet_Reader r) {
    return sheet_word_at(r.src, r.at);
}

// The reader after the block whose kind word is reached.
static sheet_Reader sheet_next(sheet_Reader r) {
    return (sheet_Reader){.src = r.src, .at = sheet_next_place(r.src, r.at)};
}

// The word at a place, by a reader.
static uint32_t sheet_word_from(slice_u8 src, uint64_t at) {
    return sheet_word(sheet_new(src, at));
}

// The kind word after the block at a place, by a reader.
static uint32_t sheet_word_after(slice_u8 src, uint64_t at) {
    return sheet_word(sheet_next(sheet_new(src, at)));
}

// The float in two raw words.
static double sheet_float_from(slice_u8 src, uint64_t at) {
    if (at < src.count / 4) {
        return ieee_from_words(sheet_word_from(src, at), sheet_word_from(src, at + 1));
    }
    return 0.0;
}

// The float in the two raw words at a place, both of which are there.
static double sheet_float_in(slice_u8 src, uint64_t at) {
    uint64_t i = 4 * at;
    uint32_t high = sheet_big_endian(src.at[i], src.at[i + 1], src.at[i + 2], src.at[i + 3]);
    uint32_t low = sheet_big_endian(src.at[i + 4], src.at[i + 5], src.at[i + 6], src.at[i + 7]);
    return ieee_from_words(high, low);
}

// Those after the kind word at a place, where not all of their words need be there.
static sheet_Floats sheet_floats_near_end(slice_u8 src, uint64_t at) {
    return (sheet_Floats){.first = sheet_float_from(src, at + 1), .third = sheet_float_from(src, at + 5),
            .second = sheet_float_from(src, at + 3)};
}

// Those after the kind word at a place; zero throughout past the last word.
static sheet_Floats sheet_floats_at(slice_u8 src, uint64_t at) {
    uint64_t total = src.count / 4;
    if (at < total) {
        if (total - at < 7) {
            return sheet_floats_near_end(src, at);
        }
        return (sheet_Floats){.first = sheet_float_in(src, at + 1), .third = sheet_float_in(src, at + 5),
                .second = sheet_float_in(src, at + 3)};
    }
    return (sheet_Floats){.first = 0.0, .third = 0.0, .second = 0.0};
}

// Whether the whole of a block of a kind word stands at a place, so many words in all.
static bool sheet_stands_whole(slice_u8 src, uint64_t at, uint32_t w, uint64_t size) {
    uint64_t total = src.count / 4;
    if (at < total) {
        if (size <= total - at) {
            return sheet_word_from(src, at) == w;
        }
    }
    return false;
}

static sheet_PlainFloats sheet_plain_floats(slice_u8 src, uint64_t at) {
    if (!sheet_stands_whole(src, at, 0x40000000, 7)) {
        return (sheet_PlainFloats){.stands = false, .first = 0.0, .third = 0.0, .second = 0.0};
    }
    return (sheet_PlainFloats){.stands = true, .first = sheet_float_in(src, at + 1),
            .third = sheet_float_in(src, at + 5), .second = sheet_float_in(src, at + 3)};
}

static bool sheet_is_surface(uint32_t done, uint32_t w) {
    if (w / 0x10000000 != 3) {
        return false;
    }
    if (64 <= done) {
        return false;
    }
    return w % 0x10000000 <= 15;
}

// The kinds of a layer: LAYER, and in edition 2 kind 6.
static bool sheet_layer_kind(uint32_t edition, uint32_t kind) {
    if (kind == 4) {
        return true;
    }
    if (edition != 2) {
        return false;
    }
    return kind == 6;
}

static bool sheet_is_layer(uint32_t edition, uint32_t most, uint32_t w) {
    if (!sheet_layer_kind(edition, w / 0x10000000)) {
        return false;
    }
    if (most == 0) {
        return false;
    }
    return w % 0x10000000 == 0;
}

// Kind 7: in edition 2, before one of 64 SURFACEs.
static bool sheet_is_tuning(uint32_t edition, uint32_t done, uint32_t w) {
    return edition == 2 && w / 0x10000000 == 7 && done < 64 && w % 0x10000000 == 0;
}

static bool sheet_is_end(uint32_t done, uint32_t w) {
    if (w / 0x10000000 != 5) {
        return false;
    }
    return w % 0x10000000 == done;
}

// Whether a kind word may come there.
static bool sheet_may(sheet_Standing s, uint32_t w) {
    switch (s.tag) {
    case sheet_Standing_AtOpen:
        if (w == 0x10000001) {
            return true;
        }
        return w == 0x10000002;
    case sheet_Standing_AtBeam:
        return w == 0x20000000;
    case sheet_Standing_Among:
    {
        uint32_t edition = s.as.Among.part0;
        uint32_t done = s.as.Among.part1;
        uint32_t most = s.as.Among.part2;
        if (sheet_is_surface(done, w)) {
            return true;
        }
        if (sheet_is_layer(edition, most, w)) {
            return true;
        }
        if (sheet_is_tuning(edition, done, w)) {
            return true;
        }
        return sheet_is_end(done, w);
    }
    case sheet_Standing_AtSurface:
    {
        uint32_t done_2 = s.as.AtSurface.part1;
        return sheet_is_surface(done_2, w);
    }
    default: // sheet_Standing_Ended
        return false;
    }
}

// How many layers may come after a SURFACE of this payload.
static uint32_t sheet_layers_after(uint32_t payload) {
    if (payload / 2 == 5) {
        return 16;
    }
    return 0;
}

// Where one stands after a kind word that may come.
static sheet_Standing sheet_after(sheet_Standing s, uint32_t w) {
    switch (s.tag) {
    case sheet_Standing_AtOpen:
        return (sheet_Standing){.tag = sheet_Standing_AtBeam, .as.AtBeam = w % 0x10000000};
    case sheet_Standing_AtBeam:
    {
        uint32_t edition = s.as.AtBeam;
        return (sheet_Standing){.tag = sheet_Standing_Among, .as.Among.part0 = edition, .as.Among.part1 = 0,
                .as.Among.part2 = 0};
    }
    case sheet_Standing_Among:
    {
        uint32_t edition_2 = s.as.Among.part0;
        uint32_t done = s.as.Among.part1;
        uint32_t most = s.as.Among.part2;
        if (w / 0x10000000 == 3) {
            return (sheet_Standing){.tag = sheet_Standing_Among, .as.Among.part0 = edition_2,
                    .as.Among.part1 = done + 1, .as.Among.part2 = sheet_layers_after(w % 0x10000000)};
        }
        if (w / 0x10000000 == 7) {
            return (sheet_Standing){.tag = sheet_Standing_AtSurface, .as.AtSurface.part0 = edition_2,
                    .as.AtSurface.part1 = done};
        }
        if (w / 0x10000000 == 5) {
            return (sheet_Standing){.tag = sheet_Standing_Ended};
        }
        return (sheet_Standing){.tag = sheet_Standing_Among, .as.Among.part0 = edition_2, .as.Among.part1 = done,
                .as.Among.part2 = most - 1};
    }
    case sheet_Standing_AtSurface:
    {
        uint32_t edition_3 = s.as.AtSurface.part0;
        uint32_t done_2 = s.as.AtSurface.part1;
        return (sheet_Standing){.tag = sheet_Standing_Among, .as.Among.part0 = edition_3,
                .as.Among.part1 = done_2 + 1, .as.Among.part2 = sheet_layers_after(w % 0x10000000)};
    }
    default: // sheet_Standing_Ended
        return (sheet_Standing){.tag = sheet_Standing_Ended};
    }
}

static bool sheet_has_ended(sheet_Standing s) {
    switch (s.tag) {
    case sheet_Standing_AtOpen:
    case sheet_Standing_AtBeam:
    case sheet_Standing_Among:
    case sheet_Standing_AtSurface:
        return false;
    default: // sheet_Standing_Ended
        return true;
    }
}

// How many layers may come there.
static uint32_t sheet_most_of(sheet_Standing s) {
    switch (s.tag) {
    case sheet_Standing_AtOpen:
    case sheet_Standing_AtBeam:
        return 0;
    case sheet_Standing_Among:
    {
        uint32_t most = s.as.Among.part2;
        return most;
    }
    case sheet_Standing_AtSurface:
        return 0;
    default: // sheet_Standing_Ended
        return 0;
    }
}

// How many kinds 6: in edition 2.
static uint32_t sheet_most_cauchy(sheet_Standing s) {
    switch (s.tag) {
    case sheet_Standing_AtOpen:
    case sheet_Standing_AtBeam:
        return 0;
    case sheet_Standing_Among:
    {
        uint32_t edition = s.as.Among.part0;
        uint32_t most = s.as.Among.part2;
        if (edition == 2) {
            return most;
        }
        return 0;
    }
    case sheet_Standing_AtSurface:
        return 0;
    default: // sheet_Standing_Ended
        return 0;
    }
}

// Where one stands after n of them.
static sheet_Standing sheet_fewer(sheet_Standing s, uint32_t n) {
    switch (s.tag) {
    case sheet_Standing_AtOpen:
    case sheet_Standing_AtBeam:
        return s;
    case sheet_Standing_Among:
    {
        uint32_t edition = s.as.Among.part0;
        uint32_t done = s.as.Among.part1;
        uint32_t most = s.as.Among.part2;
        return (sheet_Standing){.tag = sheet_Standing_Among, .as.Among.part0 = edition, .as.Among.part1 = done,
                .as.Among.part2 = most - n};
    }
    case sheet_Standing_AtSurface:
        return s;
    default: // sheet_Standing_Ended
        return s;
    }
}

// How many whole blocks of a kind word and of so many words stand one after the other from a place on, so many at the most.
static uint32_t sheet_run_of(slice_u8 src, uint64_t at, uint32_t w, uint64_t size, uint32_t most) {
    uint64_t place = at;
    uint32_t n = 0;
    while (n < most) {
        if (!sheet_stands_whole(src, place, w, size)) {
            return n;
        }
        place = place + size;
        n = n + 1;
    }
    return most;
}

// One more where the kind word is a SURFACE's.
static uint32_t sheet_counted(uint32_t w, uint32_t n) {
    if (w / 0x10000000 == 3) {
        return n + 1;
    }
    return n;
}

// The grammar over the whole sheet.
static result_u32_refusal_Refusal sheet_grammar(slice_u8 src) {
    uint64_t total = src.count / 4;
    sheet_Standing s = {.tag = sheet_Standing_AtOpen};
    uint64_t at = 0;
    uint32_t count = 0;
    while (at < total) {
        uint32_t w = sheet_word_from(src, at);
        if (!sheet_may(s, w)) {
            return (result_u32_refusal_Refusal){.tag = result_u32_refusal_Refusal_Err,
                    .as.Err = {.tag = refusal_Refusal_Grammar, .as.Grammar = at}};
        }
        uint64_t next = sheet_place_after(at, w / 0x10000000);
        if (total < next) {
            return (result_u32_refusal_Refusal){.tag = result_u32_refusal_Refusal_Err,
                    .as.Err = {.tag = refusal_Refusal_Grammar, .as.Grammar = at}};
        }
        count = sheet_counted(w, count);
        sheet_Standing t = sheet_after(s, w);
        uint32_t n = sheet_run_of(src, next, 0x40000000, 7, sheet_most_of(t));
        sheet_Standing u = sheet_fewer(t, n);
        uint64_t place = next + 7 * (uint64_t)n;
        uint32_t m = sheet_run_of(src, place, 0x60000000, 9, sheet_most_cauchy(u));
        s = sheet_fewer(u, m);
        at = place + 9 * (uint64_t)m;
    }
    if (sheet_has_ended(s)) {
        return (result_u32_refusal_Refusal){.tag = result_u32_refusal_Refusal_Ok, .as.Ok = count};
    }
    return (result_u32_refusal_Refusal){.tag = result_u32_refusal_Refusal_Err,
            .as.Err = {.tag = refusal_Refusal_Grammar, .as.Grammar = at}};
}

// The place n blocks on.
static uint64_t sheet_place_on(slice_u8 src, uint64_t at, uint64_t n) {
    uint64_t place = at;
    uint64_t round = 0;
    while (round < n) {
        place = sheet_next_place(src, place);
        round = round + 1;
    }
    return place;
}

// Whether a layer stands directly after the block at a place: a reader steps over the block.
static bool sheet_layer_follows(slice_u8 src, uint64_t at) {
    return sheet_layer_kind(2, sheet_word_after(src, at) / 0x10000000);
}

// Those after the block at a place: 16 at the most.
static sheet_LayerRun sheet_layers_on(slice_u8 src, uint64_t at) {
    uint64_t place = sheet_next_place(src, at);
    if (!sheet_layer_follows(src, at)) {
        return (sheet_LayerRun){.count = 0, .next = place};
    }
    uint64_t n = 0;
    while (n < 16) {
        if (!sheet_layer_kind(2, sheet_kind_at(src, place))) {
            return (sheet_LayerRun){.count = n, .next = place};
        }
        place = sheet_next_place(src, place);
        n = n + 1;
    }
    return (sheet_LayerRun){.count = 16, .next = place};
}

// How many layers stand directly after the block at a place: 16 at the most.
static uint64_t sheet_layer_run(slice_u8 src, uint64_t at) {
    sheet_LayerRun run = sheet_layers_on(src, at);
    return run.count;
}

// The SURFACE of the blocks from a place on: after the kind 7, if one is there.
static uint64_t sheet_onto(slice_u8 src, uint64_t at) {
    if (sheet_kind_at(src, at) == 7) {
        return sheet_next_place(src, at);
    }
    return at;
}

// The place after a SURFACE and its layers.
static uint64_t sheet_after_layers(slice_u8 src, uint64_t at) {
    sheet_LayerRun run = sheet_layers_on(src, at);
    return run.next;
}

// Where the n-th SURFACE of a sheet in grammar begins, counted from 0, with the kind 7 before it.
static uint64_t sheet_begin_of(slice_u8 src, uint32_t n) {
    uint64_t at = sheet_place_on(src, 0, 2);
    uint32_t round = 0;
    while (round < n) {
        at = sheet_after_layers(src, sheet_onto(src, at));
        round = round + 1;
    }
    return at;
}

// The place of the n-th SURFACE of a sheet in grammar, counted from 0.
static uint64_t sheet_place_of(slice_u8 src, uint32_t n) {
    return sheet_onto(src, sheet_begin_of(src, n));
}

// ==== math_sqrt
//
// The square root of an `f64`, rounded as IEEE 754 says: to the nearest value, and at a tie to the
// even one. It is right for every argument, with no `requires`: subnormals, both zeros, the
// infinities, negative numbers and NaN.
//
// A guess is made in floats, of which nothing is proved, and whole numbers say whether it is the root.
// A positive finite x is R * 4 ^ k, where R has 105 or 106 binary digits. The root of x is the root of R,
// times 2 ^ k. A whole number q is the one nearest to the root of R where q * (q - 1) < R <= q * (q + 1).
// If no guess is found to be the root, which is rare, the root is taken a digit at a time.

// The root of h from 1/2 to 2 in 64 pieces: the first 32 go from 1/2 to 1, and the others from 1 to 2.
// Each is within one part in 2 ^ 31 of the root, though nothing is proved of that. The compiler
// makes tables of them.
static math_sqrt_Cubic math_sqrt_piece(uint64_t i) {
    switch (i) {
    case 0:
        return (math_sqrt_Cubic){.part0 = 0.22267931136, .part1 = 1.31564022919, .part2 = -0.86364403103,
                .part3 = 0.34014690553};
    case 1:
        return (math_sqrt_Cubic){.part0 = 0.22607986099, .part1 = 1.29585195655, .part2 = -0.82525898966,
                .part3 = 0.31532635022};
    case 2:
        return (math_sqrt_Cubic){.part0 = 0.22942999532, .part1 = 1.27693061758, .part2 = -0.78963554519,
                .part3 = 0.29296930816};
    case 3:
        return (math_sqrt_Cubic){.part0 = 0.23273189307, .part1 = 1.25881469964, .part2 = -0.75650332147,
                .part3 = 0.27277010042};
    case 4:
        return (math_sqrt_Cubic){.part0 = 0.23598758039, .part1 = 1.2414486326, .part2 = -0.72562505105,
                .part3 = 0.25446815901};
    case 5:
        return (math_sqrt_Cubic){.part0 = 0.23919894537, .part1 = 1.22478207043, .part2 = -0.69679175121,
                .part3 = 0.2378403653};
    case 6:
        return (math_sqrt_Cubic){.part0 = 0.24236775091, .part1 = 1.20876927626, .part2 = -0.6698187091,
                .part3 = 0.2226948515};
    case 7:
        return (math_sqrt_Cubic){.part0 = 0.24549564601, .part1 = 1.19336859359, .part2 = -0.64454212358,
                .part3 = 0.20886595648};
    case 8:
        return (math_sqrt_Cubic){.part0 = 0.24858417583, .part1 = 1.17854198988, .part2 = -0.62081628258,
                .part3 = 0.19621009821};
    case 9:
        return (math_sqrt_Cubic){.part0 = 0.25163479062, .part1 = 1.16425466097, .part2 = -0.59851118005,
                .part3 = 0.18460237854};
    case 10:
        return (math_sqrt_Cubic){.part0 = 0.25464885369, .part1 = 1.15047468707, .part2 = -0.57751049523,
                .part3 = 0.17393377641};
    case 11:
        return (math_sqrt_Cubic){.part0 = 0.25762764855, .part1 = 1.13717273251, .part2 = -0.55770987216,
                .part3 = 0.16410881661};
    case 12:
        return (math_sqrt_Cubic){.part0 = 0.26057238526, .part1 = 1.12432178281, .part2 = -0.53901544905,
                .part3 = 0.15504362473};
    case 13:
        return (math_sqrt_Cubic){.part0 = 0.26348420626, .part1 = 1.11189691375, .part2 = -0.52134259669,
                .part3 = 0.14666429739};
    case 14:
        return (math_sqrt_Cubic){.part0 = 0.26636419145, .part1 = 1.09987508792, .part2 = -0.50461483221,
                .part3 = 0.13890553104};
    case 15:
        return (math_sqrt_Cubic){.part0 = 0.26921336297, .part1 = 1.08823497493, .part2 = -0.48876288073,
                .part3 = 0.13170946389};
    case 16:
        return (math_sqrt_Cubic){.part0 = 0.27203268937, .part1 = 1.07695679217, .part2 = -0.47372386214,
                .part3 = 0.125024694};
    case 17:
        return (math_sqrt_Cubic){.part0 = 0.27482308951, .part1 = 1.06602216331, .part2 = -0.45944058409,
                .part3 = 0.11880544401};
    case 18:
        return (math_sqrt_Cubic){.part0 = 0.27758543603, .part1 = 1.05541399234, .part2 = -0.44586092561,
                .part3 = 0.11301084795};
    case 19:
        return (math_sqrt_Cubic){.part0 = 0.28032055855, .part1 = 1.04511635108, .part2 = -0.43293729806,
                .part3 = 0.10760434045};
    case 20:
        return (math_sqrt_Cubic){.part0 = 0.28302924658, .part1 = 1.03511437863, .part2 = -0.42062617261,
                .part3 = 0.10255313195};
    case 21:
        return (math_sqrt_Cubic){.part0 = 0.28571225219, .part1 = 1.02539419109, .part2 = -0.40888766475,
                .part3 = 0.09782775638};
    case 22:
        return (math_sqrt_Cubic){.part0 = 0.28837029244, .part1 = 1.01594280052, .part2 = -0.39768516823,
                .part3 = 0.0934016803};
    case 23:
        return (math_sqrt_Cubic){.part0 = 0.29100405164, .part1 = 1.00674804194, .part2 = -0.38698503159,
                .part3 = 0.08925096408};
    case 24:
        return (math_sqrt_Cubic){.part0 = 0.29361418338, .part1 = 0.99779850747, .part2 = -0.37675627186,
                .part3 = 0.0853539675};
    case 25:
        return (math_sqrt_Cubic){.part0 = 0.29620131245, .part1 = 0.98908348682, .part2 = -0.36697032033,
                .part3 = 0.08169109321};
    case 26:
        return (math_sqrt_Cubic){.part0 = 0.29876603656, .part1 = 0.98059291337, .part2 = -0.35760079659,
                .part3 = 0.07824456266};
    case 27:
        return (math_sqrt_Cubic){.part0 = 0.301308928, .part1 = 0.97231731527, .part2 = -0.34862330705,
                .part3 = 0.07499821994};
    case 28:
        return (math_sqrt_Cubic){.part0 = 0.30383053506, .part1 = 0.96424777101, .part2 = -0.34001526511,
                .part3 = 0.07193735961};
    case 29:
        return (math_sqrt_Cubic){.part0 = 0.3063313835, .part1 = 0.95637586899, .part2 = -0.33175573015,
                .part3 = 0.06904857529};
    case 30:
        return (math_sqrt_Cubic){.part0 = 0.30881197775, .part1 = 0.94869367063, .part2 = -0.32382526332,
                .part3 = 0.06631962615};
    case 31:
        return (math_sqrt_Cubic){.part0 = 0.31127280216, .part1 = 0.94119367672, .part2 = -0.31620579793,
                .part3 = 0.06373931907};
    case 32:
        return (math_sqrt_Cubic){.part0 = 0.31491610218, .part1 = 0.93029812766, .part2 = -0.30534427544,
                .part3 = 0.06013004587};
    case 33:
        return (math_sqrt_Cubic){.part0 = 0.3197252056, .part1 = 0.91630570589, .part2 = -0.29177311391,
                .part3 = 0.05574235013};
    case 34:
        return (math_sqrt_Cubic){.part0 = 0.324463011, .part1 = 0.90292629879, .part2 = -0.27917832434,
                .part3 = 0.05179014612};
    case 35:
        return (math_sqrt_Cubic){.part0 = 0.32913259958, .part1 = 0.89011641037, .part2 = -0.2674643143,
                .part3 = 0.04821939693};
    case 36:
        return (math_sqrt_Cubic){.part0 = 0.33373683674, .part1 = 0.87783674661, .part2 = -0.2565471971,
                .part3 = 0.04498404021};
    case 37:
        return (math_sqrt_Cubic){.part0 = 0.33827839265, .part1 = 0.86605170748, .part2 = -0.24635308618,
                .part3 = 0.04204463379};
    case 38:
        return (math_sqrt_Cubic){.part0 = 0.34275976042, .part1 = 0.85472895213, .part2 = -0.23681667569,
                .part3 = 0.03936725991};
    case 39:
        return (math_sqrt_Cubic){.part0 = 0.34718327209, .part1 = 0.84383902498, .part2 = -0.22788005317,
                .part3 = 0.03692263355};
    case 40:
        return (math_sqrt_Cubic){.part0 = 0.35155111285, .part1 = 0.83335503296, .part2 = -0.21949170164,
                .part3 = 0.03468537275};
    case 41:
        return (math_sqrt_Cubic){.part0 = 0.35586533366, .part1 = 0.8232523658, .part2 = -0.21160565701,
                .part3 = 0.03263339842};
    case 42:
        return (math_sqrt_Cubic){.part0 = 0.36012786253, .part1 = 0.81350845281, .part2 = -0.20418079369,
                .part3 = 0.03074743819};
    case 43:
        return (math_sqrt_Cubic){.part0 = 0.36434051462, .part1 = 0.80410255054, .part2 = -0.19718021627,
                .part3 = 0.02901061427};
    case 44:
        return (math_sqrt_Cubic){.part0 = 0.36850500122, .part1 = 0.79501555686, .part2 = -0.19057073959,
                .part3 = 0.02740809961};
    case 45:
        return (math_sqrt_Cubic){.part0 = 0.37262293796, .part1 = 0.78622984769, .part2 = -0.18432244272,
                .part3 = 0.02592682981};
    case 46:
        return (math_sqrt_Cubic){.part0 = 0.37669585208, .part1 = 0.77772913313, .part2 = -0.17840828487,
                .part3 = 0.02455526074};
    case 47:
        return (math_sqrt_Cubic){.part0 = 0.38072518908, .part1 = 0.7694983303, .part2 = -0.17280377368,
                .part3 = 0.02328316377};
    case 48:
        return (math_sqrt_Cubic){.part0 = 0.38471231872, .part1 = 0.76152345079, .part2 = -0.16748667766,
                .part3 = 0.02210145224};
    case 49:
        return (math_sqrt_Cubic){.part0 = 0.38865854044, .part1 = 0.75379150057, .part2 = -0.16243677628,
                .part3 = 0.02100203377};
    case 50:
        return (math_sqrt_Cubic){.part0 = 0.39256508836, .part1 = 0.74629039094, .part2 = -0.15763564198,
                .part3 = 0.01997768423};
    case 51:
        return (math_sqrt_Cubic){.part0 = 0.39643313571, .part1 = 0.73900885898, .part2 = -0.15306644964,
                .part3 = 0.0190219397};
    case 52:
        return (math_sqrt_Cubic){.part0 = 0.40026379906, .part1 = 0.73193639643, .part2 = -0.1487138095,
                .part3 = 0.01812900376};
    case 53:
        return (math_sqrt_Cubic){.part0 = 0.40405814198, .part1 = 0.72506318591, .part2 = -0.14456362025,
                .part3 = 0.01729366748};
    case 54:
        return (math_sqrt_Cubic){.part0 = 0.40781717856, .part1 = 0.71838004354, .part2 = -0.14060293962,
                .part3 = 0.01651124038};
    case 55:
        return (math_sqrt_Cubic){.part0 = 0.41154187654, .part1 = 0.7118783674, .part2 = -0.13681987003,
                .part3 = 0.01577749048};
    case 56:
        return (math_sqrt_Cubic){.part0 = 0.41523316025, .part1 = 0.70555009089, .part2 = -0.13320345734,
                .part3 = 0.01508859231};
    case 57:
        return (math_sqrt_Cubic){.part0 = 0.41889191326, .part1 = 0.69938764069, .part2 = -0.129743601,
                .part3 = 0.01444108149};
    case 58:
        return (math_sqrt_Cubic){.part0 = 0.42251898088, .part1 = 0.69338389863, .part2 = -0.12643097411,
                .part3 = 0.01383181521};
    case 59:
        return (math_sqrt_Cubic){.part0 = 0.42611517244, .part1 = 0.68753216709, .part2 = -0.12325695225,
                .part3 = 0.01325793747};
    case 60:
        return (math_sqrt_Cubic){.part0 = 0.42968126335, .part1 = 0.68182613763, .part2 = -0.12021354983,
                .part3 = 0.0127168487};
    case 61:
        return (math_sqrt_Cubic){.part0 = 0.43321799713, .part1 = 0.67625986233, .part2 = -0.11729336325,
                .part3 = 0.01220617896};
    case 62:
        return (math_sqrt_Cubic){.part0 = 0.43672608716, .part1 = 0.67082772777, .part2 = -0.11448951981,
                .part3 = 0.01172376434};
    default:
        return (math_sqrt_Cubic){.part0 = 0.44020621841, .part1 = 0.66552443122, .part2 = -0.11179563198,
                .part3 = 0.01126762619};
    }
}

// A guess at the root of h, whose pattern is `bits`.
static double math_sqrt_first_guess(double h, uint64_t bits) {
    math_sqrt_Cubic p = math_sqrt_piece(bits / 0x800000000000u % 64);
    double square = h * h;
    return p.part0 + p.part1 * h + p.part2 * square + p.part3 * h * square;
}

// A better guess from the guess s, by Newton's method. `high` has the upper digits of s, so that its
// square is exact, and so is what s * s leaves of h, but for its last digits.
static double math_sqrt_second_guess(double h, double s) {
    double high = s + 201326592.0 - 201326592.0;
    double left = h - high * high - (s + high) * (s - high);
    return s + left * (0.5 / s);
}

// x * y modulo 2 ^ 64. The compiler makes one multiplication of it.
static uint64_t math_sqrt_low_product(uint64_t x, uint64_t y) {
    uint64_t x0 = x % 0x100000000u;
    uint64_t x1 = x / 0x100000000u;
    uint64_t y0 = y % 0x100000000u;
    uint64_t y1 = y / 0x100000000u;
    return std_num_wrapping_add_u64((x0 * y1 + x1 * y0) << 32, x0 * y0);
}

// Whether two patterns have one exponent, and digits that are less than 1024 apart. Nearly all that are
// pass the first test, which is the quicker one; the second is for those on either side of a block's edge.
static bool math_sqrt_is_close(uint64_t a, uint64_t b) {
    if (a / 1024 == b / 1024) {
        return true;
    }
    if (a / 0x10000000000000u == b / 0x10000000000000u) {
        uint64_t digits = a % 0x10000000000000u;
        return std_num_wrapping_sub_u64(digits + 512, b % 0x10000000000000u) <= 1024;
    }
    return false;
}

// Whether the float with the pattern `root` is the root of the float with the pattern `bits`. Both are
// from 1/2 to 1, or both from 1 to 2. The float product says that q * q is near R, so that
// R - q * (q - 1) is known once it is known modulo 2 ^ 64.
static bool math_sqrt_is_root(uint64_t bits, uint64_t root) {
    double n = from_bits(root);
    if (math_sqrt_is_close(to_bits(n * n), bits)) {
        uint64_t d = (bits % 0x10000000000000u + 0x10000000000000u) * (2 - bits / 0x10000000000000u % 2);
        uint64_t q = root % 0x10000000000000u + 0x10000000000000u;
        uint64_t over = std_num_wrapping_sub_u64(d << 52, math_sqrt_low_product(q, q - 1));
        return std_num_wrapping_sub_u64(over, 1) < 2 * q;
    }
    return false;
}

// The root of d * 2 ^ 52, cut to a whole number, a binary digit at a time: slow and simple. `step` is
// twice the weight of the digit that is tried next, and `left` is what the root's square leaves,
// divided by that weight.
static math_sqrt_Cut math_sqrt_root_by_digits(uint64_t d) {
    uint64_t q = 0;
    uint64_t left = d;
    uint64_t step = 0x20000000000000u;
    while (1 < step) {
        step = step / 2;
        uint64_t t = 2 * q + step;
        if (t <= left) {
            left = 2 * (left - t);
            q = q + step;
        } else {
            left = 2 * left;
        }
    }
    return (math_sqrt_Cut){.root = q, .rest = left / 2};
}

// The whole number nearest to the root of d * 2 ^ 52.
static uint64_t math_sqrt_nearest_by_digits(uint64_t d) {
    math_sqrt_Cut r = math_sqrt_root_by_digits(d);
    if (r.root < r.rest) {
        return r.root + 1;
    }
    return r.root;
}

// The root of a normal number, from its pattern. The guess is made for the number times a power of 4
// that brings it to where the pieces are, and `part` is its pattern then.
static double math_sqrt_normal_sqrt(uint64_t bits) {
    uint64_t field = bits / 0x10000000000000u;
    uint64_t part = bits % 0x20000000000000u + 0x3fe0000000000000u;
    double h = from_bits(part);
    double n = math_sqrt_second_guess(h, math_sqrt_first_guess(h, part));
    if (0.0 < n) {
        uint64_t root = to_bits(n);
        if (root / 0x10000000000000u == part / 0x10000000000000u) {
            if (math_sqrt_is_root(part, root)) {
                if (part == bits) {
                    return from_bits(root);
                }
                return from_bits(root + field / 2 * 0x10000000000000u - 0x1ff0000000000000u);
            }
        }
    }
    uint64_t d = (bits % 0x10000000000000u + 0x10000000000000u) * (2 - field % 2);
    return from_bits((field + 1021) / 2 * 0x10000000000000u + math_sqrt_nearest_by_digits(d));
}

// The root of a subnormal number, from its pattern. Its digits are moved up by their leading zeros,
// which makes them those of a normal number: the subnormal one, times 2 ^ 108.
static double math_sqrt_subnormal_sqrt(uint64_t bits) {
    uint32_t up = leading_zeros(bits) - 11;
    uint64_t lifted = (bits << (uint64_t)up) + (108 - (uint64_t)up) * 0x10000000000000u;
    uint64_t root = to_bits(math_sqrt_normal_sqrt(lifted));
    return from_bits(root - UINT64_C(54) * 0x10000000000000u);
}

// The square root of x.
static double math_sqrt_sqrt(double x) {
    if (0.0 < x) {
        uint64_t bits = to_bits(x);
        if (bits < 0x10000000000000u) {
            return math_sqrt_subnormal_sqrt(bits);
        }
        if (bits < 0x7ff0000000000000u) {
            return math_sqrt_normal_sqrt(bits);
        }
        return x;
    }
    if (x == 0.0) {
        return x;
    }
    return 0.0 / 0.0;
}

// The square root of x. It is quick for an x from 1/2 to 2 whose root is n.
static double math_sqrt_sqrt_guessed(double x, double n) {
    if (0.5 <= x) {
        uint64_t bits = to_bits(x);
        if (bits < 0x4000000000000000u) {
            if (0.5 <= n) {
                uint64_t root = to_bits(n);
                if (root / 0x10000000000000u == bits / 0x10000000000000u) {
                    if (math_sqrt_is_root(bits, root)) {
                        return n;
                    }
                }
            }
        }
    }
    return math_sqrt_sqrt(x);
}

// The square root of x. It is quick for an x from 1/2 to 2 whose root is near s.
static double math_sqrt_sqrt_near(double x, double s) {
    return math_sqrt_sqrt_guessed(x, math_sqrt_second_guess(x, s));
}

// ==== math_atan
//
// atan, asin and atan2 as document 01's section 2 gives them, each for every f64.

// One of two numbers, by the sign bit of x. A NaN has none.
static double math_atan_by_sign(double x, double set, double clear) {
    if (x != x) {
        return clear;
    }
    if (to_bits(x) < 0x8000000000000000u) {
        return clear;
    }
    return set;
}

// v, whose sign bit is clear, with the sign bit of x.
static double math_atan_with_sign(double v, double x) {
    return math_atan_by_sign(x, -v, v);
}

// Where t is the tangent of an angle and h = 1 + t * t, the root of h is 1 over the angle's cosine.
// The same of half the angle, for h from 1 to 2 in 16 pieces. Each is within one part in 2 ^ 27 of it,
// though nothing is proved of that: it is a guess, from which the root is found sooner.
static math_atan_Cubic math_atan_half_piece(uint64_t i) {
    switch (i) {
    case 0:
        return (math_atan_Cubic){.part0 = 0.7611857554, .part1 = 0.3962944244, .part2 = -0.20114411734,
                .part3 = 0.04366394141};
    case 1:
        return (math_atan_Cubic){.part0 = 0.76963650656, .part1 = 0.37241577571, .part2 = -0.1786501797,
                .part3 = 0.03659975092};
    case 2:
        return (math_atan_Cubic){.part0 = 0.77763159284, .part1 = 0.351081411, .part2 = -0.15967128875,
                .part3 = 0.03097120267};
    case 3:
        return (math_atan_Cubic){.part0 = 0.78521616789, .part1 = 0.33190895903, .part2 = -0.14351457978,
                .part3 = 0.026432237};
    case 4:
        return (math_atan_Cubic){.part0 = 0.79242895065, .part1 = 0.31458895382, .part2 = -0.12964966704,
                .part3 = 0.02273216522};
    case 5:
        return (math_atan_Cubic){.part0 = 0.79930340186, .part1 = 0.29886823174, .part2 = -0.11766497988,
                .part3 = 0.01968637063};
    case 6:
        return (math_atan_Cubic){.part0 = 0.80586864172, .part1 = 0.28453767427, .part2 = -0.10723720406,
                .part3 = 0.0171568609};
    case 7:
        return (math_atan_Cubic){.part0 = 0.81215017463, .part1 = 0.27142302327, .part2 = -0.09810951634,
                .part3 = 0.01503909621};
    case 8:
        return (math_atan_Cubic){.part0 = 0.81817046779, .part1 = 0.25937790502, .part2 = -0.09007583422,
                .part3 = 0.01325290342};
    case 9:
        return (math_atan_Cubic){.part0 = 0.82394941793, .part1 = 0.24827846662, .part2 = -0.08296925259,
                .part3 = 0.01173610401};
    case 10:
        return (math_atan_Cubic){.part0 = 0.8295047312, .part1 = 0.23801920557, .part2 = -0.07665344179,
                .part3 = 0.01043997682};
    case 11:
        return (math_atan_Cubic){.part0 = 0.834852235, .part1 = 0.2285096936, .part2 = -0.07101617076,
                .part3 = 0.00932598208};
    case 12:
        return (math_atan_Cubic){.part0 = 0.84000613599, .part1 = 0.21967197867, .part2 = -0.06596437569,
                .part3 = 0.00836336567};
    case 13:
        return (math_atan_Cubic){.part0 = 0.84497923507, .part1 = 0.21143850656, .part2 = -0.0614203667,
                .part3 = 0.00752738625};
    case 14:
        return (math_atan_Cubic){.part0 = 0.84978310763, .part1 = 0.20375044472, .part2 = -0.05731888192,
                .part3 = 0.00679798892};
    default:
        return (math_atan_Cubic){.part0 = 0.85442825579, .part1 = 0.19655632029, .part2 = -0.05360477938,
                .part3 = 0.00615880272};
    }
}

static double math_atan_half_guess(double h) {
    if (h != h) {
        return h;
    }
    math_atan_Cubic p = math_atan_half_piece(to_bits(h) / 0x1000000000000u % 16);
    double square = h * h;
    return p.part0 + p.part1 * h + p.part2 * square + p.part3 * h * square;
}

// The tangent of a quarter of the angle whose tangent is t: twice the half angle.
static double math_atan_quarter_angle(double t) {
    double h = 1.0 + t * t;
    double u = t / (1.0 + math_sqrt_sqrt(h));
    return u / (1.0 + math_sqrt_sqrt_near(1.0 + u * u, math_atan_half_guess(h)));
}

static double math_atan_atan_series(double z) {
    double p = 0.0;
    double p_2 = 1.0 / 25.0 - z * p;
    double p_3 = 1.0 / 23.0 - z * p_2;
    double p_4 = 1.0 / 21.0 - z * p_3;
    double p_5 = 1.0 / 19.0 - z * p_4;
    double p_6 = 1.0 / 17.0 - z * p_5;
    double p_7 = 1.0 / 15.0 - z * p_6;
    double p_8 = 1.0 / 13.0 - z * p_7;
    double p_9 = 1.0 / 11.0 - z * p_8;
    double p_10 = 1.0 / 9.0 - z * p_9;
    double p_11 = 1.0 / 7.0 - z * p_10;
    double p_12 = 1.0 / 5.0 - z * p_11;
    double p_13 = 1.0 / 3.0 - z * p_12;
    return 1.0 / 1.0 - z * p_13;
}

static double math_atan_atan_poly(double t) {
    return 4.0 * (t * math_atan_atan_series(t * t));
}

// a, or 1/a if a > 1.
static double math_atan_at_most_one(double a) {
    if (1.0 < a) {
        return 1.0 / a;
    }
    return a;
}

// atan of an a whose sign bit is clear.
static double math_atan_atan_abs(double a) {
    double q = math_atan_atan_poly(math_atan_quarter_angle(math_atan_at_most_one(a)));
    if (1.0 < a) {
        return 1.5707963267948966 - q;
    }
    return q;
}

static double math_atan_atan(double x) {
    if (x != x) {
        return x;
    }
    return math_atan_with_sign(math_atan_atan_abs(ieee_abs(x)), x);
}

static double math_atan_asin(double x) {
    return 2.0 * math_atan_atan(x / (1.0 + math_sqrt_sqrt(1.0 - x * x)));
}

static bool math_atan_is_infinite(double x) {
    double infinity = 1.0 / 0.0;
    return x == infinity || x == -infinity;
}

static bool math_atan_both_infinite(double a, double b) {
    return math_atan_is_infinite(a) && math_atan_is_infinite(b);
}

// Whether a is a zero, or b an infinity.
static bool math_atan_zero_or_infinite(double a, double b) {
    return a == 0.0 || math_atan_is_infinite(b);
}

// atan(y / x) = q, taken to the half plane of x.
static double math_atan_turned(double q, double y, double x) {
    if (x < 0.0) {
        if (0.0 < y) {
            return q + 3.141592653589793;
        }
        if (y < 0.0) {
            return q - 3.141592653589793;
        }
    }
    return q;
}

// The angle of the point (x, y).
static double math_atan_atan2(double y, double x) {
    if (y != y) {
        return y;
    }
    if (x != x) {
        return x;
    }
    if (math_atan_both_infinite(y, x)) {
        return math_atan_with_sign(math_atan_by_sign(x, 3.0 * 0.7853981633974483, 0.7853981633974483), y);
    }
    if (math_atan_zero_or_infinite(y, x)) {
        return math_atan_with_sign(math_atan_by_sign(x, 3.141592653589793, 0.0), y);
    }
    if (math_atan_zero_or_infinite(x, y)) {
        return math_atan_with_sign(1.5707963267948966, y);
    }
    return math_atan_turned(math_atan_atan(y / x), y, x);
}

// ==== fresnel
//
// The Fresnel equations of fresnel.rs for dielectric media, and Schlick's approximation. Each is for
// every f64 and never refuses.

// The square of the refracted ray's sine: 1 and above is total internal reflection.
static double fresnel_sin2_t(double cos_i, double n1, double n2) {
    double eta = n1 / n2;
    return eta * eta * ieee_max(1.0 - cos_i * cos_i, 0.0);
}

// The refracted ray's cosine.
static double fresnel_cos_t(double sin2_t) {
    return math_sqrt_sqrt(ieee_max(1.0 - sin2_t, 0.0));
}

// The power of an amplitude num / den.
static double fresnel_power(double num, double den) {
    if (ieee_abs(den) < 1e-30) {
        return 0.0;
    }
    return ieee_clamp(ieee_powi2(num / den), 0.0, 1.0);
}

// Rs and Rp where the light is refracted.
static fresnel_Reflectances fresnel_refracted(double cos_i, double cos_t, double n1, double n2) {
    double rs_num = n1 * cos_i - n2 * cos_t;
    double rs_den = n1 * cos_i + n2 * cos_t;
    double rs = fresnel_power(rs_num, rs_den);
    double rp_num = n2 * cos_i - n1 * cos_t;
    double rp_den = n2 * cos_i + n1 * cos_t;
    double rp = fresnel_power(rp_num, rp_den);
    return (fresnel_Reflectances){.rs = rs, .rp = rp};
}

// Rs and Rp of a dielectric interface; the cosine is clamped to 0..1.
static fresnel_Reflectances fresnel_fresnel_dielectric(double cos_theta_i, double n1, double n2) {
    double cos_i = ieee_clamp(cos_theta_i, 0.0, 1.0);
    double sin2_t = fresnel_sin2_t(cos_i, n1, n2);
    if (1.0 <= sin2_t) {
        return (fresnel_Reflectances){.rs = 1.0, .rp = 1.0};
    }
    return fresnel_refracted(cos_i, fresnel_cos_t(sin2_t), n1, n2);
}

// The reflectance (Rs + Rp) / 2 of unpolarized light, and what is left of it.
static fresnel_Unpolarized fresnel_fresnel_unpolarized(double cos_theta_i, double n1, double n2) {
    fresnel_Reflectances r = fresnel_fresnel_dielectric(cos_theta_i, n1, n2);
    double r_total = (r.rs + r.rp) * 0.5;
    double t_total = ieee_clamp(1.0 - r_total, 0.0, 1.0);
    return (fresnel_Unpolarized){.r_total = r_total, .t_total = t_total};
}

// R0 + (1 - R0) (1 - cos)^5
static double fresnel_schlick(double r0, double cos_theta) {
    double x = ieee_clamp(1.0 - cos_theta, 0.0, 1.0);
    return ieee_clamp(r0 + (1.0 - r0) * ieee_powi5(x), 0.0, 1.0);
}

// Schlick's approximation of the unpolarized reflectance: by the incident cosine where n1 <= n2, else
// by the refracted one.
static double fresnel_schlick_approx(double cos_theta_i, double n1, double n2) {
    double cos_i = ieee_clamp(cos_theta_i, 0.0, 1.0);
    double r0 = ieee_powi2((n1 - n2) / (n1 + n2));
    if (n1 <= n2) {
        return fresnel_schlick(r0, cos_i);
    }
    double sin2 = fresnel_sin2_t(cos_i, n1, n2);
    if (1.0 <= sin2) {
        return 1.0;
    }
    return fresnel_schlick(r0, fresnel_cos_t(sin2));
}

// ==== reflectance_range
//
// Indices off the data sheet: a low and a high reflectance of a bare surface met head-on, where both
// indices are known as ranges within 1 to 4.

// An index from 1 to 4; a NaN is none.
static bool reflectance_range_index_valid(double n) {
    if (1.0 <= n) {
        return n <= 4.0;
    }
    return false;
}

// Two ends of a range within 1 to 4.
static bool reflectance_range_range_valid(double low, double high) {
    if (!reflectance_range_index_valid(low)) {
        return false;
    }
    if (!reflectance_range_index_valid(high)) {
        return false;
    }
    return low <= high;
}

// What a bare surface reflects head-on.
static double reflectance_range_head_on(double n1, double n2) {
    fresnel_Reflectances reflectances = fresnel_fresnel_dielectric(1.0, n1, n2);
    return reflectances.rs;
}

// No less than the exact fraction: 1 + 2^-49 is more than its roundings.
static double reflectance_range_upper(double n1, double n2) {
    return reflectance_range_head_on(n1, n2) * 1.0000000000000018;
}

// No more than the exact fraction: 1 - 2^-49.
static double reflectance_range_lower(double n1, double n2) {
    return reflectance_range_head_on(n1, n2) * 0.9999999999999982;
}

// At the corner where the indices are farthest apart.
static double reflectance_range_high(double n1_low, double n1_high, double n2_low, double n2_high) {
    return ieee_max(reflectance_range_upper(n1_high, n2_low), reflectance_range_upper(n1_low, n2_high));
}

// At the corner where they are nearest; zero where the ranges meet.
static double reflectance_range_low(double n1_low, double n1_high, double n2_low, double n2_high) {
    if (n1_high < n2_low) {
        return reflectance_range_lower(n1_high, n2_low);
    }
    if (n2_high < n1_low) {
        return reflectance_range_lower(n1_low, n2_high);
    }
    return 0.0;
}

// A low and a high reflectance; 13 for a low end above its high end, or an end that is NaN or outside
// 1 to 4.
static result_reflectance_range_ReflectanceRange_refusal_Refusal reflectance_range_reflectance_range(double n1_low,
        double n1_high, double n2_low, double n2_high) {
    if (!reflectance_range_range_valid(n1_low, n1_high)) {
        return (result_reflectance_range_ReflectanceRange_refusal_Refusal){
                .tag = result_reflectance_range_ReflectanceRange_refusal_Refusal_Err,
                .as.Err = {.tag = refusal_Refusal_Range}};
    }
    if (!reflectance_range_range_valid(n2_low, n2_high)) {
        return (result_reflectance_range_ReflectanceRange_refusal_Refusal){
                .tag = result_reflectance_range_ReflectanceRange_refusal_Refusal_Err,
                .as.Err = {.tag = refusal_Refusal_Range}};
    }
    return (result_reflectance_range_ReflectanceRange_refusal_Refusal){
            .tag = result_reflectance_range_ReflectanceRange_refusal_Refusal_Ok,
            .as.Ok = {.low = reflectance_range_low(n1_low, n1_high, n2_low, n2_high),
            .high = reflectance_range_high(n1_low, n1_high, n2_low, n2_high)}};
}

// ==== thin_film_complex
//
// Complex numbers of two f64, as thin_film.rs has them: every operation rounds, in the Rust's order.

// The root of x / 2, of zero where that is below zero or a NaN.
static double thin_film_complex_half_root(double x) {
    return math_sqrt_sqrt(ieee_max(x / 2.0, 0.0));
}

// z = x + i y
static thin_film_complex_Complex thin_film_complex_Complex_new(double re, double im) {
    return (thin_film_complex_Complex){.re = re, .im = im};
}

// z = x + 0 i
static thin_film_complex_Complex thin_film_complex_Complex_real(double re) {
    return (thin_film_complex_Complex){.re = re, .im = 0.0};
}

static thin_film_complex_Complex thin_film_complex_Complex_zero(void) {
    return (thin_film_complex_Complex){.re = 0.0, .im = 0.0};
}

static thin_film_complex_Complex thin_film_complex_Complex_scale(thin_film_complex_Complex self, double s) {
    return (thin_film_complex_Complex){.re = self.re * s, .im = self.im * s};
}

// |z|^2 = x^2 + y^2
static double thin_film_complex_Complex_norm_sq(thin_film_complex_Complex self) {
    return self.re * self.re + self.im * self.im;
}

static double thin_film_complex_Complex_norm(thin_film_complex_Complex self) {
    return math_sqrt_sqrt(thin_film_complex_Complex_norm_sq(self));
}

static double thin_film_complex_Complex_arg(thin_film_complex_Complex self) {
    return math_atan_atan2(self.im, self.re);
}

// The principal root.
static thin_film_complex_Complex thin_film_complex_Complex_sqrt(thin_film_complex_Complex self) {
    if (self.im == 0.0) {
        if (0.0009765625 <= self.re) {
            if (self.re <= 1024.0) {
                return (thin_film_complex_Complex){.re = thin_film_complex_half_root(self.re + self.re), .im = 0.0};
            }
        }
    }
    double r = thin_film_complex_Complex_norm(self);
    double u = thin_film_complex_half_root(r + self.re);
    double v = thin_film_complex_half_root(r - self.re);
    if (0.0 <= self.im) {
        return (thin_film_complex_Complex){.re = u, .im = v};
    }
    return (thin_film_complex_Complex){.re = u, .im = -v};
}

static thin_film_complex_Complex thin_film_complex_Complex_add(thin_film_complex_Complex self,
        thin_film_complex_Complex rhs) {
    return (thin_film_complex_Complex){.re = self.re + rhs.re, .im = self.im + rhs.im};
}

static thin_film_complex_Complex thin_film_complex_Complex_sub(thin_film_complex_Complex self,
        thin_film_complex_Complex rhs) {
    return (thin_film_complex_Complex){.re = self.re - rhs.re, .im = self.im - rhs.im};
}

static thin_film_complex_Complex thin_film_complex_Complex_mul(thin_film_complex_Complex self,
        thin_film_complex_Complex rhs) {
    return (thin_film_complex_Complex){.re = self.re * rhs.re - self.im * rhs.im,
            .im = self.re * rhs.im + self.im * rhs.re};
}

static thin_film_complex_Complex thin_film_complex_Complex_div(thin_film_complex_Complex self,
        thin_film_complex_Complex rhs) {
    double denom = rhs.re * rhs.re + rhs.im * rhs.im;
    if (denom < 1e-28) {
        return thin_film_complex_Complex_zero();
    }
    return (thin_film_complex_Complex){.re = (self.re * rhs.re + self.im * rhs.im) / denom,
            .im = (self.im * rhs.re - self.re * rhs.im) / denom};
}

// ==== thin_film_matrix
//
// The characteristic matrix of one film, and products of such matrices: thin_film.rs's mat_mul_2x2
// and the body of the loop in its evaluate_tmm_multilayer.

// a b + c d
static thin_film_complex_Complex thin_film_matrix_dot(thin_film_complex_Complex a, thin_film_complex_Complex b,
        thin_film_complex_Complex c, thin_film_complex_Complex d) {
    return thin_film_complex_Complex_add(thin_film_complex_Complex_mul(a, b), thin_film_complex_Complex_mul(c, d));
}

static thin_film_complex_Complex_x2_x2 thin_film_matrix_mat_mul_2x2(thin_film_complex_Complex_x2_x2 a,
        thin_film_complex_Complex_x2_x2 b) {
    thin_film_complex_Complex_x2_x2 text_2 = b;
    return (thin_film_complex_Complex_x2_x2){{{{thin_film_matrix_dot(a.at[0].at[0], text_2.at[0].at[0], a.at[0].at[1],
            text_2.at[1].at[0]),
            thin_film_matrix_dot(a.at[0].at[0], text_2.at[0].at[1], a.at[0].at[1], text_2.at[1].at[1])}},
            {{thin_film_matrix_dot(a.at[1].at[0], text_2.at[0].at[0], a.at[1].at[1], text_2.at[1].at[0]),
            thin_film_matrix_dot(a.at[1].at[0], text_2.at[0].at[1], a.at[1].at[1], text_2.at[1].at[1])}}}};
}

// Before the first layer.
static thin_film_complex_Complex_x2_x2 thin_film_matrix_identity(void) {
    thin_film_complex_Complex one = thin_film_complex_Complex_real(1.0);
    thin_film_complex_Complex zero = thin_film_complex_Complex_zero();
    return (thin_film_complex_Complex_x2_x2){{{{one, zero}}, {{zero, one}}}};
}

// cos(theta) in a film of index n_c; snell is n_incident * sin_theta0.
static thin_film_complex_Complex thin_film_matrix_cos_theta(double snell, thin_film_complex_Complex n_c) {
    thin_film_complex_Complex sin_theta = thin_film_complex_Complex_div(thin_film_complex_Complex_real(snell), n_c);
    return thin_film_complex_Complex_sqrt(thin_film_complex_Complex_sub(thin_film_complex_Complex_real(1.0),
            thin_film_complex_Complex_mul(sin_theta, sin_theta)));
}

// e^x, at once where x is a zero.
static double thin_film_matrix_exp_of(double x) {
    if (x == 0.0) {
        return 1.0;
    }
    return math_exp_exp(x);
}

// Both exponentials from one sine and one cosine: -sin(x) stands for sin(-x). Where these differ,
// both are zeros, and the sum and the difference of the exponentials have the same bits.
static thin_film_matrix_Phase thin_film_matrix_phase_of(thin_film_complex_Complex delta) {
    math_trig_SinCos y = math_trig_sin_cos(delta.re);
    double pos = thin_film_matrix_exp_of(-delta.im);
    double neg = thin_film_matrix_exp_of(delta.im);
    thin_film_complex_Complex exp_pos = thin_film_complex_Complex_new(pos * y.cos, pos * y.sin);
    thin_film_complex_Complex exp_neg = thin_film_complex_Complex_new(neg * y.cos, neg * -y.sin);
    thin_film_complex_Complex cos_delta = thin_film_complex_Complex_scale(thin_film_complex_Complex_add(exp_pos,
            exp_neg), 0.5);
    thin_film_complex_Complex sin_delta = thin_film_complex_Complex_mul(thin_film_complex_Complex_sub(exp_pos,
            exp_neg), thin_film_complex_Complex_new(0.0, -0.5));
    return (thin_film_matrix_Phase){.cos = cos_delta,
            .i_sin = thin_film_complex_Complex_new(-sin_delta.im, sin_delta.re)};
}

// The characteristic matrix of a film of admittance eta.
static thin_film_complex_Complex_x2_x2 thin_film_matrix_characteristic(thin_film_matrix_Phase phase,
        thin_film_complex_Complex eta) {
    thin_film_complex_Complex cos = phase.cos;
    thin_film_complex_Complex i_sin = phase.i_sin;
    return (thin_film_complex_Complex_x2_x2){{{{cos, thin_film_complex_Complex_div(i_sin, eta)}},
            {{thin_film_complex_Complex_mul(i_sin, eta), cos}}}};
}

// ==== polarization_stokes
//
// Jones and Stokes vectors, as polarization.rs has them.

static polarization_stokes_JonesVector polarization_stokes_JonesVector_new(thin_film_complex_Complex ex,
        thin_film_complex_Complex ey) {
    return (polarization_stokes_JonesVector){.ex = ex, .ey = ey};
}

static polarization_stokes_JonesVector polarization_stokes_JonesVector_linear_horizontal(void) {
    return polarization_stokes_JonesVector_new(thin_film_complex_Complex_real(1.0), thin_film_complex_Complex_zero());
}

static polarization_stokes_JonesVector polarization_stokes_JonesVector_linear_vertical(void) {
    return polarization_stokes_JonesVector_new(thin_film_complex_Complex_zero(), thin_film_complex_Complex_real(1.0));
}

static polarization_stokes_JonesVector polarization_stokes_JonesVector_linear_45(void) {
    return polarization_stokes_JonesVector_new(thin_film_complex_Complex_real(0.7071067811865476),
            thin_film_complex_Complex_real(0.7071067811865476));
}

// (1, -i) / sqrt(2): its Stokes S3 is negative.
static polarization_stokes_JonesVector polarization_stokes_JonesVector_circular_right(void) {
    return polarization_stokes_JonesVector_new(thin_film_complex_Complex_real(0.7071067811865476),
            thin_film_complex_Complex_new(0.0, -0.7071067811865476));
}

// |Ex|^2 + |Ey|^2
static double polarization_stokes_JonesVector_intensity(polarization_stokes_JonesVector self) {
    return thin_film_complex_Complex_norm_sq(self.ex) + thin_film_complex_Complex_norm_sq(self.ey);
}

// The same state at intensity 1; as it is where there is hardly any.
static polarization_stokes_JonesVector polarization_stokes_JonesVector_normalize(
        polarization_stokes_JonesVector self) {
    double i = polarization_stokes_JonesVector_intensity(self);
    if (i <= 1e-28) {
        return self;
    }
    double inv_sqrt_i = 1.0 / math_sqrt_sqrt(i);
    return (polarization_stokes_JonesVector){.ex = thin_film_complex_Complex_scale(self.ex, inv_sqrt_i),
            .ey = thin_film_complex_Complex_scale(self.ey, inv_sqrt_i)};
}

// The Stokes parameters after Born and Wolf, in parts.
static polarization_stokes_StokesVector polarization_stokes_JonesVector_to_stokes(
        polarization_stokes_JonesVector self) {
    double i_x = thin_film_complex_Complex_norm_sq(self.ex);
    double i_y = thin_film_complex_Complex_norm_sq(self.ey);
    double ex_ey_conj_re = self.ex.re * self.ey.re + self.ex.im * self.ey.im;
    double ex_conj_ey_im = self.ex.re * self.ey.im - self.ex.im * self.ey.re;
    return (polarization_stokes_StokesVector){.s0 = i_x + i_y, .s1 = i_x - i_y, .s2 = 2.0 * ex_ey_conj_re,
            .s3 = 2.0 * ex_conj_ey_im};
}

static double polarization_stokes_StokesVector_degree_of_polarization(polarization_stokes_StokesVector self) {
    if (self.s0 <= 1e-15) {
        return 0.0;
    }
    double p_sq = self.s1 * self.s1 + self.s2 * self.s2 + self.s3 * self.s3;
    return ieee_clamp(math_sqrt_sqrt(p_sq) / self.s0, 0.0, 1.0);
}

static double polarization_stokes_StokesVector_degree_of_linear_polarization(polarization_stokes_StokesVector self) {
    if (self.s0 <= 1e-15) {
        return 0.0;
    }
    double lp = math_sqrt_sqrt(self.s1 * self.s1 + self.s2 * self.s2);
    return ieee_clamp(lp / self.s0, 0.0, 1.0);
}

static double polarization_stokes_StokesVector_degree_of_circular_polarization(
        polarization_stokes_StokesVector self) {
    if (self.s0 <= 1e-15) {
        return 0.0;
    }
    return ieee_clamp(ieee_abs(self.s3) / self.s0, 0.0, 1.0);
}

// Half of atan2(S2, S1).
static double polarization_stokes_StokesVector_orientation_angle_rad(polarization_stokes_StokesVector self) {
    return 0.5 * math_atan_atan2(self.s2, self.s1);
}

// Half of arcsin(S3 / S0).
static double polarization_stokes_StokesVector_ellipticity_angle_rad(polarization_stokes_StokesVector self) {
    if (self.s0 <= 1e-15) {
        return 0.0;
    }
    double ratio = ieee_clamp(self.s3 / self.s0, -1.0, 1.0);
    return 0.5 * math_atan_asin(ratio);
}

// ==== thin_film_solver
//
// The transfer-matrix method of thin_film.rs, one layer at a time and by value.
//
// Whoever has layers, in a list, by index or in a sheet, begins with two identity matrices, takes
// step_s and step_p for each layer, from the incident medium to the substrate, and calls finish.

// A lossless layer.
static thin_film_solver_ThinFilmLayer thin_film_solver_ThinFilmLayer_dielectric(double n, double thickness_nm) {
    return (thin_film_solver_ThinFilmLayer){.n = n, .k = 0.0, .thickness_nm = thickness_nm};
}

static thin_film_solver_Incidence thin_film_solver_Incidence_new(double n_incident, double n_substrate,
        double angle_incident_rad, double wavelength_nm) {
    math_trig_SinCos theta0 = math_trig_sin_cos(angle_incident_rad);
    return (thin_film_solver_Incidence){.n_incident = n_incident, .n_substrate = n_substrate,
            .cos_theta0 = theta0.cos, .snell = n_incident * theta0.sin, .wavelength_nm = wavelength_nm};
}

// Those of a layer.
static thin_film_solver_Terms thin_film_solver_terms_of(thin_film_solver_Incidence light,
        thin_film_solver_ThinFilmLayer layer) {
    thin_film_complex_Complex n_c = thin_film_complex_Complex_new(layer.n, -layer.k);
    thin_film_complex_Complex cos = thin_film_matrix_cos_theta(light.snell, n_c);
    thin_film_complex_Complex eta_s = thin_film_complex_Complex_mul(n_c, cos);
    thin_film_complex_Complex eta_p = thin_film_complex_Complex_div(n_c, cos);
    double factor = 2.0 * 3.141592653589793 * layer.thickness_nm / light.wavelength_nm;
    thin_film_matrix_Phase phase = thin_film_matrix_phase_of(thin_film_complex_Complex_scale(eta_s, factor));
    return (thin_film_solver_Terms){.phase = phase, .eta_s = eta_s, .eta_p = eta_p};
}

// m_layer_s
static thin_film_complex_Complex_x2_x2 thin_film_solver_layer_s(thin_film_solver_Terms terms) {
    thin_film_matrix_Phase phase = terms.phase;
    thin_film_complex_Complex eta_s = terms.eta_s;
    return thin_film_matrix_characteristic(phase, eta_s);
}

// m_layer_p
static thin_film_complex_Complex_x2_x2 thin_film_solver_layer_p(thin_film_solver_Terms terms) {
    thin_film_matrix_Phase phase = terms.phase;
    thin_film_complex_Complex eta_p = terms.eta_p;
    return thin_film_matrix_characteristic(phase, eta_p);
}

// ms = mat_mul_2x2(ms, m_layer_s)
static thin_film_complex_Complex_x2_x2 thin_film_solver_step_s(thin_film_complex_Complex_x2_x2 ms,
        thin_film_solver_Terms terms) {
    return thin_film_matrix_mat_mul_2x2(ms, thin_film_solver_layer_s(terms));
}

// mp = mat_mul_2x2(mp, m_layer_p)
static thin_film_complex_Complex_x2_x2 thin_film_solver_step_p(thin_film_complex_Complex_x2_x2 mp,
        thin_film_solver_Terms terms) {
    return thin_film_matrix_mat_mul_2x2(mp, thin_film_solver_layer_p(terms));
}

// [B; C] = M * [1; eta], and what follows from them. eta0 is the incident admittance, eta the
// substrate's.
static thin_film_solver_Polarized thin_film_solver_solve(thin_film_complex_Complex_x2_x2 m,
        thin_film_complex_Complex eta0, thin_film_complex_Complex eta) {
    thin_film_complex_Complex m11 = m.at[0].at[0];
    thin_film_complex_Complex m12 = m.at[0].at[1];
    thin_film_complex_Complex m21 = m.at[1].at[0];
    thin_film_complex_Complex m22 = m.at[1].at[1];
    thin_film_complex_Complex b = thin_film_complex_Complex_add(m11, thin_film_complex_Complex_mul(m12, eta));
    thin_film_complex_Complex c = thin_film_complex_Complex_add(m21, thin_film_complex_Complex_mul(m22, eta));
    thin_film_complex_Complex num = thin_film_complex_Complex_sub(thin_film_complex_Complex_mul(eta0, b), c);
    thin_film_complex_Complex den = thin_film_complex_Complex_add(thin_film_complex_Complex_mul(eta0, b), c);
    thin_film_complex_Complex r = thin_film_complex_Complex_div(num, den);
    thin_film_complex_Complex t = thin_film_complex_Complex_div(thin_film_complex_Complex_scale(eta0, 2.0), den);
    return (thin_film_solver_Polarized){.r = r, .t = t,
            .reflectance = ieee_clamp(thin_film_complex_Complex_norm_sq(r), 0.0, 1.0),
            .transmittance = ieee_clamp(eta.re / eta0.re * thin_film_complex_Complex_norm_sq(t), 0.0, 1.0),
            .phase = thin_film_complex_Complex_arg(r)};
}

// cos(theta) in the substrate: beyond a sine of 1 there is total internal reflection.
static thin_film_complex_Complex thin_film_solver_cos_theta_sub(double sin_theta_sub) {
    if (ieee_abs(sin_theta_sub) <= 1.0) {
        return thin_film_complex_Complex_real(math_sqrt_sqrt(ieee_max(1.0 - sin_theta_sub * sin_theta_sub, 0.0)));
    }
    return thin_film_complex_Complex_new(0.0, -math_sqrt_sqrt(sin_theta_sub * sin_theta_sub - 1.0));
}

// What is neither reflected nor transmitted.
static double thin_film_solver_absorptance(double reflectance, double transmittance) {
    return ieee_clamp(1.0 - reflectance - transmittance, 0.0, 1.0);
}

// The one maker of a response, from the answers for s and for p.
static thin_film_solver_CoatingResponse thin_film_solver_respond(thin_film_solver_Polarized s,
        thin_film_solver_Polarized p) {
    thin_film_complex_Complex rs = s.r;
    thin_film_complex_Complex rp = p.r;
    thin_film_complex_Complex ts = s.t;
    thin_film_complex_Complex tp = p.t;
    return (thin_film_solver_CoatingResponse){.rs = rs, .rp = rp, .ts = ts, .tp = tp, .reflectance_s = s.reflectance,
            .reflectance_p = p.reflectance, .transmittance_s = s.transmittance, .transmittance_p = p.transmittance,
            .phase_rs_rad = s.phase, .phase_rp_rad = p.phase,
            .absorptance_s = thin_film_solver_absorptance(s.reflectance, s.transmittance),
            .absorptance_p = thin_film_solver_absorptance(p.reflectance, p.transmittance)};
}

// The response, from the products of all the layers' matrices.
static thin_film_solver_CoatingResponse thin_film_solver_finish(thin_film_solver_Incidence light,
        thin_film_complex_Complex_x2_x2 ms, thin_film_complex_Complex_x2_x2 mp) {
    thin_film_complex_Complex cos = thin_film_solver_cos_theta_sub(light.snell / light.n_substrate);
    thin_film_complex_Complex n_sub = thin_film_complex_Complex_real(light.n_substrate);
    thin_film_complex_Complex eta0_s = thin_film_complex_Complex_real(light.n_incident * light.cos_theta0);
    thin_film_complex_Complex eta0_p = thin_film_complex_Complex_real(light.n_incident / ieee_max(light.cos_theta0,
            1e-12));
    thin_film_solver_Polarized s = thin_film_solver_solve(ms, eta0_s, thin_film_complex_Complex_mul(n_sub, cos));
    thin_film_solver_Polarized p = thin_film_solver_solve(mp, eta0_p, thin_film_complex_Complex_div(n_sub, cos));
    return thin_film_solver_respond(s, p);
}

// Where there is no response: zero throughout.
static thin_film_solver_CoatingResponse thin_film_solver_no_response(void) {
    thin_film_complex_Complex zero = thin_film_complex_Complex_zero();
    return (thin_film_solver_CoatingResponse){.rs = zero, .rp = zero, .ts = zero, .tp = zero, .reflectance_s = 0.0,
            .reflectance_p = 0.0, .transmittance_s = 0.0, .transmittance_p = 0.0, .phase_rs_rad = 0.0,
            .phase_rp_rad = 0.0, .absorptance_s = 0.0, .absorptance_p = 0.0};
}

// ==== polarization_mueller
//
// Jones and Mueller matrices, as polarization.rs has them: flat arrays, one row after the other.

// A retarder, of e^(i delta/2) and e^(-i delta/2) and the fast axis's cosine and sine.
static polarization_mueller_JonesMatrix polarization_mueller_retarding(thin_film_complex_Complex exp_pos,
        thin_film_complex_Complex exp_neg, double c, double s) {
    double c2 = c * c;
    double s2 = s * s;
    double cs = c * s;
    thin_film_complex_Complex m00 = thin_film_complex_Complex_add(thin_film_complex_Complex_scale(exp_pos, c2),
            thin_film_complex_Complex_scale(exp_neg, s2));
    thin_film_complex_Complex m01 = thin_film_complex_Complex_scale(thin_film_complex_Complex_sub(exp_pos, exp_neg),
            cs);
    thin_film_complex_Complex m11 = thin_film_complex_Complex_add(thin_film_complex_Complex_scale(exp_pos, s2),
            thin_film_complex_Complex_scale(exp_neg, c2));
    return (polarization_mueller_JonesMatrix){.m = {{m00, m01, m01, m11}}};
}

// E' = J E
static polarization_stokes_JonesVector polarization_mueller_JonesMatrix_apply(polarization_mueller_JonesMatrix self,
        polarization_stokes_JonesVector v) {
    thin_film_complex_Complex_x4 m = self.m;
    thin_film_complex_Complex x = v.ex;
    thin_film_complex_Complex y = v.ey;
    return (polarization_stokes_JonesVector){.ex = thin_film_matrix_dot(m.at[0], x, m.at[1], y),
            .ey = thin_film_matrix_dot(m.at[2], x, m.at[3], y)};
}

// The response to a state, as a Stokes vector.
static polarization_stokes_StokesVector polarization_mueller_response(polarization_mueller_JonesMatrix j,
        polarization_stokes_JonesVector v) {
    return polarization_stokes_JonesVector_to_stokes(polarization_mueller_JonesMatrix_apply(j, v));
}

// A Mueller matrix by its columns, from the responses to four states.
static polarization_mueller_MuellerMatrix polarization_mueller_columns(polarization_stokes_StokesVector h,
        polarization_stokes_StokesVector v, polarization_stokes_StokesVector p45,
        polarization_stokes_StokesVector rcp) {
    double m00 = 0.5 * (h.s0 + v.s0);
    double m10 = 0.5 * (h.s1 + v.s1);
    double m20 = 0.5 * (h.s2 + v.s2);
    double m30 = 0.5 * (h.s3 + v.s3);
    double m01 = 0.5 * (h.s0 - v.s0);
    double m11 = 0.5 * (h.s1 - v.s1);
    double m21 = 0.5 * (h.s2 - v.s2);
    double m31 = 0.5 * (h.s3 - v.s3);
    double m02 = p45.s0 - m00;
    double m12 = p45.s1 - m10;
    double m22 = p45.s2 - m20;
    double m32 = p45.s3 - m30;
    double m03 = rcp.s0 - m00;
    double m13 = rcp.s1 - m10;
    double m23 = rcp.s2 - m20;
    double m33 = rcp.s3 - m30;
    return (polarization_mueller_MuellerMatrix){
            .m = {{m00, m01, m02, m03, m10, m11, m12, m13, m20, m21, m22, m23, m30, m31, m32, m33}}};
}

// At an angle to the x-axis.
static polarization_mueller_JonesMatrix polarization_mueller_JonesMatrix_linear_polarizer(double angle_rad) {
    double c = math_trig_cos(angle_rad);
    double s = math_trig_sin(angle_rad);
    thin_film_complex_Complex cc = thin_film_complex_Complex_real(c * c);
    thin_film_complex_Complex cs = thin_film_complex_Complex_real(c * s);
    thin_film_complex_Complex ss = thin_film_complex_Complex_real(s * s);
    return (polarization_mueller_JonesMatrix){.m = {{cc, cs, cs, ss}}};
}

static polarization_mueller_JonesMatrix polarization_mueller_JonesMatrix_retarder(double retardance_rad,
        double fast_axis_rad) {
    math_trig_SinCos half_delta = math_trig_sin_cos(retardance_rad * 0.5);
    thin_film_complex_Complex exp_pos = thin_film_complex_Complex_new(half_delta.cos, half_delta.sin);
    thin_film_complex_Complex exp_neg = thin_film_complex_Complex_new(half_delta.cos, -half_delta.sin);
    math_trig_SinCos axis = math_trig_sin_cos(fast_axis_rad);
    return polarization_mueller_retarding(exp_pos, exp_neg, axis.cos, axis.sin);
}

static polarization_mueller_JonesMatrix polarization_mueller_JonesMatrix_quarter_wave_plate(double fast_axis_rad) {
    return polarization_mueller_JonesMatrix_retarder(1.5707963267948966, fast_axis_rad);
}

static polarization_mueller_JonesMatrix polarization_mueller_JonesMatrix_half_wave_plate(double fast_axis_rad) {
    return polarization_mueller_JonesMatrix_retarder(3.141592653589793, fast_axis_rad);
}

// Diagonal: the amplitudes of the two polarizations.
static polarization_mueller_JonesMatrix polarization_mueller_JonesMatrix_diattenuator(thin_film_complex_Complex tx,
        thin_film_complex_Complex ty) {
    thin_film_complex_Complex zero = thin_film_complex_Complex_zero();
    return (polarization_mueller_JonesMatrix){.m = {{tx, zero, zero, ty}}};
}

static polarization_mueller_JonesMatrix polarization_mueller_JonesMatrix_mul(polarization_mueller_JonesMatrix self,
        polarization_mueller_JonesMatrix rhs) {
    thin_film_complex_Complex_x4 a = self.m;
    thin_film_complex_Complex_x4 b = rhs.m;
    return (polarization_mueller_JonesMatrix){
            .m = {{thin_film_matrix_dot(a.at[0], b.at[0], a.at[1], b.at[2]),
            thin_film_matrix_dot(a.at[0], b.at[1], a.at[1], b.at[3]),
            thin_film_matrix_dot(a.at[2], b.at[0], a.at[3], b.at[2]),
            thin_film_matrix_dot(a.at[2], b.at[1], a.at[3], b.at[3])}}};
}

// Its columns come from four states; the fourth is the response to circular_right.
static polarization_mueller_MuellerMatrix polarization_mueller_JonesMatrix_to_mueller(
        polarization_mueller_JonesMatrix self) {
    polarization_stokes_StokesVector h = polarization_mueller_response(self,
            polarization_stokes_JonesVector_linear_horizontal());
    polarization_stokes_StokesVector v = polarization_mueller_response(self,
            polarization_stokes_JonesVector_linear_vertical());
    polarization_stokes_StokesVector p45 = polarization_mueller_response(self,
            polarization_stokes_JonesVector_linear_45());
    polarization_stokes_StokesVector rcp = polarization_mueller_response(self,
            polarization_stokes_JonesVector_circular_right());
    return polarization_mueller_columns(h, v, p45, rcp);
}

// A row times a Stokes vector, added onto +0.
static double polarization_mueller_row_times(double a, double b, double c, double d,
        polarization_stokes_StokesVector s) {
    return 0.0 + a * s.s0 + b * s.s1 + c * s.s2 + d * s.s3;
}

// S' = M S
static polarization_stokes_StokesVector polarization_mueller_MuellerMatrix_apply(
        polarization_mueller_MuellerMatrix self, polarization_stokes_StokesVector s) {
    f64_x16 m = self.m;
    return (polarization_stokes_StokesVector){.s0 = polarization_mueller_row_times(m.at[0], m.at[1], m.at[2], m.at[3],
            s), .s1 = polarization_mueller_row_times(m.at[4], m.at[5], m.at[6], m.at[7], s),
            .s2 = polarization_mueller_row_times(m.at[8], m.at[9], m.at[10], m.at[11], s),
            .s3 = polarization_mueller_row_times(m.at[12], m.at[13], m.at[14], m.at[15], s)};
}

// ==== polarization_born_wolf
//
// The Mueller matrix of a Jones matrix over Stokes vectors with S3 = 2·Im(Ex*·Ey), as Born and Wolf have them
// (document 02, slip 8). `to_mueller` of polarization_mueller is the Rust's.

// The Stokes vector of the beam that (ex, ey) becomes.
static polarization_stokes_StokesVector polarization_born_wolf_transformed(polarization_mueller_JonesMatrix j,
        thin_film_complex_Complex ex, thin_film_complex_Complex ey) {
    return polarization_stokes_JonesVector_to_stokes(polarization_mueller_JonesMatrix_apply(j,
            polarization_stokes_JonesVector_new(ex, ey)));
}

// A Mueller matrix from what the beams (1, 0), (0, 1), (1, 1), (1, -1), (1, i) and (1, -i) become.
static polarization_mueller_MuellerMatrix polarization_born_wolf_from_six(polarization_stokes_StokesVector x,
        polarization_stokes_StokesVector y, polarization_stokes_StokesVector plus,
        polarization_stokes_StokesVector minus, polarization_stokes_StokesVector plus_i,
        polarization_stokes_StokesVector minus_i) {
    return (polarization_mueller_MuellerMatrix){
            .m = {{0.5 * (x.s0 + y.s0), 0.5 * (x.s0 - y.s0), 0.25 * (plus.s0 - minus.s0),
            0.25 * (plus_i.s0 - minus_i.s0), 0.5 * (x.s1 + y.s1), 0.5 * (x.s1 - y.s1), 0.25 * (plus.s1 - minus.s1),
            0.25 * (plus_i.s1 - minus_i.s1), 0.5 * (x.s2 + y.s2), 0.5 * (x.s2 - y.s2), 0.25 * (plus.s2 - minus.s2),
            0.25 * (plus_i.s2 - minus_i.s2), 0.5 * (x.s3 + y.s3), 0.5 * (x.s3 - y.s3), 0.25 * (plus.s3 - minus.s3),
            0.25 * (plus_i.s3 - minus_i.s3)}}};
}

static polarization_mueller_MuellerMatrix polarization_born_wolf_to_mueller_born_wolf(
        polarization_mueller_JonesMatrix j) {
    thin_film_complex_Complex zero = thin_film_complex_Complex_zero();
    thin_film_complex_Complex one = thin_film_complex_Complex_new(1.0, 0.0);
    return polarization_born_wolf_from_six(polarization_born_wolf_transformed(j, one, zero),
            polarization_born_wolf_transformed(j, zero, one), polarization_born_wolf_transformed(j, one, one),
            polarization_born_wolf_transformed(j, one, thin_film_complex_Complex_new(-1.0, 0.0)),
            polarization_born_wolf_transformed(j, one, thin_film_complex_Complex_new(0.0, 1.0)),
            polarization_born_wolf_transformed(j, one, thin_film_complex_Complex_new(0.0, -1.0)));
}

// ==== thin_film_valid
//
// What an evaluation asks and answers before any layer is read: the tests of its numbers, and the
// responses of the ideal coatings.

// The seven tests of evaluate: what fails one is InvalidParameter.
static bool thin_film_valid_valid(double n_incident, double n_substrate, double angle_incident_rad,
        double wavelength_nm) {
    if (!ieee_finite_positive(n_incident)) {
        return false;
    }
    if (!ieee_finite_positive(n_substrate)) {
        return false;
    }
    return ieee_is_finite(angle_incident_rad) && ieee_finite_positive(wavelength_nm);
}

static thin_film_solver_CoatingResponse thin_film_valid_ideal_ar(void) {
    thin_film_solver_Polarized clear = {.r = thin_film_complex_Complex_zero(),
            .t = thin_film_complex_Complex_real(1.0), .reflectance = 0.0, .transmittance = 1.0, .phase = 0.0};
    return thin_film_solver_respond(clear, clear);
}

// r and its phase, and nothing transmitted.
static thin_film_solver_Polarized thin_film_valid_mirrored(double r, double phase) {
    return (thin_film_solver_Polarized){.r = thin_film_complex_Complex_real(r), .t = thin_film_complex_Complex_zero(),
            .reflectance = 1.0, .transmittance = 0.0, .phase = phase};
}

static thin_film_solver_CoatingResponse thin_film_valid_ideal_mirror(void) {
    thin_film_solver_Polarized s = thin_film_valid_mirrored(-1.0, 3.141592653589793);
    thin_film_solver_Polarized p = thin_film_valid_mirrored(1.0, 0.0);
    return thin_film_solver_respond(s, p);
}

static thin_film_solver_CoatingResponse thin_film_valid_ideal_beamsplitter(void) {
    thin_film_complex_Complex amp = thin_film_complex_Complex_real(math_sqrt_sqrt(0.5));
    thin_film_solver_Polarized halved = {.r = amp, .t = amp, .reflectance = 0.5, .transmittance = 0.5, .phase = 0.0};
    return thin_film_solver_respond(halved, halved);
}

// ==== thin_film_layers
//
// An evaluation before and while its layers are read: which are, and from which end; and the loop over
// the caller's own list of them.

// The index of the i-th layer that is read, of n.
static uint64_t thin_film_layers_nth_index(bool reversed, uint64_t n, uint64_t i) {
    if (reversed) {
        if (i < n) {
            return n - 1 - i;
        }
        return 0;
    }
    return i;
}

// ==== polarization
//
// The Jones matrices of a surface, coated or bare, as polarization.rs has them.

static polarization_SurfaceJones polarization_surface_coating_jones(thin_film_solver_CoatingResponse coating) {
    thin_film_complex_Complex rs = coating.rs;
    thin_film_complex_Complex rp = coating.rp;
    thin_film_complex_Complex ts = coating.ts;
    thin_film_complex_Complex tp = coating.tp;
    polarization_mueller_JonesMatrix reflection = polarization_mueller_JonesMatrix_diattenuator(rs, rp);
    polarization_mueller_JonesMatrix transmission = polarization_mueller_JonesMatrix_diattenuator(ts, tp);
    return (polarization_SurfaceJones){.reflection = reflection, .transmission = transmission};
}

// The five tests of surface_fresnel_jones: what fails one is InvalidParameter.
static bool polarization_indices_valid(double n1, double n2, double angle_i_rad) {
    if (!ieee_finite_positive(n1)) {
        return false;
    }
    return ieee_finite_positive(n2) && ieee_is_finite(angle_i_rad);
}

// sqrt(sin_i^2 - (n2 / n1)^2)
static double polarization_excess(double n1, double n2, double sin_i) {
    return math_sqrt_sqrt(sin_i * sin_i - ieee_powi2(n2 / n1));
}

// cos + i sin of a phase.
static thin_film_complex_Complex polarization_phase_factor(double phase) {
    math_trig_SinCos p = math_trig_sin_cos(phase);
    return thin_film_complex_Complex_new(p.cos, p.sin);
}

// rs and rp have magnitude 1 and a phase; nothing is transmitted.
static polarization_SurfaceJones polarization_totally_reflected(double n1, double n2, double sin_i, double cos_i) {
    double excess = polarization_excess(n1, n2, sin_i);
    double rs_phase = -2.0 * math_atan_atan(excess / cos_i);
    double rp_phase = -2.0 * math_atan_atan(ieee_powi2(n1 / n2) * excess / cos_i);
    polarization_mueller_JonesMatrix reflection = polarization_mueller_JonesMatrix_diattenuator(
            polarization_phase_factor(rs_phase), polarization_phase_factor(rp_phase));
    polarization_mueller_JonesMatrix transmission = polarization_mueller_JonesMatrix_diattenuator(
            thin_film_complex_Complex_zero(), thin_film_complex_Complex_zero());
    return (polarization_SurfaceJones){.reflection = reflection, .transmission = transmission};
}

// The refracted ray's cosine.
static double polarization_cos_t(double sin_t) {
    return math_sqrt_sqrt(ieee_max(1.0 - sin_t * sin_t, 0.0));
}

// A real diagonal matrix.
static polarization_mueller_JonesMatrix polarization_real_diattenuator(double tx, double ty) {
    return polarization_mueller_JonesMatrix_diattenuator(thin_film_complex_Complex_real(tx),
            thin_film_complex_Complex_real(ty));
}

static polarization_SurfaceJones polarization_refracted(double n1, double n2, double cos_i, double cos_t) {
    double rs = (n1 * cos_i - n2 * cos_t) / (n1 * cos_i + n2 * cos_t);
    double rp = (n2 * cos_i - n1 * cos_t) / (n2 * cos_i + n1 * cos_t);
    double ts = 2.0 * n1 * cos_i / (n1 * cos_i + n2 * cos_t);
    double tp = 2.0 * n1 * cos_i / (n2 * cos_i + n1 * cos_t);
    polarization_mueller_JonesMatrix reflection = polarization_real_diattenuator(rs, rp);
    polarization_mueller_JonesMatrix transmission = polarization_real_diattenuator(ts, tp);
    return (polarization_SurfaceJones){.reflection = reflection, .transmission = transmission};
}

// Total internal reflection where the refracted sine is above 1 in size, not at 1.
static polarization_SurfaceJones polarization_bare(double n1, double n2, double sin_i, double cos_i) {
    double sin_t = n1 * sin_i / n2;
    if (1.0 < ieee_abs(sin_t)) {
        return polarization_totally_reflected(n1, n2, sin_i, cos_i);
    }
    return polarization_refracted(n1, n2, cos_i, polarization_cos_t(sin_t));
}

// The matrices of a bare dielectric surface. Indices that are not finite and above zero, and an angle
// that is not finite, are refused with 1.
static result_polarization_SurfaceJones_refusal_Refusal polarization_surface_fresnel_jones(double n1, double n2,
        double angle_i_rad) {
    if (!polarization_indices_valid(n1, n2, angle_i_rad)) {
        return (result_polarization_SurfaceJones_refusal_Refusal){
                .tag = result_polarization_SurfaceJones_refusal_Refusal_Err,
                .as.Err = {.tag = refusal_Refusal_InvalidParameter}};
    }
    math_trig_SinCos i = math_trig_sin_cos(angle_i_rad);
    return (result_polarization_SurfaceJones_refusal_Refusal){
            .tag = result_polarization_SurfaceJones_refusal_Refusal_Ok,
            .as.Ok = polarization_bare(n1, n2, i.sin, i.cos)};
}

// ==== thin_film_presets
//
// The layers of the preset coatings by index, and 64 places that hold none.

// No layer in any place.
static thin_film_solver_ThinFilmLayer_x64 thin_film_presets_no_layers(void) {
    return (thin_film_solver_ThinFilmLayer_x64){{{0}}};
}

// A lossless layer, a quarter of the design wavelength thick.
static thin_film_solver_ThinFilmLayer thin_film_presets_quarter_wave(double n, double design_wavelength_nm) {
    return thin_film_solver_ThinFilmLayer_dielectric(n, design_wavelength_nm / (4.0 * n));
}

// The i-th of the four layers of the broadband coating, from the incident medium to the substrate: SiO2, TiO2, SiO2, TiO2.
static thin_film_solver_ThinFilmLayer thin_film_presets_broadband(uint64_t i) {
    if (i == 0) {
        return thin_film_solver_ThinFilmLayer_dielectric(1.46, 88.0);
    }
    if (i == 1) {
        return thin_film_solver_ThinFilmLayer_dielectric(2.3, 112.0);
    }
    if (i == 2) {
        return thin_film_solver_ThinFilmLayer_dielectric(1.46, 32.0);
    }
    if (i == 3) {
        return thin_film_solver_ThinFilmLayer_dielectric(2.3, 15.0);
    }
    return thin_film_solver_ThinFilmLayer_dielectric(0.0, 0.0);
}

// The i-th layer of (H L)^N H, the same for each N that has one: N = i has.
static thin_film_solver_ThinFilmLayer thin_film_presets_bragg(double n_high, double n_low,
        double design_wavelength_nm, uint64_t i) {
    if (i % 2 == 0) {
        return thin_film_presets_quarter_wave(n_high, design_wavelength_nm);
    }
    return thin_film_presets_quarter_wave(n_low, design_wavelength_nm);
}

// ==== thin_film_coating
//
// A coating of thin_film.rs beside a list of its layers: how it is built, and its response at a
// wavelength and an angle of incidence.

// One layer alone.
static thin_film_coating_Built thin_film_coating_single(thin_film_solver_ThinFilmLayer layer) {
    thin_film_solver_ThinFilmLayer_x64 items = thin_film_presets_no_layers();
    items.at[0] = layer;
    return (thin_film_coating_Built){.refusal = 0, .coating = thin_film_coating_Coating_Multilayer,
            .layers = {.items = items, .count = 1}};
}

// A single quarter-wave layer of index sqrt(n_ambient * n_substrate).
static thin_film_coating_Built thin_film_coating_Coating_quarter_wave_ar(double n_ambient, double n_substrate,
        double design_wavelength_nm) {
    double n_opt = math_sqrt_sqrt(n_ambient * n_substrate);
    return thin_film_coating_single(thin_film_presets_quarter_wave(n_opt, design_wavelength_nm));
}

// An evaluation whose response needs no layer beside the coating.
static thin_film_layers_Prepared thin_film_coating_answered(thin_film_solver_CoatingResponse response) {
    return (thin_film_layers_Prepared){.tag = thin_film_layers_Prepared_Answered,
            .as.Answered = {.tag = result_thin_film_solver_CoatingResponse_refusal_Refusal_Ok, .as.Ok = response}};
}

// The one place that says which layers an evaluation reads, from which end, and what is refused:
// Coating::evaluate, up to the layers beside the coating, of which there are count.
static thin_film_layers_Prepared thin_film_coating_prepare(thin_film_coating_Coating coating, bool reversed,
        uint64_t count, double n_incident, double n_substrate, double angle_incident_rad, double wavelength_nm) {
    if (!thin_film_valid_valid(n_incident, n_substrate, angle_incident_rad, wavelength_nm)) {
        return (thin_film_layers_Prepared){.tag = thin_film_layers_Prepared_Answered,
                .as.Answered = {.tag = result_thin_film_solver_CoatingResponse_refusal_Refusal_Err,
                .as.Err = {.tag = refusal_Refusal_InvalidParameter}}};
    }
    switch (coating) {
    case thin_film_coating_Coating_IdealAr:
        return thin_film_coating_answered(thin_film_valid_ideal_ar());
    case thin_film_coating_Coating_IdealMirror:
        return thin_film_coating_answered(thin_film_valid_ideal_mirror());
    case thin_film_coating_Coating_IdealBeamsplitter:
        return thin_film_coating_answered(thin_film_valid_ideal_beamsplitter());
    default: // thin_film_coating_Coating_Multilayer
    {
        if (64 < count) {
            return (thin_film_layers_Prepared){.tag = thin_film_layers_Prepared_Answered,
                    .as.Answered = {.tag = result_thin_film_solver_CoatingResponse_refusal_Refusal_Err,
                    .as.Err = {.tag = refusal_Refusal_TooManyLayers}}};
        }
        thin_film_solver_Incidence light = thin_film_solver_Incidence_new(n_incident, n_substrate, angle_incident_rad,
                wavelength_nm);
        return (thin_film_layers_Prepared){.tag = thin_film_layers_Prepared_Layers, .as.Layers.reversed = reversed,
                .as.Layers.light = light};
    }
    }
}

// ==== thin_film
//
// Optical coatings of thin_film.rs as they are ordered: what they are made of, and their response at a
// wavelength and an angle of incidence. A list of layers stands beside the enum that speaks of it.

// A quarter wave of magnesium fluoride at 550 nm.
static thin_film_SurfaceCoating thin_film_SurfaceCoating_mgf2_default(void) {
    return (thin_film_SurfaceCoating){.tag = thin_film_SurfaceCoating_MgF2, .as.MgF2 = 550.0};
}

// How many layers of its own a coating has: a preset has some, and any other has those beside it alone.
static uint64_t thin_film_reading_own_count(thin_film_SurfaceCoating coating) {
    switch (coating.tag) {
    case thin_film_SurfaceCoating_IdealAr:
        return 0;
    case thin_film_SurfaceCoating_MgF2:
        return 1;
    case thin_film_SurfaceCoating_BroadbandAr:
        return 4;
    case thin_film_SurfaceCoating_HighReflectanceMirror:
        return 15;
    default: // thin_film_SurfaceCoating_Custom
        return 0;
    }
}

// The i-th of them, where there is one.
static thin_film_solver_ThinFilmLayer thin_film_reading_nth_own(thin_film_SurfaceCoating coating, uint64_t i) {
    switch (coating.tag) {
    case thin_film_SurfaceCoating_IdealAr:
        return thin_film_solver_ThinFilmLayer_dielectric(0.0, 0.0);
    case thin_film_SurfaceCoating_MgF2:
    {
        double design_wavelength_nm = coating.as.MgF2;
        return thin_film_presets_quarter_wave(1.38, design_wavelength_nm);
    }
    case thin_film_SurfaceCoating_BroadbandAr:
        return thin_film_presets_broadband(i);
    case thin_film_SurfaceCoating_HighReflectanceMirror:
        return thin_film_presets_bragg(2.3, 1.46, 550.0, i);
    default: // thin_film_SurfaceCoating_Custom
        return thin_film_solver_ThinFilmLayer_dielectric(0.0, 0.0);
    }
}

// The i-th of them; past the last there is no layer.
static thin_film_solver_ThinFilmLayer thin_film_reading_own_layer(thin_film_SurfaceCoating coating, uint64_t i) {
    if (i < thin_film_reading_own_count(coating)) {
        return thin_film_reading_nth_own(coating, i);
    }
    return thin_film_solver_ThinFilmLayer_dielectric(0.0, 0.0);
}

// The response with a coating's own layers, in their order or reversed.
static thin_film_solver_CoatingResponse thin_film_reading_solve_own(thin_film_SurfaceCoating coating, bool reversed,
        thin_film_solver_Incidence light) {
    uint64_t n = thin_film_reading_own_count(coating);
    thin_film_complex_Complex_x2_x2 ms = thin_film_matrix_identity();
    thin_film_complex_Complex_x2_x2 mp = thin_film_matrix_identity();
    uint64_t i = 0;
    while (i < n) {
        uint64_t j = thin_film_layers_nth_index(reversed, n, i);
        thin_film_solver_Terms terms = thin_film_solver_terms_of(light, thin_film_reading_own_layer(coating, j));
        thin_film_complex_Complex_x2_x2 next_s = thin_film_solver_step_s(ms, terms);
        thin_film_complex_Complex_x2_x2 next_p = thin_film_solver_step_p(mp, terms);
        ms = next_s;
        mp = next_p;
        i = i + 1;
    }
    return thin_film_solver_finish(light, ms, mp);
}

// to_coating, without the layers.
static thin_film_coating_Coating thin_film_reading_coating_of(thin_film_SurfaceCoating coating) {
    switch (coating.tag) {
    case thin_film_SurfaceCoating_IdealAr:
        return thin_film_coating_Coating_IdealAr;
    case thin_film_SurfaceCoating_MgF2:
    case thin_film_SurfaceCoating_BroadbandAr:
    case thin_film_SurfaceCoating_HighReflectanceMirror:
        return thin_film_coating_Coating_Multilayer;
    default: // thin_film_SurfaceCoating_Custom
    {
        thin_film_coating_Coating c = coating.as.Custom;
        return c;
    }
    }
}

// How many layers there are: a coating's own, or else count beside it.
static uint64_t thin_film_reading_layer_count(thin_film_SurfaceCoating coating, uint64_t count) {
    uint64_t own = thin_film_reading_own_count(coating);
    if (own == 0) {
        return count;
    }
    return own;
}

// Everything up to the layers, which are a coating's own or else count beside it: they are reversed where light goes from
// the denser medium to the rarer one.
static thin_film_layers_Prepared thin_film_reading_prepare(thin_film_SurfaceCoating coating, uint64_t count,
        double n_incident, double n_substrate, double angle_incident_rad, double wavelength_nm) {
    return thin_film_coating_prepare(thin_film_reading_coating_of(coating), n_substrate < n_incident,
            thin_film_reading_layer_count(coating, count), n_incident, n_substrate, angle_incident_rad,
            wavelength_nm);
}

// ==== thin_film_shorthand
//
// The stack shorthand of coating makers: (HL)^7 H is fifteen quarter waves.

// The indices and the design wavelength are positive and finite.
static bool thin_film_shorthand_valid(double n_h, double n_l, double n_m, double design_wavelength_nm) {
    if (!ieee_finite_positive(n_h)) {
        return false;
    }
    if (!ieee_finite_positive(n_l)) {
        return false;
    }
    if (!ieee_finite_positive(n_m)) {
        return false;
    }
    return ieee_finite_positive(design_wavelength_nm);
}

// The index of a letter.
static double thin_film_shorthand_index(uint8_t letter, double n_h, double n_l, double n_m) {
    if (letter == 0) {
        return n_h;
    }
    if (letter == 1) {
        return n_l;
    }
    return n_m;
}

// A quarter wave of a film's index, times its multiplier where one is written.
static thin_film_solver_ThinFilmLayer thin_film_shorthand_layer(thin_film_grammar_Film film, double n_h, double n_l,
        double n_m, double design_wavelength_nm) {
    double n = thin_film_shorthand_index(film.letter, n_h, n_l, n_m);
    thin_film_solver_ThinFilmLayer quarter = thin_film_presets_quarter_wave(n, design_wavelength_nm);
    if (film.multiplier == 0) {
        return quarter;
    }
    return thin_film_solver_ThinFilmLayer_dielectric(n, (double)film.multiplier * quarter.thickness_nm);
}

// ==== name_coating
//
// The names of coatings, on bytes: the coating that a name stands for, and the name of a coating.

// An ASCII name in upper case.
static name_coating_Clean name_coating_upper(slice_u8 s) {
    u8_x32 bytes = {{0}};
    uint64_t i = 0;
    while (i < s.count) {
        uint8_t b = s.at[i];
        bytes.at[i] = name_bytes_upper_byte(b);
        i = i + 1;
    }
    return (name_coating_Clean){.bytes = bytes, .len = s.count};
}

static bool name_coating_names_none(slice_u8 clean) {
    u8_x0 text = {{0}};
    u8_x4 text_2 = {{78, 79, 78, 69}};
    u8_x8 text_3 = {{85, 78, 67, 79, 65, 84, 69, 68}};
    if (name_bytes_is(clean, (slice_u8){text.at, 0})) {
        return true;
    }
    if (name_bytes_is(clean, (slice_u8){text_2.at, 4})) {
        return true;
    }
    return name_bytes_is(clean, (slice_u8){text_3.at, 8});
}

static bool name_coating_names_mgf2(slice_u8 clean) {
    u8_x4 text = {{77, 71, 70, 50}};
    u8_x4 text_2 = {{77, 71, 70, 50}};
    if (name_bytes_is(clean, (slice_u8){text.at, 4})) {
        return true;
    }
    return name_bytes_contains(clean, (slice_u8){text_2.at, 4});
}

static bool name_coating_names_bbar(slice_u8 clean) {
    u8_x4 text = {{66, 66, 65, 82}};
    u8_x5 text_2 = {{72, 69, 45, 78, 69}};
    u8_x4 text_3 = {{66, 66, 65, 82}};
    if (name_bytes_is(clean, (slice_u8){text.at, 4})) {
        return true;
    }
    if (name_bytes_is(clean, (slice_u8){text_2.at, 5})) {
        return true;
    }
    return name_bytes_contains(clean, (slice_u8){text_3.at, 4});
}

static bool name_coating_names_mirror(slice_u8 clean) {
    u8_x6 text = {{77, 73, 82, 82, 79, 82}};
    u8_x4 text_2 = {{82, 69, 70, 76}};
    u8_x2 text_3 = {{72, 82}};
    if (name_bytes_is(clean, (slice_u8){text.at, 6})) {
        return true;
    }
    if (name_bytes_contains(clean, (slice_u8){text_2.at, 4})) {
        return true;
    }
    return name_bytes_is(clean, (slice_u8){text_3.at, 2});
}

static bool name_coating_names_ar(slice_u8 clean) {
    u8_x2 text = {{65, 82}};
    u8_x3 text_2 = {{65, 82, 95}};
    u8_x2 text_3 = {{65, 82}};
    if (name_bytes_is(clean, (slice_u8){text.at, 2})) {
        return true;
    }
    if (name_bytes_contains(clean, (slice_u8){text_2.at, 3})) {
        return true;
    }
    return name_bytes_contains(clean, (slice_u8){text_3.at, 2});
}

// The coating of a trimmed upper-case name; an unknown one is the ideal AR coating.
static option_thin_film_SurfaceCoating name_coating_coating_of(slice_u8 clean) {
    if (name_coating_names_none(clean)) {
        return (option_thin_film_SurfaceCoating){.tag = option_thin_film_SurfaceCoating_None};
    }
    if (name_coating_names_mgf2(clean)) {
        return (option_thin_film_SurfaceCoating){.tag = option_thin_film_SurfaceCoating_Some,
                .as.Some = thin_film_SurfaceCoating_mgf2_default()};
    }
    if (name_coating_names_bbar(clean)) {
        return (option_thin_film_SurfaceCoating){.tag = option_thin_film_SurfaceCoating_Some,
                .as.Some = {.tag = thin_film_SurfaceCoating_BroadbandAr}};
    }
    if (name_coating_names_mirror(clean)) {
        return (option_thin_film_SurfaceCoating){.tag = option_thin_film_SurfaceCoating_Some,
                .as.Some = {.tag = thin_film_SurfaceCoating_HighReflectanceMirror}};
    }
    if (name_coating_names_ar(clean)) {
        return (option_thin_film_SurfaceCoating){.tag = option_thin_film_SurfaceCoating_Some,
                .as.Some = {.tag = thin_film_SurfaceCoating_IdealAr}};
    }
    return (option_thin_film_SurfaceCoating){.tag = option_thin_film_SurfaceCoating_Some,
            .as.Some = {.tag = thin_film_SurfaceCoating_IdealAr}};
}

// The coating of a trimmed name.
static option_thin_film_SurfaceCoating name_coating_coating_in(slice_u8 part) {
    name_coating_Clean u = name_coating_upper(part);
    u8_x32 bytes = u.bytes;
    uint64_t len = u.len;
    return name_coating_coating_of((slice_u8){bytes.at, len});
}

// The coating that a name stands for. Over 32 bytes are refused with 2 at 32, a byte over 127 with 2 at
// its place.
static result_option_thin_film_SurfaceCoating_refusal_Refusal name_coating_from_format_name(slice_u8 name) {
    if (32 < name.count) {
        return (result_option_thin_film_SurfaceCoating_refusal_Refusal){
                .tag = result_option_thin_film_SurfaceCoating_refusal_Refusal_Err,
                .as.Err = {.tag = refusal_Refusal_Name, .as.Name = 32}};
    }
    uint64_t over = name_bytes_first_over(name);
    if (over < name.count) {
        return (result_option_thin_film_SurfaceCoating_refusal_Refusal){
                .tag = result_option_thin_film_SurfaceCoating_refusal_Refusal_Err,
                .as.Err = {.tag = refusal_Refusal_Name, .as.Name = over}};
    }
    return (result_option_thin_film_SurfaceCoating_refusal_Refusal){
            .tag = result_option_thin_film_SurfaceCoating_refusal_Refusal_Ok,
            .as.Ok = name_coating_coating_in(name_bytes_trimmed(name))};
}

static thin_film_Text name_coating_to_format_name(thin_film_SurfaceCoating coating) {
    u8_x16 text = {{65, 82, 0, 0, 0, 0, 0, 0, 0, 0, 0, 0, 0, 0, 0, 0}};
    u8_x16 text_2 = {{77, 71, 70, 50, 0, 0, 0, 0, 0, 0, 0, 0, 0, 0, 0, 0}};
    u8_x16 text_3 = {{66, 66, 65, 82, 0, 0, 0, 0, 0, 0, 0, 0, 0, 0, 0, 0}};
    u8_x16 text_4 = {{77, 73, 82, 82, 79, 82, 0, 0, 0, 0, 0, 0, 0, 0, 0, 0}};
    u8_x16 text_5 = {{67, 85, 83, 84, 79, 77, 0, 0, 0, 0, 0, 0, 0, 0, 0, 0}};
    switch (coating.tag) {
    case thin_film_SurfaceCoating_IdealAr:
        return (thin_film_Text){.bytes = text, .len = 2};
    case thin_film_SurfaceCoating_MgF2:
        return (thin_film_Text){.bytes = text_2, .len = 4};
    case thin_film_SurfaceCoating_BroadbandAr:
        return (thin_film_Text){.bytes = text_3, .len = 4};
    case thin_film_SurfaceCoating_HighReflectanceMirror:
        return (thin_film_Text){.bytes = text_4, .len = 6};
    default: // thin_film_SurfaceCoating_Custom
        return (thin_film_Text){.bytes = text_5, .len = 6};
    }
}

// ==== gate_limits
//
// One surface of a train: its coating by code, and the limits of document 01's section 3 and of document 02's slip 12.

// From a code to a coating. Code 5 is made of layers of its own.
static option_thin_film_SurfaceCoating gate_limits_coded(uint32_t code, double design_wavelength_nm) {
    if (code == 1) {
        return (option_thin_film_SurfaceCoating){.tag = option_thin_film_SurfaceCoating_Some,
                .as.Some = {.tag = thin_film_SurfaceCoating_IdealAr}};
    }
    if (code == 2) {
        return (option_thin_film_SurfaceCoating){.tag = option_thin_film_SurfaceCoating_Some,
                .as.Some = {.tag = thin_film_SurfaceCoating_MgF2, .as.MgF2 = design_wavelength_nm}};
    }
    if (code == 3) {
        return (option_thin_film_SurfaceCoating){.tag = option_thin_film_SurfaceCoating_Some,
                .as.Some = {.tag = thin_film_SurfaceCoating_BroadbandAr}};
    }
    if (code == 4) {
        return (option_thin_film_SurfaceCoating){.tag = option_thin_film_SurfaceCoating_Some,
                .as.Some = {.tag = thin_film_SurfaceCoating_HighReflectanceMirror}};
    }
    if (code == 5) {
        return (option_thin_film_SurfaceCoating){.tag = option_thin_film_SurfaceCoating_Some,
                .as.Some = {.tag = thin_film_SurfaceCoating_Custom,
                .as.Custom = thin_film_coating_Coating_Multilayer}};
    }
    if (code == 6) {
        return (option_thin_film_SurfaceCoating){.tag = option_thin_film_SurfaceCoating_Some,
                .as.Some = {.tag = thin_film_SurfaceCoating_Custom,
                .as.Custom = thin_film_coating_Coating_IdealBeamsplitter}};
    }
    if (code == 7) {
        return (option_thin_film_SurfaceCoating){.tag = option_thin_film_SurfaceCoating_Some,
                .as.Some = {.tag = thin_film_SurfaceCoating_Custom,
                .as.Custom = thin_film_coating_Coating_IdealMirror}};
    }
    return (option_thin_film_SurfaceCoating){.tag = option_thin_film_SurfaceCoating_None};
}

// Of a sheet, whose MgF2 is at 550 nm.
static option_thin_film_SurfaceCoating gate_limits_interface_of(uint32_t code) {
    return gate_limits_coded(code, 550.0);
}

static bool gate_limits_within(double lo, double hi, double x) {
    return lo <= x && x <= hi;
}

// A wavelength: the BEAM's, a kind 7's or one that a train is given.
static bool gate_limits_wavelength_passes(double wavelength_nm) {
    return gate_limits_within(100.0, 10000.0, wavelength_nm);
}

// A BEAM: its wavelength, its s and its p power.
static bool gate_limits_beam_passes(double wavelength_nm, double s, double p) {
    return gate_limits_wavelength_passes(wavelength_nm) && gate_limits_within(0.0, 1.0, s)
            && gate_limits_within(0.0, 1.0, p);
}

// A layer, for an n_incident * abs(sin) of snell.
static bool gate_limits_layer_within(double snell, thin_film_solver_ThinFilmLayer layer) {
    return gate_limits_within(1.0, 4.0, layer.n) && layer.k == 0.0
            && gate_limits_within(0.0, 100000.0, layer.thickness_nm) && snell <= 0.875 * layer.n;
}

// The layers of a preset coating. All that can fail is n_incident * abs(sin), and it fails first at
// the smallest index, MgF2's or SiO2's.
static bool gate_limits_presets_within(double snell, uint32_t coating) {
    if (coating == 2) {
        return snell <= 0.875 * 1.38;
    }
    if (coating == 3) {
        return snell <= 0.875 * 1.46;
    }
    if (coating == 4) {
        return snell <= 0.875 * 1.46;
    }
    return true;
}

// The angle of a SURFACE, where it is finite, from n_incident * abs(sin) and its cosine.
static bool gate_limits_angle_within(double snell, double cos, gate_limits_Surface surface) {
    return 0.25 <= cos && snell <= 0.875 * surface.n_substrate && gate_limits_presets_within(snell, surface.coating);
}

// A SURFACE without its LAYERs, from n_incident * abs(sin) and the cosine of its angle; the layers of a
// preset coating count as its own.
static bool gate_limits_surface_within(double snell, double cos, gate_limits_Surface surface) {
    return gate_limits_within(1.0, 4.0, surface.n_incident) && gate_limits_within(1.0, 4.0, surface.n_substrate)
            && ieee_is_finite(surface.angle_rad) && gate_limits_angle_within(snell, cos, surface);
}

// One sine and one cosine for all of a surface's limits: those of its angle.
static gate_limits_Judgement gate_limits_judge_with(gate_limits_Surface surface, math_trig_SinCos theta) {
    double snell = surface.n_incident * ieee_abs(theta.sin);
    return (gate_limits_Judgement){.passes = gate_limits_surface_within(snell, theta.cos, surface), .snell = snell};
}

static gate_limits_Judgement gate_limits_judge_surface(gate_limits_Surface surface) {
    return gate_limits_judge_with(surface, math_trig_sin_cos(surface.angle_rad));
}

// A layer.
static bool gate_limits_metal_within(thin_film_solver_ThinFilmLayer layer) {
    return gate_limits_within(0.0625, 4.0, layer.n) && gate_limits_within(0.0, 8.0, layer.k)
            && gate_limits_within(0.0, 100000.0, layer.thickness_nm);
}

// What a layer adds to the sum that is limited.
static double gate_limits_absorption(double wavelength_nm, thin_film_solver_ThinFilmLayer layer) {
    return 2.0 * 3.141592653589793 * layer.thickness_nm / wavelength_nm * layer.k;
}

// A custom surface at angle zero that has 1 to 4 layers.
static bool gate_limits_may_be_metal(gate_limits_Surface surface, uint64_t count) {
    return surface.coating == 5 && surface.angle_rad == 0.0 && 1 <= count && count <= 4;
}

// ==== quarter_waves
//
// Document 02, slip 11: the path n * thickness of a film in whole quarter waves, and what is over.

// The limits of document 01's section 3, ends included: of a layer's index and thickness, and of a
// wavelength.
static bool quarter_waves_admitted(double n, double thickness_nm, double wavelength_nm) {
    return gate_limits_within(1.0, 4.0, n) && gate_limits_within(0.0, 100000.0, thickness_nm)
            && gate_limits_within(100.0, 10000.0, wavelength_nm);
}

// How often q goes into p, by halves: first how often 2q does, then whether once more. No operation
// rounds: what is over is below 2q, so that q can be taken from it exactly.
static quarter_waves_QuarterWaves quarter_waves_divided(double p, double q) {
    if (p < q) {
        return (quarter_waves_QuarterWaves){.count = 0, .remainder_nm = p};
    }
    quarter_waves_QuarterWaves pairs = quarter_waves_divided(p, q + q);
    double over = pairs.remainder_nm;
    if (over < q) {
        return (quarter_waves_QuarterWaves){.count = 2 * pairs.count, .remainder_nm = over};
    }
    return (quarter_waves_QuarterWaves){.count = 2 * pairs.count + 1, .remainder_nm = over - q};
}

// n * thickness in quarters of the wavelength; 14 where one of the three is outside its limits.
static result_quarter_waves_QuarterWaves_refusal_Refusal quarter_waves_quarter_waves(double n, double thickness_nm,
        double wavelength_nm) {
    if (quarter_waves_admitted(n, thickness_nm, wavelength_nm)) {
        double p = ieee_abs(n * thickness_nm);
        return (result_quarter_waves_QuarterWaves_refusal_Refusal){
                .tag = result_quarter_waves_QuarterWaves_refusal_Refusal_Ok,
                .as.Ok = quarter_waves_divided(p, wavelength_nm / 4.0)};
    }
    return (result_quarter_waves_QuarterWaves_refusal_Refusal){
            .tag = result_quarter_waves_QuarterWaves_refusal_Refusal_Err, .as.Err = {.tag = refusal_Refusal_Film}};
}

// ==== surface
//
// The answers of one surface of a train: document 01's section 7.

static surface_Answers surface_assembled(bool coated, surface_Powers powers,
        thin_film_solver_CoatingResponse response, polarization_SurfaceJones jones) {
    polarization_mueller_JonesMatrix reflection = jones.reflection;
    polarization_mueller_JonesMatrix transmission = jones.transmission;
    polarization_mueller_MuellerMatrix reflection_mueller = polarization_mueller_JonesMatrix_to_mueller(reflection);
    polarization_mueller_MuellerMatrix transmission_mueller = polarization_mueller_JonesMatrix_to_mueller(
            transmission);
    return (surface_Answers){.coated = coated, .powers = powers, .response = response, .reflection = reflection,
            .transmission = transmission, .reflection_mueller = reflection_mueller,
            .transmission_mueller = transmission_mueller};
}

// The powers of a coated surface, from its response.
static surface_Powers surface_coated_powers(thin_film_solver_CoatingResponse response) {
    return (surface_Powers){.reflectance_s = response.reflectance_s, .reflectance_p = response.reflectance_p,
            .transmittance_s = response.transmittance_s, .transmittance_p = response.transmittance_p};
}

// The answers of a coated surface, from its response.
static surface_Answers surface_coated_answers(thin_film_solver_CoatingResponse response) {
    return surface_assembled(true, surface_coated_powers(response), response,
            polarization_surface_coating_jones(response));
}

// The powers of a bare surface, whatever its code, from the cosine of its angle.
static surface_Powers surface_bare_powers_with(gate_limits_Surface surface, double cos) {
    fresnel_Reflectances r = fresnel_fresnel_dielectric(cos, surface.n_incident, surface.n_substrate);
    return (surface_Powers){.reflectance_s = r.rs, .reflectance_p = r.rp, .transmittance_s = 1.0 - r.rs,
            .transmittance_p = 1.0 - r.rp};
}

static surface_Powers surface_bare_powers(gate_limits_Surface surface) {
    return surface_bare_powers_with(surface, math_trig_cos(surface.angle_rad));
}

// The answers of a bare surface, whatever its code.
static result_surface_Answers_refusal_Refusal surface_bare_answers(gate_limits_Surface surface) {
    result_polarization_SurfaceJones_refusal_Refusal value = polarization_surface_fresnel_jones(surface.n_incident,
            surface.n_substrate, surface.angle_rad);
    if (value.tag == result_polarization_SurfaceJones_refusal_Refusal_Err) {
        result_surface_Answers_refusal_Refusal reply;
        reply.tag = result_surface_Answers_refusal_Refusal_Err;
        reply.as.Err = value.as.Err;
        return reply;
    }
    polarization_SurfaceJones jones = value.as.Ok;
    surface_Powers powers = surface_bare_powers(surface);
    return (result_surface_Answers_refusal_Refusal){.tag = result_surface_Answers_refusal_Refusal_Ok,
            .as.Ok = surface_assembled(false, powers, thin_film_solver_no_response(), jones)};
}

// ==== surface_real
//
// The powers of a coated surface over real numbers, for a run: the quick way where no film absorbs. Each film is
// [[cos, i y], [i z, cos]] then, and so is each product. What the quick way does not cover makes a NaN, and a NaN or an
// infinity stays to the end: the powers are known where the last numbers are finite, and are those of thin_film_solver.

// As many angles as so many films take: four go at once, and sixteen in another, quicker way, so that fewer are no
// quicker.
static uint64_t surface_real_films_angle_count(uint64_t films) {
    if (films < 4) {
        return 4;
    }
    if (8 < films) {
        return 16;
    }
    return films;
}

// x / y as Complex::div divides.
static double surface_real_over(double x, double y) {
    double denom = y * y;
    if (denom < 1e-28) {
        return 0.0 / 0.0;
    }
    return x * y / denom;
}

// The sines of the first films over their admittances.
static void surface_real_films_quotients(const f64_x16 *sin, const f64_x16 *eta_s, const f64_x16 *eta_p,
        uint64_t count, f64_x16 *y_s, f64_x16 *y_p) {
    uint64_t i = 0;
    while (i < count) {
        y_s->at[i] = surface_real_over(sin->at[i], eta_s->at[i]);
        y_p->at[i] = surface_real_over(sin->at[i], eta_p->at[i]);
        i = i + 1;
    }
}

// Where the film of the layer at a place stands, of so many that are worked out.
static uint64_t surface_real_films_film_place(uint64_t j, uint64_t films) {
    if (j < films) {
        return j;
    }
    return j % 2;
}

// A product, times a film.
static surface_real_Product surface_real_times(surface_real_Product m, double cos, double y, double z) {
    return (surface_real_Product){.a = m.a * cos - m.b * z, .b = m.a * y + m.b * cos, .c = m.c * cos + m.d * z,
            .d = m.d * cos - m.c * y};
}

// One film more.
static surface_real_Stack surface_real_join(surface_real_Stack stack, surface_real_Film film) {
    surface_real_Product s = stack.s;
    surface_real_Product p = stack.p;
    surface_real_Product next_s = surface_real_times(s, film.cos, film.y_s, film.z_s);
    surface_real_Product next_p = surface_real_times(p, film.cos, film.y_p, film.z_p);
    return (surface_real_Stack){.s = next_s, .p = next_p};
}

// The films of count layers, from the first or from the last, each joined to the product of those before it.
static surface_real_Stack surface_real_films_join_films(uint64_t count, uint64_t films, bool reversed,
        const f64_x16 *sin, const f64_x16 *cos, const f64_x16 *eta_s, const f64_x16 *eta_p, const f64_x16 *y_s,
        const f64_x16 *y_p, surface_real_Stack stack) {
    surface_real_Stack product = stack;
    uint64_t i = 0;
    while (i < count) {
        uint64_t j = surface_real_films_film_place(thin_film_layers_nth_index(reversed, count, i), films);
        surface_real_Film film = {.cos = cos->at[j], .y_s = y_s->at[j], .z_s = sin->at[j] * eta_s->at[j],
                .y_p = y_p->at[j], .z_p = sin->at[j] * eta_p->at[j]};
        product = surface_real_join(product, film);
        i = i + 1;
    }
    return product;
}

// Whether two numbers have the same bits; a NaN is the same as no number.
static bool surface_real_same_number(double x, double y) {
    return x == y && to_bits(x) == to_bits(y);
}

// Whether two media have the same bits.
static bool surface_real_same_medium(surface_real_Medium a, surface_real_Medium b) {
    return surface_real_same_number(a.delta, b.delta) && surface_real_same_number(a.eta_s, b.eta_s)
            && surface_real_same_number(a.eta_p, b.eta_p);
}

// Whether each of count films is the last but one again, by the bits of its medium.
static bool surface_real_films_take_turns(const f64_x16 *eta_s, const f64_x16 *eta_p, const f64_x16 *delta,
        uint64_t count) {
    uint64_t i = 2;
    while (i < count) {
        surface_real_Medium medium = {.eta_s = eta_s->at[i], .eta_p = eta_p->at[i], .delta = delta->at[i]};
        surface_real_Medium earlier = {.eta_s = eta_s->at[i - 2], .eta_p = eta_p->at[i - 2],
                .delta = delta->at[i - 2]};
        if (!surface_real_same_medium(medium, earlier)) {
            return false;
        }
        i = i + 1;
    }
    return true;
}

// How many of count films are to be worked out.
static uint64_t surface_real_films_film_count(const f64_x16 *eta_s, const f64_x16 *eta_p, const f64_x16 *delta,
        uint64_t count) {
    if (2 < count) {
        if (surface_real_films_take_turns(eta_s, eta_p, delta, count)) {
            return 2;
        }
    }
    return count;
}

// A film's matrices, from its admittances and the sine and cosine of its phase thickness.
static surface_real_Film surface_real_film_in(double eta_s, double eta_p, double sin, double cos) {
    return (surface_real_Film){.cos = cos, .y_s = surface_real_over(sin, eta_s), .z_s = sin * eta_s,
            .y_p = surface_real_over(sin, eta_p), .z_p = sin * eta_p};
}

// One or two films, one by one: for so few the arrays do not pay.
static surface_real_Stack surface_real_films_join_each(const f64_x16 *eta_s, const f64_x16 *eta_p,
        const f64_x16 *delta, uint64_t count, bool reversed, surface_real_Stack stack) {
    surface_real_Stack product = stack;
    uint64_t i = 0;
    while (i < count) {
        uint64_t j = thin_film_layers_nth_index(reversed, count, i);
        math_trig_SinCos wave = math_trig_sin_cos(delta->at[j]);
        surface_real_Film film = surface_real_film_in(eta_s->at[j], eta_p->at[j], wave.sin, wave.cos);
        product = surface_real_join(product, film);
        i = i + 1;
    }
    return product;
}

// Films worked out together.
static surface_real_Stack surface_real_films_join_together(const f64_x16 *eta_s, const f64_x16 *eta_p,
        const f64_x16 *delta, uint64_t count, bool reversed, surface_real_Stack stack) {
    uint64_t films = surface_real_films_film_count(eta_s, eta_p, delta, count);
    f64_x16 sin;
    for (size_t each = 0; each < 16; each++) {
        sin.at[each] = 1.0;
    }
    f64_x16 cos;
    for (size_t each = 0; each < 16; each++) {
        cos.at[each] = 1.0;
    }
    f64_x16 y_s;
    for (size_t each = 0; each < 16; each++) {
        y_s.at[each] = 1.0;
    }
    f64_x16 y_p;
    for (size_t each = 0; each < 16; each++) {
        y_p.at[each] = 1.0;
    }
    math_waves_sin_cos(delta, surface_real_films_angle_count(films), &sin, &cos);
    surface_real_films_quotients(&sin, eta_s, eta_p, films, &y_s, &y_p);
    return surface_real_films_join_films(count, films, reversed, &sin, &cos, eta_s, eta_p, &y_s, &y_p, stack);
}

// The films of the first count of 16 media, of all where count is more, joined to a product: from the first on, or from the
// last where light meets them from the far side.
static surface_real_Stack surface_real_films_join_all(const f64_x16 *eta_s, const f64_x16 *eta_p,
        const f64_x16 *delta, uint64_t count, bool reversed, surface_real_Stack stack) {
    uint64_t few;
    if (count < 16) {
        few = count;
    } else {
        few = 16;
    }
    if (few <= 2) {
        return surface_real_films_join_each(eta_s, eta_p, delta, few, reversed, stack);
    }
    return surface_real_films_join_together(eta_s, eta_p, delta, few, reversed, stack);
}

// A number whose imaginary part is a zero.
static double surface_real_real_part(thin_film_complex_Complex z) {
    if (z.im == 0.0) {
        return z.re;
    }
    return 0.0 / 0.0;
}

// A guess at the root of h from 1/2 to 1, of which nothing is proved: a quartic for 1 over the root, and two better ones
// from it.
static double surface_real_guess(double h) {
    double square = h * h;
    double first = 2.9228837662011293 - 5.4349775452710505 * h + square
            * (6.719651141032791 - 4.331924622358352 * h + 1.1244305836496429 * square);
    double left = 1.0 - h * first * first;
    double r = first + first * left * (0.5 + 0.375 * left);
    double s = h * r;
    double high = s + 201326592.0 - 201326592.0;
    double over = h - high * high - (s + high) * (s - high);
    return s + over * (0.5 * r);
}

// The root of a number from 2^-10 to 2^10, as Complex::sqrt takes it.
static double surface_real_root(double x) {
    if (0.0009765625 <= x) {
        if (x <= 1024.0) {
            return math_sqrt_sqrt_guessed(ieee_max((x + x) / 2.0, 0.0), surface_real_guess(x));
        }
        return 0.0 / 0.0;
    }
    return 0.0 / 0.0;
}

// cos(theta) in a film that does not absorb.
static double surface_real_cos_theta(double snell, thin_film_solver_ThinFilmLayer layer) {
    double sin = surface_real_over(snell, layer.n);
    if (layer.k == 0.0) {
        return surface_real_root(1.0 - sin * sin);
    }
    return 0.0 / 0.0;
}

static surface_real_Medium surface_real_medium_of(thin_film_solver_Incidence light,
        thin_film_solver_ThinFilmLayer layer) {
    double cos = surface_real_cos_theta(light.snell, layer);
    double eta_s = layer.n * cos;
    double eta_p = surface_real_over(layer.n, cos);
    double factor = 2.0 * 3.141592653589793 * layer.thickness_nm / light.wavelength_nm;
    return (surface_real_Medium){.eta_s = eta_s, .eta_p = eta_p, .delta = eta_s * factor};
}

// Before the first film.
static surface_real_Stack surface_real_no_films(void) {
    surface_real_Product one = {.a = 1.0, .b = 0.0, .c = 0.0, .d = 1.0};
    return (surface_real_Stack){.s = one, .p = one};
}

// Those of a product, between the admittances eta0 and eta.
static surface_real_Shares surface_real_power(surface_real_Product m, double eta0, double eta) {
    double b_re = eta0 * m.a;
    double b_im = eta0 * (m.b * eta);
    double c_re = m.d * eta;
    double num_re = b_re - c_re;
    double num_im = b_im - m.c;
    double den_re = b_re + c_re;
    double den_im = b_im + m.c;
    double denom = den_re * den_re + den_im * den_im;
    if (denom < 1e-28) {
        return (surface_real_Shares){.r = 0.0 / 0.0, .t = 0.0 / 0.0};
    }
    double r_re = (num_re * den_re + num_im * den_im) / denom;
    double r_im = (num_im * den_re - num_re * den_im) / denom;
    double t_re = eta0 * 2.0 * den_re / denom;
    double t_im = -(eta0 * 2.0 * den_im) / denom;
    return (surface_real_Shares){.r = r_re * r_re + r_im * r_im, .t = eta / eta0 * (t_re * t_re + t_im * t_im)};
}

// cos(theta) in the substrate, up to a sine of 1.
static double surface_real_cos_theta_sub(double sin_theta_sub) {
    if (ieee_abs(sin_theta_sub) <= 1.0) {
        return math_sqrt_sqrt(ieee_max(1.0 - sin_theta_sub * sin_theta_sub, 0.0));
    }
    return 0.0 / 0.0;
}

// The powers, from the products of all films.
static surface_real_Known surface_real_finish(thin_film_solver_Incidence light, surface_real_Stack stack) {
    thin_film_complex_Complex cos = thin_film_complex_Complex_real(
            surface_real_cos_theta_sub(light.snell / light.n_substrate));
    thin_film_complex_Complex n_sub = thin_film_complex_Complex_real(light.n_substrate);
    double eta_s = surface_real_real_part(thin_film_complex_Complex_mul(n_sub, cos));
    double eta_p = surface_real_real_part(thin_film_complex_Complex_div(n_sub, cos));
    double eta0_s = light.n_incident * light.cos_theta0;
    double eta0_p = light.n_incident / ieee_max(light.cos_theta0, 1e-12);
    surface_real_Product ms = stack.s;
    surface_real_Product mp = stack.p;
    surface_real_Shares s = surface_real_power(ms, eta0_s, eta_s);
    surface_real_Shares p = surface_real_power(mp, eta0_p, eta_p);
    surface_Powers powers = {.reflectance_s = ieee_clamp(s.r, 0.0, 1.0), .reflectance_p = ieee_clamp(p.r, 0.0, 1.0),
            .transmittance_s = ieee_clamp(s.t, 0.0, 1.0), .transmittance_p = ieee_clamp(p.t, 0.0, 1.0)};
    bool known = ieee_is_finite(s.r + s.t + (p.r + p.t));
    return (surface_real_Known){.known = known, .powers = powers};
}

// Whether two layers have the same bits.
static bool surface_real_same_layer(thin_film_solver_ThinFilmLayer a, thin_film_solver_ThinFilmLayer b) {
    return surface_real_same_number(a.n, b.n) && surface_real_same_number(a.thickness_nm, b.thickness_nm)
            && surface_real_same_number(a.k, b.k);
}

// Before the first layer: a layer that is no number is like no other.
static surface_real_Recent surface_real_no_recent(void) {
    double none = 0.0 / 0.0;
    thin_film_solver_ThinFilmLayer layer = {.n = none, .k = none, .thickness_nm = none};
    surface_real_Medium medium = {.eta_s = none, .eta_p = none, .delta = none};
    surface_real_Seen seen = {.layer = layer, .medium = medium};
    return (surface_real_Recent){.earlier = seen, .last = seen};
}

// The medium of a layer, which can be that of the last layer but one.
static surface_real_Medium surface_real_medium_again(thin_film_solver_Incidence light,
        thin_film_solver_ThinFilmLayer layer, surface_real_Seen earlier) {
    thin_film_solver_ThinFilmLayer known = earlier.layer;
    if (surface_real_same_layer(layer, known)) {
        surface_real_Medium medium = earlier.medium;
        return medium;
    }
    return surface_real_medium_of(light, layer);
}

// One layer more.
static surface_real_Recent surface_real_turn(thin_film_solver_Incidence light, thin_film_solver_ThinFilmLayer layer,
        surface_real_Recent recent) {
    surface_real_Seen earlier = recent.earlier;
    surface_real_Seen last = recent.last;
    surface_real_Medium medium = surface_real_medium_again(light, layer, earlier);
    return (surface_real_Recent){.earlier = last, .last = {.layer = layer, .medium = medium}};
}

// The media of the first count layers of its own, in their order.
static void surface_real_presets_media(thin_film_SurfaceCoating coating, uint64_t count,
        thin_film_solver_Incidence light, f64_x16 *eta_s, f64_x16 *eta_p, f64_x16 *delta) {
    surface_real_Recent recent = surface_real_no_recent();
    uint64_t i = 0;
    while (i < count) {
        recent = surface_real_turn(light, thin_film_reading_own_layer(coating, i), recent);
        surface_real_Seen seen = recent.last;
        surface_real_Medium medium = seen.medium;
        eta_s->at[i] = medium.eta_s;
        eta_p->at[i] = medium.eta_p;
        delta->at[i] = medium.delta;
        i = i + 1;
    }
}

// The product of a coating's own films, in their order or reversed.
static surface_real_Stack surface_real_presets_stack_of(thin_film_SurfaceCoating coating, bool reversed,
        thin_film_solver_Incidence light) {
    uint64_t n = thin_film_reading_own_count(coating);
    f64_x16 eta_s;
    for (size_t each = 0; each < 16; each++) {
        eta_s.at[each] = 1.0;
    }
    f64_x16 eta_p;
    for (size_t each = 0; each < 16; each++) {
        eta_p.at[each] = 1.0;
    }
    f64_x16 delta;
    for (size_t each = 0; each < 16; each++) {
        delta.at[each] = 1.0;
    }
    surface_real_presets_media(coating, n, light, &eta_s, &eta_p, &delta);
    return surface_real_films_join_all(&eta_s, &eta_p, &delta, n, reversed, surface_real_no_films());
}

// The powers with a coating's own layers, in their order or reversed: over real numbers where they are known so, or else
// from the whole response.
static surface_Powers surface_real_presets_powers_of(thin_film_SurfaceCoating coating, bool reversed,
        thin_film_solver_Incidence light) {
    surface_real_Known quick = surface_real_finish(light, surface_real_presets_stack_of(coating, reversed, light));
    if (quick.known) {
        surface_Powers powers = quick.powers;
        return powers;
    }
    return surface_coated_powers(thin_film_reading_solve_own(coating, reversed, light));
}

// ==== response_real
//
// The whole response of a coated surface over real numbers: the quick way where no film absorbs, from the products of
// surface_real. A zero's sign can be another than in thin_film_solver, and only a zero's: the response is known where
// the powers are finite and no part of an amplitude is a zero, and is that of thin_film_solver then.

// The shares of two amplitudes with this denominator, between the admittances eta0 and eta.
static surface_real_Shares response_real_shares_of(thin_film_complex_Complex r, thin_film_complex_Complex t,
        double eta0, double eta, double denom) {
    if (denom < 1e-28) {
        return (surface_real_Shares){.r = 0.0 / 0.0, .t = 0.0 / 0.0};
    }
    return (surface_real_Shares){.r = thin_film_complex_Complex_norm_sq(r),
            .t = eta / eta0 * thin_film_complex_Complex_norm_sq(t)};
}

// The amplitudes of a product, between the admittances eta0 and eta.
static response_real_Amplitudes response_real_amplitudes_of(surface_real_Product m, double eta0, double eta) {
    double b_re = eta0 * m.a;
    double b_im = eta0 * (m.b * eta);
    double c_re = m.d * eta;
    double num_re = b_re - c_re;
    double num_im = b_im - m.c;
    double den_re = b_re + c_re;
    double den_im = b_im + m.c;
    double denom = den_re * den_re + den_im * den_im;
    thin_film_complex_Complex r = {.re = (num_re * den_re + num_im * den_im) / denom,
            .im = (num_im * den_re - num_re * den_im) / denom};
    thin_film_complex_Complex t = {.re = eta0 * 2.0 * den_re / denom, .im = -(eta0 * 2.0 * den_im) / denom};
    surface_real_Shares shares = response_real_shares_of(r, t, eta0, eta, denom);
    return (response_real_Amplitudes){.r = r, .t = t, .shares = shares};
}

// Whether no part is a zero.
static bool response_real_no_zero(thin_film_complex_Complex z) {
    return !(z.re == 0.0) && !(z.im == 0.0);
}

// Whether no part of either amplitude is a zero.
static bool response_real_plain(response_real_Amplitudes k) {
    thin_film_complex_Complex r = k.r;
    thin_film_complex_Complex t = k.t;
    return response_real_no_zero(r) && response_real_no_zero(t);
}

// Whether a zero's sign can be told from none of this: the shares are finite, and no part is a zero.
static bool response_real_certain(response_real_Amplitudes s, response_real_Amplitudes p) {
    surface_real_Shares of_s = s.shares;
    surface_real_Shares of_p = p.shares;
    return ieee_is_finite(of_s.r + of_s.t + (of_p.r + of_p.t)) && response_real_plain(s) && response_real_plain(p);
}

// The answers for one polarization.
static thin_film_solver_Polarized response_real_polarized(response_real_Amplitudes k) {
    thin_film_complex_Complex r = k.r;
    thin_film_complex_Complex t = k.t;
    surface_real_Shares shares = k.shares;
    return (thin_film_solver_Polarized){.r = r, .t = t, .reflectance = ieee_clamp(shares.r, 0.0, 1.0),
            .transmittance = ieee_clamp(shares.t, 0.0, 1.0), .phase = thin_film_complex_Complex_arg(r)};
}

// The response, from the products of all films.
static response_real_Known response_real_finish(thin_film_solver_Incidence light, surface_real_Stack stack) {
    thin_film_complex_Complex cos = thin_film_complex_Complex_real(
            surface_real_cos_theta_sub(light.snell / light.n_substrate));
    thin_film_complex_Complex n_sub = thin_film_complex_Complex_real(light.n_substrate);
    double eta_s = surface_real_real_part(thin_film_complex_Complex_mul(n_sub, cos));
    double eta_p = surface_real_real_part(thin_film_complex_Complex_div(n_sub, cos));
    double eta0_s = light.n_incident * light.cos_theta0;
    double eta0_p = light.n_incident / ieee_max(light.cos_theta0, 1e-12);
    surface_real_Product ms = stack.s;
    surface_real_Product mp = stack.p;
    response_real_Amplitudes s = response_real_amplitudes_of(ms, eta0_s, eta_s);
    response_real_Amplitudes p = response_real_amplitudes_of(mp, eta0_p, eta_p);
    if (response_real_certain(s, p)) {
        thin_film_solver_Polarized of_s = response_real_polarized(s);
        thin_film_solver_Polarized of_p = response_real_polarized(p);
        thin_film_solver_CoatingResponse response = thin_film_solver_respond(of_s, of_p);
        return (response_real_Known){.known = true, .response = response};
    }
    thin_film_solver_CoatingResponse response_2 = thin_film_solver_no_response();
    return (response_real_Known){.known = false, .response = response_2};
}

// The response with a coating's own layers, in their order or reversed: over real numbers where it is known so, or else
// layer by layer.
static thin_film_solver_CoatingResponse response_real_solve_own(thin_film_SurfaceCoating coating, bool reversed,
        thin_film_solver_Incidence light) {
    response_real_Known quick = response_real_finish(light, surface_real_presets_stack_of(coating, reversed, light));
    if (quick.known) {
        thin_film_solver_CoatingResponse response = quick.response;
        return response;
    }
    return thin_film_reading_solve_own(coating, reversed, light);
}

// ==== c_layers
//
// SurfaceCoating::evaluate for a coating by its code, whose layers stand in a flat list: n, k, thickness
// of one after the other.

// The j-th layer.
static thin_film_solver_ThinFilmLayer c_layers_layer_at(slice_f64 flat, uint64_t j) {
    return (thin_film_solver_ThinFilmLayer){.n = flat.at[3 * j], .k = flat.at[3 * j + 1],
            .thickness_nm = flat.at[3 * j + 2]};
}

// Whether there are layers, none absorbs, and light goes on in each: the quick way takes no others. Nothing but time hangs on this.
static bool c_layers_promising(slice_f64 flat, thin_film_solver_Incidence light) {
    uint64_t n = flat.count / 3;
    double sum = 0.0;
    double least = 1e+300;
    uint64_t i = 0;
    while (i < n) {
        thin_film_solver_ThinFilmLayer layer = c_layers_layer_at(flat, i);
        sum = sum + layer.k;
        if (layer.n < least) {
            least = layer.n;
        }
        i = i + 1;
    }
    return (0 < n) & (sum == 0.0) & (ieee_abs(light.snell) <= 0.9995 * least);
}

// As many layers as there are places for, of those that are left.
static uint64_t c_layers_at_most_16(uint64_t left) {
    if (left < 16) {
        return left;
    }
    return 16;
}

// The media of a few layers of the list, after so many others, in its order.
static void c_layers_media_from(slice_f64 flat, uint64_t after, uint64_t few, thin_film_solver_Incidence light,
        f64_x16 *eta_s, f64_x16 *eta_p, f64_x16 *delta) {
    surface_real_Recent recent = surface_real_no_recent();
    uint64_t i = 0;
    while (i < few) {
        recent = surface_real_turn(light, c_layers_layer_at(flat, after + i), recent);
        surface_real_Seen seen = recent.last;
        surface_real_Medium medium = seen.medium;
        eta_s->at[i] = medium.eta_s;
        eta_p->at[i] = medium.eta_p;
        delta->at[i] = medium.delta;
        i = i + 1;
    }
}

// A few layers of the list, after so many others, joined to a product: each layer is read once, in the list's order, and
// its film is met from the far end where light comes from there (document 02, slip 4).
static surface_real_Stack c_layers_join_some(slice_f64 flat, uint64_t after, uint64_t few, bool reversed,
        thin_film_solver_Incidence light, surface_real_Stack stack) {
    f64_x16 eta_s;
    for (size_t each = 0; each < 16; each++) {
        eta_s.at[each] = 1.0;
    }
    f64_x16 eta_p;
    for (size_t each = 0; each < 16; each++) {
        eta_p.at[each] = 1.0;
    }
    f64_x16 delta;
    for (size_t each = 0; each < 16; each++) {
        delta.at[each] = 1.0;
    }
    c_layers_media_from(flat, after, few, light, &eta_s, &eta_p, &delta);
    return surface_real_films_join_all(&eta_s, &eta_p, &delta, few, reversed, stack);
}

// Where a few layers stand in a list of n that light meets after i others: from its front, or from its far end.
static uint64_t c_layers_front_of(bool reversed, uint64_t n, uint64_t i, uint64_t few) {
    if (reversed) {
        return n - i - few;
    }
    return i;
}

// The products of every layer's films over real numbers, in the order of the list or reversed: 16 at a time.
static surface_real_Stack c_layers_stack_of(slice_f64 flat, bool reversed, thin_film_solver_Incidence light) {
    uint64_t n = flat.count / 3;
    surface_real_Stack stack = surface_real_no_films();
    uint64_t i = 0;
    while (i < n) {
        uint64_t few = c_layers_at_most_16(n - i);
        uint64_t after = c_layers_front_of(reversed, n, i, few);
        stack = c_layers_join_some(flat, after, few, reversed, light, stack);
        i = i + few;
    }
    return stack;
}

// The response with every layer of the list, in its order or reversed.
static thin_film_solver_CoatingResponse c_layers_solve_each(slice_f64 flat, bool reversed,
        thin_film_solver_Incidence light) {
    uint64_t n = flat.count / 3;
    thin_film_complex_Complex_x2_x2 ms = thin_film_matrix_identity();
    thin_film_complex_Complex_x2_x2 mp = thin_film_matrix_identity();
    uint64_t i = 0;
    while (i < n) {
        uint64_t j = thin_film_layers_nth_index(reversed, n, i);
        thin_film_solver_Terms terms = thin_film_solver_terms_of(light, c_layers_layer_at(flat, j));
        thin_film_complex_Complex_x2_x2 next_s = thin_film_solver_step_s(ms, terms);
        thin_film_complex_Complex_x2_x2 next_p = thin_film_solver_step_p(mp, terms);
        ms = next_s;
        mp = next_p;
        i = i + 1;
    }
    return thin_film_solver_finish(light, ms, mp);
}

// That response: over real numbers where no layer absorbs and the quick way knows it, or else layer by layer.
static thin_film_solver_CoatingResponse c_layers_solve_list(slice_f64 flat, bool reversed,
        thin_film_solver_Incidence light) {
    if (c_layers_promising(flat, light)) {
        response_real_Known quick = response_real_finish(light, c_layers_stack_of(flat, reversed, light));
        if (quick.known) {
            thin_film_solver_CoatingResponse response = quick.response;
            return response;
        }
    }
    return c_layers_solve_each(flat, reversed, light);
}

// The response with a coating's own layers, or else those of the list.
static thin_film_solver_CoatingResponse c_layers_solve(thin_film_SurfaceCoating coating, slice_f64 flat,
        bool reversed, thin_film_solver_Incidence light) {
    if (thin_film_reading_own_count(coating) == 0) {
        return c_layers_solve_list(flat, reversed, light);
    }
    return response_real_solve_own(coating, reversed, light);
}

// A coating beside its layers.
static result_thin_film_solver_CoatingResponse_refusal_Refusal c_layers_evaluate_known(
        thin_film_SurfaceCoating coating, slice_f64 flat, double n_incident, double n_substrate,
        double angle_incident_rad, double wavelength_nm) {
    thin_film_layers_Prepared value = thin_film_reading_prepare(coating, flat.count / 3, n_incident, n_substrate,
            angle_incident_rad, wavelength_nm);
    if (value.tag == thin_film_layers_Prepared_Answered) {
        result_thin_film_solver_CoatingResponse_refusal_Refusal answer = value.as.Answered;
        return answer;
    }
    bool reversed = value.as.Layers.reversed;
    thin_film_solver_Incidence light = value.as.Layers.light;
    return (result_thin_film_solver_CoatingResponse_refusal_Refusal){
            .tag = result_thin_film_solver_CoatingResponse_refusal_Refusal_Ok,
            .as.Ok = c_layers_solve(coating, flat, reversed, light)};
}

// From a code to a coating: a sheet's codes, and 8 for Custom(IdealAr).
static option_thin_film_SurfaceCoating c_layers_coating_of(uint32_t code, double design_wavelength_nm) {
    if (code == 8) {
        return (option_thin_film_SurfaceCoating){.tag = option_thin_film_SurfaceCoating_Some,
                .as.Some = {.tag = thin_film_SurfaceCoating_Custom, .as.Custom = thin_film_coating_Coating_IdealAr}};
    }
    return gate_limits_coded(code, design_wavelength_nm);
}

// The coating by its code, the layers in a flat list; 1 for a code that has no coating, and for a
// list that is no multiple of 3.
static result_thin_film_solver_CoatingResponse_refusal_Refusal c_layers_evaluate(uint32_t code,
        double design_wavelength_nm, double n_incident, double n_substrate, double angle_incident_rad,
        double wavelength_nm, slice_f64 flat) {
    if (flat.count % 3 != 0) {
        return (result_thin_film_solver_CoatingResponse_refusal_Refusal){
                .tag = result_thin_film_solver_CoatingResponse_refusal_Refusal_Err,
                .as.Err = {.tag = refusal_Refusal_InvalidParameter}};
    }
    option_thin_film_SurfaceCoating value = c_layers_coating_of(code, design_wavelength_nm);
    if (value.tag == option_thin_film_SurfaceCoating_Some) {
        thin_film_SurfaceCoating coating = value.as.Some;
        return c_layers_evaluate_known(coating, flat, n_incident, n_substrate, angle_incident_rad, wavelength_nm);
    }
    return (result_thin_film_solver_CoatingResponse_refusal_Refusal){
            .tag = result_thin_film_solver_CoatingResponse_refusal_Refusal_Err,
            .as.Err = {.tag = refusal_Refusal_InvalidParameter}};
}

// More than 64 explicit layers are refused with 3; any other coating of a user's ignores them.
static result_unit_refusal_Refusal c_layers_check_custom(thin_film_coating_Coating coating, uint64_t count) {
    switch (coating) {
    case thin_film_coating_Coating_Multilayer:
        if (64 < count) {
            return (result_unit_refusal_Refusal){.tag = result_unit_refusal_Refusal_Err,
                    .as.Err = {.tag = refusal_Refusal_TooManyLayers}};
        }
        return (result_unit_refusal_Refusal){.tag = result_unit_refusal_Refusal_Ok};
    case thin_film_coating_Coating_IdealAr:
    case thin_film_coating_Coating_IdealMirror:
        return (result_unit_refusal_Refusal){.tag = result_unit_refusal_Refusal_Ok};
    default: // thin_film_coating_Coating_IdealBeamsplitter
        return (result_unit_refusal_Refusal){.tag = result_unit_refusal_Refusal_Ok};
    }
}

// How a coating beside so many layers is refused: 1, then 3.
static result_unit_refusal_Refusal c_layers_check_known(thin_film_SurfaceCoating coating, uint64_t count,
        double n_incident, double n_substrate, double angle_incident_rad, double wavelength_nm) {
    if (!thin_film_valid_valid(n_incident, n_substrate, angle_incident_rad, wavelength_nm)) {
        return (result_unit_refusal_Refusal){.tag = result_unit_refusal_Refusal_Err,
                .as.Err = {.tag = refusal_Refusal_InvalidParameter}};
    }
    switch (coating.tag) {
    case thin_film_SurfaceCoating_Custom:
    {
        thin_film_coating_Coating custom = coating.as.Custom;
        return c_layers_check_custom(custom, count);
    }
    case thin_film_SurfaceCoating_IdealAr:
    case thin_film_SurfaceCoating_MgF2:
    case thin_film_SurfaceCoating_BroadbandAr:
        return (result_unit_refusal_Refusal){.tag = result_unit_refusal_Refusal_Ok};
    default: // thin_film_SurfaceCoating_HighReflectanceMirror
        return (result_unit_refusal_Refusal){.tag = result_unit_refusal_Refusal_Ok};
    }
}

// What evaluate refuses with, or nothing where it answers; no layer is read for it.
static result_unit_refusal_Refusal c_layers_check(uint32_t code, double design_wavelength_nm, double n_incident,
        double n_substrate, double angle_incident_rad, double wavelength_nm, slice_f64 flat) {
    if (flat.count % 3 != 0) {
        return (result_unit_refusal_Refusal){.tag = result_unit_refusal_Refusal_Err,
                .as.Err = {.tag = refusal_Refusal_InvalidParameter}};
    }
    option_thin_film_SurfaceCoating value = c_layers_coating_of(code, design_wavelength_nm);
    if (value.tag == option_thin_film_SurfaceCoating_Some) {
        thin_film_SurfaceCoating coating = value.as.Some;
        return c_layers_check_known(coating, flat.count / 3, n_incident, n_substrate, angle_incident_rad,
                wavelength_nm);
    }
    return (result_unit_refusal_Refusal){.tag = result_unit_refusal_Refusal_Err,
            .as.Err = {.tag = refusal_Refusal_InvalidParameter}};
}

// ==== sheet_values
//
// The BEAM, the SURFACEs and the layers of a sheet as values: document 01, section 1, and document 02, slips 3 and 5.

// The BEAM whose kind word is at a place; zero throughout past the last word.
static sheet_values_Beam sheet_values_beam_at(slice_u8 src, uint64_t at) {
    sheet_Floats floats = sheet_floats_at(src, at);
    return (sheet_values_Beam){.wavelength_nm = floats.first, .s = floats.second, .p = floats.third};
}

// The BEAM of a sheet: it stands after OPEN.
static sheet_values_Beam sheet_values_beam_of(slice_u8 src) {
    return sheet_values_beam_at(src, sheet_next_place(src, 0));
}

// The SURFACE whose kind word is at a place; zero throughout past the last word.
static gate_limits_Surface sheet_values_surface_at(slice_u8 src, uint64_t at) {
    uint32_t payload = sheet_word_from(src, at) % 0x10000000;
    sheet_Floats floats = sheet_floats_at(src, at);
    return (gate_limits_Surface){.reflected = payload % 2 == 1, .coating = payload / 2, .n_incident = floats.first,
            .n_substrate = floats.second, .angle_rad = floats.third};
}

// The LAYER whose kind word is at a place; zero throughout past the last word.
static thin_film_solver_ThinFilmLayer sheet_values_plain_at(slice_u8 src, uint64_t at) {
    sheet_Floats floats = sheet_floats_at(src, at);
    return (thin_film_solver_ThinFilmLayer){.n = floats.first, .k = floats.second, .thickness_nm = floats.third};
}

// The kind 6 whose kind word is at a place; zero throughout past the last word.
static sheet_values_Cauchy sheet_values_cauchy_at(slice_u8 src, uint64_t at) {
    if (at < src.count / 4) {
        sheet_Floats floats = sheet_floats_at(src, at);
        return (sheet_values_Cauchy){.a = floats.first, .b = floats.second, .c = floats.third,
                .thickness_nm = sheet_float_from(src, at + 7)};
    }
    return (sheet_values_Cauchy){.a = 0.0, .b = 0.0, .c = 0.0, .thickness_nm = 0.0};
}

// Its index at a wavelength.
static double sheet_values_cauchy_index(double wavelength_nm, sheet_values_Cauchy glass) {
    double u = wavelength_nm / 1000.0;
    double u2 = u * u;
    return glass.a + (glass.b + glass.c / u2) / u2;
}

// The layer that it is at a wavelength.
static thin_film_solver_ThinFilmLayer sheet_values_cauchy_film(double wavelength_nm, sheet_values_Cauchy glass) {
    return (thin_film_solver_ThinFilmLayer){.n = sheet_values_cauchy_index(wavelength_nm, glass), .k = 0.0,
            .thickness_nm = glass.thickness_nm};
}

// The layer of either kind at a place, at a wavelength.
static thin_film_solver_ThinFilmLayer sheet_values_layer_at(slice_u8 src, uint64_t at, double wavelength_nm) {
    if (sheet_kind_at(src, at) == 6) {
        return sheet_values_cauchy_film(wavelength_nm, sheet_values_cauchy_at(src, at));
    }
    return sheet_values_plain_at(src, at);
}

// The wavelength that a SURFACE is met with whose first block is at a place: its own kind 7's, or else the one held.
static double sheet_values_met_with(slice_u8 src, uint64_t at, double held_nm) {
    if (at < src.count / 4) {
        if (sheet_kind_at(src, at) == 7) {
            return sheet_float_from(src, at + 1);
        }
    }
    return held_nm;
}

// The wavelength that the n-th SURFACE is met with by steps alone, counted from 0.
static double sheet_values_wavelength_of(slice_u8 src, uint32_t n) {
    sheet_values_Beam beam = sheet_values_beam_of(src);
    uint64_t at = sheet_begin_of(src, 0);
    double held_nm = sheet_values_met_with(src, at, beam.wavelength_nm);
    uint32_t round = 0;
    while (round < n) {
        at = sheet_after_layers(src, sheet_onto(src, at));
        held_nm = sheet_values_met_with(src, at, held_nm);
        round = round + 1;
    }
    return held_nm;
}

// ==== c_call
//
// What an exported call returns, and what it leaves in the list that it was lent: refusals as one
// number, and answers by their numbers.

// The same of any number.
static uint64_t c_call_packed_number(uint32_t number, uint64_t place) {
    return (uint64_t)number * 0x100000000u + place % 0x100000000u;
}

// The same at a place of the caller's.
static uint64_t c_call_packed_at(refusal_Refusal r, uint64_t place) {
    return c_call_packed_number(refusal_Refusal_number(r), place);
}

// A refusal as one number, for a place below 2^32.
static uint64_t c_call_packed(refusal_Refusal r) {
    return c_call_packed_at(r, refusal_Refusal_place(r));
}

// Numbers at a place of a list that has room for them.
static void c_call_place(uint64_t at, slice_f64 numbers, slice_mut_f64 list) {
    uint64_t i = 0;
    while (i < numbers.count) {
        double number = numbers.at[i];
        list.at[at + i] = number;
        i = i + 1;
    }
}

// Numbers at the front of a list that is long enough, and what is returned for them.
static uint64_t c_call_put(uint64_t returned, slice_f64 numbers, slice_mut_f64 list) {
    if (list.count < numbers.count) {
        return 0x800000000u;
    }
    c_call_place(0, numbers, list);
    return returned;
}

// Two numbers, and what is returned for them.
static uint64_t c_call_put_both(uint64_t returned, double a, double b, slice_mut_f64 list) {
    f64_x2 numbers = {{a, b}};
    return c_call_put(returned, (slice_f64){numbers.at, 2}, list);
}

// One number alone.
static uint64_t c_call_put_one(double x, slice_mut_f64 list) {
    f64_x1 numbers = {{x}};
    return c_call_put(1, (slice_f64){numbers.at, 1}, list);
}

static f64_x16 c_call_response(thin_film_solver_CoatingResponse r) {
    thin_film_complex_Complex rs = r.rs;
    thin_film_complex_Complex rp = r.rp;
    thin_film_complex_Complex ts = r.ts;
    thin_film_complex_Complex tp = r.tp;
    return (f64_x16){{rs.re, rs.im, rp.re, rp.im, ts.re, ts.im, tp.re, tp.im, r.reflectance_s, r.reflectance_p,
            r.transmittance_s, r.transmittance_p, r.phase_rs_rad, r.phase_rp_rad, r.absorptance_s, r.absorptance_p}};
}

// The response by its numbers.
static uint64_t c_call_put_response(thin_film_solver_CoatingResponse r, slice_mut_f64 list) {
    f64_x16 numbers = c_call_response(r);
    return c_call_put(16, (slice_f64){numbers.at, 16}, list);
}

static f64_x8 c_call_jones(polarization_mueller_JonesMatrix j) {
    thin_film_complex_Complex_x4 m = j.m;
    thin_film_complex_Complex a = m.at[0];
    thin_film_complex_Complex b = m.at[1];
    thin_film_complex_Complex c = m.at[2];
    thin_film_complex_Complex d = m.at[3];
    return (f64_x8){{a.re, a.im, b.re, b.im, c.re, c.im, d.re, d.im}};
}

// A Jones matrix by its numbers.
static uint64_t c_call_put_jones(polarization_mueller_JonesMatrix j, slice_mut_f64 list) {
    f64_x8 numbers = c_call_jones(j);
    return c_call_put(8, (slice_f64){numbers.at, 8}, list);
}

// Two Jones matrices, one after the other.
static f64_x16 c_call_two_jones(polarization_mueller_JonesMatrix j, polarization_mueller_JonesMatrix k) {
    f64_x8 a = c_call_jones(j);
    f64_x8 b = c_call_jones(k);
    return (f64_x16){{a.at[0], a.at[1], a.at[2], a.at[3], a.at[4], a.at[5], a.at[6], a.at[7], b.at[0], b.at[1],
            b.at[2], b.at[3], b.at[4], b.at[5], b.at[6], b.at[7]}};
}

// The same by their numbers.
static uint64_t c_call_put_two_jones(polarization_mueller_JonesMatrix j, polarization_mueller_JonesMatrix k,
        slice_mut_f64 list) {
    f64_x16 numbers = c_call_two_jones(j, k);
    return c_call_put(16, (slice_f64){numbers.at, 16}, list);
}

static f64_x16 c_call_mueller(polarization_mueller_MuellerMatrix m) {
    f64_x16 e = m.m;
    return (f64_x16){{e.at[0], e.at[1], e.at[2], e.at[3], e.at[4], e.at[5], e.at[6], e.at[7], e.at[8], e.at[9],
            e.at[10], e.at[11], e.at[12], e.at[13], e.at[14], e.at[15]}};
}

// A Mueller matrix by its numbers, row after row.
static uint64_t c_call_put_mueller(polarization_mueller_MuellerMatrix m, slice_mut_f64 list) {
    f64_x16 numbers = c_call_mueller(m);
    return c_call_put(16, (slice_f64){numbers.at, 16}, list);
}

// Whether there is a coating, and the powers.
static f64_x5 c_call_head(surface_Answers a) {
    surface_Powers p = a.powers;
    if (a.coated) {
        return (f64_x5){{1.0, p.reflectance_s, p.reflectance_p, p.transmittance_s, p.transmittance_p}};
    }
    return (f64_x5){{0.0, p.reflectance_s, p.reflectance_p, p.transmittance_s, p.transmittance_p}};
}

// What every surface has.
static void c_call_place_common(surface_Answers a, slice_mut_f64 list) {
    f64_x5 first = c_call_head(a);
    c_call_place(0, (slice_f64){first.at, 5}, list);
    polarization_mueller_JonesMatrix reflection = a.reflection;
    polarization_mueller_JonesMatrix transmission = a.transmission;
    f64_x8 j = c_call_jones(reflection);
    c_call_place(5, (slice_f64){j.at, 8}, list);
    f64_x8 k = c_call_jones(transmission);
    c_call_place(13, (slice_f64){k.at, 8}, list);
    polarization_mueller_MuellerMatrix reflection_mueller = a.reflection_mueller;
    polarization_mueller_MuellerMatrix transmission_mueller = a.transmission_mueller;
    f64_x16 m = c_call_mueller(reflection_mueller);
    c_call_place(21, (slice_f64){m.at, 16}, list);
    f64_x16 t = c_call_mueller(transmission_mueller);
    c_call_place(37, (slice_f64){t.at, 16}, list);
}

// The answers by their numbers; a bare surface has no response.
static uint64_t c_call_put_answers(surface_Answers a, slice_mut_f64 list) {
    if (a.coated) {
        if (list.count < 69) {
            return 0x800000000u;
        }
        c_call_place_common(a, list);
        f64_x16 numbers = c_call_response(a.response);
        c_call_place(53, (slice_f64){numbers.at, 16}, list);
        return 69;
    }
    if (list.count < 53) {
        return 0x800000000u;
    }
    c_call_place_common(a, list);
    return 53;
}

// ==== c_stack
//
// dihkelu_stack: the layers of a stack by their numbers, in a list that was lent.

// The layers of the first films at the front of a list that has room for them.
static void c_stack_place(thin_film_grammar_Film_x64 films, uint64_t count, double n_h, double n_l, double n_m,
        double design_wavelength_nm, slice_mut_f64 list) {
    uint64_t i = 0;
    while (i < count) {
        thin_film_solver_ThinFilmLayer layer = thin_film_shorthand_layer(films.at[i], n_h, n_l, n_m,
                design_wavelength_nm);
        list.at[3 * i] = layer.n;
        list.at[3 * i + 1] = layer.k;
        list.at[3 * i + 2] = layer.thickness_nm;
        i = i + 1;
    }
}

// The layers of the first films by their numbers, and how many numbers they are.
static uint64_t c_stack_put(thin_film_grammar_Film_x64 films, uint64_t count, double n_h, double n_l, double n_m,
        double design_wavelength_nm, slice_mut_f64 list) {
    uint64_t numbers = 3 * count;
    if (list.count < numbers) {
        return 0x800000000u;
    }
    c_stack_place(films, count, n_h, n_l, n_m, design_wavelength_nm, list);
    return numbers;
}

// The layers that a text stands for: n, k, thickness of one after the other at the front of a list. Returns
// the count of these numbers, or a refusal: 1, 9, 10, then 8 for a list that is too short.
static uint64_t c_stack_stack(slice_u8 text, double n_h, double n_l, double n_m, double design_wavelength_nm,
        slice_mut_f64 list) {
    if (!thin_film_shorthand_valid(n_h, n_l, n_m, design_wavelength_nm)) {
        return c_call_packed((refusal_Refusal){.tag = refusal_Refusal_InvalidParameter});
    }
    result_thin_film_reader_Reading_refusal_Refusal value = thin_film_reader_read(text);
    if (value.tag == result_thin_film_reader_Reading_refusal_Refusal_Ok) {
        thin_film_reader_Reading reading = value.as.Ok;
        thin_film_grammar_Film_x64 films = reading.films;
        return c_stack_put(films, reading.count, n_h, n_l, n_m, design_wavelength_nm, list);
    }
    refusal_Refusal r = value.as.Err;
    return c_call_packed(r);
}

// ==== c_scan
//
// dihkelu_evaluate_list: one coated surface at many angles and wavelengths, its responses in a list that was
// lent. dihkelu_invalid_argument: which argument an evaluation is refused for.

// The first case that is refused. No layer is read.
static result_unit_c_scan_RefusedCase c_scan_first_refused(uint32_t code, double design_wavelength_nm,
        double n_incident, double n_substrate, slice_f64 angles_rad, slice_f64 wavelengths_nm, slice_f64 layers) {
    uint64_t i = 0;
    while (i < angles_rad.count) {
        result_unit_refusal_Refusal value = c_layers_check(code, design_wavelength_nm, n_incident, n_substrate,
                angles_rad.at[i], wavelengths_nm.at[i], layers);
        if (value.tag == result_unit_refusal_Refusal_Err) {
            refusal_Refusal refusal = value.as.Err;
            return (result_unit_c_scan_RefusedCase){.tag = result_unit_c_scan_RefusedCase_Err,
                    .as.Err = {.refusal = refusal, .index = i}};
        }
        i = i + 1;
    }
    return (result_unit_c_scan_RefusedCase){.tag = result_unit_c_scan_RefusedCase_Ok};
}

// The numbers of one case at a place of a list that has room for them; nothing where it is refused.
static void c_scan_place_case(uint64_t at, uint32_t code, double design_wavelength_nm, double n_incident,
        double n_substrate, double angle_incident_rad, double wavelength_nm, slice_f64 layers, slice_mut_f64 list) {
    result_thin_film_solver_CoatingResponse_refusal_Refusal value = c_layers_evaluate(code, design_wavelength_nm,
            n_incident, n_substrate, angle_incident_rad, wavelength_nm, layers);
    if (value.tag == result_thin_film_solver_CoatingResponse_refusal_Refusal_Ok) {
        thin_film_solver_CoatingResponse r = value.as.Ok;
        c_call_put_response(r, (slice_mut_f64){at == 0 ? list.at : list.at + at, list.count - at});
    }
}

// The numbers of all cases, none of which is refused, at the front of a list that has room for them.
static void c_scan_place(uint32_t code, double design_wavelength_nm, double n_incident, double n_substrate,
        slice_f64 angles_rad, slice_f64 wavelengths_nm, slice_f64 layers, slice_mut_f64 list) {
    uint64_t i = 0;
    while (i < angles_rad.count) {
        c_scan_place_case(16 * i, code, design_wavelength_nm, n_incident, n_substrate, angles_rad.at[i],
                wavelengths_nm.at[i], layers, list);
        i = i + 1;
    }
}

// The cases of lists of equal length: refused, or written.
static uint64_t c_scan_paired(uint32_t code, double design_wavelength_nm, double n_incident, double n_substrate,
        slice_f64 angles_rad, slice_f64 wavelengths_nm, slice_f64 layers, slice_mut_f64 list) {
    result_unit_c_scan_RefusedCase value = c_scan_first_refused(code, design_wavelength_nm, n_incident, n_substrate,
            angles_rad, wavelengths_nm, layers);
    if (value.tag == result_unit_c_scan_RefusedCase_Err) {
        c_scan_RefusedCase first = value.as.Err;
        return c_call_packed_at(first.refusal, first.index);
    }
    uint64_t count = 16 * angles_rad.count;
    if (list.count < count) {
        return 0x800000000u;
    }
    c_scan_place(code, design_wavelength_nm, n_incident, n_substrate, angles_rad, wavelengths_nm, layers, list);
    return count;
}

// SurfaceCoating::evaluate at angles_rad[i] and wavelengths_nm[i] for each i: 16 numbers of one response after the
// other at the front of a list. Returns the count of these numbers, or a refusal: 1 for lists of unequal length,
// that of the first case that is refused, with its index as the place, then 8 for a list that is too short.
static uint64_t c_scan_evaluate_list(uint32_t code, double design_wavelength_nm, double n_incident,
        double n_substrate, slice_f64 angles_rad, slice_f64 wavelengths_nm, slice_f64 layers, slice_mut_f64 list) {
    if (angles_rad.count != wavelengths_nm.count) {
        return c_call_packed_at((refusal_Refusal){.tag = refusal_Refusal_InvalidParameter}, 0x10000000);
    }
    if (0x10000000 <= angles_rad.count) {
        return c_call_packed_at((refusal_Refusal){.tag = refusal_Refusal_InvalidParameter}, 0x10000000);
    }
    return c_scan_paired(code, design_wavelength_nm, n_incident, n_substrate, angles_rad, wavelengths_nm, layers,
            list);
}

// The first argument of evaluate that fails a test of the Rust's, in their order: 1 n_incident, 2 n_substrate, 3 the
// angle, 4 the wavelength; 0 where none fails.
static uint64_t c_scan_invalid_argument(double n_incident, double n_substrate, double angle_incident_rad,
        double wavelength_nm) {
    if (!ieee_finite_positive(n_incident)) {
        return 1;
    }
    if (!ieee_finite_positive(n_substrate)) {
        return 2;
    }
    if (!ieee_is_finite(angle_incident_rad)) {
        return 3;
    }
    if (!ieee_finite_positive(wavelength_nm)) {
        return 4;
    }
    return 0;
}

// ==== c_mueller
//
// dihkelu_to_mueller and dihkelu_mueller_born_wolf: a Jones matrix from 8 numbers that were lent, its Mueller
// matrix to a list that was lent.

// The Jones matrix of 8 numbers: m00, m01, m10, m11, each as re, im.
static polarization_mueller_JonesMatrix c_mueller_jones(slice_f64 numbers) {
    return (polarization_mueller_JonesMatrix){
            .m = {{{.re = numbers.at[0], .im = numbers.at[1]}, {.re = numbers.at[2], .im = numbers.at[3]},
            {.re = numbers.at[4], .im = numbers.at[5]}, {.re = numbers.at[6], .im = numbers.at[7]}}}};
}

// JonesMatrix::to_mueller: writes the matrix to the front of list and returns 16; or a refusal: 1 where
// there are not 8 numbers, then 8 for a list that is too short.
static uint64_t c_mueller_to_mueller(slice_f64 numbers, slice_mut_f64 list) {
    if (numbers.count != 8) {
        return c_call_packed((refusal_Refusal){.tag = refusal_Refusal_InvalidParameter});
    }
    return c_call_put_mueller(polarization_mueller_JonesMatrix_to_mueller(c_mueller_jones(numbers)), list);
}

// The same of to_mueller_born_wolf.
static uint64_t c_mueller_mueller_born_wolf(slice_f64 numbers, slice_mut_f64 list) {
    if (numbers.count != 8) {
        return c_call_packed((refusal_Refusal){.tag = refusal_Refusal_InvalidParameter});
    }
    return c_call_put_mueller(polarization_born_wolf_to_mueller_born_wolf(c_mueller_jones(numbers)), list);
}

// ==== c_range
//
// dihkelu_reflectance_range: a low and a high reflectance, in a list that was lent.

// The two numbers at the front of a list. Returns their count, or a refusal: 13, then 8 for a list
// that is too short.
static uint64_t c_range_reflectance_range(double n1_low, double n1_high, double n2_low, double n2_high,
        slice_mut_f64 list) {
    result_reflectance_range_ReflectanceRange_refusal_Refusal reply = reflectance_range_reflectance_range(n1_low,
            n1_high, n2_low, n2_high);
    if (reply.tag == result_reflectance_range_ReflectanceRange_refusal_Refusal_Ok) {
        reflectance_range_ReflectanceRange r = reply.as.Ok;
        return c_call_put_both(2, r.low, r.high, list);
    }
    refusal_Refusal r_2 = reply.as.Err;
    return c_call_packed(r_2);
}

// ==== c_quarter_waves
//
// dihkelu_quarter_waves: the count is returned, and what is over is written to the number that was lent.

// The whole quarter waves of n * thickness; or a refusal: 14. One number that is lent is a list of one.
static uint64_t c_quarter_waves_quarter_waves(double n, double thickness_nm, double wavelength_nm,
        double *remainder_nm) {
    result_quarter_waves_QuarterWaves_refusal_Refusal value = quarter_waves_quarter_waves(n, thickness_nm,
            wavelength_nm);
    if (value.tag == result_quarter_waves_QuarterWaves_refusal_Refusal_Ok) {
        quarter_waves_QuarterWaves waves = value.as.Ok;
        *remainder_nm = waves.remainder_nm;
        return (uint64_t)waves.count;
    }
    refusal_Refusal r = value.as.Err;
    return c_call_packed(r);
}

// ==== c_fresnel
//
// The Fresnel equations for callers in C: fresnel.rs, and the Jones matrices of a bare surface, in a list that was lent.

// Rs and Rp at the front of a list. Returns 2, or 8 for a list that is too short.
static uint64_t c_fresnel_fresnel_dielectric(double cos_theta_i, double n1, double n2, slice_mut_f64 list) {
    fresnel_Reflectances r = fresnel_fresnel_dielectric(cos_theta_i, n1, n2);
    return c_call_put_both(2, r.rs, r.rp, list);
}

// R and T of unpolarized light. Returns 2, or 8.
static uint64_t c_fresnel_fresnel_unpolarized(double cos_theta_i, double n1, double n2, slice_mut_f64 list) {
    fresnel_Unpolarized r = fresnel_fresnel_unpolarized(cos_theta_i, n1, n2);
    return c_call_put_both(2, r.r_total, r.t_total, list);
}

// Schlick's approximation. Returns 1, or 8.
static uint64_t c_fresnel_schlick_approx(double cos_theta_i, double n1, double n2, slice_mut_f64 list) {
    return c_call_put_one(fresnel_schlick_approx(cos_theta_i, n1, n2), list);
}

// The Jones matrices of a bare surface, of the reflected light and of the transmitted. Returns 16, or a refusal: 1,
// then 8.
static uint64_t c_fresnel_surface_fresnel_jones(double n1, double n2, double angle_i_rad, slice_mut_f64 list) {
    result_polarization_SurfaceJones_refusal_Refusal value = polarization_surface_fresnel_jones(n1, n2, angle_i_rad);
    if (value.tag == result_polarization_SurfaceJones_refusal_Refusal_Ok) {
        polarization_SurfaceJones surface = value.as.Ok;
        polarization_mueller_JonesMatrix reflection = surface.reflection;
        polarization_mueller_JonesMatrix transmission = surface.transmission;
        return c_call_put_two_jones(reflection, transmission, list);
    }
    refusal_Refusal r = value.as.Err;
    return c_call_packed(r);
}

// ==== c_presets
//
// The layers of quarter_wave_ar and bragg_mirror for callers in C, in a list that was lent.

// One quarter-wave layer of index sqrt(n_ambient * n_substrate): n, k, thickness. Returns 3, or 8 for a list that is
// too short.
static uint64_t c_presets_quarter_wave_ar(double n_ambient, double n_substrate, double design_wavelength_nm,
        slice_mut_f64 list) {
    thin_film_coating_Built built = thin_film_coating_Coating_quarter_wave_ar(n_ambient, n_substrate,
            design_wavelength_nm);
    thin_film_coating_Layers layers = built.layers;
    thin_film_solver_ThinFilmLayer_x64 items = layers.items;
    thin_film_solver_ThinFilmLayer layer = items.at[0];
    f64_x3 numbers = {{layer.n, layer.k, layer.thickness_nm}};
    return c_call_put(3, (slice_f64){numbers.at, 3}, list);
}

// The layers of (H L)^pairs H at the front of a list that has room for them.
static void c_presets_place(double n_high, double n_low, uint64_t pairs, double design_wavelength_nm,
        slice_mut_f64 list) {
    uint64_t i = 0;
    uint64_t value = pairs * 2 + 1;
    while (i < value) {
        thin_film_solver_ThinFilmLayer layer = thin_film_presets_bragg(n_high, n_low, design_wavelength_nm, i);
        list.at[3 * i] = layer.n;
        list.at[3 * i + 1] = layer.k;
        list.at[3 * i + 2] = layer.thickness_nm;
        i = i + 1;
    }
}

// (H L)^pairs H, a quarter wave each: n, k, thickness of one layer after the other. Returns the count of these
// numbers, or a refusal: 3 for more than 31 pairs, then 8.
static uint64_t c_presets_bragg_mirror(double n_high, double n_low, uint32_t pairs, double design_wavelength_nm,
        slice_mut_f64 list) {
    if (31 < pairs) {
        return c_call_packed((refusal_Refusal){.tag = refusal_Refusal_TooManyLayers});
    }
    uint64_t count = (uint64_t)pairs;
    uint64_t numbers = 3 * (count * 2 + 1);
    if (list.count < numbers) {
        return 0x800000000u;
    }
    c_presets_place(n_high, n_low, count, design_wavelength_nm, list);
    return numbers;
}

// ==== c_names
//
// Names of coatings for callers in C: the code that a name stands for, the name of a code's coating, and the trimmed part
// of a name.

// The code of a coating of the user's own.
static uint32_t c_names_custom_code(thin_film_coating_Coating coating) {
    switch (coating) {
    case thin_film_coating_Coating_Multilayer:
        return 5;
    case thin_film_coating_Coating_IdealBeamsplitter:
        return 6;
    case thin_film_coating_Coating_IdealMirror:
        return 7;
    default: // thin_film_coating_Coating_IdealAr
        return 8;
    }
}

// The code that dihkelu_evaluate has a coating by.
static uint32_t c_names_code_of(thin_film_SurfaceCoating coating) {
    switch (coating.tag) {
    case thin_film_SurfaceCoating_IdealAr:
        return 1;
    case thin_film_SurfaceCoating_MgF2:
        return 2;
    case thin_film_SurfaceCoating_BroadbandAr:
        return 3;
    case thin_film_SurfaceCoating_HighReflectanceMirror:
        return 4;
    default: // thin_film_SurfaceCoating_Custom
    {
        thin_film_coating_Coating custom = coating.as.Custom;
        return c_names_custom_code(custom);
    }
    }
}

// SurfaceCoating::from_format_name: the coating's code, 0 for none; or a refusal: 2.
static uint64_t c_names_coating_from_name(slice_u8 name) {
    result_option_thin_film_SurfaceCoating_refusal_Refusal value = name_coating_from_format_name(name);
    if (value.tag == result_option_thin_film_SurfaceCoating_refusal_Refusal_Ok) {
        if (value.as.Ok.tag == option_thin_film_SurfaceCoating_Some) {
            thin_film_SurfaceCoating coating = value.as.Ok.as.Some;
            return (uint64_t)c_names_code_of(coating);
        }
        return 0;
    }
    refusal_Refusal r = value.as.Err;
    return c_call_packed(r);
}

// The coating that dihkelu_evaluate has by a code; an MgF2 at 550 nm.
static option_thin_film_SurfaceCoating c_names_coating_of(uint32_t code) {
    if (code == 8) {
        return (option_thin_film_SurfaceCoating){.tag = option_thin_film_SurfaceCoating_Some,
                .as.Some = {.tag = thin_film_SurfaceCoating_Custom, .as.Custom = thin_film_coating_Coating_IdealAr}};
    }
    return gate_limits_coded(code, 550.0);
}

// A name of at most 16 bytes at the front of an output that has room for it. Its length is tested at each place: of a loop over
// the name alone the compiler makes a call of C's memcpy.
static void c_names_copy(slice_u8 name, slice_mut_u8 output) {
    uint64_t i = 0;
    while (i < 16) {
        if (i < name.count) {
            output.at[i] = name.at[i];
        }
        i = i + 1;
    }
}

// The same, and its length; 8 for an output that is too short.
static uint64_t c_names_put(slice_u8 name, slice_mut_u8 output) {
    if (output.count < name.count) {
        return 0x800000000u;
    }
    c_names_copy(name, output);
    return name.count;
}

// The name of a coating.
static uint64_t c_names_put_name(thin_film_SurfaceCoating coating, slice_mut_u8 output) {
    thin_film_Text text = name_coating_to_format_name(coating);
    u8_x16 bytes = text.bytes;
    uint64_t len = text.len;
    return c_names_put((slice_u8){bytes.at, len}, output);
}

// SurfaceCoating::to_format_name of the coating that a code stands for: writes the name to the front of the
// output and returns its length; or a refusal: 2 for a code that has none, then 8.
static uint64_t c_names_coating_name(uint32_t code, slice_mut_u8 output) {
    option_thin_film_SurfaceCoating value = c_names_coating_of(code);
    if (value.tag == option_thin_film_SurfaceCoating_Some) {
        thin_film_SurfaceCoating coating = value.as.Some;
        return c_names_put_name(coating, output);
    }
    return 0x200000000u;
}

// The trimmed part of a name: writes its place in the name and its length in bytes; takes all bytes and returns 0.
static uint64_t c_names_trim(slice_u8 name, uint64_t *place, uint64_t *length) {
    name_bytes_Span span = name_bytes_trim_numbers(name);
    *place = span.place;
    *length = span.len;
    return 0;
}

// ==== c_polarization
//
// Jones and Stokes vectors, Jones and Mueller matrices for callers in C: from numbers that were lent to a list that was
// lent. A list of another length than is needed is refused with 1, an output that is too short with 8.

static polarization_stokes_JonesVector c_polarization_vector(slice_f64 numbers) {
    return (polarization_stokes_JonesVector){.ex = {.re = numbers.at[0], .im = numbers.at[1]},
            .ey = {.re = numbers.at[2], .im = numbers.at[3]}};
}

static polarization_stokes_StokesVector c_polarization_stokes(slice_f64 numbers) {
    return (polarization_stokes_StokesVector){.s0 = numbers.at[0], .s1 = numbers.at[1], .s2 = numbers.at[2],
            .s3 = numbers.at[3]};
}

static polarization_mueller_JonesMatrix c_polarization_jones(slice_f64 numbers) {
    return (polarization_mueller_JonesMatrix){
            .m = {{{.re = numbers.at[0], .im = numbers.at[1]}, {.re = numbers.at[2], .im = numbers.at[3]},
            {.re = numbers.at[4], .im = numbers.at[5]}, {.re = numbers.at[6], .im = numbers.at[7]}}}};
}

static polarization_mueller_MuellerMatrix c_polarization_mueller(slice_f64 numbers) {
    return (polarization_mueller_MuellerMatrix){
            .m = {{numbers.at[0], numbers.at[1], numbers.at[2], numbers.at[3], numbers.at[4], numbers.at[5],
            numbers.at[6], numbers.at[7], numbers.at[8], numbers.at[9], numbers.at[10], numbers.at[11],
            numbers.at[12], numbers.at[13], numbers.at[14], numbers.at[15]}}};
}

static uint64_t c_polarization_put_vector(polarization_stokes_JonesVector v, slice_mut_f64 list) {
    thin_film_complex_Complex ex = v.ex;
    thin_film_complex_Complex ey = v.ey;
    f64_x4 numbers = {{ex.re, ex.im, ey.re, ey.im}};
    return c_call_put(4, (slice_f64){numbers.at, 4}, list);
}

static uint64_t c_polarization_put_stokes(polarization_stokes_StokesVector s, slice_mut_f64 list) {
    f64_x4 numbers = {{s.s0, s.s1, s.s2, s.s3}};
    return c_call_put(4, (slice_f64){numbers.at, 4}, list);
}

static uint64_t c_polarization_put_figures(polarization_stokes_StokesVector s, slice_mut_f64 list) {
    double whole = polarization_stokes_StokesVector_degree_of_polarization(s);
    double linear = polarization_stokes_StokesVector_degree_of_linear_polarization(s);
    double circular = polarization_stokes_StokesVector_degree_of_circular_polarization(s);
    double orientation = polarization_stokes_StokesVector_orientation_angle_rad(s);
    double ellipticity = polarization_stokes_StokesVector_ellipticity_angle_rad(s);
    f64_x5 numbers = {{whole, linear, circular, orientation, ellipticity}};
    return c_call_put(5, (slice_f64){numbers.at, 5}, list);
}

// A diattenuator, its amplitudes the parts of a vector.
static uint64_t c_polarization_diattenuating(polarization_stokes_JonesVector v, slice_mut_f64 list) {
    thin_film_complex_Complex tx = v.ex;
    thin_film_complex_Complex ty = v.ey;
    return c_call_put_jones(polarization_mueller_JonesMatrix_diattenuator(tx, ty), list);
}

// JonesVector::to_stokes: S0 to S3. Returns 4.
static uint64_t c_polarization_to_stokes(slice_f64 numbers, slice_mut_f64 list) {
    if (numbers.count != 4) {
        return c_call_packed((refusal_Refusal){.tag = refusal_Refusal_InvalidParameter});
    }
    return c_polarization_put_stokes(polarization_stokes_JonesVector_to_stokes(c_polarization_vector(numbers)), list);
}

// JonesVector::normalize. Returns 4.
static uint64_t c_polarization_jones_normalize(slice_f64 numbers, slice_mut_f64 list) {
    if (numbers.count != 4) {
        return c_call_packed((refusal_Refusal){.tag = refusal_Refusal_InvalidParameter});
    }
    return c_polarization_put_vector(polarization_stokes_JonesVector_normalize(c_polarization_vector(numbers)), list);
}

// JonesVector::intensity. Returns 1.
static uint64_t c_polarization_jones_intensity(slice_f64 numbers, slice_mut_f64 list) {
    if (numbers.count != 4) {
        return c_call_packed((refusal_Refusal){.tag = refusal_Refusal_InvalidParameter});
    }
    return c_call_put_one(polarization_stokes_JonesVector_intensity(c_polarization_vector(numbers)), list);
}

// JonesMatrix::diattenuator of two amplitudes. Returns 8.
static uint64_t c_polarization_diattenuator(slice_f64 numbers, slice_mut_f64 list) {
    if (numbers.count != 4) {
        return c_call_packed((refusal_Refusal){.tag = refusal_Refusal_InvalidParameter});
    }
    return c_polarization_diattenuating(c_polarization_vector(numbers), list);
}

// Its degrees of polarization, linear and circular too, its orientation and its ellipticity. Returns 5.
static uint64_t c_polarization_stokes_figures(slice_f64 numbers, slice_mut_f64 list) {
    if (numbers.count != 4) {
        return c_call_packed((refusal_Refusal){.tag = refusal_Refusal_InvalidParameter});
    }
    return c_polarization_put_figures(c_polarization_stokes(numbers), list);
}

// JonesMatrix::apply. Returns 4.
static uint64_t c_polarization_jones_apply(slice_f64 matrix, slice_f64 numbers, slice_mut_f64 list) {
    if (matrix.count != 8) {
        return c_call_packed((refusal_Refusal){.tag = refusal_Refusal_InvalidParameter});
    }
    if (numbers.count != 4) {
        return c_call_packed((refusal_Refusal){.tag = refusal_Refusal_InvalidParameter});
    }
    return c_polarization_put_vector(polarization_mueller_JonesMatrix_apply(c_polarization_jones(matrix),
            c_polarization_vector(numbers)), list);
}

// JonesMatrix::mul: the first times the second. Returns 8.
static uint64_t c_polarization_jones_mul(slice_f64 matrix, slice_f64 numbers, slice_mut_f64 list) {
    if (matrix.count != 8) {
        return c_call_packed((refusal_Refusal){.tag = refusal_Refusal_InvalidParameter});
    }
    if (numbers.count != 8) {
        return c_call_packed((refusal_Refusal){.tag = refusal_Refusal_InvalidParameter});
    }
    return c_call_put_jones(polarization_mueller_JonesMatrix_mul(c_polarization_jones(matrix),
            c_polarization_jones(numbers)), list);
}

// MuellerMatrix::apply. Returns 4.
static uint64_t c_polarization_mueller_apply(slice_f64 matrix, slice_f64 numbers, slice_mut_f64 list) {
    if (matrix.count != 16) {
        return c_call_packed((refusal_Refusal){.tag = refusal_Refusal_InvalidParameter});
    }
    if (numbers.count != 4) {
        return c_call_packed((refusal_Refusal){.tag = refusal_Refusal_InvalidParameter});
    }
    return c_polarization_put_stokes(polarization_mueller_MuellerMatrix_apply(c_polarization_mueller(matrix),
            c_polarization_stokes(numbers)), list);
}

// At an angle to the x-axis.
static uint64_t c_polarization_linear_polarizer(double angle_rad, slice_mut_f64 list) {
    return c_call_put_jones(polarization_mueller_JonesMatrix_linear_polarizer(angle_rad), list);
}

// Of a retardance, its fast axis at an angle.
static uint64_t c_polarization_retarder(double retardance_rad, double fast_axis_rad, slice_mut_f64 list) {
    return c_call_put_jones(polarization_mueller_JonesMatrix_retarder(retardance_rad, fast_axis_rad), list);
}

// Its fast axis at an angle.
static uint64_t c_polarization_quarter_wave_plate(double fast_axis_rad, slice_mut_f64 list) {
    return c_call_put_jones(polarization_mueller_JonesMatrix_quarter_wave_plate(fast_axis_rad), list);
}

// The same.
static uint64_t c_polarization_half_wave_plate(double fast_axis_rad, slice_mut_f64 list) {
    return c_call_put_jones(polarization_mueller_JonesMatrix_half_wave_plate(fast_axis_rad), list);
}

// ==== sheet_answers
//
// The answers of a surface of a sheet, from the sheet's bytes: document 01, section 7. The SURFACE's kind
// word is at a place and n layers follow it; neither need be so: past the last word every word is zero.

// The j-th layer after the block at a place, at a wavelength.
static thin_film_solver_ThinFilmLayer sheet_answers_layer_after(slice_u8 src, uint64_t at, uint64_t j,
        double wavelength_nm) {
    uint64_t place = sheet_place_on(src, sheet_next_place(src, at), j);
    return sheet_values_layer_at(src, place, wavelength_nm);
}

// The response with the n layers after the block at a place, in their order or reversed, at a wavelength.
static thin_film_solver_CoatingResponse sheet_answers_solve(slice_u8 src, uint64_t at, uint64_t n, bool reversed,
        double wavelength_nm, thin_film_solver_Incidence light) {
    thin_film_complex_Complex_x2_x2 ms = thin_film_matrix_identity();
    thin_film_complex_Complex_x2_x2 mp = thin_film_matrix_identity();
    uint64_t i = 0;
    while (i < n) {
        uint64_t j = thin_film_layers_nth_index(reversed, n, i);
        thin_film_solver_Terms terms = thin_film_solver_terms_of(light,
                sheet_answers_layer_after(src, at, j, wavelength_nm));
        thin_film_complex_Complex_x2_x2 next_s = thin_film_solver_step_s(ms, terms);
        thin_film_complex_Complex_x2_x2 next_p = thin_film_solver_step_p(mp, terms);
        ms = next_s;
        mp = next_p;
        i = i + 1;
    }
    return thin_film_solver_finish(light, ms, mp);
}

// Those at a place, at a wavelength: most layers are LAYERs that stand whole.
static sheet_answers_quick_Reached sheet_answers_quick_reach(slice_u8 src, uint64_t at, double wavelength_nm) {
    sheet_PlainFloats floats = sheet_plain_floats(src, at);
    if (floats.stands) {
        thin_film_solver_ThinFilmLayer layer = {.n = floats.first, .k = floats.second, .thickness_nm = floats.third};
        return (sheet_answers_quick_Reached){.layer = layer, .next = at + 7};
    }
    thin_film_solver_ThinFilmLayer layer_2 = sheet_values_layer_at(src, at, wavelength_nm);
    return (sheet_answers_quick_Reached){.layer = layer_2, .next = sheet_next_place(src, at)};
}

// The media of count layers after the block at a place, at a wavelength, in the sheet's order: read in one walk.
static void sheet_answers_quick_media_at(slice_u8 src, uint64_t at, uint64_t count, double wavelength_nm,
        thin_film_solver_Incidence light, f64_x16 *eta_s, f64_x16 *eta_p, f64_x16 *delta) {
    surface_real_Recent recent = surface_real_no_recent();
    uint64_t place = sheet_next_place(src, at);
    uint64_t i = 0;
    while (i < count) {
        sheet_answers_quick_Reached reached = sheet_answers_quick_reach(src, place, wavelength_nm);
        thin_film_solver_ThinFilmLayer layer = reached.layer;
        recent = surface_real_turn(light, layer, recent);
        surface_real_Seen seen = recent.last;
        surface_real_Medium medium = seen.medium;
        eta_s->at[i] = medium.eta_s;
        eta_p->at[i] = medium.eta_p;
        delta->at[i] = medium.delta;
        place = reached.next;
        i = i + 1;
    }
}

// The product of the n films after the block at a place, in their order or reversed.
static surface_real_Stack sheet_answers_quick_stack_at(slice_u8 src, uint64_t at, uint64_t n, bool reversed,
        double wavelength_nm, thin_film_solver_Incidence light) {
    f64_x16 eta_s;
    for (size_t each = 0; each < 16; each++) {
        eta_s.at[each] = 1.0;
    }
    f64_x16 eta_p;
    for (size_t each = 0; each < 16; each++) {
        eta_p.at[each] = 1.0;
    }
    f64_x16 delta;
    for (size_t each = 0; each < 16; each++) {
        delta.at[each] = 1.0;
    }
    sheet_answers_quick_media_at(src, at, n, wavelength_nm, light, &eta_s, &eta_p, &delta);
    surface_real_Stack none = surface_real_no_films();
    return surface_real_films_join_all(&eta_s, &eta_p, &delta, n, reversed, none);
}

// The response with the n layers after the block at a place, by the same two ways.
static thin_film_solver_CoatingResponse sheet_answers_quick_layers_response(slice_u8 src, uint64_t at, uint64_t n,
        bool reversed, double wavelength_nm, thin_film_solver_Incidence light) {
    if (n <= 16) {
        surface_real_Stack stack = sheet_answers_quick_stack_at(src, at, n, reversed, wavelength_nm, light);
        response_real_Known quick = response_real_finish(light, stack);
        if (quick.known) {
            thin_film_solver_CoatingResponse response = quick.response;
            return response;
        }
    }
    return sheet_answers_solve(src, at, n, reversed, wavelength_nm, light);
}

// The response with these layers.
static thin_film_solver_CoatingResponse sheet_answers_quick_response_with(slice_u8 src, uint64_t at, uint64_t n,
        thin_film_SurfaceCoating coating, bool reversed, double wavelength_nm, thin_film_solver_Incidence light) {
    if (thin_film_reading_own_count(coating) == 0) {
        return sheet_answers_quick_layers_response(src, at, n, reversed, wavelength_nm, light);
    }
    return response_real_solve_own(coating, reversed, light);
}

// A coated surface. A preset coating has layers of its own, and Custom(Multilayer) those after the block.
static result_thin_film_solver_CoatingResponse_refusal_Refusal sheet_answers_evaluate_at(slice_u8 src, uint64_t at,
        uint64_t n, gate_limits_Surface surface, thin_film_SurfaceCoating coating, double wavelength_nm) {
    thin_film_layers_Prepared value = thin_film_reading_prepare(coating, n, surface.n_incident, surface.n_substrate,
            surface.angle_rad, wavelength_nm);
    if (value.tag == thin_film_layers_Prepared_Answered) {
        result_thin_film_solver_CoatingResponse_refusal_Refusal answer = value.as.Answered;
        return answer;
    }
    bool reversed = value.as.Layers.reversed;
    thin_film_solver_Incidence light = value.as.Layers.light;
    return (result_thin_film_solver_CoatingResponse_refusal_Refusal){
            .tag = result_thin_film_solver_CoatingResponse_refusal_Refusal_Ok,
            .as.Ok = sheet_answers_quick_response_with(src, at, n, coating, reversed, wavelength_nm, light)};
}

// The powers with the n layers after the block at a place: over real numbers where they are known so, or else from the whole
// response. No admitted sheet has more than 16 layers after a SURFACE.
static surface_Powers sheet_answers_quick_layers_powers(slice_u8 src, uint64_t at, uint64_t n, bool reversed,
        double wavelength_nm, thin_film_solver_Incidence light) {
    if (n <= 16) {
        surface_real_Stack stack = sheet_answers_quick_stack_at(src, at, n, reversed, wavelength_nm, light);
        surface_real_Known quick = surface_real_finish(light, stack);
        if (quick.known) {
            surface_Powers powers = quick.powers;
            return powers;
        }
    }
    return surface_coated_powers(sheet_answers_solve(src, at, n, reversed, wavelength_nm, light));
}

// The powers with a coating's own layers, or else with the n after the block at a place.
static surface_Powers sheet_answers_quick_powers_with(slice_u8 src, uint64_t at, uint64_t n,
        thin_film_SurfaceCoating coating, bool reversed, double wavelength_nm, thin_film_solver_Incidence light) {
    if (thin_film_reading_own_count(coating) == 0) {
        return sheet_answers_quick_layers_powers(src, at, n, reversed, wavelength_nm, light);
    }
    return surface_real_presets_powers_of(coating, reversed, light);
}

// The powers of an evaluation that needs no layer after the block.
static result_surface_Powers_refusal_Refusal sheet_answers_quick_answered(
        result_thin_film_solver_CoatingResponse_refusal_Refusal answer) {
    if (answer.tag == result_thin_film_solver_CoatingResponse_refusal_Refusal_Ok) {
        thin_film_solver_CoatingResponse r = answer.as.Ok;
        return (result_surface_Powers_refusal_Refusal){.tag = result_surface_Powers_refusal_Refusal_Ok,
                .as.Ok = surface_coated_powers(r)};
    }
    refusal_Refusal r_2 = answer.as.Err;
    return (result_surface_Powers_refusal_Refusal){.tag = result_surface_Powers_refusal_Refusal_Err, .as.Err = r_2};
}

// The powers of a coated surface at a place with the n layers after it.
static result_surface_Powers_refusal_Refusal sheet_answers_quick_coated_powers(slice_u8 src, uint64_t at, uint64_t n,
        gate_limits_Surface surface, thin_film_SurfaceCoating coating, double wavelength_nm) {
    thin_film_layers_Prepared value = thin_film_reading_prepare(coating, n, surface.n_incident, surface.n_substrate,
            surface.angle_rad, wavelength_nm);
    if (value.tag == thin_film_layers_Prepared_Answered) {
        result_thin_film_solver_CoatingResponse_refusal_Refusal answer = value.as.Answered;
        return sheet_answers_quick_answered(answer);
    }
    bool reversed = value.as.Layers.reversed;
    thin_film_solver_Incidence light = value.as.Layers.light;
    return (result_surface_Powers_refusal_Refusal){.tag = result_surface_Powers_refusal_Refusal_Ok,
            .as.Ok = sheet_answers_quick_powers_with(src, at, n, coating, reversed, wavelength_nm, light)};
}

// The powers of the surface at a place with the n layers after it.
static result_surface_Powers_refusal_Refusal sheet_answers_powers_at(slice_u8 src, uint64_t at, uint64_t n,
        gate_limits_Surface surface, double wavelength_nm) {
    option_thin_film_SurfaceCoating value = gate_limits_interface_of(surface.coating);
    if (value.tag == option_thin_film_SurfaceCoating_None) {
        return (result_surface_Powers_refusal_Refusal){.tag = result_surface_Powers_refusal_Refusal_Ok,
                .as.Ok = surface_bare_powers(surface)};
    }
    thin_film_SurfaceCoating coating = value.as.Some;
    return sheet_answers_quick_coated_powers(src, at, n, surface, coating, wavelength_nm);
}

// The light that meets a surface, from the sine and the cosine of its angle.
static thin_film_solver_Incidence sheet_answers_quick_light_with(gate_limits_Surface surface, math_trig_SinCos theta,
        double wavelength_nm) {
    return (thin_film_solver_Incidence){.n_incident = surface.n_incident, .n_substrate = surface.n_substrate,
            .cos_theta0 = theta.cos, .snell = surface.n_incident * theta.sin, .wavelength_nm = wavelength_nm};
}

// The powers of a surface with layers of its own, from the sine and the cosine of its angle.
static result_surface_Powers_refusal_Refusal sheet_answers_quick_custom_powers(slice_u8 src, uint64_t at, uint64_t n,
        gate_limits_Surface surface, math_trig_SinCos theta, double wavelength_nm) {
    if (n <= 64) {
        if (thin_film_valid_valid(surface.n_incident, surface.n_substrate, surface.angle_rad, wavelength_nm)) {
            bool reversed = surface.n_substrate < surface.n_incident;
            thin_film_solver_Incidence light = sheet_answers_quick_light_with(surface, theta, wavelength_nm);
            return (result_surface_Powers_refusal_Refusal){.tag = result_surface_Powers_refusal_Refusal_Ok,
                    .as.Ok = sheet_answers_quick_layers_powers(src, at, n, reversed, wavelength_nm, light)};
        }
    }
    thin_film_SurfaceCoating coating = {.tag = thin_film_SurfaceCoating_Custom,
            .as.Custom = thin_film_coating_Coating_Multilayer};
    return sheet_answers_quick_coated_powers(src, at, n, surface, coating, wavelength_nm);
}

// The same from the sine and the cosine of its angle.
static result_surface_Powers_refusal_Refusal sheet_answers_powers_with_angle(slice_u8 src, uint64_t at, uint64_t n,
        gate_limits_Surface surface, math_trig_SinCos theta, double wavelength_nm) {
    if (surface.coating == 0) {
        return (result_surface_Powers_refusal_Refusal){.tag = result_surface_Powers_refusal_Refusal_Ok,
                .as.Ok = surface_bare_powers_with(surface, theta.cos)};
    }
    if (surface.coating == 5) {
        return sheet_answers_quick_custom_powers(src, at, n, surface, theta, wavelength_nm);
    }
    return sheet_answers_powers_at(src, at, n, surface, wavelength_nm);
}

// The answers of the surface at a place with the n layers after it.
static result_surface_Answers_refusal_Refusal sheet_answers_answers_at(slice_u8 src, uint64_t at, uint64_t n,
        gate_limits_Surface surface, double wavelength_nm) {
    option_thin_film_SurfaceCoating value = gate_limits_interface_of(surface.coating);
    if (value.tag == option_thin_film_SurfaceCoating_None) {
        return surface_bare_answers(surface);
    }
    thin_film_SurfaceCoating coating = value.as.Some;
    result_thin_film_solver_CoatingResponse_refusal_Refusal value_2 = sheet_answers_evaluate_at(src, at, n, surface,
            coating, wavelength_nm);
    if (value_2.tag == result_thin_film_solver_CoatingResponse_refusal_Refusal_Err) {
        result_surface_Answers_refusal_Refusal reply;
        reply.tag = result_surface_Answers_refusal_Refusal_Err;
        reply.as.Err = value_2.as.Err;
        return reply;
    }
    thin_film_solver_CoatingResponse response = value_2.as.Ok;
    return (result_surface_Answers_refusal_Refusal){.tag = result_surface_Answers_refusal_Refusal_Ok,
            .as.Ok = surface_coated_answers(response)};
}

// ==== sheet_index
//
// The index of a sheet: of each SURFACE where it begins, how many layers it has, and the sine and the cosine of its angle.

// n SURFACEs from the i-th on, which begins at a place: where each begins, how many layers it has, and its angle. Where the next begins.
static uint64_t sheet_index_gather(slice_u8 src, uint64_t first, uint64_t i, uint64_t n, u64_x64 *begins,
        u64_x64 *counts, f64_x16 *angles) {
    uint64_t at = first;
    uint64_t k = 0;
    while (k < n) {
        uint64_t surface = sheet_onto(src, at);
        sheet_Floats floats = sheet_floats_at(src, surface);
        sheet_LayerRun run = sheet_layers_on(src, surface);
        begins->at[i + k] = at;
        counts->at[i + k] = run.count;
        angles->at[k] = floats.third;
        at = run.next;
        k = k + 1;
    }
    return at;
}

// n sines and cosines stored from the i-th place on.
static void sheet_index_put(uint64_t i, uint64_t n, const f64_x16 *sin, const f64_x16 *cos, f64_x64 *sines,
        f64_x64 *cosines) {
    uint64_t k = 0;
    while (k < n) {
        sines->at[i + k] = sin->at[k];
        cosines->at[i + k] = cos->at[k];
        k = k + 1;
    }
}

// The index of n SURFACEs from the i-th on, whose sines and cosines are worked out together.
static uint64_t sheet_index_some(slice_u8 src, uint64_t first, uint64_t i, uint64_t n, u64_x64 *begins,
        u64_x64 *counts, f64_x64 *sines, f64_x64 *cosines) {
    f64_x16 angles;
    for (size_t each = 0; each < 16; each++) {
        angles.at[each] = 1.0;
    }
    uint64_t next = sheet_index_gather(src, first, i, n, begins, counts, &angles);
    f64_x16 sin;
    for (size_t each = 0; each < 16; each++) {
        sin.at[each] = 1.0;
    }
    f64_x16 cos;
    for (size_t each = 0; each < 16; each++) {
        cos.at[each] = 1.0;
    }
    math_waves_sin_cos(&angles, n, &sin, &cos);
    sheet_index_put(i, n, &sin, &cos, sines, cosines);
    return next;
}

static uint64_t sheet_index_at_most_16(uint64_t n) {
    if (n < 16) {
        return n;
    }
    return 16;
}

static uint64_t sheet_index_at_most_64(uint64_t n) {
    if (n < 64) {
        return n;
    }
    return 64;
}

// The index of the first SURFACEs of a sheet in grammar: of so many, and of 64 at the most.
static void sheet_index_index(slice_u8 src, uint64_t count, u64_x64 *begins, u64_x64 *counts, f64_x64 *sines,
        f64_x64 *cosines) {
    uint64_t total = sheet_index_at_most_64(count);
    uint64_t first = sheet_begin_of(src, 0);
    uint64_t i = 0;
    while (i < total) {
        uint64_t n = sheet_index_at_most_16(total - i);
        first = sheet_index_some(src, first, i, n, begins, counts, sines, cosines);
        i = i + n;
    }
}

// ==== gate
//
// The gate of document 01: any bytes of any length are admitted, with their count of surfaces, or
// refused with 4, 5 or 6, in that order over the whole sheet.

// The longest sheet in bytes: edition 2's where the first word is its OPEN.
static uint64_t gate_longest(slice_u8 src) {
    if (sheet_word_from(src, 0) == 0x10000002) {
        return 39460;
    }
    return 30500;
}

// A multiple of 4, not under 36 and not over the longest.
static bool gate_length_fits(slice_u8 src) {
    uint64_t n = src.count;
    return n % 4 == 0 && 36 <= n && n <= gate_longest(src);
}

// The first block outside the limits, at its place.
static result_u32_refusal_Refusal gate_outside(uint64_t place) {
    return (result_u32_refusal_Refusal){.tag = result_u32_refusal_Refusal_Err,
            .as.Err = {.tag = refusal_Refusal_Limits, .as.Limits = place}};
}

// The coefficients of a kind 6 are finite.
static bool gate_glass_finite(sheet_values_Cauchy glass) {
    return ieee_is_finite(glass.a) && ieee_is_finite(glass.b) && ieee_is_finite(glass.c);
}

// The layer of either kind at a place: a kind 6's coefficients are finite.
static bool gate_coefficients_finite(slice_u8 src, uint64_t at) {
    if (sheet_kind_at(src, at) == 6) {
        return gate_glass_finite(sheet_values_cauchy_at(src, at));
    }
    return true;
}

// A kind 6 at a wavelength: its coefficients are finite, and its index is tested as a layer's n.
static bool gate_cauchy_passes(double wavelength_nm, double snell, sheet_values_Cauchy glass) {
    return gate_glass_finite(glass)
            && gate_limits_layer_within(snell, sheet_values_cauchy_film(wavelength_nm, glass));
}

// The layer of either kind at a place, at a wavelength.
static bool gate_metal_layer(slice_u8 src, uint64_t at, double wavelength_nm) {
    if (!gate_coefficients_finite(src, at)) {
        return false;
    }
    return gate_limits_metal_within(sheet_values_layer_at(src, at, wavelength_nm));
}

// The n layers from a place on, and the sum of what they absorb, in their order.
static bool gate_metal_layers(slice_u8 src, uint64_t at, uint64_t n, double wavelength_nm) {
    uint64_t place = at;
    double sum = 0.0;
    uint64_t round = 0;
    while (round < n) {
        if (!gate_metal_layer(src, place, wavelength_nm)) {
            return false;
        }
        thin_film_solver_ThinFilmLayer layer = sheet_values_layer_at(src, place, wavelength_nm);
        sum = sum + gate_limits_absorption(wavelength_nm, layer);
        place = sheet_next_place(src, place);
        round = round + 1;
    }
    return sum <= 16.0;
}

// The SURFACE at a place with n layers.
static bool gate_metal_holds(slice_u8 src, uint64_t at, uint64_t n, double wavelength_nm) {
    if (!gate_limits_may_be_metal(sheet_values_surface_at(src, at), n)) {
        return false;
    }
    return gate_metal_layers(src, sheet_next_place(src, at), n, wavelength_nm);
}

// The layer of either kind at a place, at a wavelength.
static bool gate_layer_passes(slice_u8 src, uint64_t at, double wavelength_nm, double snell) {
    if (sheet_kind_at(src, at) == 6) {
        return gate_cauchy_passes(wavelength_nm, snell, sheet_values_cauchy_at(src, at));
    }
    return gate_limits_layer_within(snell, sheet_values_plain_at(src, at));
}

// The n layers from a place on.
static gate_Fit gate_layers_fit(slice_u8 src, uint64_t at, uint64_t n, double wavelength_nm, double snell) {
    uint64_t place = at;
    uint64_t round = 0;
    while (round < n) {
        if (!gate_layer_passes(src, place, wavelength_nm, snell)) {
            return (gate_Fit){.all = false, .place = place};
        }
        place = sheet_next_place(src, place);
        round = round + 1;
    }
    return (gate_Fit){.all = true, .place = place};
}

// The SURFACE at a place with n layers: under section 3's limits, or else under those of metal films.
static bool gate_or_metal(bool all, slice_u8 src, uint64_t at, uint64_t n, double wavelength_nm) {
    return all || gate_metal_holds(src, at, n, wavelength_nm);
}

// The kind 7 at a place, if one is there, by the wavelength that its SURFACE is met with.
static bool gate_tuning_passes(slice_u8 src, uint64_t begin, double met_nm) {
    if (sheet_kind_at(src, begin) != 7) {
        return true;
    }
    return gate_limits_wavelength_passes(met_nm);
}

// The SURFACE that begins at a place, with n layers, after a wavelength, by the sine and the cosine of its angle.
static gate_Passage gate_judge(slice_u8 src, uint64_t begin, uint64_t n, double held_nm, math_trig_SinCos theta) {
    double wavelength_nm = sheet_values_met_with(src, begin, held_nm);
    if (!gate_tuning_passes(src, begin, wavelength_nm)) {
        return (gate_Passage){.passes = false, .wavelength_nm = wavelength_nm, .place = begin};
    }
    uint64_t at = sheet_onto(src, begin);
    gate_limits_Surface surface = sheet_values_surface_at(src, at);
    gate_limits_Judgement judgement = gate_limits_judge_with(surface, theta);
    if (!judgement.passes) {
        return (gate_Passage){.passes = false, .wavelength_nm = wavelength_nm, .place = at};
    }
    uint64_t next = sheet_next_place(src, at);
    gate_Fit fit = gate_layers_fit(src, next, n, wavelength_nm, judgement.snell);
    if (!gate_or_metal(fit.all, src, at, n, wavelength_nm)) {
        return (gate_Passage){.passes = false, .wavelength_nm = wavelength_nm, .place = fit.place};
    }
    return (gate_Passage){.passes = true, .wavelength_nm = wavelength_nm, .place = begin};
}

// The limits of a sheet that is in grammar, by its index: the BEAM, then SURFACE after SURFACE.
static result_u32_refusal_Refusal gate_limits(slice_u8 src, uint32_t count, const u64_x64 *begins,
        const u64_x64 *counts, const f64_x64 *sines, const f64_x64 *cosines) {
    sheet_values_Beam beam = sheet_values_beam_of(src);
    if (!gate_limits_beam_passes(beam.wavelength_nm, beam.s, beam.p)) {
        return gate_outside(sheet_next_place(src, 0));
    }
    uint64_t n = (uint64_t)count;
    double wavelength_nm = beam.wavelength_nm;
    uint64_t i = 0;
    while (i < n) {
        math_trig_SinCos theta = {.sin = sines->at[i], .cos = cosines->at[i]};
        gate_Passage passage = gate_judge(src, begins->at[i], counts->at[i], wavelength_nm, theta);
        if (!passage.passes) {
            return gate_outside(passage.place);
        }
        wavelength_nm = passage.wavelength_nm;
        i = i + 1;
    }
    return (result_u32_refusal_Refusal){.tag = result_u32_refusal_Refusal_Ok, .as.Ok = count};
}

// The gate: the length, then the grammar, then the limits. It leaves the index of the sheet in four arrays.
static result_u32_refusal_Refusal gate_gate_index(slice_u8 src, u64_x64 *begins, u64_x64 *counts, f64_x64 *sines,
        f64_x64 *cosines) {
    for (size_t each = 0; each < 64; each++) {
        (*begins).at[each] = 1;
    }
    for (size_t each = 0; each < 64; each++) {
        (*counts).at[each] = 1;
    }
    for (size_t each = 0; each < 64; each++) {
        (*sines).at[each] = 1.0;
    }
    for (size_t each = 0; each < 64; each++) {
        (*cosines).at[each] = 1.0;
    }
    if (!gate_length_fits(src)) {
        return (result_u32_refusal_Refusal){.tag = result_u32_refusal_Refusal_Err,
                .as.Err = {.tag = refusal_Refusal_Length}};
    }
    result_u32_refusal_Refusal value = sheet_grammar(src);
    if (value.tag == result_u32_refusal_Refusal_Err) {
        return (result_u32_refusal_Refusal){.tag = result_u32_refusal_Refusal_Err, .as.Err = value.as.Err};
    }
    uint32_t count = value.as.Ok;
    sheet_index_index(src, (uint64_t)count, begins, counts, sines, cosines);
    return gate_limits(src, count, begins, counts, sines, cosines);
}

// The gate alone.
static result_u32_refusal_Refusal gate_gate(slice_u8 src) {
    u64_x64 begins;
    for (size_t each = 0; each < 64; each++) {
        begins.at[each] = 1;
    }
    u64_x64 counts;
    for (size_t each = 0; each < 64; each++) {
        counts.at[each] = 1;
    }
    f64_x64 sines;
    for (size_t each = 0; each < 64; each++) {
        sines.at[each] = 1.0;
    }
    f64_x64 cosines;
    for (size_t each = 0; each < 64; each++) {
        cosines.at[each] = 1.0;
    }
    return gate_gate_index(src, &begins, &counts, &sines, &cosines);
}

// The layers of the SURFACE at a place, under either set of limits.
static bool gate_surface_holds(slice_u8 src, uint64_t at, double wavelength_nm) {
    uint64_t n = sheet_layer_run(src, at);
    if (n == 0) {
        return true;
    }
    gate_limits_Judgement judgement = gate_limits_judge_surface(sheet_values_surface_at(src, at));
    uint64_t next = sheet_next_place(src, at);
    gate_Fit fit = gate_layers_fit(src, next, n, wavelength_nm, judgement.snell);
    return gate_or_metal(fit.all, src, at, n, wavelength_nm);
}

// The layers of n SURFACEs, the first of which begins at a place, up to the next kind 7.
static bool gate_layers_hold(slice_u8 src, uint64_t at, uint32_t n, double wavelength_nm) {
    uint64_t place = at;
    uint32_t round = 0;
    while (round < n) {
        if (sheet_kind_at(src, place) == 7) {
            return true;
        }
        if (!gate_surface_holds(src, place, wavelength_nm)) {
            return false;
        }
        place = sheet_after_layers(src, place);
        round = round + 1;
    }
    return true;
}

// A wavelength, for n SURFACEs, the first of which begins at a place.
static bool gate_holds_from(slice_u8 src, uint64_t at, uint32_t n, double wavelength_nm) {
    return gate_limits_wavelength_passes(wavelength_nm) && gate_layers_hold(src, at, n, wavelength_nm);
}

// A wavelength, with done of a sheet's count of SURFACEs behind it.
static bool gate_holds(slice_u8 src, uint32_t done, uint32_t count, double wavelength_nm) {
    if (!gate_limits_wavelength_passes(wavelength_nm)) {
        return false;
    }
    if (count <= done) {
        return true;
    }
    return gate_layers_hold(src, sheet_begin_of(src, done), count - done, wavelength_nm);
}

// ==== sheet_surfaces
//
// The surfaces of a sheet by their numbers, counted from 0: document 01, section 7. Each call is handed
// the sheet's bytes and gates them anew.

// Of the SURFACE at a place, with the layers after it, met with a wavelength.
static result_surface_Answers_refusal_Refusal sheet_surfaces_answers_met(slice_u8 src, uint64_t at,
        double wavelength_nm) {
    uint64_t n = sheet_layer_run(src, at);
    gate_limits_Surface surface = sheet_values_surface_at(src, at);
    return sheet_answers_answers_at(src, at, n, surface, wavelength_nm);
}

// Of the i-th surface, counted from 0, at the wavelength that a list of steps alone meets it with.
static result_surface_Answers_refusal_Refusal sheet_surfaces_surface_answers(slice_u8 src, uint32_t i) {
    result_u32_refusal_Refusal value = gate_gate(src);
    if (value.tag == result_u32_refusal_Refusal_Err) {
        result_surface_Answers_refusal_Refusal reply;
        reply.tag = result_surface_Answers_refusal_Refusal_Err;
        reply.as.Err = value.as.Err;
        return reply;
    }
    uint32_t count = value.as.Ok;
    if (count <= i) {
        result_surface_Answers_refusal_Refusal reply;
        reply.tag = result_surface_Answers_refusal_Refusal_Err;
        reply.as.Err = (refusal_Refusal){.tag = refusal_Refusal_NoSurface};
        return reply;
    }
    double wavelength_nm = sheet_values_wavelength_of(src, i);
    return sheet_surfaces_answers_met(src, sheet_place_of(src, i), wavelength_nm);
}

// ==== sheet_untuned
//
// A sheet without kind 7 (document 02, slips 6 and 14): the gate, then 12 with the word of the first kind 7.

// The place of the first kind 7; past the last word where there is none.
static uint64_t sheet_untuned_first_tuning(slice_u8 src) {
    uint64_t total = src.count / 4;
    uint64_t at = 0;
    while (at < total) {
        if (sheet_kind_at(src, at) == 7) {
            return at;
        }
        at = sheet_next_place(src, at);
    }
    return at;
}

// The count of surfaces of a sheet that is admitted and has no kind 7; or a refusal: 4, 5, 6, then 12.
static result_u32_refusal_Refusal sheet_untuned_without_tuning(slice_u8 src) {
    result_u32_refusal_Refusal value = gate_gate(src);
    if (value.tag == result_u32_refusal_Refusal_Err) {
        return (result_u32_refusal_Refusal){.tag = result_u32_refusal_Refusal_Err, .as.Err = value.as.Err};
    }
    uint32_t count = value.as.Ok;
    uint64_t place = sheet_untuned_first_tuning(src);
    if (place < src.count / 4) {
        return (result_u32_refusal_Refusal){.tag = result_u32_refusal_Refusal_Err,
                .as.Err = {.tag = refusal_Refusal_Tuning, .as.Tuning = place}};
    }
    return (result_u32_refusal_Refusal){.tag = result_u32_refusal_Refusal_Ok, .as.Ok = count};
}

// ==== sheet_edition_1
//
// Sheets for the old reduction program, which reads edition 1 only (document 02, slip 6): an edition 1
// sheet is written from an edition 2 sheet.

// The pattern of a float; every NaN has the same. No index of an admitted sheet is a NaN.
static uint64_t sheet_edition_1_pattern(double x) {
    if (x != x) {
        return 0x7ff8000000000000u;
    }
    return to_bits(x);
}

// Its high word.
static uint32_t sheet_edition_1_high_word(double x) {
    return (uint32_t)(sheet_edition_1_pattern(x) / 0x100000000u);
}

// Its low word.
static uint32_t sheet_edition_1_low_word(double x) {
    return (uint32_t)(sheet_edition_1_pattern(x) % 0x100000000u);
}

// A word at a place of the output, high byte first.
static void sheet_edition_1_put_word(slice_mut_u8 output, uint64_t to, uint32_t w) {
    uint64_t i = 4 * to;
    output.at[i] = (uint8_t)(w / 0x1000000);
    output.at[i + 1] = (uint8_t)(w / 0x10000 % 256);
    output.at[i + 2] = (uint8_t)(w / 256 % 256);
    output.at[i + 3] = (uint8_t)(w % 256);
}

// How many words the block at a place becomes: a kind 6 becomes a LAYER, and all else keeps its words.
static uint64_t sheet_edition_1_new_size(slice_u8 src, uint64_t at) {
    if (sheet_kind_at(src, at) == 6) {
        return 7;
    }
    return sheet_next_place(src, at) - at;
}

// The j-th word of the LAYER that the kind 6 at a place becomes: its index at a wavelength, k +0, its thickness.
static uint32_t sheet_edition_1_layer_word(slice_u8 src, uint64_t at, double wavelength_nm, uint64_t j) {
    thin_film_solver_ThinFilmLayer film = sheet_values_cauchy_film(wavelength_nm, sheet_values_cauchy_at(src, at));
    if (j == 0) {
        return 0x40000000;
    }
    if (j == 1) {
        return sheet_edition_1_high_word(film.n);
    }
    if (j == 2) {
        return sheet_edition_1_low_word(film.n);
    }
    if (j == 3) {
        return sheet_edition_1_high_word(film.k);
    }
    if (j == 4) {
        return sheet_edition_1_low_word(film.k);
    }
    return sheet_word_from(src, at + j + 2);
}

// The j-th word of what the block at a place becomes: OPEN's payload is 1, a kind 6 is a LAYER, all else is as it was.
static uint32_t sheet_edition_1_new_word(slice_u8 src, uint64_t at, double wavelength_nm, uint64_t j) {
    uint32_t kind = sheet_kind_at(src, at);
    if (kind == 1) {
        return 0x10000001;
    }
    if (kind == 6) {
        return sheet_edition_1_layer_word(src, at, wavelength_nm, j);
    }
    return sheet_word_from(src, at + j);
}

// What the block at a place becomes, at a place of the output; the place after it.
static uint64_t sheet_edition_1_put_block(slice_u8 src, uint64_t at, double wavelength_nm, uint64_t to,
        slice_mut_u8 output) {
    uint64_t n = sheet_edition_1_new_size(src, at);
    uint64_t j = 0;
    while (j < n) {
        sheet_edition_1_put_word(output, to + j, sheet_edition_1_new_word(src, at, wavelength_nm, j));
        j = j + 1;
    }
    return to + n;
}

// How many bytes the new sheet has.
static uint64_t sheet_edition_1_new_length(slice_u8 src) {
    uint64_t total = src.count / 4;
    uint64_t at = 0;
    uint64_t n = 0;
    while (at < total) {
        n = n + sheet_edition_1_new_size(src, at);
        at = sheet_next_place(src, at);
    }
    return 4 * n;
}

// The new sheet at the front of an output that has room for it, block after block.
static void sheet_edition_1_write(slice_u8 src, slice_mut_u8 output) {
    uint64_t total = src.count / 4;
    sheet_values_Beam beam = sheet_values_beam_of(src);
    double wavelength_nm = beam.wavelength_nm;
    uint64_t at = 0;
    uint64_t to = 0;
    while (at < total) {
        to = sheet_edition_1_put_block(src, at, wavelength_nm, to, output);
        at = sheet_next_place(src, at);
    }
}

// An edition 1 sheet for a sheet of either edition: each kind 6 becomes a LAYER with the index computed at
// the BEAM's wavelength and k +0, OPEN's payload is 1, all else is unchanged. It is written to the front of
// output, whose bytes past it keep what they held. Refusals: 4, 5, 6, 12 with the word of the first kind 7,
// then 8 for an output that is too short; each leaves the output untouched.
static result_u64_refusal_Refusal sheet_edition_1_to_edition_1(slice_u8 src, slice_mut_u8 output) {
    result_u32_refusal_Refusal value = sheet_untuned_without_tuning(src);
    if (value.tag == result_u32_refusal_Refusal_Err) {
        return (result_u64_refusal_Refusal){.tag = result_u64_refusal_Refusal_Err, .as.Err = value.as.Err};
    }
    uint64_t length = sheet_edition_1_new_length(src);
    if (output.count < length) {
        return (result_u64_refusal_Refusal){.tag = result_u64_refusal_Refusal_Err,
                .as.Err = {.tag = refusal_Refusal_TooShort}};
    }
    sheet_edition_1_write(src, output);
    return (result_u64_refusal_Refusal){.tag = result_u64_refusal_Refusal_Ok, .as.Ok = length};
}

// ==== train_steps
//
// The train of document 01, section 7, and of document 02, slip 5: start, step, retune and whole run. Each is
// handed the sheet's bytes and gates them anew.

// Those of the reflected or of the transmitted light.
static train_steps_Chosen train_steps_choose(bool reflected, surface_Powers r) {
    if (reflected) {
        return (train_steps_Chosen){.s = r.reflectance_s, .p = r.reflectance_p};
    }
    return (train_steps_Chosen){.s = r.transmittance_s, .p = r.transmittance_p};
}

// No surface within the limits is refused.
static train_steps_Chosen train_steps_chosen_of(bool reflected, result_surface_Powers_refusal_Refusal reply) {
    if (reply.tag == result_surface_Powers_refusal_Refusal_Ok) {
        surface_Powers r = reply.as.Ok;
        return train_steps_choose(reflected, r);
    }
    return (train_steps_Chosen){.s = 0.0 / 0.0, .p = 0.0 / 0.0};
}

// Of the surface at a place with the n layers after it.
static train_steps_Chosen train_steps_chosen_at(slice_u8 src, uint64_t at, uint64_t n, double wavelength_nm) {
    gate_limits_Surface surface = sheet_values_surface_at(src, at);
    result_surface_Powers_refusal_Refusal reply = sheet_answers_powers_at(src, at, n, surface, wavelength_nm);
    return train_steps_chosen_of(surface.reflected, reply);
}

// The same with the sine and the cosine of its angle.
static train_steps_Chosen train_steps_chosen_with(slice_u8 src, uint64_t at, uint64_t n, double wavelength_nm,
        math_trig_SinCos theta) {
    gate_limits_Surface surface = sheet_values_surface_at(src, at);
    result_surface_Powers_refusal_Refusal reply = sheet_answers_powers_with_angle(src, at, n, surface, theta,
            wavelength_nm);
    return train_steps_chosen_of(surface.reflected, reply);
}

// The state after a surface of these powers, met with a wavelength.
static train_steps_State train_steps_moved(train_steps_Chosen c, double wavelength_nm, train_steps_State state) {
    return (train_steps_State){.done = state.done + 1, .s = state.s * c.s, .p = state.p * c.p,
            .wavelength_nm = wavelength_nm};
}

// The state after the surface at a place with the n layers after it, met with a wavelength.
static train_steps_State train_steps_moved_from(slice_u8 src, uint64_t at, uint64_t n, double wavelength_nm,
        train_steps_State state) {
    return train_steps_moved(train_steps_chosen_at(src, at, n, wavelength_nm), wavelength_nm, state);
}

// The state after the surface that begins at a place with its n layers, which is met with its own kind 7's wavelength or the one held.
static train_steps_State train_steps_moved_at(slice_u8 src, uint64_t begin, uint64_t n, math_trig_SinCos theta,
        train_steps_State state) {
    double wavelength_nm = sheet_values_met_with(src, begin, state.wavelength_nm);
    uint64_t at = sheet_onto(src, begin);
    return train_steps_moved(train_steps_chosen_with(src, at, n, wavelength_nm, theta), wavelength_nm, state);
}

// One surface on from any state; a refusal leaves the state as it was.
static result_train_steps_State_refusal_Refusal train_steps_step(slice_u8 src, train_steps_State state) {
    u64_x64 begins;
    for (size_t each = 0; each < 64; each++) {
        begins.at[each] = 1;
    }
    u64_x64 counts;
    for (size_t each = 0; each < 64; each++) {
        counts.at[each] = 1;
    }
    f64_x64 sines;
    for (size_t each = 0; each < 64; each++) {
        sines.at[each] = 1.0;
    }
    f64_x64 cosines;
    for (size_t each = 0; each < 64; each++) {
        cosines.at[each] = 1.0;
    }
    result_u32_refusal_Refusal value = gate_gate_index(src, &begins, &counts, &sines, &cosines);
    if (value.tag == result_u32_refusal_Refusal_Err) {
        return (result_train_steps_State_refusal_Refusal){.tag = result_train_steps_State_refusal_Refusal_Err,
                .as.Err = value.as.Err};
    }
    uint32_t count = value.as.Ok;
    if (count <= state.done) {
        return (result_train_steps_State_refusal_Refusal){.tag = result_train_steps_State_refusal_Refusal_Err,
                .as.Err = {.tag = refusal_Refusal_NoSurface}};
    }
    uint64_t i = (uint64_t)state.done;
    uint64_t begin = begins.at[i];
    if (!gate_holds_from(src, begin, count - state.done, state.wavelength_nm)) {
        return (result_train_steps_State_refusal_Refusal){.tag = result_train_steps_State_refusal_Refusal_Err,
                .as.Err = {.tag = refusal_Refusal_Wavelength}};
    }
    math_trig_SinCos theta = {.sin = sines.at[i], .cos = cosines.at[i]};
    return (result_train_steps_State_refusal_Refusal){.tag = result_train_steps_State_refusal_Refusal_Ok,
            .as.Ok = train_steps_moved_at(src, begin, counts.at[i], theta, state)};
}

// A new wavelength for the surfaces not yet done, from any state; a refusal leaves the state as it was.
static result_train_steps_State_refusal_Refusal train_steps_retune(slice_u8 src, train_steps_State state,
        double wavelength_nm) {
    result_u32_refusal_Refusal value = gate_gate(src);
    if (value.tag == result_u32_refusal_Refusal_Err) {
        return (result_train_steps_State_refusal_Refusal){.tag = result_train_steps_State_refusal_Refusal_Err,
                .as.Err = value.as.Err};
    }
    uint32_t count = value.as.Ok;
    if (!gate_holds(src, state.done, count, wavelength_nm)) {
        return (result_train_steps_State_refusal_Refusal){.tag = result_train_steps_State_refusal_Refusal_Err,
                .as.Err = {.tag = refusal_Refusal_Wavelength}};
    }
    return (result_train_steps_State_refusal_Refusal){.tag = result_train_steps_State_refusal_Refusal_Ok,
            .as.Ok = {.done = state.done, .s = state.s, .p = state.p, .wavelength_nm = wavelength_nm}};
}

// The powers after each of count surfaces, written to a list that has room for them.
static void train_steps_write_each(slice_u8 src, uint64_t count, const u64_x64 *begins, const u64_x64 *counts,
        const f64_x64 *sines, const f64_x64 *cosines, slice_mut_f64 list) {
    sheet_values_Beam beam = sheet_values_beam_of(src);
    double s = beam.s;
    double p = beam.p;
    double wavelength_nm = beam.wavelength_nm;
    uint64_t i = 0;
    while (i < count) {
        uint64_t begin = begins->at[i];
        wavelength_nm = sheet_values_met_with(src, begin, wavelength_nm);
        uint64_t at = sheet_onto(src, begin);
        math_trig_SinCos theta = {.sin = sines->at[i], .cos = cosines->at[i]};
        train_steps_Chosen c = train_steps_chosen_with(src, at, counts->at[i], wavelength_nm, theta);
        s = s * c.s;
        p = p * c.p;
        list.at[2 * i] = s;
        list.at[2 * i + 1] = p;
        i = i + 1;
    }
}

// The state after count surfaces from the start, with a wavelength in place of the BEAM's; it gates nothing.
static train_steps_State train_steps_run_at(slice_u8 src, uint32_t count, double wavelength_nm) {
    sheet_values_Beam beam = sheet_values_beam_of(src);
    train_steps_State state = {.done = 0, .s = beam.s, .p = beam.p, .wavelength_nm = wavelength_nm};
    uint64_t begin = sheet_begin_of(src, 0);
    uint32_t round = 0;
    while (round < count) {
        double met_nm = sheet_values_met_with(src, begin, state.wavelength_nm);
        uint64_t at = sheet_onto(src, begin);
        sheet_LayerRun run = sheet_layers_on(src, at);
        state = train_steps_moved_from(src, at, run.count, met_nm, state);
        begin = run.next;
        round = round + 1;
    }
    return state;
}

// A run over the whole sheet from its start: s, p after each surface go to the lent list.
static result_u32_refusal_Refusal train_steps_run(slice_u8 src, slice_mut_f64 list) {
    u64_x64 begins;
    for (size_t each = 0; each < 64; each++) {
        begins.at[each] = 1;
    }
    u64_x64 counts;
    for (size_t each = 0; each < 64; each++) {
        counts.at[each] = 1;
    }
    f64_x64 sines;
    for (size_t each = 0; each < 64; each++) {
        sines.at[each] = 1.0;
    }
    f64_x64 cosines;
    for (size_t each = 0; each < 64; each++) {
        cosines.at[each] = 1.0;
    }
    result_u32_refusal_Refusal value = gate_gate_index(src, &begins, &counts, &sines, &cosines);
    if (value.tag == result_u32_refusal_Refusal_Err) {
        return (result_u32_refusal_Refusal){.tag = result_u32_refusal_Refusal_Err, .as.Err = value.as.Err};
    }
    uint32_t count = value.as.Ok;
    uint64_t n = (uint64_t)count;
    if (list.count < 2 * n) {
        return (result_u32_refusal_Refusal){.tag = result_u32_refusal_Refusal_Err,
                .as.Err = {.tag = refusal_Refusal_TooShort}};
    }
    train_steps_write_each(src, n, &begins, &counts, &sines, &cosines, list);
    return (result_u32_refusal_Refusal){.tag = result_u32_refusal_Refusal_Ok, .as.Ok = count};
}

// ==== sheet_retuned
//
// Document 02, slip 5: the answers of a sheet's surface where the train is retuned right before it is stepped. The call is
// handed the sheet's bytes and gates them anew.

// Of the i-th surface, counted from 0: at the wavelength of the retune, or at that of a kind 7 before the surface.
static result_surface_Answers_refusal_Refusal sheet_retuned_answers_at(slice_u8 src, uint32_t i,
        double wavelength_nm) {
    result_u32_refusal_Refusal value = gate_gate(src);
    if (value.tag == result_u32_refusal_Refusal_Err) {
        result_surface_Answers_refusal_Refusal reply;
        reply.tag = result_surface_Answers_refusal_Refusal_Err;
        reply.as.Err = value.as.Err;
        return reply;
    }
    uint32_t count = value.as.Ok;
    if (count <= i) {
        result_surface_Answers_refusal_Refusal reply;
        reply.tag = result_surface_Answers_refusal_Refusal_Err;
        reply.as.Err = (refusal_Refusal){.tag = refusal_Refusal_NoSurface};
        return reply;
    }
    if (!gate_holds(src, i, count, wavelength_nm)) {
        result_surface_Answers_refusal_Refusal reply;
        reply.tag = result_surface_Answers_refusal_Refusal_Err;
        reply.as.Err = (refusal_Refusal){.tag = refusal_Refusal_Wavelength};
        return reply;
    }
    uint64_t begin = sheet_begin_of(src, i);
    double met_nm = sheet_values_met_with(src, begin, wavelength_nm);
    return sheet_surfaces_answers_met(src, sheet_onto(src, begin), met_nm);
}

// ==== band
//
// A whole band (document 02, slip 14): a sheet's train at each of 1 to 64 lines from its start, and the
// weighed means of s and of p.

// 1 to 64 lines, a weight for each.
static bool band_lines_fit(slice_f64 wavelengths, slice_u32 weights) {
    uint64_t n = wavelengths.count;
    return 1 <= n && n <= 64 && n == weights.count;
}

// A whole weight, 1 to 1,000.
static bool band_weight_passes(uint32_t weight) {
    return 1 <= weight && weight <= 1000;
}

// The first line whose weight is outside; their count where there is none.
static uint64_t band_first_weight_outside(slice_u32 weights) {
    uint64_t i = 0;
    while (i < weights.count) {
        if (!band_weight_passes(weights.at[i])) {
            return i;
        }
        i = i + 1;
    }
    return weights.count;
}

// Whether the gate takes a line's wavelength, where it is known or not whether all layers always pass.
static bool band_line_passes(slice_u8 src, uint32_t count, bool always, double wavelength_nm) {
    if (always) {
        return gate_limits_wavelength_passes(wavelength_nm);
    }
    return gate_holds(src, 0, count, wavelength_nm);
}

// The n layers from a place on.
static bool band_steady_layers_steady(slice_u8 src, uint64_t at, uint64_t n, double snell) {
    uint64_t place = at;
    uint64_t round = 0;
    while (round < n) {
        if (sheet_kind_at(src, place) == 6) {
            return false;
        }
        if (!gate_limits_layer_within(snell, sheet_values_plain_at(src, place))) {
            return false;
        }
        place = sheet_next_place(src, place);
        round = round + 1;
    }
    return true;
}

// The layers of the SURFACE at a place.
static bool band_steady_surface_steady(slice_u8 src, uint64_t at) {
    gate_limits_Judgement judgement = gate_limits_judge_surface(sheet_values_surface_at(src, at));
    uint64_t n = sheet_layer_run(src, at);
    return band_steady_layers_steady(src, sheet_next_place(src, at), n, judgement.snell);
}

// Those of all of count SURFACEs.
static bool band_steady_steady(slice_u8 src, uint32_t count) {
    uint64_t place = sheet_begin_of(src, 0);
    uint32_t round = 0;
    while (round < count) {
        if (!band_steady_surface_steady(src, place)) {
            return false;
        }
        place = sheet_after_layers(src, place);
        round = round + 1;
    }
    return true;
}

// The first line whose wavelength the gate refuses; their count where there is none.
static uint64_t band_first_wavelength_outside(slice_u8 src, uint32_t count, slice_f64 wavelengths) {
    bool always = band_steady_steady(src, count);
    uint64_t i = 0;
    while (i < wavelengths.count) {
        if (!band_line_passes(src, count, always, wavelengths.at[i])) {
            return i;
        }
        i = i + 1;
    }
    return wavelengths.count;
}

// The train at a line, from its start to its last surface.
static train_steps_State band_at_line(slice_u8 src, uint32_t count, double wavelength_nm) {
    return train_steps_run_at(src, count, wavelength_nm);
}

// Each weight times each power is added up in the order of the lines, onto +0; the totals are divided by
// the sum of the weights.
static band_BandPowers band_weighed(slice_u8 src, uint32_t count, slice_f64 wavelengths, slice_u32 weights) {
    uint64_t n = wavelengths.count;
    double s = 0.0;
    double p = 0.0;
    uint32_t whole = 0;
    uint64_t i = 0;
    while (i < n) {
        train_steps_State line = band_at_line(src, count, wavelengths.at[i]);
        uint32_t weight = weights.at[i];
        s = s + (double)weight * line.s;
        p = p + (double)weight * line.p;
        whole = whole + weight;
        i = i + 1;
    }
    return (band_BandPowers){.lines = (uint32_t)n, .s = s / (double)whole, .p = p / (double)whole};
}

// The means of s and of p over the lines of a band, each a wavelength and a weight. Refusals: 4, 5, 6, 12
// with the word of the first kind 7; 15 with 64 for no lines, more than 64 or lists of unequal length, else
// with the first line whose weight is outside; 16 with the first line whose wavelength the gate refuses.
static result_band_BandPowers_refusal_Refusal band_band(slice_u8 src, slice_f64 wavelengths, slice_u32 weights) {
    result_u32_refusal_Refusal value = sheet_untuned_without_tuning(src);
    if (value.tag == result_u32_refusal_Refusal_Err) {
        return (result_band_BandPowers_refusal_Refusal){.tag = result_band_BandPowers_refusal_Refusal_Err,
                .as.Err = value.as.Err};
    }
    uint32_t count = value.as.Ok;
    if (!band_lines_fit(wavelengths, weights)) {
        return (result_band_BandPowers_refusal_Refusal){.tag = result_band_BandPowers_refusal_Refusal_Err,
                .as.Err = {.tag = refusal_Refusal_Weight, .as.Weight = 64}};
    }
    uint64_t weight = band_first_weight_outside(weights);
    if (weight < weights.count) {
        return (result_band_BandPowers_refusal_Refusal){.tag = result_band_BandPowers_refusal_Refusal_Err,
                .as.Err = {.tag = refusal_Refusal_Weight, .as.Weight = weight}};
    }
    uint64_t wavelength = band_first_wavelength_outside(src, count, wavelengths);
    if (wavelength < wavelengths.count) {
        return (result_band_BandPowers_refusal_Refusal){.tag = result_band_BandPowers_refusal_Refusal_Err,
                .as.Err = {.tag = refusal_Refusal_Line, .as.Line = wavelength}};
    }
    return (result_band_BandPowers_refusal_Refusal){.tag = result_band_BandPowers_refusal_Refusal_Ok,
            .as.Ok = band_weighed(src, count, wavelengths, weights)};
}

// ==== dihkelu
//
// The C interface (include/dihkelu.h). A list is lent as a pointer and a count of elements, two
// arguments one after the other, and a number as a pointer. No call that refuses changes what it was lent:
// a refusal is its number times 2^32 plus its place, which is 0 where the documents give none.

// Its version: major times 2^16 plus minor.
uint32_t dihkelu_version(void) {
    return 4;
}

// SurfaceCoating::evaluate: the coating by its code, its layers as n, k, thickness one after the
// other. Writes the response to the front of list and returns the count of its numbers; or returns
// a refusal: 1, then 3, then 8 for a list that is too short.
static uint64_t dihkelu_evaluate_body(uint32_t code, double design_wavelength_nm, double n_incident,
        double n_substrate, double angle_incident_rad, double wavelength_nm, const double *layers_at,
        size_t layers_count, double *list_at, size_t list_count) {
    slice_f64 layers = {layers_at, layers_count};
    slice_mut_f64 list = {list_at, list_count};
    result_thin_film_solver_CoatingResponse_refusal_Refusal evaluation = c_layers_evaluate(code, design_wavelength_nm,
            n_incident, n_substrate, angle_incident_rad, wavelength_nm, layers);
    if (evaluation.tag == result_thin_film_solver_CoatingResponse_refusal_Refusal_Ok) {
        thin_film_solver_CoatingResponse r = evaluation.as.Ok;
        return c_call_put_response(r, list);
    }
    refusal_Refusal r_2 = evaluation.as.Err;
    return c_call_packed(r_2);
}

uint64_t dihkelu_evaluate(uint32_t code, double design_wavelength_nm, double n_incident, double n_substrate,
        double angle_incident_rad, double wavelength_nm, const double *layers_at, size_t layers_count,
        double *list_at, size_t list_count) {
    uint64_t (*LOOKED_UP body)(uint32_t, double, double, double, double, double, const double *, size_t, double *,
            size_t) = dihkelu_evaluate_body;
    environment caller = environment_enter();
    uint64_t returned = body(code, design_wavelength_nm, n_incident, n_substrate, angle_incident_rad, wavelength_nm,
            layers_at, layers_count, list_at, list_count);
    environment_leave(caller);
    return returned;
}

// The same at many angles and wavelengths, angles_rad[i] and wavelengths_nm[i] being case i: writes the responses one
// after the other and returns the count of their numbers; or a refusal: 1 for lists of unequal length, that of the first
// case that is refused, 1 or 3, with its index as the place, then 8.
static uint64_t dihkelu_evaluate_list_body(uint32_t code, double design_wavelength_nm, double n_incident,
        double n_substrate, const double *angles_rad_at, size_t angles_rad_count, const double *wavelengths_nm_at,
        size_t wavelengths_nm_count, const double *layers_at, size_t layers_count, double *list_at,
        size_t list_count) {
    slice_f64 angles_rad = {angles_rad_at, angles_rad_count};
    slice_f64 wavelengths_nm = {wavelengths_nm_at, wavelengths_nm_count};
    slice_f64 layers = {layers_at, layers_count};
    slice_mut_f64 list = {list_at, list_count};
    return c_scan_evaluate_list(code, design_wavelength_nm, n_incident, n_substrate, angles_rad, wavelengths_nm,
            layers, list);
}

uint64_t dihkelu_evaluate_list(uint32_t code, double design_wavelength_nm, double n_incident, double n_substrate,
        const double *angles_rad_at, size_t angles_rad_count, const double *wavelengths_nm_at,
        size_t wavelengths_nm_count, const double *layers_at, size_t layers_count, double *list_at,
        size_t list_count) {
    uint64_t (*LOOKED_UP body)(uint32_t, double, double, double, const double *, size_t, const double *, size_t,
            const double *, size_t, double *, size_t) = dihkelu_evaluate_list_body;
    environment caller = environment_enter();
    uint64_t returned = body(code, design_wavelength_nm, n_incident, n_substrate, angles_rad_at, angles_rad_count,
            wavelengths_nm_at, wavelengths_nm_count, layers_at, layers_count, list_at, list_count);
    environment_leave(caller);
    return returned;
}

// Which argument earned evaluate's refusal 1: 1 n_incident, 2 n_substrate, 3 the angle, 4 the wavelength, the first
// of them that fails; 0 where none does.
static uint64_t dihkelu_invalid_argument_body(double n_incident, double n_substrate, double angle_incident_rad,
        double wavelength_nm) {
    return c_scan_invalid_argument(n_incident, n_substrate, angle_incident_rad, wavelength_nm);
}

uint64_t dihkelu_invalid_argument(double n_incident, double n_substrate, double angle_incident_rad,
        double wavelength_nm) {
    uint64_t (*LOOKED_UP body)(double, double, double, double) = dihkelu_invalid_argument_body;
    environment caller = environment_enter();
    uint64_t returned = body(n_incident, n_substrate, angle_incident_rad, wavelength_nm);
    environment_leave(caller);
    return returned;
}

// The layers that a text of the stack shorthand stands for, H, L and M being quarter waves of three
// indices at the design wavelength: writes n, k, thickness of one after the other, as dihkelu_evaluate
// takes them, and returns the count of these numbers; or a refusal: 1, 9, 10, then 8.
static uint64_t dihkelu_stack_body(const uint8_t *text_at, size_t text_count, double n_h, double n_l, double n_m,
        double design_wavelength_nm, double *list_at, size_t list_count) {
    slice_u8 text = {text_at, text_count};
    slice_mut_f64 list = {list_at, list_count};
    return c_stack_stack(text, n_h, n_l, n_m, design_wavelength_nm, list);
}

uint64_t dihkelu_stack(const uint8_t *text_at, size_t text_count, double n_h, double n_l, double n_m,
        double design_wavelength_nm, double *list_at, size_t list_count) {
    uint64_t (*LOOKED_UP body)(const uint8_t *, size_t, double, double, double, double, double *,
            size_t) = dihkelu_stack_body;
    environment caller = environment_enter();
    uint64_t returned = body(text_at, text_count, n_h, n_l, n_m, design_wavelength_nm, list_at, list_count);
    environment_leave(caller);
    return returned;
}

// JonesMatrix::to_mueller of a Jones matrix by its 8 numbers, m00, m01, m10, m11, each as re, im: writes
// the matrix row after row and returns 16; or a refusal: 1 where there are not 8 numbers, then 8.
static uint64_t dihkelu_to_mueller_body(const double *jones_at, size_t jones_count, double *list_at,
        size_t list_count) {
    slice_f64 jones = {jones_at, jones_count};
    slice_mut_f64 list = {list_at, list_count};
    return c_mueller_to_mueller(jones, list);
}

uint64_t dihkelu_to_mueller(const double *jones_at, size_t jones_count, double *list_at, size_t list_count) {
    uint64_t (*LOOKED_UP body)(const double *, size_t, double *, size_t) = dihkelu_to_mueller_body;
    environment caller = environment_enter();
    uint64_t returned = body(jones_at, jones_count, list_at, list_count);
    environment_leave(caller);
    return returned;
}

// The same over Stokes vectors with S3 = 2 Im(Ex* Ey), after Born and Wolf: to_mueller_born_wolf.
static uint64_t dihkelu_mueller_born_wolf_body(const double *jones_at, size_t jones_count, double *list_at,
        size_t list_count) {
    slice_f64 jones = {jones_at, jones_count};
    slice_mut_f64 list = {list_at, list_count};
    return c_mueller_mueller_born_wolf(jones, list);
}

uint64_t dihkelu_mueller_born_wolf(const double *jones_at, size_t jones_count, double *list_at, size_t list_count) {
    uint64_t (*LOOKED_UP body)(const double *, size_t, double *, size_t) = dihkelu_mueller_born_wolf_body;
    environment caller = environment_enter();
    uint64_t returned = body(jones_at, jones_count, list_at, list_count);
    environment_leave(caller);
    return returned;
}

// Met head-on, both indices known as ranges within 1 to 4: writes a low and a high reflectance, between
// which every pair of indices within the ranges reflects, and returns 2; or a refusal: 13, then 8.
static uint64_t dihkelu_reflectance_range_body(double n1_low, double n1_high, double n2_low, double n2_high,
        double *list_at, size_t list_count) {
    slice_mut_f64 list = {list_at, list_count};
    return c_range_reflectance_range(n1_low, n1_high, n2_low, n2_high, list);
}

uint64_t dihkelu_reflectance_range(double n1_low, double n1_high, double n2_low, double n2_high, double *list_at,
        size_t list_count) {
    uint64_t (*LOOKED_UP body)(double, double, double, double, double *, size_t) = dihkelu_reflectance_range_body;
    environment caller = environment_enter();
    uint64_t returned = body(n1_low, n1_high, n2_low, n2_high, list_at, list_count);
    environment_leave(caller);
    return returned;
}

// n * thickness in whole quarters of the wavelength: writes the length that is over and returns the
// count; or a refusal: 14.
static uint64_t dihkelu_quarter_waves_body(double n, double thickness_nm, double wavelength_nm,
        double *remainder_nm) {
    return c_quarter_waves_quarter_waves(n, thickness_nm, wavelength_nm, remainder_nm);
}

uint64_t dihkelu_quarter_waves(double n, double thickness_nm, double wavelength_nm, double *remainder_nm) {
    uint64_t (*LOOKED_UP body)(double, double, double, double *) = dihkelu_quarter_waves_body;
    environment caller = environment_enter();
    uint64_t returned = body(n, thickness_nm, wavelength_nm, remainder_nm);
    environment_leave(caller);
    return returned;
}

// Rs and Rp of a dielectric interface: writes both and returns 2; or 8.
static uint64_t dihkelu_fresnel_dielectric_body(double cos_theta_i, double n1, double n2, double *list_at,
        size_t list_count) {
    slice_mut_f64 list = {list_at, list_count};
    return c_fresnel_fresnel_dielectric(cos_theta_i, n1, n2, list);
}

uint64_t dihkelu_fresnel_dielectric(double cos_theta_i, double n1, double n2, double *list_at, size_t list_count) {
    uint64_t (*LOOKED_UP body)(double, double, double, double *, size_t) = dihkelu_fresnel_dielectric_body;
    environment caller = environment_enter();
    uint64_t returned = body(cos_theta_i, n1, n2, list_at, list_count);
    environment_leave(caller);
    return returned;
}

// R and T of unpolarized light: writes both and returns 2; or 8.
static uint64_t dihkelu_fresnel_unpolarized_body(double cos_theta_i, double n1, double n2, double *list_at,
        size_t list_count) {
    slice_mut_f64 list = {list_at, list_count};
    return c_fresnel_fresnel_unpolarized(cos_theta_i, n1, n2, list);
}

uint64_t dihkelu_fresnel_unpolarized(double cos_theta_i, double n1, double n2, double *list_at, size_t list_count) {
    uint64_t (*LOOKED_UP body)(double, double, double, double *, size_t) = dihkelu_fresnel_unpolarized_body;
    environment caller = environment_enter();
    uint64_t returned = body(cos_theta_i, n1, n2, list_at, list_count);
    environment_leave(caller);
    return returned;
}

// Schlick's approximation: writes it and returns 1; or 8.
static uint64_t dihkelu_schlick_approx_body(double cos_theta_i, double n1, double n2, double *list_at,
        size_t list_count) {
    slice_mut_f64 list = {list_at, list_count};
    return c_fresnel_schlick_approx(cos_theta_i, n1, n2, list);
}

uint64_t dihkelu_schlick_approx(double cos_theta_i, double n1, double n2, double *list_at, size_t list_count) {
    uint64_t (*LOOKED_UP body)(double, double, double, double *, size_t) = dihkelu_schlick_approx_body;
    environment caller = environment_enter();
    uint64_t returned = body(cos_theta_i, n1, n2, list_at, list_count);
    environment_leave(caller);
    return returned;
}

// The Jones matrices of a bare surface, of the reflected light and of the transmitted: writes them and returns 16; or
// a refusal: 1, then 8.
static uint64_t dihkelu_surface_fresnel_jones_body(double n1, double n2, double angle_i_rad, double *list_at,
        size_t list_count) {
    slice_mut_f64 list = {list_at, list_count};
    return c_fresnel_surface_fresnel_jones(n1, n2, angle_i_rad, list);
}

uint64_t dihkelu_surface_fresnel_jones(double n1, double n2, double angle_i_rad, double *list_at, size_t list_count) {
    uint64_t (*LOOKED_UP body)(double, double, double, double *, size_t) = dihkelu_surface_fresnel_jones_body;
    environment caller = environment_enter();
    uint64_t returned = body(n1, n2, angle_i_rad, list_at, list_count);
    environment_leave(caller);
    return returned;
}

// Coating::quarter_wave_ar: writes n, k, thickness of its layer and returns 3; or 8.
static uint64_t dihkelu_quarter_wave_ar_body(double n_ambient, double n_substrate, double design_wavelength_nm,
        double *list_at, size_t list_count) {
    slice_mut_f64 list = {list_at, list_count};
    return c_presets_quarter_wave_ar(n_ambient, n_substrate, design_wavelength_nm, list);
}

uint64_t dihkelu_quarter_wave_ar(double n_ambient, double n_substrate, double design_wavelength_nm, double *list_at,
        size_t list_count) {
    uint64_t (*LOOKED_UP body)(double, double, double, double *, size_t) = dihkelu_quarter_wave_ar_body;
    environment caller = environment_enter();
    uint64_t returned = body(n_ambient, n_substrate, design_wavelength_nm, list_at, list_count);
    environment_leave(caller);
    return returned;
}

// Coating::bragg_mirror: writes n, k, thickness of one layer after the other and returns the count of these numbers; or
// a refusal: 3 for more than 31 pairs, then 8.
static uint64_t dihkelu_bragg_mirror_body(double n_high, double n_low, uint32_t pairs, double design_wavelength_nm,
        double *list_at, size_t list_count) {
    slice_mut_f64 list = {list_at, list_count};
    return c_presets_bragg_mirror(n_high, n_low, pairs, design_wavelength_nm, list);
}

uint64_t dihkelu_bragg_mirror(double n_high, double n_low, uint32_t pairs, double design_wavelength_nm,
        double *list_at, size_t list_count) {
    uint64_t (*LOOKED_UP body)(double, double, uint32_t, double, double *, size_t) = dihkelu_bragg_mirror_body;
    environment caller = environment_enter();
    uint64_t returned = body(n_high, n_low, pairs, design_wavelength_nm, list_at, list_count);
    environment_leave(caller);
    return returned;
}

// SurfaceCoating::from_format_name: returns the code that dihkelu_evaluate has the coating by, 0 for none; or a
// refusal: 2.
uint64_t dihkelu_coating_from_name(const uint8_t *name_at, size_t name_count) {
    slice_u8 name = {name_at, name_count};
    return c_names_coating_from_name(name);
}

// SurfaceCoating::to_format_name of the coating that dihkelu_evaluate has by a code: writes the name to the front of the
// output and returns its length in bytes; or a refusal: 2 for a code that has no coating, then 8 for an output that is
// too short.
uint64_t dihkelu_coating_name(uint32_t code, uint8_t *output_at, size_t output_count) {
    slice_mut_u8 output = {output_at, output_count};
    return c_names_coating_name(code, output);
}

// The trimmed part of a name: bytes 0x09 to 0x0D and 0x20 go from both ends. Writes its place in the name and its length
// in bytes, and returns 0; a name without any other byte has a part of length 0 at place 0. It takes all bytes and
// refuses none.
uint64_t dihkelu_trim(const uint8_t *name_at, size_t name_count, uint64_t *place, uint64_t *length) {
    slice_u8 name = {name_at, name_count};
    return c_names_trim(name, place, length);
}

// JonesVector::to_stokes: writes S0 to S3 and returns 4.
static uint64_t dihkelu_to_stokes_body(const double *field_at, size_t field_count, double *list_at,
        size_t list_count) {
    slice_f64 field = {field_at, field_count};
    slice_mut_f64 list = {list_at, list_count};
    return c_polarization_to_stokes(field, list);
}

uint64_t dihkelu_to_stokes(const double *field_at, size_t field_count, double *list_at, size_t list_count) {
    uint64_t (*LOOKED_UP body)(const double *, size_t, double *, size_t) = dihkelu_to_stokes_body;
    environment caller = environment_enter();
    uint64_t returned = body(field_at, field_count, list_at, list_count);
    environment_leave(caller);
    return returned;
}

// JonesVector::normalize: writes the vector and returns 4.
static uint64_t dihkelu_jones_normalize_body(const double *field_at, size_t field_count, double *list_at,
        size_t list_count) {
    slice_f64 field = {field_at, field_count};
    slice_mut_f64 list = {list_at, list_count};
    return c_polarization_jones_normalize(field, list);
}

uint64_t dihkelu_jones_normalize(const double *field_at, size_t field_count, double *list_at, size_t list_count) {
    uint64_t (*LOOKED_UP body)(const double *, size_t, double *, size_t) = dihkelu_jones_normalize_body;
    environment caller = environment_enter();
    uint64_t returned = body(field_at, field_count, list_at, list_count);
    environment_leave(caller);
    return returned;
}

// JonesVector::intensity: writes it and returns 1.
static uint64_t dihkelu_jones_intensity_body(const double *field_at, size_t field_count, double *list_at,
        size_t list_count) {
    slice_f64 field = {field_at, field_count};
    slice_mut_f64 list = {list_at, list_count};
    return c_polarization_jones_intensity(field, list);
}

uint64_t dihkelu_jones_intensity(const double *field_at, size_t field_count, double *list_at, size_t list_count) {
    uint64_t (*LOOKED_UP body)(const double *, size_t, double *, size_t) = dihkelu_jones_intensity_body;
    environment caller = environment_enter();
    uint64_t returned = body(field_at, field_count, list_at, list_count);
    environment_leave(caller);
    return returned;
}

// The degrees of polarization, of linear and of circular polarization, the orientation and the ellipticity: writes
// them and returns 5.
static uint64_t dihkelu_stokes_figures_body(const double *beam_at, size_t beam_count, double *list_at,
        size_t list_count) {
    slice_f64 beam = {beam_at, beam_count};
    slice_mut_f64 list = {list_at, list_count};
    return c_polarization_stokes_figures(beam, list);
}

uint64_t dihkelu_stokes_figures(const double *beam_at, size_t beam_count, double *list_at, size_t list_count) {
    uint64_t (*LOOKED_UP body)(const double *, size_t, double *, size_t) = dihkelu_stokes_figures_body;
    environment caller = environment_enter();
    uint64_t returned = body(beam_at, beam_count, list_at, list_count);
    environment_leave(caller);
    return returned;
}

// JonesMatrix::apply: writes the vector and returns 4.
static uint64_t dihkelu_jones_apply_body(const double *matrix_at, size_t matrix_count, const double *field_at,
        size_t field_count, double *list_at, size_t list_count) {
    slice_f64 matrix = {matrix_at, matrix_count};
    slice_f64 field = {field_at, field_count};
    slice_mut_f64 list = {list_at, list_count};
    return c_polarization_jones_apply(matrix, field, list);
}

uint64_t dihkelu_jones_apply(const double *matrix_at, size_t matrix_count, const double *field_at, size_t field_count,
        double *list_at, size_t list_count) {
    uint64_t (*LOOKED_UP body)(const double *, size_t, const double *, size_t, double *,
            size_t) = dihkelu_jones_apply_body;
    environment caller = environment_enter();
    uint64_t returned = body(matrix_at, matrix_count, field_at, field_count, list_at, list_count);
    environment_leave(caller);
    return returned;
}

// JonesMatrix::mul: writes the product and returns 8.
static uint64_t dihkelu_jones_mul_body(const double *left_at, size_t left_count, const double *right_at,
        size_t right_count, double *list_at, size_t list_count) {
    slice_f64 left = {left_at, left_count};
    slice_f64 right = {right_at, right_count};
    slice_mut_f64 list = {list_at, list_count};
    return c_polarization_jones_mul(left, right, list);
}

uint64_t dihkelu_jones_mul(const double *left_at, size_t left_count, const double *right_at, size_t right_count,
        double *list_at, size_t list_count) {
    uint64_t (*LOOKED_UP body)(const double *, size_t, const double *, size_t, double *,
            size_t) = dihkelu_jones_mul_body;
    environment caller = environment_enter();
    uint64_t returned = body(left_at, left_count, right_at, right_count, list_at, list_count);
    environment_leave(caller);
    return returned;
}

// MuellerMatrix::apply: writes the Stokes vector and returns 4.
static uint64_t dihkelu_mueller_apply_body(const double *matrix_at, size_t matrix_count, const double *beam_at,
        size_t beam_count, double *list_at, size_t list_count) {
    slice_f64 matrix = {matrix_at, matrix_count};
    slice_f64 beam = {beam_at, beam_count};
    slice_mut_f64 list = {list_at, list_count};
    return c_polarization_mueller_apply(matrix, beam, list);
}

uint64_t dihkelu_mueller_apply(const double *matrix_at, size_t matrix_count, const double *beam_at, size_t beam_count,
        double *list_at, size_t list_count) {
    uint64_t (*LOOKED_UP body)(const double *, size_t, const double *, size_t, double *,
            size_t) = dihkelu_mueller_apply_body;
    environment caller = environment_enter();
    uint64_t returned = body(matrix_at, matrix_count, beam_at, beam_count, list_at, list_count);
    environment_leave(caller);
    return returned;
}

// JonesMatrix::diattenuator of two amplitudes, each re, im: writes the matrix and returns 8.
uint64_t dihkelu_diattenuator(const double *amplitudes_at, size_t amplitudes_count, double *list_at,
        size_t list_count) {
    slice_f64 amplitudes = {amplitudes_at, amplitudes_count};
    slice_mut_f64 list = {list_at, list_count};
    return c_polarization_diattenuator(amplitudes, list);
}

// JonesMatrix::linear_polarizer: writes the matrix and returns 8; or 8.
static uint64_t dihkelu_linear_polarizer_body(double angle_rad, double *list_at, size_t list_count) {
    slice_mut_f64 list = {list_at, list_count};
    return c_polarization_linear_polarizer(angle_rad, list);
}

uint64_t dihkelu_linear_polarizer(double angle_rad, double *list_at, size_t list_count) {
    uint64_t (*LOOKED_UP body)(double, double *, size_t) = dihkelu_linear_polarizer_body;
    environment caller = environment_enter();
    uint64_t returned = body(angle_rad, list_at, list_count);
    environment_leave(caller);
    return returned;
}

// JonesMatrix::retarder.
static uint64_t dihkelu_retarder_body(double retardance_rad, double fast_axis_rad, double *list_at,
        size_t list_count) {
    slice_mut_f64 list = {list_at, list_count};
    return c_polarization_retarder(retardance_rad, fast_axis_rad, list);
}

uint64_t dihkelu_retarder(double retardance_rad, double fast_axis_rad, double *list_at, size_t list_count) {
    uint64_t (*LOOKED_UP body)(double, double, double *, size_t) = dihkelu_retarder_body;
    environment caller = environment_enter();
    uint64_t returned = body(retardance_rad, fast_axis_rad, list_at, list_count);
    environment_leave(caller);
    return returned;
}

// JonesMatrix::quarter_wave_plate.
static uint64_t dihkelu_quarter_wave_plate_body(double fast_axis_rad, double *list_at, size_t list_count) {
    slice_mut_f64 list = {list_at, list_count};
    return c_polarization_quarter_wave_plate(fast_axis_rad, list);
}

uint64_t dihkelu_quarter_wave_plate(double fast_axis_rad, double *list_at, size_t list_count) {
    uint64_t (*LOOKED_UP body)(double, double *, size_t) = dihkelu_quarter_wave_plate_body;
    environment caller = environment_enter();
    uint64_t returned = body(fast_axis_rad, list_at, list_count);
    environment_leave(caller);
    return returned;
}

// JonesMatrix::half_wave_plate.
static uint64_t dihkelu_half_wave_plate_body(double fast_axis_rad, double *list_at, size_t list_count) {
    slice_mut_f64 list = {list_at, list_count};
    return c_polarization_half_wave_plate(fast_axis_rad, list);
}

uint64_t dihkelu_half_wave_plate(double fast_axis_rad, double *list_at, size_t list_count) {
    uint64_t (*LOOKED_UP body)(double, double *, size_t) = dihkelu_half_wave_plate_body;
    environment caller = environment_enter();
    uint64_t returned = body(fast_axis_rad, list_at, list_count);
    environment_leave(caller);
    return returned;
}

// An answer of the gate as one number.
static uint64_t dihkelu_number_of(result_u32_refusal_Refusal g) {
    if (g.tag == result_u32_refusal_Refusal_Ok) {
        uint32_t count = g.as.Ok;
        return (uint64_t)count;
    }
    refusal_Refusal r = g.as.Err;
    return c_call_packed(r);
}

// The gate: the count of surfaces, or a refusal: 4, 5 or 6.
static uint64_t dihkelu_gate_body(const uint8_t *sheet_at, size_t sheet_count) {
    slice_u8 sheet = {sheet_at, sheet_count};
    return dihkelu_number_of(gate_gate(sheet));
}

uint64_t dihkelu_gate(const uint8_t *sheet_at, size_t sheet_count) {
    uint64_t (*LOOKED_UP body)(const uint8_t *, size_t) = dihkelu_gate_body;
    environment caller = environment_enter();
    uint64_t returned = body(sheet_at, sheet_count);
    environment_leave(caller);
    return returned;
}

// A fresh train: writes 0 surfaces done and the BEAM's s, p and wavelength, and returns the count of
// surfaces; or a refusal: 4, 5 or 6.
static uint64_t dihkelu_start_body(const uint8_t *sheet_at, size_t sheet_count, uint32_t *surfaces_done, double *s,
        double *p, double *wavelength_nm) {
    slice_u8 sheet = {sheet_at, sheet_count};
    result_u32_refusal_Refusal value = gate_gate(sheet);
    if (value.tag == result_u32_refusal_Refusal_Ok) {
        uint32_t count = value.as.Ok;
        sheet_values_Beam beam = sheet_values_beam_of(sheet);
        *surfaces_done = 0;
        *s = beam.s;
        *p = beam.p;
        *wavelength_nm = beam.wavelength_nm;
        return (uint64_t)count;
    }
    refusal_Refusal r = value.as.Err;
    return c_call_packed(r);
}

uint64_t dihkelu_start(const uint8_t *sheet_at, size_t sheet_count, uint32_t *surfaces_done, double *s, double *p,
        double *wavelength_nm) {
    uint64_t (*LOOKED_UP body)(const uint8_t *, size_t, uint32_t *, double *, double *,
            double *) = dihkelu_start_body;
    environment caller = environment_enter();
    uint64_t returned = body(sheet_at, sheet_count, surfaces_done, s, p, wavelength_nm);
    environment_leave(caller);
    return returned;
}

// One surface on from any state: writes the next one and returns its surfaces done; or a refusal: 4, 5,
// 6, 7 or 11.
static uint64_t dihkelu_step_body(const uint8_t *sheet_at, size_t sheet_count, uint32_t *surfaces_done, double *s,
        double *p, double *wavelength_nm) {
    slice_u8 sheet = {sheet_at, sheet_count};
    train_steps_State state = {.done = *surfaces_done, .s = *s, .p = *p, .wavelength_nm = *wavelength_nm};
    result_train_steps_State_refusal_Refusal value = train_steps_step(sheet, state);
    if (value.tag == result_train_steps_State_refusal_Refusal_Ok) {
        train_steps_State next = value.as.Ok;
        *surfaces_done = next.done;
        *s = next.s;
        *p = next.p;
        *wavelength_nm = next.wavelength_nm;
        return (uint64_t)next.done;
    }
    refusal_Refusal r = value.as.Err;
    return c_call_packed(r);
}

uint64_t dihkelu_step(const uint8_t *sheet_at, size_t sheet_count, uint32_t *surfaces_done, double *s, double *p,
        double *wavelength_nm) {
    uint64_t (*LOOKED_UP body)(const uint8_t *, size_t, uint32_t *, double *, double *, double *) = dihkelu_step_body;
    environment caller = environment_enter();
    uint64_t returned = body(sheet_at, sheet_count, surfaces_done, s, p, wavelength_nm);
    environment_leave(caller);
    return returned;
}

// A new wavelength for the surfaces not yet done, from any state: writes it and returns the surfaces
// done; or a refusal: 4, 5, 6 or 11. A state's s and p do not count.
static uint64_t dihkelu_retune_body(const uint8_t *sheet_at, size_t sheet_count, uint32_t surfaces_done,
        double *wavelength_nm, double new_wavelength_nm) {
    slice_u8 sheet = {sheet_at, sheet_count};
    train_steps_State state = {.done = surfaces_done, .s = 0.0, .p = 0.0, .wavelength_nm = *wavelength_nm};
    result_train_steps_State_refusal_Refusal value = train_steps_retune(sheet, state, new_wavelength_nm);
    if (value.tag == result_train_steps_State_refusal_Refusal_Ok) {
        train_steps_State next = value.as.Ok;
        *wavelength_nm = next.wavelength_nm;
        return (uint64_t)next.done;
    }
    refusal_Refusal r = value.as.Err;
    return c_call_packed(r);
}

uint64_t dihkelu_retune(const uint8_t *sheet_at, size_t sheet_count, uint32_t surfaces_done, double *wavelength_nm,
        double new_wavelength_nm) {
    uint64_t (*LOOKED_UP body)(const uint8_t *, size_t, uint32_t, double *, double) = dihkelu_retune_body;
    environment caller = environment_enter();
    uint64_t returned = body(sheet_at, sheet_count, surfaces_done, wavelength_nm, new_wavelength_nm);
    environment_leave(caller);
    return returned;
}

// A whole run: writes s, p after each surface and returns the count of surfaces; or a refusal: 4, 5,
// 6, then 8 for a list shorter than 2 numbers for each surface.
static uint64_t dihkelu_run_body(const uint8_t *sheet_at, size_t sheet_count, double *list_at, size_t list_count) {
    slice_u8 sheet = {sheet_at, sheet_count};
    slice_mut_f64 list = {list_at, list_count};
    result_u32_refusal_Refusal value = train_steps_run(sheet, list);
    return dihkelu_number_of(value);
}

uint64_t dihkelu_run(const uint8_t *sheet_at, size_t sheet_count, double *list_at, size_t list_count) {
    uint64_t (*LOOKED_UP body)(const uint8_t *, size_t, double *, size_t) = dihkelu_run_body;
    environment caller = environment_enter();
    uint64_t returned = body(sheet_at, sheet_count, list_at, list_count);
    environment_leave(caller);
    return returned;
}

// An edition 1 sheet for a sheet of either edition, which runs alike: writes it to the front of the output
// and returns its length in bytes; or a refusal: 4, 5, 6, 12 at the first kind 7, then 8 for an output that
// is too short.
static uint64_t dihkelu_edition_1_body(const uint8_t *sheet_at, size_t sheet_count, uint8_t *output_at,
        size_t output_count) {
    slice_u8 sheet = {sheet_at, sheet_count};
    slice_mut_u8 output = {output_at, output_count};
    result_u64_refusal_Refusal value = sheet_edition_1_to_edition_1(sheet, output);
    if (value.tag == result_u64_refusal_Refusal_Ok) {
        uint64_t n = value.as.Ok;
        return n;
    }
    refusal_Refusal r = value.as.Err;
    return c_call_packed(r);
}

uint64_t dihkelu_edition_1(const uint8_t *sheet_at, size_t sheet_count, uint8_t *output_at, size_t output_count) {
    uint64_t (*LOOKED_UP body)(const uint8_t *, size_t, uint8_t *, size_t) = dihkelu_edition_1_body;
    environment caller = environment_enter();
    uint64_t returned = body(sheet_at, sheet_count, output_at, output_count);
    environment_leave(caller);
    return returned;
}

// The means of s and of p over the lines of a band, each a wavelength and a weight: writes s, p and returns
// the count of lines; or a refusal: 4, 5, 6, 12, 15, 16, then 8.
static uint64_t dihkelu_band_body(const uint8_t *sheet_at, size_t sheet_count, const double *wavelengths_nm_at,
        size_t wavelengths_nm_count, const uint32_t *weights_at, size_t weights_count, double *list_at,
        size_t list_count) {
    slice_u8 sheet = {sheet_at, sheet_count};
    slice_f64 wavelengths_nm = {wavelengths_nm_at, wavelengths_nm_count};
    slice_u32 weights = {weights_at, weights_count};
    slice_mut_f64 list = {list_at, list_count};
    result_band_BandPowers_refusal_Refusal value = band_band(sheet, wavelengths_nm, weights);
    if (value.tag == result_band_BandPowers_refusal_Refusal_Ok) {
        band_BandPowers b = value.as.Ok;
        return c_call_put_both((uint64_t)b.lines, b.s, b.p, list);
    }
    refusal_Refusal r = value.as.Err;
    return c_call_packed(r);
}

uint64_t dihkelu_band(const uint8_t *sheet_at, size_t sheet_count, const double *wavelengths_nm_at,
        size_t wavelengths_nm_count, const uint32_t *weights_at, size_t weights_count, double *list_at,
        size_t list_count) {
    uint64_t (*LOOKED_UP body)(const uint8_t *, size_t, const double *, size_t, const uint32_t *, size_t, double *,
            size_t) = dihkelu_band_body;
    environment caller = environment_enter();
    uint64_t returned = body(sheet_at, sheet_count, wavelengths_nm_at, wavelengths_nm_count, weights_at,
            weights_count, list_at, list_count);
    environment_leave(caller);
    return returned;
}

// Answers, or the refusal that stands beside them.
static uint64_t dihkelu_put_surface(result_surface_Answers_refusal_Refusal reply, slice_mut_f64 list) {
    if (reply.tag == result_surface_Answers_refusal_Refusal_Ok) {
        surface_Answers answers = reply.as.Ok;
        return c_call_put_answers(answers, list);
    }
    refusal_Refusal r = reply.as.Err;
    return c_call_packed(r);
}

// Of a sheet's surface, counted from 0: writes its answers and returns the count of their numbers; or
// a refusal: 4, 5, 6, 7 where there is no such surface, then 8.
static uint64_t dihkelu_answers_body(const uint8_t *sheet_at, size_t sheet_count, uint32_t surface, double *list_at,
        size_t list_count) {
    slice_u8 sheet = {sheet_at, sheet_count};
    slice_mut_f64 list = {list_at, list_count};
    return dihkelu_put_surface(sheet_surfaces_surface_answers(sheet, surface), list);
}

uint64_t dihkelu_answers(const uint8_t *sheet_at, size_t sheet_count, uint32_t surface, double *list_at,
        size_t list_count) {
    uint64_t (*LOOKED_UP body)(const uint8_t *, size_t, uint32_t, double *, size_t) = dihkelu_answers_body;
    environment caller = environment_enter();
    uint64_t returned = body(sheet_at, sheet_count, surface, list_at, list_count);
    environment_leave(caller);
    return returned;
}

// The same where the train is retuned to a wavelength right before that surface is stepped; a kind 7 before the surface
// acts over it. Refuses with 4, 5, 6, 7, then 11 where that retune is refused, then 8.
static uint64_t dihkelu_answers_at_body(const uint8_t *sheet_at, size_t sheet_count, uint32_t surface,
        double wavelength_nm, double *list_at, size_t list_count) {
    slice_u8 sheet = {sheet_at, sheet_count};
    slice_mut_f64 list = {list_at, list_count};
    return dihkelu_put_surface(sheet_retuned_answers_at(sheet, surface, wavelength_nm), list);
}

uint64_t dihkelu_answers_at(const uint8_t *sheet_at, size_t sheet_count, uint32_t surface, double wavelength_nm,
        double *list_at, size_t list_count) {
    uint64_t (*LOOKED_UP body)(const uint8_t *, size_t, uint32_t, double, double *, size_t) = dihkelu_answers_at_body;
    environment caller = environment_enter();
    uint64_t returned = body(sheet_at, sheet_count, surface, wavelength_nm, list_at, list_count);
    environment_leave(caller);
    return returned;
}
