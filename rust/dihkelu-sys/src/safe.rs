//! The calls of libdihkelu.a for Rust, as include/dihkelu.h has them for C, which says what each does and writes. Take
//! this file into a crate as a module and link the static library.
#![allow(dead_code)]

// A slice is a pointer and a count.
extern "C" {
    fn dihkelu_version() -> u32;
    fn dihkelu_gate(sheet: *const u8, sheet_count: usize) -> u64;
    fn dihkelu_start(
        sheet: *const u8,
        sheet_count: usize,
        surfaces_done: *mut u32,
        s: *mut f64,
        p: *mut f64,
        wavelength_nm: *mut f64,
    ) -> u64;
    fn dihkelu_step(
        sheet: *const u8,
        sheet_count: usize,
        surfaces_done: *mut u32,
        s: *mut f64,
        p: *mut f64,
        wavelength_nm: *mut f64,
    ) -> u64;
    fn dihkelu_retune(
        sheet: *const u8,
        sheet_count: usize,
        surfaces_done: u32,
        wavelength_nm: *mut f64,
        new_wavelength_nm: f64,
    ) -> u64;
    fn dihkelu_run(sheet: *const u8, sheet_count: usize, list: *mut f64, list_count: usize) -> u64;
    fn dihkelu_edition_1(
        sheet: *const u8,
        sheet_count: usize,
        output: *mut u8,
        output_count: usize,
    ) -> u64;
    fn dihkelu_band(
        sheet: *const u8,
        sheet_count: usize,
        wavelengths_nm: *const f64,
        wavelengths_count: usize,
        weights: *const u32,
        weights_count: usize,
        list: *mut f64,
        list_count: usize,
    ) -> u64;
    fn dihkelu_answers(
        sheet: *const u8,
        sheet_count: usize,
        surface: u32,
        list: *mut f64,
        list_count: usize,
    ) -> u64;
    fn dihkelu_answers_at(
        sheet: *const u8,
        sheet_count: usize,
        surface: u32,
        wavelength_nm: f64,
        list: *mut f64,
        list_count: usize,
    ) -> u64;
    fn dihkelu_evaluate(
        code: u32,
        design_wavelength_nm: f64,
        n_incident: f64,
        n_substrate: f64,
        angle_incident_rad: f64,
        wavelength_nm: f64,
        layers: *const f64,
        layers_count: usize,
        list: *mut f64,
        list_count: usize,
    ) -> u64;
    fn dihkelu_evaluate_list(
        code: u32,
        design_wavelength_nm: f64,
        n_incident: f64,
        n_substrate: f64,
        angles_rad: *const f64,
        angles_count: usize,
        wavelengths_nm: *const f64,
        wavelengths_count: usize,
        layers: *const f64,
        layers_count: usize,
        list: *mut f64,
        list_count: usize,
    ) -> u64;
    fn dihkelu_invalid_argument(
        n_incident: f64,
        n_substrate: f64,
        angle_incident_rad: f64,
        wavelength_nm: f64,
    ) -> u64;
    fn dihkelu_stack(
        text: *const u8,
        text_count: usize,
        n_h: f64,
        n_l: f64,
        n_m: f64,
        design_wavelength_nm: f64,
        list: *mut f64,
        list_count: usize,
    ) -> u64;
    fn dihkelu_to_mueller(
        jones: *const f64,
        jones_count: usize,
        list: *mut f64,
        list_count: usize,
    ) -> u64;
    fn dihkelu_mueller_born_wolf(
        jones: *const f64,
        jones_count: usize,
        list: *mut f64,
        list_count: usize,
    ) -> u64;
    fn dihkelu_reflectance_range(
        n1_low: f64,
        n1_high: f64,
        n2_low: f64,
        n2_high: f64,
        list: *mut f64,
        list_count: usize,
    ) -> u64;
    fn dihkelu_quarter_waves(
        n: f64,
        thickness_nm: f64,
        wavelength_nm: f64,
        remainder_nm: *mut f64,
    ) -> u64;
    fn dihkelu_fresnel_dielectric(
        cos_theta_i: f64,
        n1: f64,
        n2: f64,
        list: *mut f64,
        list_count: usize,
    ) -> u64;
    fn dihkelu_fresnel_unpolarized(
        cos_theta_i: f64,
        n1: f64,
        n2: f64,
        list: *mut f64,
        list_count: usize,
    ) -> u64;
    fn dihkelu_schlick_approx(
        cos_theta_i: f64,
        n1: f64,
        n2: f64,
        list: *mut f64,
        list_count: usize,
    ) -> u64;
    fn dihkelu_surface_fresnel_jones(
        n1: f64,
        n2: f64,
        angle_i_rad: f64,
        list: *mut f64,
        list_count: usize,
    ) -> u64;
    fn dihkelu_quarter_wave_ar(
        n_ambient: f64,
        n_substrate: f64,
        design_wavelength_nm: f64,
        list: *mut f64,
        list_count: usize,
    ) -> u64;
    fn dihkelu_bragg_mirror(
        n_high: f64,
        n_low: f64,
        pairs: u32,
        design_wavelength_nm: f64,
        list: *mut f64,
        list_count: usize,
    ) -> u64;
    fn dihkelu_coating_from_name(name: *const u8, name_count: usize) -> u64;
    fn dihkelu_coating_name(code: u32, output: *mut u8, output_count: usize) -> u64;
    fn dihkelu_trim(name: *const u8, name_count: usize, place: *mut u64, length: *mut u64) -> u64;
    fn dihkelu_to_stokes(
        field: *const f64,
        field_count: usize,
        list: *mut f64,
        list_count: usize,
    ) -> u64;
    fn dihkelu_jones_normalize(
        field: *const f64,
        field_count: usize,
        list: *mut f64,
        list_count: usize,
    ) -> u64;
    fn dihkelu_jones_intensity(
        field: *const f64,
        field_count: usize,
        list: *mut f64,
        list_count: usize,
    ) -> u64;
    fn dihkelu_stokes_figures(
        beam: *const f64,
        beam_count: usize,
        list: *mut f64,
        list_count: usize,
    ) -> u64;
    fn dihkelu_jones_apply(
        matrix: *const f64,
        matrix_count: usize,
        field: *const f64,
        field_count: usize,
        list: *mut f64,
        list_count: usize,
    ) -> u64;
    fn dihkelu_jones_mul(
        left: *const f64,
        left_count: usize,
        right: *const f64,
        right_count: usize,
        list: *mut f64,
        list_count: usize,
    ) -> u64;
    fn dihkelu_mueller_apply(
        matrix: *const f64,
        matrix_count: usize,
        beam: *const f64,
        beam_count: usize,
        list: *mut f64,
        list_count: usize,
    ) -> u64;
    fn dihkelu_diattenuator(
        amplitudes: *const f64,
        amplitudes_count: usize,
        list: *mut f64,
        list_count: usize,
    ) -> u64;
    fn dihkelu_linear_polarizer(angle_rad: f64, list: *mut f64, list_count: usize) -> u64;
    fn dihkelu_retarder(
        retardance_rad: f64,
        fast_axis_rad: f64,
        list: *mut f64,
        list_count: usize,
    ) -> u64;
    fn dihkelu_quarter_wave_plate(fast_axis_rad: f64, list: *mut f64, list_count: usize) -> u64;
    fn dihkelu_half_wave_plate(fast_axis_rad: f64, list: *mut f64, list_count: usize) -> u64;
}

/// The version that these declarations are of: major × 2^16 + minor.
pub const VERSION: u32 = 0x0000_0004;

/// The library's version.
pub fn version() -> u32 {
    unsafe { dihkelu_version() }
}

/// How many numbers `evaluate` writes, and `answers` for a bare and for a coated surface.
pub const RESPONSE: usize = 16;
pub const BARE: usize = 53;
pub const COATED: usize = 69;

/// The most numbers that `stack` writes: 64 layers of 3.
pub const STACK: usize = 192;

/// The most bytes that `edition_1` writes: the longest sheet of edition 1.
pub const EDITION_1: usize = 30_500;

/// How many numbers a Mueller matrix is.
pub const MUELLER: usize = 16;

/// A refusal of the documents.
#[derive(Clone, Copy, Debug, PartialEq, Eq)]
pub struct Refusal {
    pub number: u32,
    pub place: u32,
}

impl Refusal {
    /// What it says, before its place and behind it; a sentence without its place is whole.
    fn sentence(&self) -> (&'static str, Option<&'static str>) {
        match (self.number, self.place) {
            (1, _) => ("an argument is none that the call takes: an index, a wavelength, a code, or a count of numbers", None),
            (2, 32) => ("the name has more than 32 bytes", None),
            (2, _) => ("byte ", Some(" of the name is no ASCII, or there is no coating of this code")),
            (3, _) => ("there are more than 64 layers, or more than 31 pairs", None),
            (4, _) => ("the sheet's bytes are no multiple of 4, too few or too many", None),
            (5, _) => ("word ", Some(" of the sheet is out of grammar")),
            (6, _) => ("the block at word ", Some(" of the sheet is outside the limits")),
            (7, _) => ("the sheet has no such surface", None),
            (8, _) => ("the list is too short", None),
            (9, _) => ("no stack can have the byte at place ", Some(" of the text")),
            (10, _) => ("the stack has more than 64 layers", None),
            (11, _) => ("the wavelength is outside 100 to 10,000 nm, or a layer still to come fails at it", None),
            (12, _) => ("a kind 7 stands in the sheet, the first at word ", Some("")),
            (13, _) => ("a low end is above its high end, or an end is no number from 1 to 4", None),
            (14, _) => ("the index is outside 1 to 4, the thickness outside 0 to 100,000 nm or the wavelength outside 100 to 10,000 nm", None),
            (15, 64) => ("there are no lines, more than 64, or not as many weights as wavelengths", None),
            (15, _) => ("the weight of line ", Some(" is no whole number from 1 to 1,000")),
            (16, _) => ("the wavelength of line ", Some(" is outside 100 to 10,000 nm, or a layer of the sheet fails at it")),
            _ => ("a number that no call refuses with", None),
        }
    }
}

impl std::fmt::Display for Refusal {
    fn fmt(&self, f: &mut std::fmt::Formatter<'_>) -> std::fmt::Result {
        let (number, place) = (self.number, self.place);
        match self.sentence() {
            (whole, None) => write!(f, "refused {number} {place}: {whole}"),
            (before, Some(behind)) => {
                write!(f, "refused {number} {place}: {before}{place}{behind}")
            }
        }
    }
}

impl std::error::Error for Refusal {}

/// What a call returned, taken apart: the refusal's number is the high half, so all 64 bits are looked at.
fn outcome(returned: u64) -> Result<u32, Refusal> {
    let (number, low) = ((returned >> 32) as u32, returned as u32);
    match number {
        0 => Ok(low),
        _ => Err(Refusal { number, place: low }),
    }
}

// In each call the slices are valid and what is written, being exclusive, overlaps nothing: that is all that the calls
// ask of memory.

/// The gate: the count of surfaces.
pub fn gate(sheet: &[u8]) -> Result<u32, Refusal> {
    outcome(unsafe { dihkelu_gate(sheet.as_ptr(), sheet.len()) })
}

/// A train: what is done of its sheet, the powers after it and the wavelength held.
#[derive(Clone, Copy, Debug, Default, PartialEq)]
pub struct Train {
    pub surfaces_done: u32,
    pub s: f64,
    pub p: f64,
    pub wavelength_nm: f64,
}

/// A fresh train: writes it, gives the count of surfaces.
pub fn start(sheet: &[u8], train: &mut Train) -> Result<u32, Refusal> {
    outcome(unsafe {
        dihkelu_start(
            sheet.as_ptr(),
            sheet.len(),
            &mut train.surfaces_done,
            &mut train.s,
            &mut train.p,
            &mut train.wavelength_nm,
        )
    })
}

/// A step: takes the train one surface on, gives the surfaces done then.
pub fn step(sheet: &[u8], train: &mut Train) -> Result<u32, Refusal> {
    outcome(unsafe {
        dihkelu_step(
            sheet.as_ptr(),
            sheet.len(),
            &mut train.surfaces_done,
            &mut train.s,
            &mut train.p,
            &mut train.wavelength_nm,
        )
    })
}

/// A new wavelength for the surfaces not yet done, gives the surfaces done.
pub fn retune(sheet: &[u8], train: &mut Train, wavelength_nm: f64) -> Result<u32, Refusal> {
    outcome(unsafe {
        dihkelu_retune(
            sheet.as_ptr(),
            sheet.len(),
            train.surfaces_done,
            &mut train.wavelength_nm,
            wavelength_nm,
        )
    })
}

/// A whole run: writes s, p after each surface, gives the count of surfaces.
pub fn run(sheet: &[u8], list: &mut [f64]) -> Result<u32, Refusal> {
    let (at, count) = (list.as_mut_ptr(), list.len());
    outcome(unsafe { dihkelu_run(sheet.as_ptr(), sheet.len(), at, count) })
}

/// An edition 1 sheet that runs as this one does: writes it to the front of the output, gives its length in bytes.
pub fn edition_1(sheet: &[u8], output: &mut [u8]) -> Result<u32, Refusal> {
    let (at, count) = (output.as_mut_ptr(), output.len());
    outcome(unsafe { dihkelu_edition_1(sheet.as_ptr(), sheet.len(), at, count) })
}

/// The most lines of a band.
pub const LINES: usize = 64;

/// A whole band, each line a wavelength and a weight: writes the weighed means of s and of p, gives the count of lines.
pub fn band(
    sheet: &[u8],
    wavelengths_nm: &[f64],
    weights: &[u32],
    list: &mut [f64],
) -> Result<u32, Refusal> {
    let (at, count) = (list.as_mut_ptr(), list.len());
    outcome(unsafe {
        dihkelu_band(
            sheet.as_ptr(),
            sheet.len(),
            wavelengths_nm.as_ptr(),
            wavelengths_nm.len(),
            weights.as_ptr(),
            weights.len(),
            at,
            count,
        )
    })
}

/// The answers of a surface, counted from 0: gives how many numbers it wrote.
pub fn answers(sheet: &[u8], surface: u32, list: &mut [f64]) -> Result<u32, Refusal> {
    let (at, count) = (list.as_mut_ptr(), list.len());
    outcome(unsafe { dihkelu_answers(sheet.as_ptr(), sheet.len(), surface, at, count) })
}

/// The same where the train is retuned to a wavelength right before that surface is stepped.
pub fn answers_at(
    sheet: &[u8],
    surface: u32,
    wavelength_nm: f64,
    list: &mut [f64],
) -> Result<u32, Refusal> {
    let (at, count) = (list.as_mut_ptr(), list.len());
    outcome(unsafe {
        dihkelu_answers_at(sheet.as_ptr(), sheet.len(), surface, wavelength_nm, at, count)
    })
}

/// The light that meets a coated surface, from one index to the other. An array has its numbers in this order.
#[derive(Clone, Copy, Debug, PartialEq)]
pub struct Incidence {
    pub n_incident: f64,
    pub n_substrate: f64,
    pub angle_rad: f64,
    pub wavelength_nm: f64,
}

impl From<[f64; 4]> for Incidence {
    fn from([n_incident, n_substrate, angle_rad, wavelength_nm]: [f64; 4]) -> Incidence {
        Incidence {
            n_incident,
            n_substrate,
            angle_rad,
            wavelength_nm,
        }
    }
}

/// One coated surface; the layers are n, k, thickness one after the other. Gives how many numbers it wrote.
pub fn evaluate(
    code: u32,
    design_wavelength_nm: f64,
    light: impl Into<Incidence>,
    layers: &[f64],
    list: &mut [f64],
) -> Result<u32, Refusal> {
    let light = light.into();
    outcome(unsafe {
        dihkelu_evaluate(
            code,
            design_wavelength_nm,
            light.n_incident,
            light.n_substrate,
            light.angle_rad,
            light.wavelength_nm,
            layers.as_ptr(),
            layers.len(),
            list.as_mut_ptr(),
            list.len(),
        )
    })
}

/// The place of a refusal of `evaluate_list` that is of no case: lists of unequal length, or so many cases.
pub const CASES: u32 = 0x1000_0000;

/// The same at many angles and wavelengths, case i having `angles_rad[i]` and `wavelengths_nm[i]`: writes the responses one
/// after the other, gives how many numbers these are. A refusal's place is the case.
pub fn evaluate_list(
    code: u32,
    design_wavelength_nm: f64,
    [n_incident, n_substrate]: [f64; 2],
    angles_rad: &[f64],
    wavelengths_nm: &[f64],
    layers: &[f64],
    list: &mut [f64],
) -> Result<u32, Refusal> {
    outcome(unsafe {
        dihkelu_evaluate_list(
            code,
            design_wavelength_nm,
            n_incident,
            n_substrate,
            angles_rad.as_ptr(),
            angles_rad.len(),
            wavelengths_nm.as_ptr(),
            wavelengths_nm.len(),
            layers.as_ptr(),
            layers.len(),
            list.as_mut_ptr(),
            list.len(),
        )
    })
}

/// Which of n_incident, n_substrate, angle and wavelength earned a 1 of `evaluate`, counted from 1; 0 where none did.
pub fn invalid_argument(light: impl Into<Incidence>) -> u32 {
    let light = light.into();
    unsafe {
        dihkelu_invalid_argument(
            light.n_incident,
            light.n_substrate,
            light.angle_rad,
            light.wavelength_nm,
        ) as u32
    }
}

/// The indices of the letters of a stack in shorthand. An array has them in this order.
#[derive(Clone, Copy, Debug, PartialEq)]
pub struct Letters {
    pub h: f64,
    pub l: f64,
    pub m: f64,
}

impl From<[f64; 3]> for Letters {
    fn from([h, l, m]: [f64; 3]) -> Letters {
        Letters { h, l, m }
    }
}

/// A stack in the coating makers' shorthand, H, L and M being quarter waves of three indices at a design wavelength:
/// writes n, k, thickness of one layer after the other, gives how many numbers these are.
pub fn stack(
    text: &[u8],
    indices: impl Into<Letters>,
    design_wavelength_nm: f64,
    list: &mut [f64],
) -> Result<u32, Refusal> {
    let n = indices.into();
    let (at, count) = (list.as_mut_ptr(), list.len());
    outcome(unsafe {
        dihkelu_stack(
            text.as_ptr(),
            text.len(),
            n.h,
            n.l,
            n.m,
            design_wavelength_nm,
            at,
            count,
        )
    })
}

/// The Mueller matrix of a Jones matrix of 8 numbers, m00, m01, m10, m11, each re, im, as the Rust's to_mueller gives
/// it: writes it row after row, gives 16.
pub fn to_mueller(jones: &[f64], list: &mut [f64]) -> Result<u32, Refusal> {
    let (at, count) = (list.as_mut_ptr(), list.len());
    outcome(unsafe { dihkelu_to_mueller(jones.as_ptr(), jones.len(), at, count) })
}

/// The same over Stokes vectors with S3 = 2 Im(Ex* Ey), after Born and Wolf.
pub fn mueller_born_wolf(jones: &[f64], list: &mut [f64]) -> Result<u32, Refusal> {
    let (at, count) = (list.as_mut_ptr(), list.len());
    outcome(unsafe { dihkelu_mueller_born_wolf(jones.as_ptr(), jones.len(), at, count) })
}

/// A bare surface met head-on, its indices known as ranges, each low to high: writes a low and a high reflectance, gives 2.
pub fn reflectance_range(
    [n1_low, n1_high]: [f64; 2],
    [n2_low, n2_high]: [f64; 2],
    list: &mut [f64],
) -> Result<u32, Refusal> {
    let (at, count) = (list.as_mut_ptr(), list.len());
    outcome(unsafe { dihkelu_reflectance_range(n1_low, n1_high, n2_low, n2_high, at, count) })
}

/// n times the thickness in whole quarters of the wavelength: writes the length that is over, gives the count.
pub fn quarter_waves(
    n: f64,
    thickness_nm: f64,
    wavelength_nm: f64,
    remainder_nm: &mut f64,
) -> Result<u32, Refusal> {
    outcome(unsafe { dihkelu_quarter_waves(n, thickness_nm, wavelength_nm, remainder_nm) })
}

/// Rs and Rp of a dielectric interface: writes both, gives 2.
pub fn fresnel_dielectric(
    cos_theta_i: f64,
    n1: f64,
    n2: f64,
    list: &mut [f64],
) -> Result<u32, Refusal> {
    let (at, count) = (list.as_mut_ptr(), list.len());
    outcome(unsafe { dihkelu_fresnel_dielectric(cos_theta_i, n1, n2, at, count) })
}

/// R and T of unpolarized light: writes both, gives 2.
pub fn fresnel_unpolarized(
    cos_theta_i: f64,
    n1: f64,
    n2: f64,
    list: &mut [f64],
) -> Result<u32, Refusal> {
    let (at, count) = (list.as_mut_ptr(), list.len());
    outcome(unsafe { dihkelu_fresnel_unpolarized(cos_theta_i, n1, n2, at, count) })
}

/// Schlick's approximation: writes it, gives 1.
pub fn schlick_approx(
    cos_theta_i: f64,
    n1: f64,
    n2: f64,
    list: &mut [f64],
) -> Result<u32, Refusal> {
    let (at, count) = (list.as_mut_ptr(), list.len());
    outcome(unsafe { dihkelu_schlick_approx(cos_theta_i, n1, n2, at, count) })
}

/// The Jones matrices of a bare surface, reflected and transmitted: writes them, gives 16.
pub fn surface_fresnel_jones(
    n1: f64,
    n2: f64,
    angle_i_rad: f64,
    list: &mut [f64],
) -> Result<u32, Refusal> {
    let (at, count) = (list.as_mut_ptr(), list.len());
    outcome(unsafe { dihkelu_surface_fresnel_jones(n1, n2, angle_i_rad, at, count) })
}

/// A quarter-wave layer: writes n, k, thickness, gives 3.
pub fn quarter_wave_ar(
    n_ambient: f64,
    n_substrate: f64,
    design_wavelength_nm: f64,
    list: &mut [f64],
) -> Result<u32, Refusal> {
    let (at, count) = (list.as_mut_ptr(), list.len());
    outcome(unsafe {
        dihkelu_quarter_wave_ar(n_ambient, n_substrate, design_wavelength_nm, at, count)
    })
}

/// (H L)^pairs H: writes n, k, thickness of one layer after the other, gives how many numbers these are.
pub fn bragg_mirror(
    n_high: f64,
    n_low: f64,
    pairs: u32,
    design_wavelength_nm: f64,
    list: &mut [f64],
) -> Result<u32, Refusal> {
    let (at, count) = (list.as_mut_ptr(), list.len());
    outcome(unsafe { dihkelu_bragg_mirror(n_high, n_low, pairs, design_wavelength_nm, at, count) })
}

/// The code that `evaluate` has the coating of a name by; 0 for none.
pub fn coating_from_name(name: &[u8]) -> Result<u32, Refusal> {
    outcome(unsafe { dihkelu_coating_from_name(name.as_ptr(), name.len()) })
}

/// The most bytes that `coating_name` writes.
pub const NAME: usize = 6;

/// The name of the coating that `evaluate` has by a code: writes it to the front of the output, gives its length in bytes.
pub fn coating_name(code: u32, output: &mut [u8]) -> Result<u32, Refusal> {
    let (at, count) = (output.as_mut_ptr(), output.len());
    outcome(unsafe { dihkelu_coating_name(code, at, count) })
}

/// Where the trimmed part of a name lies in it: the call takes all bytes and refuses none.
pub fn trim(name: &[u8]) -> std::ops::Range<usize> {
    let (mut place, mut length) = (0, 0);
    unsafe { dihkelu_trim(name.as_ptr(), name.len(), &mut place, &mut length) };
    place as usize..(place + length) as usize
}

/// The Stokes vector of a Jones vector: writes it, gives 4.
pub fn to_stokes(field: &[f64], list: &mut [f64]) -> Result<u32, Refusal> {
    let (at, count) = (list.as_mut_ptr(), list.len());
    outcome(unsafe { dihkelu_to_stokes(field.as_ptr(), field.len(), at, count) })
}

/// A Jones vector at intensity 1: writes it, gives 4.
pub fn jones_normalize(field: &[f64], list: &mut [f64]) -> Result<u32, Refusal> {
    let (at, count) = (list.as_mut_ptr(), list.len());
    outcome(unsafe { dihkelu_jones_normalize(field.as_ptr(), field.len(), at, count) })
}

/// A Jones vector's intensity: writes it, gives 1.
pub fn jones_intensity(field: &[f64], list: &mut [f64]) -> Result<u32, Refusal> {
    let (at, count) = (list.as_mut_ptr(), list.len());
    outcome(unsafe { dihkelu_jones_intensity(field.as_ptr(), field.len(), at, count) })
}

/// A Stokes vector's degrees of polarization, orientation and ellipticity: writes them, gives 5.
pub fn stokes_figures(beam: &[f64], list: &mut [f64]) -> Result<u32, Refusal> {
    let (at, count) = (list.as_mut_ptr(), list.len());
    outcome(unsafe { dihkelu_stokes_figures(beam.as_ptr(), beam.len(), at, count) })
}

/// A Jones matrix applied to a Jones vector: writes it, gives 4.
pub fn jones_apply(matrix: &[f64], field: &[f64], list: &mut [f64]) -> Result<u32, Refusal> {
    let (at, count) = (list.as_mut_ptr(), list.len());
    outcome(unsafe {
        dihkelu_jones_apply(
            matrix.as_ptr(),
            matrix.len(),
            field.as_ptr(),
            field.len(),
            at,
            count,
        )
    })
}

/// The product of two Jones matrices: writes it, gives 8.
pub fn jones_mul(left: &[f64], right: &[f64], list: &mut [f64]) -> Result<u32, Refusal> {
    let (at, count) = (list.as_mut_ptr(), list.len());
    outcome(unsafe {
        dihkelu_jones_mul(
            left.as_ptr(),
            left.len(),
            right.as_ptr(),
            right.len(),
            at,
            count,
        )
    })
}

/// A Mueller matrix applied to a Stokes vector: writes it, gives 4.
pub fn mueller_apply(matrix: &[f64], beam: &[f64], list: &mut [f64]) -> Result<u32, Refusal> {
    let (at, count) = (list.as_mut_ptr(), list.len());
    outcome(unsafe {
        dihkelu_mueller_apply(
            matrix.as_ptr(),
            matrix.len(),
            beam.as_ptr(),
            beam.len(),
            at,
            count,
        )
    })
}

/// A diattenuator of two amplitudes: writes its Jones matrix, gives 8.
pub fn diattenuator(amplitudes: &[f64], list: &mut [f64]) -> Result<u32, Refusal> {
    let (at, count) = (list.as_mut_ptr(), list.len());
    outcome(unsafe { dihkelu_diattenuator(amplitudes.as_ptr(), amplitudes.len(), at, count) })
}

/// A linear polarizer at an angle: writes its Jones matrix, gives 8.
pub fn linear_polarizer(angle_rad: f64, list: &mut [f64]) -> Result<u32, Refusal> {
    let (at, count) = (list.as_mut_ptr(), list.len());
    outcome(unsafe { dihkelu_linear_polarizer(angle_rad, at, count) })
}

/// A retarder: writes its Jones matrix, gives 8.
pub fn retarder(retardance_rad: f64, fast_axis_rad: f64, list: &mut [f64]) -> Result<u32, Refusal> {
    let (at, count) = (list.as_mut_ptr(), list.len());
    outcome(unsafe { dihkelu_retarder(retardance_rad, fast_axis_rad, at, count) })
}

/// A quarter-wave plate: writes its Jones matrix, gives 8.
pub fn quarter_wave_plate(fast_axis_rad: f64, list: &mut [f64]) -> Result<u32, Refusal> {
    let (at, count) = (list.as_mut_ptr(), list.len());
    outcome(unsafe { dihkelu_quarter_wave_plate(fast_axis_rad, at, count) })
}

/// A half-wave plate: writes its Jones matrix, gives 8.
pub fn half_wave_plate(fast_axis_rad: f64, list: &mut [f64]) -> Result<u32, Refusal> {
    let (at, count) = (list.as_mut_ptr(), list.len());
    outcome(unsafe { dihkelu_half_wave_plate(fast_axis_rad, at, count) })
}

/// Whether subnormals are kept and rounding is to nearest, as dihkelu_environment_ok of the header finds out. A Rust
/// program starts so; C code that it is linked with may have changed it.
pub fn environment_ok() -> bool {
    let seen = std::hint::black_box::<f64>;
    let (one, tie) = (seen(1.0), seen(f64::EPSILON / 2.0));
    let subnormal = seen(seen(f64::MIN_POSITIVE) * seen(0.5));
    let found = [
        subnormal,
        subnormal + subnormal,
        one + tie,
        seen(-1.0) - tie,
        one + 3.0 * tie,
    ];
    let wanted = [
        1 << 51,
        1 << 52,
        0x3FF << 52,
        0xBFF << 52,
        (0x3FF << 52) + 2,
    ];
    found.map(|x| seen(x).to_bits()) == wanted
}
