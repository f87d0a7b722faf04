//! Made by tools/c_source from include/dihkelu.h, which says what each call does.
//! They are unsafe: what a caller owes stands there under "WHAT THE CALLER OWES".

extern "C" {
    pub fn dihkelu_version() -> u32;
    /// The gate. The words of a sheet stand in dihkelu-sheet(5); dihkelu_sheet.h writes one from numbers. It is of edition
    /// 1, or of edition 2, in which a layer may be of kind 6, a glass whose index changes with colour, and a kind 7 may
    /// stand before a surface: the wavelength from there on. In either edition the 1 to 4 layers of a custom surface at
    /// angle zero may be metal films. Returns the count of surfaces; refuses with 4, 5, 6.
    pub fn dihkelu_gate(sheet: *const u8, sheet_count: usize) -> u64;
    /// A train's state is four numbers: surfaces done, s, p and the wavelength held in nm. The calls take any state, also one
    /// that no train has been in. Up to version 0.2 a state had no wavelength, and start and step wrote s and p to a list.
    ///
    /// A fresh train: no surface done, the BEAM's s, p and wavelength. Returns the count of surfaces; refuses with 4, 5, 6.
    pub fn dihkelu_start(
        sheet: *const u8,
        sheet_count: usize,
        surfaces_done: *mut u32,
        s: *mut f64,
        p: *mut f64,
        wavelength_nm: *mut f64,
    ) -> u64;
    /// A step: takes the surface after those done, at the wavelength of the kind 7 before it or else at the one held, which is
    /// held then. Returns the surfaces done then; refuses with 4, 5, 6, 7, 11, and the state is as before.
    pub fn dihkelu_step(
        sheet: *const u8,
        sheet_count: usize,
        surfaces_done: *mut u32,
        s: *mut f64,
        p: *mut f64,
        wavelength_nm: *mut f64,
    ) -> u64;
    /// A retune: another wavelength for the surfaces not yet done; those done keep their powers. Returns the surfaces done;
    /// refuses with 4, 5, 6, 11, and the wavelength held is as before.
    pub fn dihkelu_retune(
        sheet: *const u8,
        sheet_count: usize,
        surfaces_done: u32,
        wavelength_nm: *mut f64,
        new_wavelength_nm: f64,
    ) -> u64;
    /// A whole run from the start. Writes s, p after each surface, 2 doubles for each, and returns the count of surfaces;
    /// refuses with 4, 5, 6, 8.
    pub fn dihkelu_run(
        sheet: *const u8,
        sheet_count: usize,
        list: *mut f64,
        list_count: usize,
    ) -> u64;
    /// A sheet for programs that read edition 1 only, from a sheet of either edition: each kind 6 becomes a LAYER with its
    /// index at the BEAM's wavelength and k +0, OPEN's payload is 1, and all else is as it was; a sheet of edition 1 comes out
    /// as itself. Whole runs, steps and answers of both are the same, bit for bit; after a retune they are not, since a kind 6
    /// changes with colour and a LAYER does not. Writes the new sheet to the front of the output and returns its length in
    /// bytes, which is never more than the old one's; refuses with 4, 5, 6, 12, 8.
    pub fn dihkelu_edition_1(
        sheet: *const u8,
        sheet_count: usize,
        output: *mut u8,
        output_count: usize,
    ) -> u64;
    /// A whole band: 1 to 64 lines, each a wavelength in nm and a whole weight 1 to 1,000. The train is run at each line from
    /// its start, the line's wavelength in place of the BEAM's; each weight times s is added up in the order of the lines, onto
    /// +0, and the total is divided by the sum of the weights; likewise p. Writes s and p, 2 doubles from 0 to 1, and returns
    /// the count of lines; refuses with 4, 5, 6, 12, 15, 16, 8. The sheet has no kind 7.
    pub fn dihkelu_band(
        sheet: *const u8,
        sheet_count: usize,
        wavelengths_nm: *const f64,
        wavelengths_count: usize,
        weights: *const u32,
        weights_count: usize,
        list: *mut f64,
        list_count: usize,
    ) -> u64;
    /// The answers of a surface, counted from 0, at the wavelength that steps alone meet it with: that of the last kind 7 up
    /// to it, or else the BEAM's. Returns how many doubles it wrote; refuses with 4, 5, 6, 7, 8. In order:
    /// 0        1 for a coated surface, 0 for a bare one
    /// 1 to 4   the powers R_s, R_p, T_s, T_p
    /// 5 to 12  the Jones matrix of the reflected light: m00 (s), m01, m10, m11 (p), each re, im
    /// 13 to 20  the same of the transmitted light
    /// 21 to 36  the Mueller matrix of the reflected light, row after row
    /// 37 to 52  the same of the transmitted light
    /// 53 to 68  of a coated surface alone: its response, as dihkelu_evaluate writes it
    pub fn dihkelu_answers(
        sheet: *const u8,
        sheet_count: usize,
        surface: u32,
        list: *mut f64,
        list_count: usize,
    ) -> u64;
    /// The same where the train is retuned to wavelength_nm right before that surface is stepped: at this wavelength, or
    /// at that of a kind 7 before the surface, which acts over the retune. Refuses with 4, 5, 6, 7, then 11 as
    /// dihkelu_retune does with so many surfaces done, then 8.
    pub fn dihkelu_answers_at(
        sheet: *const u8,
        sheet_count: usize,
        surface: u32,
        wavelength_nm: f64,
        list: *mut f64,
        list_count: usize,
    ) -> u64;
    /// SurfaceCoating::evaluate. Codes: 1 IdealAr, 2 MgF2 (at the design wavelength), 3 BroadbandAr,
    /// 4 HighReflectanceMirror, 5 Custom layers, 6 Custom beamsplitter, 7 Custom mirror, 8 Custom IdealAr. The layers are
    /// n, k, thickness in nm of one after the other, from the side of the lower index (from the incident side where both are
    /// equal). Returns how many doubles it wrote; refuses with 1, 3, 8. In order:
    /// 0 to 7   rs, rp, ts, tp, each re, im
    /// 8 to 11  R_s, R_p, T_s, T_p
    /// 12, 13    the phases of rs and rp in radians
    /// 14, 15    what stays in the glass of s and of p: (1 - R) - T, from 0 to 1
    pub fn dihkelu_evaluate(
        code: u32,
        design_wavelength_nm: f64,
        n_incident: f64,
        n_substrate: f64,
        angle_incident_rad: f64,
        wavelength_nm: f64,
        layers: *const f64,
        layers_count: usize,
        list: *mut f64,
        list_count: usize,
    ) -> u64;
    /// The same at many angles and wavelengths: case i has angles_rad\[i\] and wavelengths_nm\[i\]. Writes 16 doubles a case, one
    /// case after the other, and returns how many these are. Refuses with 1 at DIHKELU_CASES where there are not as many
    /// wavelengths as angles, or so many cases or more; then as dihkelu_evaluate refuses the first case that it refuses, with 1
    /// or 3 at that case; then with 8. Nothing is written where one case is refused.
    pub fn dihkelu_evaluate_list(
        code: u32,
        design_wavelength_nm: f64,
        n_incident: f64,
        n_substrate: f64,
        angles_rad: *const f64,
        angles_count: usize,
        wavelengths_nm: *const f64,
        wavelengths_count: usize,
        layers: *const f64,
        layers_count: usize,
        list: *mut f64,
        list_count: usize,
    ) -> u64;
    /// Which argument earned a 1 of dihkelu_evaluate: returns 1 for n_incident, 2 for n_substrate, 3 for the angle, 4 for the
    /// wavelength, the first of them that is not finite or, but for the angle, not above zero; 0 where none is, and the 1 was
    /// for the code or the count of the layers' numbers. Refuses never.
    pub fn dihkelu_invalid_argument(
        n_incident: f64,
        n_substrate: f64,
        angle_incident_rad: f64,
        wavelength_nm: f64,
    ) -> u64;
    /// A stack in the coating makers' shorthand, such as "(HL)^7 H", of text_count bytes (no byte 0 ends it). H, L and M
    /// are quarter waves of n_h, n_l, n_m at the design wavelength: thickness design / (4 n), k 0. A whole number 1 to 99
    /// before a letter multiplies its thickness; a power ^1 to ^31 repeats the letter or bracket before it; brackets nest at
    /// most four deep; spaces are skipped, but not inside a number. Writes n, k, thickness in nm of one layer after the
    /// other, as dihkelu_evaluate takes them, and returns how many doubles these are; refuses with 1, 9, 10, 8. All three
    /// indices must be positive and finite, also those of letters that do not occur.
    pub fn dihkelu_stack(
        text: *const u8,
        text_count: usize,
        n_h: f64,
        n_l: f64,
        n_m: f64,
        design_wavelength_nm: f64,
        list: *mut f64,
        list_count: usize,
    ) -> u64;
    /// The Mueller matrix of a Jones matrix of 8 doubles: m00, m01, m10, m11, each re, im. Writes it row after row, 16
    /// doubles, and returns 16; refuses with 1, 8. The first is the Rust's JonesMatrix::to_mueller, as dihkelu_answers has it:
    /// its fourth column is the response to circular_right, (1, -i), so that empty space has -1 in its last place. The second
    /// is over Stokes vectors with S3 = 2 Im(Ex* Ey), as Born and Wolf have them, and empty space has the identity.
    pub fn dihkelu_to_mueller(
        jones: *const f64,
        jones_count: usize,
        list: *mut f64,
        list_count: usize,
    ) -> u64;
    pub fn dihkelu_mueller_born_wolf(
        jones: *const f64,
        jones_count: usize,
        list: *mut f64,
        list_count: usize,
    ) -> u64;
    /// A bare surface met head-on, its two indices known as ranges, low to high, within 1 to 4. Writes a low and a high
    /// reflectance, 2 doubles, and returns 2; refuses with 13, 8. For every pair of doubles within the ranges the exact
    /// (n1 - n2)^2 / (n1 + n2)^2 lies between the two; their gap exceeds the true spread by at most 18 2^-53, and
    /// 0 <= low <= high <= 1. Where the ranges overlap low is 0.
    pub fn dihkelu_reflectance_range(
        n1_low: f64,
        n1_high: f64,
        n2_low: f64,
        n2_high: f64,
        list: *mut f64,
        list_count: usize,
    ) -> u64;
    /// A film in quarter waves: p, which is n times the thickness, rounded once, in quarters q of the wavelength. Writes what
    /// is over to *remainder_nm and returns the count, 16,000 at most: p is count·q + remainder exactly, the remainder from 0
    /// (+0) and below q. Refuses with 14, and leaves *remainder_nm.
    pub fn dihkelu_quarter_waves(
        n: f64,
        thickness_nm: f64,
        wavelength_nm: f64,
        remainder_nm: *mut f64,
    ) -> u64;
    /// Rs and Rp of a dielectric interface met at an angle of this cosine, which is clamped to 0..1; 1, 1 under total internal
    /// reflection. Writes 2 doubles and returns 2; refuses with 8.
    pub fn dihkelu_fresnel_dielectric(
        cos_theta_i: f64,
        n1: f64,
        n2: f64,
        list: *mut f64,
        list_count: usize,
    ) -> u64;
    /// The same of unpolarized light: R, which is (Rs + Rp)/2, and T, which is what is left. Writes 2 doubles and returns 2;
    /// refuses with 8.
    pub fn dihkelu_fresnel_unpolarized(
        cos_theta_i: f64,
        n1: f64,
        n2: f64,
        list: *mut f64,
        list_count: usize,
    ) -> u64;
    /// Schlick's approximation of that R. Writes 1 double and returns 1; refuses with 8.
    pub fn dihkelu_schlick_approx(
        cos_theta_i: f64,
        n1: f64,
        n2: f64,
        list: *mut f64,
        list_count: usize,
    ) -> u64;
    /// The Jones matrices of a bare surface, of the reflected light, then of the transmitted: 8 doubles each. Returns 16;
    /// refuses with 1, 8.
    pub fn dihkelu_surface_fresnel_jones(
        n1: f64,
        n2: f64,
        angle_i_rad: f64,
        list: *mut f64,
        list_count: usize,
    ) -> u64;
    /// A quarter wave of index sqrt(n_ambient n_substrate) at the design wavelength. Writes n, k, thickness in nm of its layer,
    /// as dihkelu_evaluate takes it, and returns 3; refuses with 8.
    pub fn dihkelu_quarter_wave_ar(
        n_ambient: f64,
        n_substrate: f64,
        design_wavelength_nm: f64,
        list: *mut f64,
        list_count: usize,
    ) -> u64;
    /// (H L)^pairs H, quarter waves of two indices. Writes n, k, thickness in nm of one layer after the other and returns how
    /// many doubles these are; refuses with 3 for more than 31 pairs, then with 8.
    pub fn dihkelu_bragg_mirror(
        n_high: f64,
        n_low: f64,
        pairs: u32,
        design_wavelength_nm: f64,
        list: *mut f64,
        list_count: usize,
    ) -> u64;
    /// The coating that a name stands for, of name_count bytes (no byte 0 ends it): returns the code that dihkelu_evaluate has
    /// it by, 1 IdealAr, 2 MgF2 at a design wavelength of 550 nm, 3 BroadbandAr, 4 HighReflectanceMirror; 0 for none, as of an
    /// empty name. An unknown name is IdealAr, as in the Rust. Refuses with 2.
    pub fn dihkelu_coating_from_name(name: *const u8, name_count: usize) -> u64;
    /// The name of the coating that dihkelu_evaluate has by this code: 1 AR, 2 MGF2, 3 BBAR, 4 MIRROR, 5 to 8 CUSTOM. Writes it
    /// to the front of the output, with no byte 0 behind it, and returns its length in bytes; bytes past it keep what they held.
    /// dihkelu_coating_from_name gives the code of the name back, but 1 for CUSTOM. Refuses with 2 for any other code, then
    /// with 8.
    pub fn dihkelu_coating_name(code: u32, output: *mut u8, output_count: usize) -> u64;
    /// The trimmed part of a name, as dihkelu_coating_from_name reads it: bytes 0x09 to 0x0D and 0x20 go from both ends. Writes
    /// its place in the name and its length in bytes, and returns 0. A name without any other byte has a part of length 0 at
    /// place 0. Takes all bytes and refuses none.
    pub fn dihkelu_trim(
        name: *const u8,
        name_count: usize,
        place: *mut u64,
        length: *mut u64,
    ) -> u64;
    /// JonesVector::to_stokes. Writes S0 to S3 and returns 4; refuses with 1, 8.
    pub fn dihkelu_to_stokes(
        field: *const f64,
        field_count: usize,
        list: *mut f64,
        list_count: usize,
    ) -> u64;
    /// JonesVector::normalize, to intensity 1. Writes the vector and returns 4; refuses with 1, 8.
    pub fn dihkelu_jones_normalize(
        field: *const f64,
        field_count: usize,
        list: *mut f64,
        list_count: usize,
    ) -> u64;
    /// JonesVector::intensity. Writes 1 double and returns 1; refuses with 1, 8.
    pub fn dihkelu_jones_intensity(
        field: *const f64,
        field_count: usize,
        list: *mut f64,
        list_count: usize,
    ) -> u64;
    /// Of a Stokes vector: the degree of polarization, of linear and of circular polarization, the orientation and the
    /// ellipticity in radians. Writes 5 doubles and returns 5; refuses with 1, 8.
    pub fn dihkelu_stokes_figures(
        beam: *const f64,
        beam_count: usize,
        list: *mut f64,
        list_count: usize,
    ) -> u64;
    /// JonesMatrix::apply. Writes the vector and returns 4; refuses with 1, 8.
    pub fn dihkelu_jones_apply(
        matrix: *const f64,
        matrix_count: usize,
        field: *const f64,
        field_count: usize,
        list: *mut f64,
        list_count: usize,
    ) -> u64;
    /// JonesMatrix::mul: left times right, light passing right first. Writes the matrix and returns 8; refuses with 1, 8.
    pub fn dihkelu_jones_mul(
        left: *const f64,
        left_count: usize,
        right: *const f64,
        right_count: usize,
        list: *mut f64,
        list_count: usize,
    ) -> u64;
    /// MuellerMatrix::apply. Writes the Stokes vector and returns 4; refuses with 1, 8.
    pub fn dihkelu_mueller_apply(
        matrix: *const f64,
        matrix_count: usize,
        beam: *const f64,
        beam_count: usize,
        list: *mut f64,
        list_count: usize,
    ) -> u64;
    /// JonesMatrix::diattenuator of two amplitudes, each re, im, such as the first four doubles of a response, which give its
    /// reflected light, and the next four its transmitted. Writes the matrix and returns 8; refuses with 1, 8.
    pub fn dihkelu_diattenuator(
        amplitudes: *const f64,
        amplitudes_count: usize,
        list: *mut f64,
        list_count: usize,
    ) -> u64;
    /// A linear polarizer at an angle to the x-axis; a retarder, a quarter-wave and a half-wave plate, their fast axis at an
    /// angle. Each writes its Jones matrix and returns 8; refuses with 8.
    pub fn dihkelu_linear_polarizer(angle_rad: f64, list: *mut f64, list_count: usize) -> u64;
    pub fn dihkelu_retarder(
        retardance_rad: f64,
        fast_axis_rad: f64,
        list: *mut f64,
        list_count: usize,
    ) -> u64;
    pub fn dihkelu_quarter_wave_plate(fast_axis_rad: f64, list: *mut f64, list_count: usize) -> u64;
    pub fn dihkelu_half_wave_plate(fast_axis_rad: f64, list: *mut f64, list_count: usize) -> u64;
}
