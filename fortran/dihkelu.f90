! Made by tools/c_source from include/dihkelu.h, which says what each call does.
! SPDX-License-Identifier: MIT OR Apache-2.0
!
! A call returns 64 bits: test dihkelu_refusal of them first. A list is passed with its count of elements behind it.
! Fortran has no unsigned numbers: counts and codes are below 2**31, and dihkelu_place gives 64 bits.
module dihkelu
    use, intrinsic :: iso_c_binding, only: c_double, c_int8_t, c_int32_t, c_int64_t, c_size_t
    implicit none
    private

    integer(c_int32_t), parameter, public :: dihkelu_header_version = 4
    integer(c_int32_t), parameter, public :: dihkelu_response_count = 16
    integer(c_int32_t), parameter, public :: dihkelu_bare_count = 53
    integer(c_int32_t), parameter, public :: dihkelu_coated_count = 69
    integer(c_int32_t), parameter, public :: dihkelu_edition_1_count = 30500
    integer(c_int32_t), parameter, public :: dihkelu_lines_count = 64
    integer(c_int32_t), parameter, public :: dihkelu_cases_count = 268435456
    integer(c_int32_t), parameter, public :: dihkelu_stack_count = 192
    integer(c_int32_t), parameter, public :: dihkelu_mueller_count = 16
    integer(c_int32_t), parameter, public :: dihkelu_two_jones_count = 16
    integer(c_int32_t), parameter, public :: dihkelu_name_count = 6

    public :: dihkelu_version, dihkelu_gate, dihkelu_start, dihkelu_step, dihkelu_retune, dihkelu_run, dihkelu_edition_1, &
        dihkelu_band, dihkelu_answers, dihkelu_answers_at, dihkelu_evaluate, dihkelu_evaluate_list, &
        dihkelu_invalid_argument, dihkelu_stack, dihkelu_to_mueller, dihkelu_mueller_born_wolf, &
        dihkelu_reflectance_range, dihkelu_quarter_waves, dihkelu_fresnel_dielectric, dihkelu_fresnel_unpolarized, &
        dihkelu_schlick_approx, dihkelu_surface_fresnel_jones, dihkelu_quarter_wave_ar, dihkelu_bragg_mirror, &
        dihkelu_coating_from_name, dihkelu_coating_name, dihkelu_trim, dihkelu_to_stokes, dihkelu_jones_normalize, &
        dihkelu_jones_intensity, dihkelu_stokes_figures, dihkelu_jones_apply, dihkelu_jones_mul, dihkelu_mueller_apply, &
        dihkelu_diattenuator, dihkelu_linear_polarizer, dihkelu_retarder, dihkelu_quarter_wave_plate, &
        dihkelu_half_wave_plate, dihkelu_refusal, dihkelu_place, dihkelu_value

    interface
        function dihkelu_version() bind(c, name='dihkelu_version') result(returned)
            import :: c_int32_t
            integer(c_int32_t) :: returned
        end function dihkelu_version

        ! The gate. The words of a sheet stand in dihkelu-sheet(5); dihkelu_sheet.h writes one from numbers. It is of edition
        ! 1, or of edition 2, in which a layer may be of kind 6, a glass whose index changes with colour, and a kind 7 may
        ! stand before a surface: the wavelength from there on. In either edition the 1 to 4 layers of a custom surface at
        ! angle zero may be metal films. Returns the count of surfaces; refuses with 4, 5, 6.
        function dihkelu_gate(sheet, sheet_count) bind(c, name='dihkelu_gate') result(returned)
            import :: c_int64_t, c_int8_t, c_size_t
            integer(c_int8_t), intent(in) :: sheet(*)
            integer(c_size_t), value :: sheet_count
            integer(c_int64_t) :: returned
        end function dihkelu_gate

        ! A train's state is four numbers: surfaces done, s, p and the wavelength held in nm. The calls take any state, also one
        ! that no train has been in. Up to version 0.2 a state had no wavelength, and start and step wrote s and p to a list.
        !
        ! A fresh train: no surface done, the BEAM's s, p and wavelength. Returns the count of surfaces; refuses with 4, 5, 6.
        function dihkelu_start(sheet, sheet_count, surfaces_done, s, p, wavelength_nm) bind(c, name='dihkelu_start') &
            result(returned)
            import :: c_double, c_int32_t, c_int64_t, c_int8_t, c_size_t
            integer(c_int8_t), intent(in) :: sheet(*)
            integer(c_size_t), value :: sheet_count
            integer(c_int32_t), intent(inout) :: surfaces_done
            real(c_double), intent(inout) :: s
            real(c_double), intent(inout) :: p
            real(c_double), intent(inout) :: wavelength_nm
            integer(c_int64_t) :: returned
        end function dihkelu_start

        ! A step: takes the surface after those done, at the wavelength of the kind 7 before it or else at the one held, which is
        ! held then. Returns the surfaces done then; refuses with 4, 5, 6, 7, 11, and the state is as before.
        function dihkelu_step(sheet, sheet_count, surfaces_done, s, p, wavelength_nm) bind(c, name='dihkelu_step') &
            result(returned)
            import :: c_double, c_int32_t, c_int64_t, c_int8_t, c_size_t
            integer(c_int8_t), intent(in) :: sheet(*)
            integer(c_size_t), value :: sheet_count
            integer(c_int32_t), intent(inout) :: surfaces_done
            real(c_double), intent(inout) :: s
            real(c_double), intent(inout) :: p
            real(c_double), intent(inout) :: wavelength_nm
            integer(c_int64_t) :: returned
        end function dihkelu_step

        ! A retune: another wavelength for the surfaces not yet done; those done keep their powers. Returns the surfaces done;
        ! refuses with 4, 5, 6, 11, and the wavelength held is as before.
        function dihkelu_retune(sheet, sheet_count, surfaces_done, wavelength_nm, new_wavelength_nm) &
            bind(c, name='dihkelu_retune') result(returned)
            import :: c_double, c_int32_t, c_int64_t, c_int8_t, c_size_t
            integer(c_int8_t), intent(in) :: sheet(*)
            integer(c_size_t), value :: sheet_count
            integer(c_int32_t), value :: surfaces_done
            real(c_double), intent(inout) :: wavelength_nm
            real(c_double), value :: new_wavelength_nm
            integer(c_int64_t) :: returned
        end function dihkelu_retune

        ! A whole run from the start. Writes s, p after each surface, 2 doubles for each, and returns the count of surfaces;
        ! refuses with 4, 5, 6, 8.
        function dihkelu_run(sheet, sheet_count, list, list_count) bind(c, name='dihkelu_run') result(returned)
            import :: c_double, c_int64_t, c_int8_t, c_size_t
            integer(c_int8_t), intent(in) :: sheet(*)
            integer(c_size_t), value :: sheet_count
            real(c_double), intent(inout) :: list(*)
            integer(c_size_t), value :: list_count
            integer(c_int64_t) :: returned
        end function dihkelu_run

        ! A sheet for programs that read edition 1 only, from a sheet of either edition: each kind 6 becomes a LAYER with its
        ! index at the BEAM's wavelength and k +0, OPEN's payload is 1, and all else is as it was; a sheet of edition 1 comes out
        ! as itself. Whole runs, steps and answers of both are the same, bit for bit; after a retune they are not, since a kind 6
        ! changes with colour and a LAYER does not. Writes the new sheet to the front of the output and returns its length in
        ! bytes, which is never more than the old one's; refuses with 4, 5, 6, 12, 8.
        function dihkelu_edition_1(sheet, sheet_count, output, output_count) bind(c, name='dihkelu_edition_1') &
            result(returned)
            import :: c_int64_t, c_int8_t, c_size_t
            integer(c_int8_t), intent(in) :: sheet(*)
            integer(c_size_t), value :: sheet_count
            integer(c_int8_t), intent(inout) :: output(*)
            integer(c_size_t), value :: output_count
            integer(c_int64_t) :: returned
        end function dihkelu_edition_1

        ! A whole band: 1 to 64 lines, each a wavelength in nm and a whole weight 1 to 1,000. The train is run at each line from
        ! its start, the line's wavelength in place of the BEAM's; each weight times s is added up in the order of the lines, onto
        ! +0, and the total is divided by the sum of the weights; likewise p. Writes s and p, 2 doubles from 0 to 1, and returns
        ! the count of lines; refuses with 4, 5, 6, 12, 15, 16, 8. The sheet has no kind 7.
        function dihkelu_band(sheet, sheet_count, wavelengths_nm, wavelengths_count, weights, weights_count, list, &
            list_count) bind(c, name='dihkelu_band') result(returned)
            import :: c_double, c_int32_t, c_int64_t, c_int8_t, c_size_t
            integer(c_int8_t), intent(in) :: sheet(*)
            integer(c_size_t), value :: sheet_count
            real(c_double), intent(in) :: wavelengths_nm(*)
            integer(c_size_t), value :: wavelengths_count
            integer(c_int32_t), intent(in) :: weights(*)
            integer(c_size_t), value :: weights_count
            real(c_double), intent(inout) :: list(*)
            integer(c_size_t), value :: list_count
            integer(c_int64_t) :: returned
        end function dihkelu_band

        ! The answers of a surface, counted from 0, at the wavelength that steps alone meet it with: that of the last kind 7 up
        ! to it, or else the BEAM's. Returns how many doubles it wrote; refuses with 4, 5, 6, 7, 8. In order:
        ! 0        1 for a coated surface, 0 for a bare one
        ! 1 to 4   the powers R_s, R_p, T_s, T_p
        ! 5 to 12  the Jones matrix of the reflected light: m00 (s), m01, m10, m11 (p), each re, im
        ! 13 to 20  the same of the transmitted light
        ! 21 to 36  the Mueller matrix of the reflected light, row after row
        ! 37 to 52  the same of the transmitted light
        ! 53 to 68  of a coated surface alone: its response, as dihkelu_evaluate writes it
        function dihkelu_answers(sheet, sheet_count, surface, list, list_count) bind(c, name='dihkelu_answers') &
            result(returned)
            import :: c_double, c_int32_t, c_int64_t, c_int8_t, c_size_t
            integer(c_int8_t), intent(in) :: sheet(*)
            integer(c_size_t), value :: sheet_count
            integer(c_int32_t), value :: surface
            real(c_double), intent(inout) :: list(*)
            integer(c_size_t), value :: list_count
            integer(c_int64_t) :: returned
        end function dihkelu_answers

        ! The same where the train is retuned to wavelength_nm right before that surface is stepped: at this wavelength, or
        ! at that of a kind 7 before the surface, which acts over the retune. Refuses with 4, 5, 6, 7, then 11 as
        ! dihkelu_retune does with so many surfaces done, then 8.
        function dihkelu_answers_at(sheet, sheet_count, surface, wavelength_nm, list, list_count) &
            bind(c, name='dihkelu_answers_at') result(returned)
            import :: c_double, c_int32_t, c_int64_t, c_int8_t, c_size_t
            integer(c_int8_t), intent(in) :: sheet(*)
            integer(c_size_t), value :: sheet_count
            integer(c_int32_t), value :: surface
            real(c_double), value :: wavelength_nm
            real(c_double), intent(inout) :: list(*)
            integer(c_size_t), value :: list_count
            integer(c_int64_t) :: returned
        end function dihkelu_answers_at

        ! SurfaceCoating::evaluate. Codes: 1 IdealAr, 2 MgF2 (at the design wavelength), 3 BroadbandAr,
        ! 4 HighReflectanceMirror, 5 Custom layers, 6 Custom beamsplitter, 7 Custom mirror, 8 Custom IdealAr. The layers are
        ! n, k, thickness in nm of one after the other, from the side of the lower index (from the incident side where both are
        ! equal). Returns how many doubles it wrote; refuses with 1, 3, 8. In order:
        ! 0 to 7   rs, rp, ts, tp, each re, im
        ! 8 to 11  R_s, R_p, T_s, T_p
        ! 12, 13    the phases of rs and rp in radians
        ! 14, 15    what stays in the glass of s and of p: (1 - R) - T, from 0 to 1
        function dihkelu_evaluate(code, design_wavelength_nm, n_incident, n_substrate, angle_incident_rad, wavelength_nm, &
            layers, layers_count, list, list_count) bind(c, name='dihkelu_evaluate') result(returned)
            import :: c_double, c_int32_t, c_int64_t, c_size_t
            integer(c_int32_t), value :: code
            real(c_double), value :: design_wavelength_nm
            real(c_double), value :: n_incident
            real(c_double), value :: n_substrate
            real(c_double), value :: angle_incident_rad
            real(c_double), value :: wavelength_nm
            real(c_double), intent(in) :: layers(*)
            integer(c_size_t), value :: layers_count
            real(c_double), intent(inout) :: list(*)
            integer(c_size_t), value :: list_count
            integer(c_int64_t) :: returned
        end function dihkelu_evaluate

        ! The same at many angles and wavelengths: case i has angles_rad[i] and wavelengths_nm[i]. Writes 16 doubles a case, one
        ! case after the other, and returns how many these are. Refuses with 1 at DIHKELU_CASES where there are not as many
        ! wavelengths as angles, or so many cases or more; then as dihkelu_evaluate refuses the first case that it refuses, with 1
        ! or 3 at that case; then with 8. Nothing is written where one case is refused.
        function dihkelu_evaluate_list(code, design_wavelength_nm, n_incident, n_substrate, angles_rad, angles_count, &
            wavelengths_nm, wavelengths_count, layers, layers_count, list, list_count) &
            bind(c, name='dihkelu_evaluate_list') result(returned)
            import :: c_double, c_int32_t, c_int64_t, c_size_t
            integer(c_int32_t), value :: code
            real(c_double), value :: design_wavelength_nm
            real(c_double), value :: n_incident
            real(c_double), value :: n_substrate
            real(c_double), intent(in) :: angles_rad(*)
            integer(c_size_t), value :: angles_count
            real(c_double), intent(in) :: wavelengths_nm(*)
            integer(c_size_t), value :: wavelengths_count
            real(c_double), intent(in) :: layers(*)
            integer(c_size_t), value :: layers_count
            real(c_double), intent(inout) :: list(*)
            integer(c_size_t), value :: list_count
            integer(c_int64_t) :: returned
        end function dihkelu_evaluate_list

        ! Which argument earned a 1 of dihkelu_evaluate: returns 1 for n_incident, 2 for n_substrate, 3 for the angle, 4 for the
        ! wavelength, the first of them that is not finite or, but for the angle, not above zero; 0 where none is, and the 1 was
        ! for the code or the count of the layers' numbers. Refuses never.
        function dihkelu_invalid_argument(n_incident, n_substrate, angle_incident_rad, wavelength_nm) &
            bind(c, name='dihkelu_invalid_argument') result(returned)
            import :: c_double, c_int64_t
            real(c_double), value :: n_incident
            real(c_double), value :: n_substrate
            real(c_double), value :: angle_incident_rad
            real(c_double), value :: wavelength_nm
            integer(c_int64_t) :: returned
        end function dihkelu_invalid_argument

        ! A stack in the coating makers' shorthand, such as "(HL)^7 H", of text_count bytes (no byte 0 ends it). H, L and M
        ! are quarter waves of n_h, n_l, n_m at the design wavelength: thickness design / (4 n), k 0. A whole number 1 to 99
        ! before a letter multiplies its thickness; a power ^1 to ^31 repeats the letter or bracket before it; brackets nest at
        ! most four deep; spaces are skipped, but not inside a number. Writes n, k, thickness in nm of one layer after the
        ! other, as dihkelu_evaluate takes them, and returns how many doubles these are; refuses with 1, 9, 10, 8. All three
        ! indices must be positive and finite, also those of letters that do not occur.
        function dihkelu_stack(text, text_count, n_h, n_l, n_m, design_wavelength_nm, list, list_count) &
            bind(c, name='dihkelu_stack') result(returned)
            import :: c_double, c_int64_t, c_int8_t, c_size_t
            integer(c_int8_t), intent(in) :: text(*)
            integer(c_size_t), value :: text_count
            real(c_double), value :: n_h
            real(c_double), value :: n_l
            real(c_double), value :: n_m
            real(c_double), value :: design_wavelength_nm
            real(c_double), intent(inout) :: list(*)
            integer(c_size_t), value :: list_count
            integer(c_int64_t) :: returned
        end function dihkelu_stack

        ! The Mueller matrix of a Jones matrix of 8 doubles: m00, m01, m10, m11, each re, im. Writes it row after row, 16
        ! doubles, and returns 16; refuses with 1, 8. The first is the Rust's JonesMatrix::to_mueller, as dihkelu_answers has it:
        ! its fourth column is the response to circular_right, (1, -i), so that empty space has -1 in its last place. The second
        ! is over Stokes vectors with S3 = 2 Im(Ex* Ey), as Born and Wolf have them, and empty space has the identity.
        function dihkelu_to_mueller(jones, jones_count, list, list_count) bind(c, name='dihkelu_to_mueller') &
            result(returned)
            import :: c_double, c_int64_t, c_size_t
            real(c_double), intent(in) :: jones(*)
            integer(c_size_t), value :: jones_count
            real(c_double), intent(inout) :: list(*)
            integer(c_size_t), value :: list_count
            integer(c_int64_t) :: returned
        end function dihkelu_to_mueller

        function dihkelu_mueller_born_wolf(jones, jones_count, list, list_count) &
            bind(c, name='dihkelu_mueller_born_wolf') result(returned)
            import :: c_double, c_int64_t, c_size_t
            real(c_double), intent(in) :: jones(*)
            integer(c_size_t), value :: jones_count
            real(c_double), intent(inout) :: list(*)
            integer(c_size_t), value :: list_count
            integer(c_int64_t) :: returned
        end function dihkelu_mueller_born_wolf

        ! A bare surface met head-on, its two indices known as ranges, low to high, within 1 to 4. Writes a low and a high
        ! reflectance, 2 doubles, and returns 2; refuses with 13, 8. For every pair of doubles within the ranges the exact
        ! (n1 - n2)^2 / (n1 + n2)^2 lies between the two; their gap exceeds the true spread by at most 18 2^-53, and
        ! 0 <= low <= high <= 1. Where the ranges overlap low is 0.
        function dihkelu_reflectance_range(n1_low, n1_high, n2_low, n2_high, list, list_count) &
            bind(c, name='dihkelu_reflectance_range') result(returned)
            import :: c_double, c_int64_t, c_size_t
            real(c_double), value :: n1_low
            real(c_double), value :: n1_high
            real(c_double), value :: n2_low
            real(c_double), value :: n2_high
            real(c_double), intent(inout) :: list(*)
            integer(c_size_t), value :: list_count
            integer(c_int64_t) :: returned
        end function dihkelu_reflectance_range

        ! A film in quarter waves: p, which is n times the thickness, rounded once, in quarters q of the wavelength. Writes what
        ! is over to *remainder_nm and returns the count, 16,000 at most: p is count·q + remainder exactly, the remainder from 0
        ! (+0) and below q. Refuses with 14, and leaves *remainder_nm.
        function dihkelu_quarter_waves(n, thickness_nm, wavelength_nm, remainder_nm) &
            bind(c, name='dihkelu_quarter_waves') result(returned)
            import :: c_double, c_int64_t
            real(c_double), value :: n
            real(c_double), value :: thickness_nm
            real(c_double), value :: wavelength_nm
            real(c_double), intent(inout) :: remainder_nm
            integer(c_int64_t) :: returned
        end function dihkelu_quarter_waves

        ! Rs and Rp of a dielectric interface met at an angle of this cosine, which is clamped to 0..1; 1, 1 under total internal
        ! reflection. Writes 2 doubles and returns 2; refuses with 8.
        function dihkelu_fresnel_dielectric(cos_theta_i, n1, n2, list, list_count) &
            bind(c, name='dihkelu_fresnel_dielectric') result(returned)
            import :: c_double, c_int64_t, c_size_t
            real(c_double), value :: cos_theta_i
            real(c_double), value :: n1
            real(c_double), value :: n2
            real(c_double), intent(inout) :: list(*)
            integer(c_size_t), value :: list_count
            integer(c_int64_t) :: returned
        end function dihkelu_fresnel_dielectric

        ! The same of unpolarized light: R, which is (Rs + Rp)/2, and T, which is what is left. Writes 2 doubles and returns 2;
        ! refuses with 8.
        function dihkelu_fresnel_unpolarized(cos_theta_i, n1, n2, list, list_count) &
            bind(c, name='dihkelu_fresnel_unpolarized') result(returned)
            import :: c_double, c_int64_t, c_size_t
            real(c_double), value :: cos_theta_i
            real(c_double), value :: n1
            real(c_double), value :: n2
            real(c_double), intent(inout) :: list(*)
            integer(c_size_t), value :: list_count
            integer(c_int64_t) :: returned
        end function dihkelu_fresnel_unpolarized

        ! Schlick's approximation of that R. Writes 1 double and returns 1; refuses with 8.
        function dihkelu_schlick_approx(cos_theta_i, n1, n2, list, list_count) bind(c, name='dihkelu_schlick_approx') &
            result(returned)
            import :: c_double, c_int64_t, c_size_t
            real(c_double), value :: cos_theta_i
            real(c_double), value :: n1
            real(c_double), value :: n2
            real(c_double), intent(inout) :: list(*)
            integer(c_size_t), value :: list_count
            integer(c_int64_t) :: returned
        end function dihkelu_schlick_approx

        ! The Jones matrices of a bare surface, of the reflected light, then of the transmitted: 8 doubles each. Returns 16;
        ! refuses with 1, 8.
        function dihkelu_surface_fresnel_jones(n1, n2, angle_i_rad, list, list_count) &
            bind(c, name='dihkelu_surface_fresnel_jones') result(returned)
            import :: c_double, c_int64_t, c_size_t
            real(c_double), value :: n1
            real(c_double), value :: n2
            real(c_double), value :: angle_i_rad
            real(c_double), intent(inout) :: list(*)
            integer(c_size_t), value :: list_count
            integer(c_int64_t) :: returned
        end function dihkelu_surface_fresnel_jones

        ! A quarter wave of index sqrt(n_ambient n_substrate) at the design wavelength. Writes n, k, thickness in nm of its layer,
        ! as dihkelu_evaluate takes it, and returns 3; refuses with 8.
        function dihkelu_quarter_wave_ar(n_ambient, n_substrate, design_wavelength_nm, list, list_count) &
            bind(c, name='dihkelu_quarter_wave_ar') result(returned)
            import :: c_double, c_int64_t, c_size_t
            real(c_double), value :: n_ambient
            real(c_double), value :: n_substrate
            real(c_double), value :: design_wavelength_nm
            real(c_double), intent(inout) :: list(*)
            integer(c_size_t), value :: list_count
            integer(c_int64_t) :: returned
        end function dihkelu_quarter_wave_ar

        ! (H L)^pairs H, quarter waves of two indices. Writes n, k, thickness in nm of one layer after the other and returns how
        ! many doubles these are; refuses with 3 for more than 31 pairs, then with 8.
        function dihkelu_bragg_mirror(n_high, n_low, pairs, design_wavelength_nm, list, list_count) &
            bind(c, name='dihkelu_bragg_mirror') result(returned)
            import :: c_double, c_int32_t, c_int64_t, c_size_t
            real(c_double), value :: n_high
            real(c_double), value :: n_low
            integer(c_int32_t), value :: pairs
            real(c_double), value :: design_wavelength_nm
            real(c_double), intent(inout) :: list(*)
            integer(c_size_t), value :: list_count
            integer(c_int64_t) :: returned
        end function dihkelu_bragg_mirror

        ! The coating that a name stands for, of name_count bytes (no byte 0 ends it): returns the code that dihkelu_evaluate has
        ! it by, 1 IdealAr, 2 MgF2 at a design wavelength of 550 nm, 3 BroadbandAr, 4 HighReflectanceMirror; 0 for none, as of an
        ! empty name. An unknown name is IdealAr, as in the Rust. Refuses with 2.
        function dihkelu_coating_from_name(name, name_count) bind(c, name='dihkelu_coating_from_name') result(returned)
            import :: c_int64_t, c_int8_t, c_size_t
            integer(c_int8_t), intent(in) :: name(*)
            integer(c_size_t), value :: name_count
            integer(c_int64_t) :: returned
        end function dihkelu_coating_from_name

        ! The name of the coating that dihkelu_evaluate has by this code: 1 AR, 2 MGF2, 3 BBAR, 4 MIRROR, 5 to 8 CUSTOM. Writes it
        ! to the front of the output, with no byte 0 behind it, and returns its length in bytes; bytes past it keep what they
        ! held.
        ! dihkelu_coating_from_name gives the code of the name back, but 1 for CUSTOM. Refuses with 2 for any other code, then
        ! with 8.
        function dihkelu_coating_name(code, output, output_count) bind(c, name='dihkelu_coating_name') result(returned)
            import :: c_int32_t, c_int64_t, c_int8_t, c_size_t
            integer(c_int32_t), value :: code
            integer(c_int8_t), intent(inout) :: output(*)
            integer(c_size_t), value :: output_count
            integer(c_int64_t) :: returned
        end function dihkelu_coating_name

        ! The trimmed part of a name, as dihkelu_coating_from_name reads it: bytes 0x09 to 0x0D and 0x20 go from both ends. Writes
        ! its place in the name and its length in bytes, and returns 0. A name without any other byte has a part of length 0 at
        ! place 0. Takes all bytes and refuses none.
        function dihkelu_trim(name, name_count, place, length) bind(c, name='dihkelu_trim') result(returned)
            import :: c_int64_t, c_int8_t, c_size_t
            integer(c_int8_t), intent(in) :: name(*)
            integer(c_size_t), value :: name_count
            integer(c_int64_t), intent(inout) :: place
            integer(c_int64_t), intent(inout) :: length
            integer(c_int64_t) :: returned
        end function dihkelu_trim

        ! JonesVector::to_stokes. Writes S0 to S3 and returns 4; refuses with 1, 8.
        function dihkelu_to_stokes(field, field_count, list, list_count) bind(c, name='dihkelu_to_stokes') &
            result(returned)
            import :: c_double, c_int64_t, c_size_t
            real(c_double), intent(in) :: field(*)
            integer(c_size_t), value :: field_count
            real(c_double), intent(inout) :: list(*)
            integer(c_size_t), value :: list_count
            integer(c_int64_t) :: returned
        end function dihkelu_to_stokes

        ! JonesVector::normalize, to intensity 1. Writes the vector and returns 4; refuses with 1, 8.
        function dihkelu_jones_normalize(field, field_count, list, list_count) bind(c, name='dihkelu_jones_normalize') &
            result(returned)
            import :: c_double, c_int64_t, c_size_t
            real(c_double), intent(in) :: field(*)
            integer(c_size_t), value :: field_count
            real(c_double), intent(inout) :: list(*)
            integer(c_size_t), value :: list_count
            integer(c_int64_t) :: returned
        end function dihkelu_jones_normalize

        ! JonesVector::intensity. Writes 1 double and returns 1; refuses with 1, 8.
        function dihkelu_jones_intensity(field, field_count, list, list_count) bind(c, name='dihkelu_jones_intensity') &
            result(returned)
            import :: c_double, c_int64_t, c_size_t
            real(c_double), intent(in) :: field(*)
            integer(c_size_t), value :: field_count
            real(c_double), intent(inout) :: list(*)
            integer(c_size_t), value :: list_count
            integer(c_int64_t) :: returned
        end function dihkelu_jones_intensity

        ! Of a Stokes vector: the degree of polarization, of linear and of circular polarization, the orientation and the
        ! ellipticity in radians. Writes 5 doubles and returns 5; refuses with 1, 8.
        function dihkelu_stokes_figures(beam, beam_count, list, list_count) bind(c, name='dihkelu_stokes_figures') &
            result(returned)
            import :: c_double, c_int64_t, c_size_t
            real(c_double), intent(in) :: beam(*)
            integer(c_size_t), value :: beam_count
            real(c_double), intent(inout) :: list(*)
            integer(c_size_t), value :: list_count
            integer(c_int64_t) :: returned
        end function dihkelu_stokes_figures

        ! JonesMatrix::apply. Writes the vector and returns 4; refuses with 1, 8.
        function dihkelu_jones_apply(matrix, matrix_count, field, field_count, list, list_count) &
            bind(c, name='dihkelu_jones_apply') result(returned)
            import :: c_double, c_int64_t, c_size_t
            real(c_double), intent(in) :: matrix(*)
            integer(c_size_t), value :: matrix_count
            real(c_double), intent(in) :: field(*)
            integer(c_size_t), value :: field_count
            real(c_double), intent(inout) :: list(*)
            integer(c_size_t), value :: list_count
            integer(c_int64_t) :: returned
        end function dihkelu_jones_apply

        ! JonesMatrix::mul: left times right, light passing right first. Writes the matrix and returns 8; refuses with 1, 8.
        function dihkelu_jones_mul(left, left_count, right, right_count, list, list_count) &
            bind(c, name='dihkelu_jones_mul') result(returned)
            import :: c_double, c_int64_t, c_size_t
            real(c_double), intent(in) :: left(*)
            integer(c_size_t), value :: left_count
            real(c_double), intent(in) :: right(*)
            integer(c_size_t), value :: right_count
            real(c_double), intent(inout) :: list(*)
            integer(c_size_t), value :: list_count
            integer(c_int64_t) :: returned
        end function dihkelu_jones_mul

        ! MuellerMatrix::apply. Writes the Stokes vector and returns 4; refuses with 1, 8.
        function dihkelu_mueller_apply(matrix, matrix_count, beam, beam_count, list, list_count) &
            bind(c, name='dihkelu_mueller_apply') result(returned)
            import :: c_double, c_int64_t, c_size_t
            real(c_double), intent(in) :: matrix(*)
            integer(c_size_t), value :: matrix_count
            real(c_double), intent(in) :: beam(*)
            integer(c_size_t), value :: beam_count
            real(c_double), intent(inout) :: list(*)
            integer(c_size_t), value :: list_count
            integer(c_int64_t) :: returned
        end function dihkelu_mueller_apply

        ! JonesMatrix::diattenuator of two amplitudes, each re, im, such as the first four doubles of a response, which give its
        ! reflected light, and the next four its transmitted. Writes the matrix and returns 8; refuses with 1, 8.
        function dihkelu_diattenuator(amplitudes, amplitudes_count, list, list_count) &
            bind(c, name='dihkelu_diattenuator') result(returned)
            import :: c_double, c_int64_t, c_size_t
            real(c_double), intent(in) :: amplitudes(*)
            integer(c_size_t), value :: amplitudes_count
            real(c_double), intent(inout) :: list(*)
            integer(c_size_t), value :: list_count
            integer(c_int64_t) :: returned
        end function dihkelu_diattenuator

        ! A linear polarizer at an angle to the x-axis; a retarder, a quarter-wave and a half-wave plate, their fast axis at an
        ! angle. Each writes its Jones matrix and returns 8; refuses with 8.
        function dihkelu_linear_polarizer(angle_rad, list, list_count) bind(c, name='dihkelu_linear_polarizer') &
            result(returned)
            import :: c_double, c_int64_t, c_size_t
            real(c_double), value :: angle_rad
            real(c_double), intent(inout) :: list(*)
            integer(c_size_t), value :: list_count
            integer(c_int64_t) :: returned
        end function dihkelu_linear_polarizer

        function dihkelu_retarder(retardance_rad, fast_axis_rad, list, list_count) bind(c, name='dihkelu_retarder') &
            result(returned)
            import :: c_double, c_int64_t, c_size_t
            real(c_double), value :: retardance_rad
            real(c_double), value :: fast_axis_rad
            real(c_double), intent(inout) :: list(*)
            integer(c_size_t), value :: list_count
            integer(c_int64_t) :: returned
        end function dihkelu_retarder

        function dihkelu_quarter_wave_plate(fast_axis_rad, list, list_count) bind(c, name='dihkelu_quarter_wave_plate') &
            result(returned)
            import :: c_double, c_int64_t, c_size_t
            real(c_double), value :: fast_axis_rad
            real(c_double), intent(inout) :: list(*)
            integer(c_size_t), value :: list_count
            integer(c_int64_t) :: returned
        end function dihkelu_quarter_wave_plate

        function dihkelu_half_wave_plate(fast_axis_rad, list, list_count) bind(c, name='dihkelu_half_wave_plate') &
            result(returned)
            import :: c_double, c_int64_t, c_size_t
            real(c_double), value :: fast_axis_rad
            real(c_double), intent(inout) :: list(*)
            integer(c_size_t), value :: list_count
            integer(c_int64_t) :: returned
        end function dihkelu_half_wave_plate
    end interface

contains

    ! The refusal's number; 0 for an answer.
    elemental function dihkelu_refusal(returned) result(number)
        integer(c_int64_t), intent(in) :: returned
        integer(c_int32_t) :: number
        number = int(ishft(returned, -32), c_int32_t)
    end function dihkelu_refusal

    ! The place of a refusal; 0 for an answer.
    elemental function dihkelu_place(returned) result(place)
        integer(c_int64_t), intent(in) :: returned
        integer(c_int64_t) :: place
        place = merge(ibits(returned, 0, 32), 0_c_int64_t, dihkelu_refusal(returned) /= 0)
    end function dihkelu_place

    ! The call's own number; 0 for a refusal.
    elemental function dihkelu_value(returned) result(number)
        integer(c_int64_t), intent(in) :: returned
        integer(c_int32_t) :: number
        number = int(merge(ibits(returned, 0, 32), 0_c_int64_t, dihkelu_refusal(returned) == 0), c_int32_t)
    end function dihkelu_value
end module dihkelu
