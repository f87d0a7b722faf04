! Sheets from numbers, and refusals in words, over c/dihkelu_sheet.c: its header says what each function does.
! SPDX-License-Identifier: MIT OR Apache-2.0
!
! A sheet is written block after block to an array that is lent up to its end:
!
!     integer(c_int8_t), target :: bytes(dihkelu_sheet_most)
!     type(dihkelu_sheet) :: sheet
!     integer(c_int64_t) :: returned
!     returned = dihkelu_sheet_begin(sheet, bytes, size(bytes, kind=c_size_t))
!     returned = dihkelu_sheet_beam(sheet, 550d0, 0.5d0, 0.5d0)
!     returned = dihkelu_sheet_surface(sheet, dihkelu_coating_mgf2, 0, 1d0, 1.52d0, 0.5d0)
!     returned = dihkelu_sheet_end(sheet)
!
! A refusal is the answer of every later call too, so that it is enough to test the last; else that is the length in bytes.
module dihkelu_sheets
    use, intrinsic :: iso_c_binding, only: c_char, c_double, c_int, c_int8_t, c_int32_t, c_int64_t, c_null_ptr, c_ptr, c_size_t
    implicit none
    private

    ! The bytes of the longest sheet.
    integer(c_int32_t), parameter, public :: dihkelu_sheet_most = 39460
    integer(c_int32_t), parameter, public :: dihkelu_coating_bare = 0, dihkelu_coating_ideal_ar = 1, dihkelu_coating_mgf2 = 2, &
        dihkelu_coating_broadband_ar = 3, dihkelu_coating_mirror = 4, dihkelu_coating_custom = 5, &
        dihkelu_coating_ideal_beamsplitter = 6, dihkelu_coating_ideal_mirror = 7

    ! A sheet that is being written: the C structure of the same name.
    type, bind(c), public :: dihkelu_sheet
        private
        type(c_ptr) :: bytes = c_null_ptr
        integer(c_size_t) :: room = 0, size = 0
        integer(c_int64_t) :: refused = 0
        integer(c_int32_t) :: last = 0, surfaces = 0, layers = 0
    end type dihkelu_sheet

    public :: dihkelu_sheet_begin, dihkelu_sheet_beam, dihkelu_sheet_surface, dihkelu_sheet_layer, dihkelu_sheet_glass, &
        dihkelu_sheet_retune, dihkelu_sheet_end, dihkelu_refusal_text

    interface
        ! Begins a sheet in an array, which must be a target, that is lent up to its end.
        function dihkelu_sheet_begin(sheet, bytes, bytes_count) bind(c) result(returned)
            import :: c_int8_t, c_int64_t, c_size_t, dihkelu_sheet
            type(dihkelu_sheet), intent(inout) :: sheet
            integer(c_int8_t), intent(inout), target :: bytes(*)
            integer(c_size_t), value :: bytes_count
            integer(c_int64_t) :: returned
        end function dihkelu_sheet_begin

        ! The beam, once and first: its wavelength and its s and p power.
        function dihkelu_sheet_beam(sheet, wavelength_nm, s, p) bind(c) result(returned)
            import :: c_double, c_int64_t, dihkelu_sheet
            type(dihkelu_sheet), intent(inout) :: sheet
            real(c_double), value :: wavelength_nm, s, p
            integer(c_int64_t) :: returned
        end function dihkelu_sheet_beam

        ! A surface of a coating by its code, whose transmitted light is followed or, where reflected is not 0, the reflected.
        function dihkelu_sheet_surface(sheet, coating, reflected, n_incident, n_substrate, angle_rad) bind(c) result(returned)
            import :: c_double, c_int, c_int32_t, c_int64_t, dihkelu_sheet
            type(dihkelu_sheet), intent(inout) :: sheet
            integer(c_int32_t), value :: coating
            integer(c_int), value :: reflected
            real(c_double), value :: n_incident, n_substrate, angle_rad
            integer(c_int64_t) :: returned
        end function dihkelu_sheet_surface

        ! A layer of the custom surface before it, the one on the side of the lower index first.
        function dihkelu_sheet_layer(sheet, n, k, thickness_nm) bind(c) result(returned)
            import :: c_double, c_int64_t, dihkelu_sheet
            type(dihkelu_sheet), intent(inout) :: sheet
            real(c_double), value :: n, k, thickness_nm
            integer(c_int64_t) :: returned
        end function dihkelu_sheet_layer

        ! The same of a glass, whose index is a + (b + c/u2)/u2, u2 being the square of the wavelength in micrometres.
        function dihkelu_sheet_glass(sheet, a, b, c, thickness_nm) bind(c) result(returned)
            import :: c_double, c_int64_t, dihkelu_sheet
            type(dihkelu_sheet), intent(inout) :: sheet
            real(c_double), value :: a, b, c, thickness_nm
            integer(c_int64_t) :: returned
        end function dihkelu_sheet_glass

        ! Another wavelength from the next surface on.
        function dihkelu_sheet_retune(sheet, wavelength_nm) bind(c) result(returned)
            import :: c_double, c_int64_t, dihkelu_sheet
            type(dihkelu_sheet), intent(inout) :: sheet
            real(c_double), value :: wavelength_nm
            integer(c_int64_t) :: returned
        end function dihkelu_sheet_retune

        ! Ends the sheet and returns its length in bytes.
        function dihkelu_sheet_end(sheet) bind(c) result(returned)
            import :: c_int64_t, dihkelu_sheet
            type(dihkelu_sheet), intent(inout) :: sheet
            integer(c_int64_t) :: returned
        end function dihkelu_sheet_end

        function refusal_text(returned, text, text_count) bind(c, name='dihkelu_refusal_text') result(length)
            import :: c_char, c_int64_t, c_size_t
            integer(c_int64_t), value :: returned
            character(kind=c_char), intent(inout) :: text(*)
            integer(c_size_t), value :: text_count
            integer(c_size_t) :: length
        end function refusal_text
    end interface

contains

    ! What a call returned in words, such as 'refused 6 8: the block at word 8 of the sheet is outside the limits'.
    function dihkelu_refusal_text(returned) result(text)
        integer(c_int64_t), intent(in) :: returned
        character(:), allocatable :: text
        character(kind=c_char) :: bytes(200)
        integer :: i, length
        length = int(refusal_text(returned, bytes, size(bytes, kind=c_size_t)))
        allocate (character(length) :: text)
        do i = 1, length
            text(i:i) = bytes(i)
        end do
    end function dihkelu_refusal_text
end module dihkelu_sheets
