! Document 01's sheet from Fortran: written, gate, start, a retune, steps, a whole run; a coated surface; a stack in shorthand.
! SPDX-License-Identifier: MIT OR Apache-2.0
program example
    use, intrinsic :: iso_c_binding, only: c_double, c_int8_t, c_int32_t, c_int64_t, c_size_t
    use dihkelu
    use dihkelu_sheets
    implicit none

    integer(c_int8_t), target :: sheet(64)
    type(dihkelu_sheet) :: writer
    integer(c_int64_t) :: returned
    integer(c_int32_t) :: surfaces, done, numbers
    real(c_double) :: s, p, wavelength, run(128), response(dihkelu_response_count), layers(dihkelu_stack_count)

    if (dihkelu_version() /= dihkelu_header_version) error stop 'the library is of another version than this module'
    returned = dihkelu_sheet_begin(writer, sheet, size(sheet, kind=c_size_t))
    returned = dihkelu_sheet_beam(writer, 500.0_c_double, 0.5_c_double, 0.5_c_double)
    returned = dihkelu_sheet_surface(writer, dihkelu_coating_bare, 0, 1.0_c_double, 3.0_c_double, 0.0_c_double)
    if (answered('end', dihkelu_sheet_end(writer)) /= size(sheet)) error stop 'the sheet has another length'

    surfaces = answered('gate', dihkelu_gate(sheet, size(sheet, kind=c_size_t)))
    print '(a, 1x, i0)', 'surfaces', surfaces
    surfaces = answered('start', dihkelu_start(sheet, size(sheet, kind=c_size_t), done, s, p, wavelength))
    print '(a, 2(1x, z16.16), a, f0.1, a)', 'start', s, p, ' at ', wavelength, ' nm'
    done = answered('retune', dihkelu_retune(sheet, size(sheet, kind=c_size_t), done, wavelength, 632.8_c_double))
    call refused('retune', dihkelu_retune(sheet, size(sheet, kind=c_size_t), done, wavelength, 99.0_c_double))
    do while (done < surfaces)
        done = answered('step', dihkelu_step(sheet, size(sheet, kind=c_size_t), done, s, p, wavelength))
        print '(a, 1x, i0, 2(1x, z16.16), a, f0.1, a)', 'step', done, s, p, ' at ', wavelength, ' nm'
    end do
    surfaces = answered('run', dihkelu_run(sheet, size(sheet, kind=c_size_t), run, size(run, kind=c_size_t)))
    print '(a, 2(1x, z16.16))', 'run', run(1:2)

    numbers = answered('evaluate', dihkelu_evaluate(2, 550.0_c_double, 1.0_c_double, 1.5_c_double, 0.0_c_double, &
        550.0_c_double, layers, 0_c_size_t, response, size(response, kind=c_size_t)))
    print '(a, 2(1x, f0.6))', 'MgF2 R_s and T_s', response(9), response(11)
    numbers = answered('stack', stack('(HL)^7 H'))
    print '(a, i0, a)', '(HL)^7 H: ', numbers / 3, ' layers'
    numbers = answered('evaluate', dihkelu_evaluate(5, 0.0_c_double, 1.0_c_double, 1.52_c_double, 0.0_c_double, &
        1064.0_c_double, layers, int(numbers, c_size_t), response, size(response, kind=c_size_t)))
    print '(a, f0.6)', 'as a mirror R_s ', response(9)
    call refused('stack', stack('H^32H'))
    sheet(1) = 0
    call refused('gate', dihkelu_gate(sheet, size(sheet, kind=c_size_t)))

contains

    function stack(text) result(back)
        character(*), intent(in) :: text
        integer(c_int64_t) :: back
        integer(c_int8_t) :: bytes(len(text))
        integer :: k
        bytes = [(int(iachar(text(k:k)), c_int8_t), k = 1, len(text))]
        back = dihkelu_stack(bytes, len(text, kind=c_size_t), 2.3_c_double, 1.46_c_double, 1.8_c_double, 1064.0_c_double, &
            layers, size(layers, kind=c_size_t))
    end function stack

    ! The number of a call that answered; else the end.
    function answered(name, back) result(number)
        character(*), intent(in) :: name
        integer(c_int64_t), intent(in) :: back
        integer(c_int32_t) :: number
        if (dihkelu_refusal(back) /= 0) then
            call refused(name, back)
            error stop 'a call was refused'
        end if
        number = dihkelu_value(back)
    end function answered

    subroutine refused(name, back)
        character(*), intent(in) :: name
        integer(c_int64_t), intent(in) :: back
        print '(a)', name // ': ' // dihkelu_refusal_text(back)
    end subroutine refused
end program example
