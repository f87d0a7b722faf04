! Sheets from commands, as tests/sheets.c has them, by the module for Fortran.
program sheets
    use, intrinsic :: iso_c_binding, only: c_double, c_int8_t, c_int32_t, c_int64_t, c_size_t
    use dihkelu, only: dihkelu_value
    use dihkelu_sheets
    implicit none

    integer(c_int8_t), allocatable, target :: bytes(:)
    type(dihkelu_sheet) :: sheet
    integer(c_int32_t) :: kind, payload
    integer(c_int64_t) :: bits(4), returned
    real(c_double) :: x(4)
    character(120) :: line
    integer :: status, first

    do
        read (*, '(a)', iostat=status) line
        if (status /= 0) exit
        first = index(line, ' ')
        read (line(:first), *) kind
        status = first + index(line(first + 1:), ' ')
        read (line(first:status), *) payload
        read (line(status + 1:), '(4(z16.16, 1x))') bits
        x = transfer(bits, x)
        select case (kind)
        case (1)
            if (allocated(bytes)) deallocate (bytes)
            allocate (bytes(payload))
            returned = dihkelu_sheet_begin(sheet, bytes, size(bytes, kind=c_size_t))
        case (2)
            returned = dihkelu_sheet_beam(sheet, x(1), x(2), x(3))
        case (3)
            returned = dihkelu_sheet_surface(sheet, payload / 2, mod(payload, 2), x(1), x(2), x(3))
        case (4)
            returned = dihkelu_sheet_layer(sheet, x(1), x(2), x(3))
        case (6)
            returned = dihkelu_sheet_glass(sheet, x(1), x(2), x(3), x(4))
        case (7)
            returned = dihkelu_sheet_retune(sheet, x(1))
        case (5)
            returned = dihkelu_sheet_end(sheet)
            call said(returned, bytes(:dihkelu_value(returned)))
        case (8)
            call said(ior(ishft(int(payload, c_int64_t), 32), bits(1)), bytes(:0))
        end select
    end do

contains

    subroutine said(number, written)
        integer(c_int64_t), intent(in) :: number
        integer(c_int8_t), intent(in) :: written(:)
        print '(z16.16, 1x, a, 1x, *(z2.2))', number, dihkelu_refusal_text(number), written
    end subroutine said
end program sheets
