! A program that is built with -Ofast, and so starts with subnormals flushed, calls the library: what the gate must refuse it refuses, and the
! program's own arithmetic is flushed before and after, with the same flags.
program flushed
    use, intrinsic :: ieee_arithmetic
    use, intrinsic :: ieee_exceptions
    use, intrinsic :: iso_c_binding, only: c_int8_t, c_int64_t, c_size_t
    use dihkelu
    implicit none

    integer(c_int64_t), parameter :: one = int(z'3FF0000000000000', c_int64_t), index = int(z'3FF8000000000000', c_int64_t)
    integer(c_int64_t), parameter :: nm_500 = int(z'407F400000000000', c_int64_t), half = int(z'3FE0000000000000', c_int64_t)
    integer(c_int64_t), parameter :: least = 1_c_int64_t, below_zero = ibset(least, 63)
    logical :: before(5), after(5)

    if (.not. flushes()) error stop 'this program keeps subnormals: it tests nothing'
    call ieee_get_flag(ieee_all, before)
    if (gate(0_c_int64_t, 0_c_int64_t) /= 1) error stop 'a sheet within the limits is refused'
    if (gate(below_zero, 0_c_int64_t) /= refusal(6, 1)) error stop 'a power of -2^-1074 is not refused'
    if (gate(0_c_int64_t, least) /= refusal(6, 15)) error stop 'a layer of k = 2^-1074 is not refused'
    call ieee_get_flag(ieee_all, after)
    if (any(before .neqv. after)) error stop 'the flags are others after the calls'
    if (.not. flushes()) error stop 'this program keeps subnormals after the calls'
    print '(a)', 'flushed: refused as they must be'

contains

    ! Whether half of the least normal number is zero.
    function flushes() result(zero)
        logical :: zero
        real(kind(1d0)), volatile :: normal, product
        normal = tiny(1d0)
        product = normal * 0.5d0
        zero = transfer(product, 0_c_int64_t) == 0
    end function flushes

    pure function refusal(number, place) result(returned)
        integer, intent(in) :: number, place
        integer(c_int64_t) :: returned
        returned = ior(ishft(int(number, c_int64_t), 32), int(place, c_int64_t))
    end function refusal

    ! A beam of 500 nm whose s has these bits, and a surface from 1 to 1.5 at 0.5 rad with one layer whose k has those.
    function gate(s, k) result(returned)
        integer(c_int64_t), intent(in) :: s, k
        integer(c_int64_t) :: returned
        integer(c_int64_t) :: words(23)
        integer(c_int8_t) :: sheet(92)
        integer :: i, j
        words = [int(z'10000001', c_int64_t), int(z'20000000', c_int64_t), halves(nm_500), halves(s), halves(0_c_int64_t), &
            int(z'3000000A', c_int64_t), halves(one), halves(index), halves(half), &
            int(z'40000000', c_int64_t), halves(index), halves(k), halves(0_c_int64_t), int(z'50000001', c_int64_t)]
        do i = 1, 23
            do j = 1, 4
                sheet(4 * i - 4 + j) = transfer(int(ibits(words(i), 32 - 8 * j, 8)), 0_c_int8_t)
            end do
        end do
        returned = dihkelu_gate(sheet, size(sheet, kind=c_size_t))
    end function gate

    pure function halves(bits) result(two)
        integer(c_int64_t), intent(in) :: bits
        integer(c_int64_t) :: two(2)
        two = [ibits(bits, 32, 32), ibits(bits, 0, 32)]
    end function halves
end program flushed
