! The calls of fortran/blocktri.f90 in both widths: matrices that were worked out by hand, counted from 1 and raw; every output
! left out; and each refusal with its place.
program main
  use, intrinsic :: iso_c_binding, only: c_int32_t, c_int64_t
  use blocktri
  implicit none
  integer :: failures = 0

  call check(blocktri_version() >= 1000000 .and. blocktri_version() < 2000000, 'the version')
  call check(blocktri_text(blocktri_singular) == 'the matrix is structurally singular', 'a text')
  call narrow()
  call wide()
  call values()
  call refusals()
  if (failures > 0) error stop 'blocktri.f90 has failed'
contains
  subroutine check(holds, what)
    logical, intent(in) :: holds
    character(*), intent(in) :: what
    if (.not. holds) print '(2a)', 'not so: ', what
    if (.not. holds) failures = failures + 1
  end subroutine

  ! rows 1: columns 1, 2, 3; 2: columns 3, 4; 3 and 4: column 4
  subroutine narrow()
    integer(c_int32_t), parameter :: starts(5) = [1, 2, 3, 5, 8], ids(7) = [1, 1, 2, 1, 4, 2, 3], &
      row_starts(5) = [1, 4, 6, 7, 8], row_ids(7) = [3, 1, 2, 4, 3, 4, 4]
    integer(c_int32_t) :: rank, pairs, of_column(4), of_row(4), p(4), q(4), r(6), s(6), b(5), rows(4), columns(4), every_other(8)
    integer(c_int64_t) :: fault
    type(blocktri_sizes) :: sizes
    call check(blocktri_rank(4, 4, starts, ids, rank=rank) == blocktri_ok .and. rank == 3, 'the rank')
    call check(blocktri_rank(4, 4, row_starts, row_ids, blocktri_by_rows, rank) == blocktri_ok .and. rank == 3, 'by rows')
    call check(blocktri_rank(4, 4, starts, ids) == blocktri_ok, 'nothing asked')
    call check(blocktri_matching(4, 4, starts, ids, blocktri_least, of_column, of_row, pairs) == blocktri_ok, 'a matching')
    call check(pairs == 3 .and. all(of_column == [1, 0, 2, 3]) .and. all(of_row == [1, 3, 4, 0]), 'the least matching')
    every_other = 7
    call check(blocktri_matching(4, 4, starts, ids, blocktri_least, every_other(::2)) == blocktri_ok, 'a strided output')
    call check(all(every_other == [1, 7, 0, 7, 2, 7, 3, 7]), 'a strided list')
    call check(blocktri_decomposition(4, 4, starts, ids, 0, p, q, b, rows, columns, sizes, fault) == blocktri_ok, 'a form')
    call check(all(p == [1, 2, 3, 4]) .and. all(q == [1, 2, 3, 4]) .and. all(b(1:2) == [1, 2]), 'its orders')
    call check(all(rows == [1, 0, 1, 1]) .and. all(columns == [1, 1, 0, 1]), 'its components')
    call check(sizes%rank == 3 .and. sizes%blocks == 1 .and. sizes%nb == -1, 'its sizes')
    call check(blocktri_dmperm(4, 4, starts, ids, 0, p, q, r, s, of_column, rows, columns, sizes) == blocktri_ok, 'dmperm')
    call check(all(r(1:4) == [1, 2, 3, 5]) .and. all(s(1:4) == [1, 3, 4, 5]) .and. sizes%nb == 3, 'r and s')
    call check(all(sizes%rr == [1, 2, 3, 4, 5]) .and. all(sizes%cc == [1, 2, 3, 4, 5]), 'rr and cc')
    call check(blocktri_dmperm(4, 4, starts, ids, sizes=sizes) == blocktri_ok .and. sizes%blocks == -1, 'no blocks asked')
    call check(blocktri_block_order(4, 4, starts, ids, rank=rank) == blocktri_singular .and. rank == 3, 'singular')
    call check(blocktri_raw_matching(4, 4, starts - 1, ids - 1, 7, blocktri_least, of_column) == blocktri_ok, 'raw')
    call check(all(of_column == [0, -1, 1, 2]), 'the raw matching')
    sizes = blocktri_sizes()
    call check(blocktri_raw_dmperm(4, 4, starts - 1, ids - 1, 7, 0, r=r, sizes=sizes) == blocktri_ok, 'raw dmperm')
    call check(all(r(1:4) == [0, 1, 2, 4]) .and. all(sizes%rr == [0, 1, 2, 3, 4]), 'raw r and rr')
  end subroutine

  ! the cycle of three: row i has columns i and i + 1, the last one the first; and matrices without rows or columns
  subroutine wide()
    integer(c_int64_t), parameter :: three = 3, none = 0, starts(4) = [1, 3, 5, 7], ids(6) = [3, 1, 2, 1, 3, 2], empty(1) = [1], &
      no_ids(0) = [integer(c_int64_t) ::]
    integer(c_int64_t) :: p(3), q(3), b(4), of_column(3), blocks, rank, r(2), s(2)
    type(blocktri_sizes) :: sizes
    call check(blocktri_block_order(three, three, starts, ids, 0, p, q, b, of_column, blocks, rank) == blocktri_ok, 'an order')
    call check(blocks == 1 .and. rank == 3 .and. all(b(1:2) == [1, 4]) .and. all(q == [1, 2, 3]), 'its block')
    call check(all(of_column == [1, 2, 3]) .and. all(p == [1, 2, 3]), 'the diagonal is kept')
    call check(blocktri_raw_block_order(three, three, starts - 1, ids - 1, 6_c_int64_t, 0, p, q, b) == blocktri_ok, 'raw')
    call check(all(b(1:2) == [0, 3]) .and. all(q == [0, 1, 2]), 'the raw order')
    call check(blocktri_dmperm(none, none, empty, no_ids, r=r, s=s, sizes=sizes) == blocktri_ok .and. sizes%nb == 0, 'nothing')
    call check(r(1) == 1 .and. s(1) == 1 .and. all(sizes%rr == 1), 'no blocks')
  end subroutine

  ! the matrix [2 0; 3 -9]
  subroutine values()
    integer(c_int32_t), parameter :: starts(3) = [1, 3, 4], ids(3) = [1, 2, 2]
    integer(c_int64_t), parameter :: numbers(3) = [2, 3, -9]
    integer(c_int32_t) :: of_column(2), columns(2), n
    integer(c_int64_t) :: row_prices(2), column_prices(2), least
    type(blocktri_sum) :: total
    call check(blocktri_heaviest(2, 2, starts, ids, numbers, 0, of_column, row_prices, column_prices, total) == blocktri_ok, &
      'a diagonal')
    call check(all(of_column == [1, 2]) .and. total%low == 11 .and. total%high == 0, 'the heaviest')
    call check(all(row_prices + column_prices == [2, 9]) .and. row_prices(2) + column_prices(1) >= 3, 'its prices')
    call check(blocktri_bottleneck(2, 2, starts, ids, numbers, 0, of_column, least, columns, n) == blocktri_ok, 'a bottleneck')
    call check(all(of_column == [1, 2]) .and. least == 2 .and. n == 2 .and. all(columns == [1, 2]), 'the bottleneck')
    call check(blocktri_raw_heaviest(2, 2, starts - 1, ids - 1, 3, numbers, 0, of_column, total=total) == blocktri_ok, 'raw')
    call check(all(of_column == [0, 1]) .and. total%low == 11, 'the raw diagonal')
    call check(blocktri_raw_bottleneck(2, 2, starts - 1, ids - 1, 3, numbers, 0, least=least) == blocktri_ok, 'raw bottleneck')
    call check(least == 2, 'the raw bottleneck')
  end subroutine

  subroutine refused(status, fault, wanted, place)
    integer(c_int32_t), intent(in) :: status, wanted
    integer(c_int64_t), intent(in) :: fault
    integer, intent(in) :: place
    call check(status == wanted, blocktri_text(wanted))
    if (place > 0) call check(fault == place, 'the place of: ' // blocktri_text(wanted))
  end subroutine

  subroutine refusals()
    integer(c_int32_t), parameter :: starts(3) = [1, 2, 3], falling(3) = [1, 3, 2], ids(2) = [1, 2], zero(2) = [1, 0], &
      low(2) = [-huge(1) - 1, 1], twice(2) = [1, 3]
    integer(c_int64_t), parameter :: large(2) = [huge(1_c_int64_t), 1_c_int64_t]
    integer(c_int32_t) :: short(1), status
    integer(c_int64_t) :: fault
    status = blocktri_rank(2, 2, falling, ids, fault=fault)
    call refused(status, fault, blocktri_bad_start, 3)
    status = blocktri_rank(2, 2, starts, zero, fault=fault)
    call refused(status, fault, blocktri_bad_row, 2)
    status = blocktri_rank(2, 2, starts, low, fault=fault)
    call refused(status, fault, blocktri_bad_row, 1)
    status = blocktri_rank(2, 3, starts, ids, fault=fault)
    call refused(status, fault, blocktri_bad_argument, 3)
    status = blocktri_rank(-1, 2, starts, ids, fault=fault)
    call refused(status, fault, blocktri_bad_size, 0)
    status = blocktri_rank(2, 2, starts, ids, blocktri_least, fault=fault)
    call refused(status, fault, blocktri_bad_argument, 6)
    status = blocktri_matching(2, 2, starts, ids, row_of_column=short, fault=fault)
    call refused(status, fault, blocktri_bad_argument, 7)
    status = blocktri_decomposition(2, 2, starts, ids, block_starts=short, fault=fault)
    call refused(status, fault, blocktri_bad_argument, 9)
    status = blocktri_dmperm(2, 2, starts, ids, s=short, fault=fault)
    call refused(status, fault, blocktri_bad_argument, 10)
    status = blocktri_block_order(3, 2, starts, ids, fault=fault)
    call refused(status, fault, blocktri_not_square, 0)
    status = blocktri_heaviest(2, 2, starts, ids, large(1:1), fault=fault)
    call refused(status, fault, blocktri_bad_argument, 6)
    status = blocktri_heaviest(1, 1, twice, [1, 1], large, fault=fault)
    call refused(status, fault, blocktri_sum_limit, 1)
    status = blocktri_bottleneck(2, 2, starts, [1, 1], large, fault=fault)
    call refused(status, fault, blocktri_singular, 0)
  end subroutine
end program
