! A circuit that no simulator can solve, as in examples/circuit.c: the decomposition tells which equations contradict each other,
! and which unknowns are not determined.
program main
  use, intrinsic :: iso_c_binding, only: c_int32_t
  use blocktri
  implicit none
  character(*), parameter :: equations(4) = [character(12) :: 'current at 1', 'current at 2', 'source 1', 'source 2'], &
    unknowns(4) = ['v1', 'v2', 'i1', 'i2']
  integer(c_int32_t), parameter :: starts(5) = [1, 5, 7, 8, 9], ids(8) = [1, 2, 3, 4, 1, 2, 1, 1]
  integer(c_int32_t) :: row_order(4), column_order(4), status
  type(blocktri_sizes) :: sizes
  status = blocktri_decomposition(4, 4, starts, ids, row_order=row_order, column_order=column_order, sizes=sizes)
  if (status /= blocktri_ok) error stop blocktri_text(status)
  print '(a, i0, a)', 'rank ', sizes%rank, ' of 4'
  if (sizes%horizontal_columns > 0) then
    print '(a)', 'more unknowns than equations'
    call tell('equations', equations(row_order(1:sizes%horizontal_rows)))
    call tell('unknowns', unknowns(column_order(1:sizes%horizontal_columns)))
  end if
  if (sizes%vertical_rows > 0) then
    print '(a)', 'more equations than unknowns'
    call tell('equations', equations(row_order(5 - sizes%vertical_rows:4)))
    call tell('unknowns', unknowns(column_order(5 - sizes%vertical_columns:4)))
  end if
contains
  subroutine tell(what, names)
    character(*), intent(in) :: what, names(:)
    integer :: i
    print '(*(a))', '  ', what, ': ', trim(names(1)), (', ', trim(names(i)), i=2, size(names))
  end subroutine
end program
