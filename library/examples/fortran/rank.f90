! Three equations in three unknowns, of which the last stands in no equation: at most two can be paired.
program main
  use, intrinsic :: iso_c_binding, only: c_int32_t
  use blocktri
  implicit none
  integer(c_int32_t) :: starts(4) = [1, 4, 5, 5], ids(4) = [1, 2, 3, 1], rank, status
  status = blocktri_rank(3, 3, starts, ids, rank=rank)
  if (status /= blocktri_ok) error stop blocktri_text(status)
  print '(a, i0)', 'rank ', rank
end program
