! Orders p of the rows and q of the columns in which the flow sheet is block upper triangular and has no zero on its diagonal. Which
! entries of a block stand there is left open, so the program counts the zeros. It makes the raw call, whose numbers count from 0.
program main
  use, intrinsic :: iso_c_binding, only: c_int32_t
  use blocktri
  use flow_sheet
  implicit none
  integer(c_int32_t) :: p(order), q(order), r(order + 1), blocks, status, zeros, k
  status = blocktri_raw_block_order(order, order, starts - 1, ids - 1, entries, 0, p, q, r, blocks=blocks)
  if (status /= blocktri_ok) error stop blocktri_text(status)
  print '(i0, a)', blocks, ' blocks'
  print '(a, *(1x, i0))', 'Q', q
  print '(a, *(1x, i0))', 'R', r(1:blocks + 1)
  zeros = 0
  do k = 1, order
    if (all(ids(starts(q(k) + 1):starts(q(k) + 2) - 1) /= p(k) + 1)) zeros = zeros + 1
  end do
  print '(i0, a)', zeros, ' zeros on the diagonal'
end program
