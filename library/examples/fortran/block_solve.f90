! Solves a system block by block, from the last to the first: only the blocks on the diagonal are factorised.
program main
  use, intrinsic :: iso_c_binding, only: c_int32_t
  use blocktri
  use flow_sheet
  implicit none
  integer, parameter :: real_kind = kind(1d0)
  real(real_kind), parameter :: values(entries) = [4, 1, 3, 1, 5, 2, 1, 2, 1, 4, 7, 3]
  integer(c_int32_t) :: row_order(order), column_order(order), block_starts(order + 1), status
  type(blocktri_sizes) :: sizes
  real(real_kind) :: form(order, order), a(order, order), rest(order), solution(order)
  integer :: b, first, last, i, j, k
  status = blocktri_decomposition(order, order, starts, ids, row_order=row_order, column_order=column_order, &
    block_starts=block_starts, sizes=sizes)
  if (status /= blocktri_ok) error stop blocktri_text(status)
  if (sizes%square /= order) error stop 'no values make this matrix regular'

  a = 0
  do j = 1, order
    do k = starts(j), starts(j + 1) - 1
      a(ids(k), j) = values(k)
    end do
  end do
  ! the right side is the matrix times 1, 2, .., 6, in the order of the form
  form = a(row_order, column_order)
  rest = matmul(a(row_order, :), [(real(j, real_kind), j=1, order)])
  do b = int(sizes%blocks), 1, -1
    first = block_starts(b)
    last = block_starts(b + 1) - 1
    call eliminate(form(first:last, first:last), rest(first:last))
    solution(column_order(first:last)) = rest(first:last)
    rest(1:first - 1) = rest(1:first - 1) - matmul(form(1:first - 1, first:last), rest(first:last))
  end do
  print '("x", i0, " = ", f5.3)', (i - 1, solution(i), i=1, order)
contains
  ! Gaussian elimination with row pivots, of a dense block; the solution takes the place of b.
  subroutine eliminate(block, b)
    real(real_kind), intent(in) :: block(:, :)
    real(real_kind), intent(inout) :: b(:)
    real(real_kind) :: m(size(b), size(b) + 1)
    integer :: n, k, i, best
    n = size(b)
    m(:, 1:n) = block
    m(:, n + 1) = b
    do k = 1, n
      best = k - 1 + maxloc(abs(m(k:, k)), dim=1)
      m([k, best], :) = m([best, k], :)
      do i = k + 1, n
        m(i, :) = m(i, :) - m(i, k) / m(k, k) * m(k, :)
      end do
    end do
    do k = n, 1, -1
      b(k) = (m(k, n + 1) - dot_product(m(k, k + 1:n), b(k + 1:n))) / m(k, k)
    end do
  end subroutine
end program
