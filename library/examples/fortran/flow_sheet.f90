! A flow sheet of six equations in six unknowns, for the examples; examples/flow_sheet.h shows it.
module flow_sheet
  use, intrinsic :: iso_c_binding, only: c_int32_t
  implicit none
  integer, parameter :: entries = 12, order = 6
  integer(c_int32_t), parameter :: starts(order + 1) = [1, 3, 5, 7, 9, 11, 13], ids(entries) = [1, 4, 2, 5, 1, 6, 1, 4, 2, 5, 2, 3]
end module
