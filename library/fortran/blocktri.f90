! blocktri.f90: the calls of blocktri.h for Fortran 2018. Compile it with your program and link with -lblocktri; it includes
! blocktri_calls.inc, which stands beside it.
!
! blocktri.h is the reference. Each call but blocktri_order_by exists twice, for integers of 32 or of 64 bits under one name:
!
!   blocktri_rank, ..      rows, columns, starts, places and components count from 1, and 0 stands for none. THESE CALLS COPY:
!                          they read copies of starts and ids that count from 0, and go once over each list that they give.
!   blocktri_raw_rank, ..  the C call itself: everything counts from 0, -1 stands for none, and nothing is copied.
!
! Any output is optional, as any output of the C call may be NULL. Each call is a function whose result is the status. At a
! status other than blocktri_ok the outputs are undefined, but for fault at 4, 20, 21 and 25, and rank of
! blocktri_block_order at 1.
!
! The calls that count from 1 take ids_length from the shape of ids. They return blocktri_bad_argument if starts, values or an
! output does not have the length that rows and columns ask for. With that status, fault is the number of the argument of the
! C call.
module blocktri_types
  use, intrinsic :: iso_c_binding, only: c_int32_t, c_int64_t
  implicit none
  public

  integer(c_int32_t), parameter :: blocktri_ok = 0, blocktri_singular = 1, blocktri_not_square = 2, blocktri_sum_limit = 4, &
    blocktri_out_of_memory = 7, blocktri_bad_start = 20, blocktri_bad_row = 21, blocktri_bad_size = 23, &
    blocktri_price_limit = 24, blocktri_bad_argument = 25
  integer(c_int32_t), parameter :: blocktri_least = 1, blocktri_start = 2, blocktri_complete = 4, blocktri_by_rows = 8

  ! what stands for none in the raw calls, and in the calls that count from 1
  integer, parameter :: blocktri_raw_none = -1, blocktri_none = 0

  ! struct blocktri_sizes. In the calls that count from 1, rr and cc do so too.
  type, bind(C) :: blocktri_sizes
    integer(c_int64_t) :: size = 168, rank = 0, horizontal_rows = 0, horizontal_columns = 0, square = 0, vertical_rows = 0, &
      vertical_columns = 0, blocks = 0, horizontal_components = 0, vertical_components = 0, nb = 0, rr(5) = 0, cc(5) = 0
  end type

  ! low + 2**64 * high, both without sign: a negative low stands for low + 2**64
  type, bind(C) :: blocktri_sum
    integer(c_int64_t) :: low = 0, high = 0
  end type
end module

module blocktri_calls_32
  use, intrinsic :: iso_c_binding, only: c_int32_t, c_int64_t
  use blocktri_types
  implicit none
  integer, parameter :: ik = c_int32_t
  character(*), parameter :: width = ''
  include 'blocktri_calls.inc'
end module

module blocktri_calls_64
  use, intrinsic :: iso_c_binding, only: c_int32_t, c_int64_t
  use blocktri_types
  implicit none
  integer, parameter :: ik = c_int64_t
  character(*), parameter :: width = '_64'
  include 'blocktri_calls.inc'
end module

module blocktri
  use, intrinsic :: iso_c_binding, only: c_char, c_f_pointer, c_int32_t, c_ptr, c_size_t
  use blocktri_types
  use blocktri_calls_32, only: raw_rank_32 => raw_rank, raw_matching_32 => raw_matching, &
    raw_decomposition_32 => raw_decomposition, raw_dmperm_32 => raw_dmperm, raw_block_order_32 => raw_block_order, &
    raw_heaviest_32 => raw_heaviest, raw_bottleneck_32 => raw_bottleneck, rank_32 => one_rank, matching_32 => one_matching, &
    decomposition_32 => one_decomposition, dmperm_32 => one_dmperm, block_order_32 => one_block_order, &
    heaviest_32 => one_heaviest, bottleneck_32 => one_bottleneck
  use blocktri_calls_64, only: raw_rank_64 => raw_rank, raw_matching_64 => raw_matching, &
    raw_decomposition_64 => raw_decomposition, raw_dmperm_64 => raw_dmperm, raw_block_order_64 => raw_block_order, &
    raw_heaviest_64 => raw_heaviest, raw_bottleneck_64 => raw_bottleneck, rank_64 => one_rank, matching_64 => one_matching, &
    decomposition_64 => one_decomposition, dmperm_64 => one_dmperm, block_order_64 => one_block_order, &
    heaviest_64 => one_heaviest, bottleneck_64 => one_bottleneck
  implicit none
  private

  public :: blocktri_ok, blocktri_singular, blocktri_not_square, blocktri_sum_limit, blocktri_out_of_memory, blocktri_bad_start, &
    blocktri_bad_row, blocktri_bad_size, blocktri_price_limit, blocktri_bad_argument
  public :: blocktri_least, blocktri_start, blocktri_complete, blocktri_by_rows, blocktri_none, blocktri_raw_none
  public :: blocktri_sizes, blocktri_sum, blocktri_version, blocktri_text
  public :: blocktri_rank, blocktri_matching, blocktri_decomposition, blocktri_dmperm, blocktri_block_order, blocktri_heaviest, &
    blocktri_bottleneck
  public :: blocktri_raw_rank, blocktri_raw_matching, blocktri_raw_decomposition, blocktri_raw_dmperm, blocktri_raw_block_order, &
    blocktri_raw_heaviest, blocktri_raw_bottleneck

  interface blocktri_rank
    procedure rank_32, rank_64
  end interface
  interface blocktri_matching
    procedure matching_32, matching_64
  end interface
  interface blocktri_decomposition
    procedure decomposition_32, decomposition_64
  end interface
  interface blocktri_dmperm
    procedure dmperm_32, dmperm_64
  end interface
  interface blocktri_block_order
    procedure block_order_32, block_order_64
  end interface
  interface blocktri_heaviest
    procedure heaviest_32, heaviest_64
  end interface
  interface blocktri_bottleneck
    procedure bottleneck_32, bottleneck_64
  end interface

  interface blocktri_raw_rank
    procedure raw_rank_32, raw_rank_64
  end interface
  interface blocktri_raw_matching
    procedure raw_matching_32, raw_matching_64
  end interface
  interface blocktri_raw_decomposition
    procedure raw_decomposition_32, raw_decomposition_64
  end interface
  interface blocktri_raw_dmperm
    procedure raw_dmperm_32, raw_dmperm_64
  end interface
  interface blocktri_raw_block_order
    procedure raw_block_order_32, raw_block_order_64
  end interface
  interface blocktri_raw_heaviest
    procedure raw_heaviest_32, raw_heaviest_64
  end interface
  interface blocktri_raw_bottleneck
    procedure raw_bottleneck_32, raw_bottleneck_64
  end interface

  interface
    ! the version of the library that is linked: 1,000,000 times the major one, 1,000 times the minor one, and the patch
    function blocktri_version() bind(C, name='blocktri_version')
      import :: c_int32_t
      integer(c_int32_t) :: blocktri_version
    end function

    function text_of(status) bind(C, name='blocktri_text')
      import :: c_int32_t, c_ptr
      integer(c_int32_t), value :: status
      type(c_ptr) :: text_of
    end function

    function length_of(text) bind(C, name='strlen')
      import :: c_ptr, c_size_t
      type(c_ptr), value :: text
      integer(c_size_t) :: length_of
    end function
  end interface

contains

  ! A sentence for a status, also for numbers that are no status.
  function blocktri_text(status) result(sentence)
    integer(c_int32_t), intent(in) :: status
    character(:), allocatable :: sentence
    character(kind=c_char), pointer :: letters(:)
    type(c_ptr) :: text
    integer :: i
    text = text_of(status)
    call c_f_pointer(text, letters, [length_of(text)])
    allocate (character(size(letters)) :: sentence)
    do i = 1, size(letters)
      sentence(i:i) = letters(i)
    end do
  end function
end module
