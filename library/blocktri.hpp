/* blocktri.hpp: the calls of blocktri.h for C++17 and later. Header only; link with -lblocktri.
 *
 * Each function converts its arguments, makes one call of the C library, and returns a struct. It computes nothing of the answer:
 * blocktri.h is the reference. It takes a Compressed<Index>, which looks at lists of yours, or a sparse matrix of Eigen, which must be
 * compressed. Index is std::int32_t or std::int64_t. Numbers count from 0, and BLOCKTRI_NONE stands for none.
 *
 *     std::vector<std::int32_t> starts{0, 3, 4, 4}, ids{0, 1, 2, 0};
 *     auto a = blocktri::compressed_columns(3, 3, starts, ids);
 *     std::cout << blocktri::rank(a) << '\n';
 *
 * A function throws Singular, another Error, std::bad_alloc if there is not enough memory, and std::invalid_argument if lists do not have
 * the lengths that the sizes ask for, or if a matrix of Eigen is not compressed. */
#ifndef BLOCKTRI_HPP
#define BLOCKTRI_HPP

#include <cstddef>
#include <cstdint>
#include <new>
#include <stdexcept>
#include <string>
#include <type_traits>
#include <utility>
#include <vector>

#include "blocktri.h"

namespace blocktri {

/* A status other than BLOCKTRI_OK and BLOCKTRI_OUT_OF_MEMORY. what() has its text and its place. */
class Error : public std::runtime_error {
public:
  Error(std::int32_t status, std::int64_t place) : std::runtime_error(text(status, place)), status_(status), place_(place) {}

  std::int32_t status() const noexcept { return status_; }

  /* What the call wrote to *fault: a place of starts or of ids, or the number of an argument of the C call; -1 if the status has none. */
  std::int64_t place() const noexcept { return place_; }

private:
  static std::string text(std::int32_t status, std::int64_t place) {
    std::string sentence = blocktri_text(status);
    if (place < 0) return sentence;
    std::string number = std::to_string(place);
    if (status == BLOCKTRI_BAD_START) return sentence + ": starts[" + number + "]";
    if (status == BLOCKTRI_BAD_ARGUMENT) return sentence + ": number " + number;
    return sentence + ": ids[" + number + "]";
  }

  std::int32_t status_;
  std::int64_t place_;
};

/* The status BLOCKTRI_SINGULAR. */
class Singular : public Error {
public:
  explicit Singular(std::int64_t rank) : Error(BLOCKTRI_SINGULAR, -1), rank_(rank) {}

  /* The structural rank, or -1 if the call does not tell it: block_order does. */
  std::int64_t rank() const noexcept { return rank_; }

private:
  std::int64_t rank_;
};

/* A look at compressed columns, or with BLOCKTRI_BY_ROWS in flags at compressed rows. The lists must outlive it. */
template <class Index>
struct Compressed {
  Index rows, columns;
  const Index *starts, *ids;
  Index ids_length;
  std::uint32_t flags;
};

template <class Index>
struct Matching {
  std::vector<Index> row_of_column, column_of_row;
  Index size;
};

template <class Index>
struct Decomposition {
  std::vector<Index> row_order, column_order, block_starts, row_component, column_component;
  blocktri_sizes sizes;
};

template <class Index>
struct Dmperm {
  std::vector<Index> p, q, r, s, row_of_column, row_component, column_component;
  blocktri_sizes sizes;
};

template <class Index>
struct BlockOrder {
  std::vector<Index> row_order, column_order, block_starts, row_of_column;
  Index blocks, rank;
};

template <class Index>
struct Heaviest {
  std::vector<Index> row_of_column;
  std::vector<std::int64_t> row_prices, column_prices;
  blocktri_sum sum;
};

template <class Index>
struct Bottleneck {
  std::vector<Index> row_of_column, column_set;
  std::int64_t least;
};

namespace detail {

/* The C calls of one width. */
template <class Index>
struct Calls {
  static_assert(std::is_same_v<Index, std::int32_t>, "indices must be std::int32_t or std::int64_t");
  static constexpr auto rank = blocktri_rank;
  static constexpr auto matching = blocktri_matching;
  static constexpr auto decomposition = blocktri_decomposition;
  static constexpr auto dmperm = blocktri_dmperm;
  static constexpr auto block_order = blocktri_block_order;
  static constexpr auto heaviest = blocktri_heaviest;
  static constexpr auto bottleneck = blocktri_bottleneck;
};

template <>
struct Calls<std::int64_t> {
  static constexpr auto rank = blocktri_rank_64;
  static constexpr auto matching = blocktri_matching_64;
  static constexpr auto decomposition = blocktri_decomposition_64;
  static constexpr auto dmperm = blocktri_dmperm_64;
  static constexpr auto block_order = blocktri_block_order_64;
  static constexpr auto heaviest = blocktri_heaviest_64;
  static constexpr auto bottleneck = blocktri_bottleneck_64;
};

/* Throws what stands for a status. place is a reference, since the call that gives the status writes it. */
inline void answered(std::int32_t status, const std::int64_t &place, std::int64_t rank = -1) {
  if (status == BLOCKTRI_OK) return;
  if (status == BLOCKTRI_OUT_OF_MEMORY) throw std::bad_alloc();
  if (status == BLOCKTRI_SINGULAR) throw Singular(rank);
  throw Error(status, place);
}

/* A list with room for length numbers and one more: so its pointer is never null, which would leave the output out. The call
 * refuses a length that no list has. */
template <class Index, class Length>
std::vector<Index> room(Length length) {
  bool is_length = length >= 0 && static_cast<std::uint64_t>(length) <= UINT32_MAX;
  return std::vector<Index>((is_length ? static_cast<std::size_t>(length) : 0) + 1);
}

template <class Number, class Length>
void trim(std::vector<Number> &list, Length length) {
  list.resize(static_cast<std::size_t>(length));
}

template <class Index>
Compressed<Index> checked(Index rows, Index columns, const std::vector<Index> &starts, const std::vector<Index> &ids,
                          std::uint32_t flags) {
  Index parted = flags == 0 ? columns : rows;
  if (parted >= 0 && starts.size() != static_cast<std::size_t>(parted) + 1)
    throw std::invalid_argument("blocktri: starts does not have one number more than the matrix has lists");
  if (ids.size() > UINT32_MAX || (sizeof(Index) == 4 && ids.size() > INT32_MAX)) throw Error(BLOCKTRI_BAD_SIZE, -1);
  return {rows, columns, starts.data(), ids.data(), static_cast<Index>(ids.size()), flags};
}

template <class Type>
struct AsGiven {
  using type = Type;
};

/* Whether a type has the lists of a compressed sparse matrix of Eigen. */
template <class Matrix, class = void>
struct IsEigen : std::false_type {};
template <class Matrix>
struct IsEigen<Matrix, std::void_t<decltype(std::declval<const Matrix &>().outerIndexPtr()),
                                   decltype(std::declval<const Matrix &>().innerIndexPtr()),
                                   decltype(std::declval<const Matrix &>().isCompressed())>> : std::true_type {};

template <class Index>
const Compressed<Index> &look_at(const Compressed<Index> &a) {
  return a;
}

template <class Matrix, class = std::enable_if_t<IsEigen<Matrix>::value>>
auto look_at(const Matrix &a) {
  using Index = std::remove_cv_t<std::remove_pointer_t<decltype(a.outerIndexPtr())>>;
  if (!a.isCompressed()) throw std::invalid_argument("blocktri: the matrix is not compressed: call makeCompressed() first");
  return Compressed<Index>{static_cast<Index>(a.rows()),    static_cast<Index>(a.cols()),
                           a.outerIndexPtr(),               a.innerIndexPtr(),
                           static_cast<Index>(a.nonZeros()), Matrix::IsRowMajor ? BLOCKTRI_BY_ROWS : 0U};
}

/* The integers of a matrix of Eigen, as the calls take them. */
template <class Matrix>
std::vector<std::int64_t> values_of(const Matrix &a) {
  using Value = std::remove_cv_t<std::remove_pointer_t<decltype(a.valuePtr())>>;
  static_assert(std::is_integral_v<Value> && (std::is_signed_v<Value> || sizeof(Value) < 8), "values must be integers of 64 bits");
  if (!a.isCompressed()) throw std::invalid_argument("blocktri: the matrix is not compressed: call makeCompressed() first");
  return std::vector<std::int64_t>(a.valuePtr(), a.valuePtr() + a.nonZeros());
}

template <class Index>
void has_values(const Compressed<Index> &a, const std::vector<std::int64_t> &values) {
  if (a.ids_length >= 0 && values.size() != static_cast<std::size_t>(a.ids_length))
    throw std::invalid_argument("blocktri: there is not one value for each id");
}

}  // namespace detail

/* Looks at lists of compressed columns: column j has the row numbers ids[starts[j]], .., ids[starts[j + 1] - 1]. */
template <class Index>
Compressed<Index> compressed_columns(typename detail::AsGiven<Index>::type rows, typename detail::AsGiven<Index>::type columns,
                                     const std::vector<Index> &starts, const std::vector<Index> &ids) {
  return detail::checked<Index>(rows, columns, starts, ids, 0);
}

/* Looks at lists of compressed rows: row i has the column numbers ids[starts[i]], .., ids[starts[i + 1] - 1]. */
template <class Index>
Compressed<Index> compressed_rows(typename detail::AsGiven<Index>::type rows, typename detail::AsGiven<Index>::type columns,
                                  const std::vector<Index> &starts, const std::vector<Index> &ids) {
  return detail::checked<Index>(rows, columns, starts, ids, BLOCKTRI_BY_ROWS);
}

/* The structural rank: blocktri_rank. */
template <class Matrix>
auto rank(const Matrix &matrix) {
  const auto &a = detail::look_at(matrix);
  using Index = std::decay_t<decltype(a.rows)>;
  Index found = 0;
  std::int64_t place = -1;
  detail::answered(detail::Calls<Index>::rank(a.rows, a.columns, a.starts, a.ids, a.ids_length, a.flags, &found, &place), place);
  return found;
}

/* A maximum matching, with BLOCKTRI_LEAST the least one: blocktri_matching. */
template <class Matrix>
auto matching(const Matrix &matrix, std::uint32_t flags = 0) {
  const auto &a = detail::look_at(matrix);
  using Index = std::decay_t<decltype(a.rows)>;
  Matching<Index> found{detail::room<Index>(a.columns), detail::room<Index>(a.rows), 0};
  std::int64_t place = -1;
  detail::answered(detail::Calls<Index>::matching(a.rows, a.columns, a.starts, a.ids, a.ids_length, a.flags | flags,
                                                  found.row_of_column.data(), found.column_of_row.data(), &found.size, &place),
                   place);
  detail::trim(found.row_of_column, a.columns);
  detail::trim(found.column_of_row, a.rows);
  return found;
}

/* The Dulmage-Mendelsohn decomposition: blocktri_decomposition. */
template <class Matrix>
auto decomposition(const Matrix &matrix) {
  const auto &a = detail::look_at(matrix);
  using Index = std::decay_t<decltype(a.rows)>;
  auto rows = detail::room<Index>(a.rows), columns = detail::room<Index>(a.columns);
  Decomposition<Index> found{rows, columns, columns, rows, columns, BLOCKTRI_SIZES_INIT};
  std::int64_t place = -1;
  detail::answered(
      detail::Calls<Index>::decomposition(a.rows, a.columns, a.starts, a.ids, a.ids_length, a.flags, found.row_order.data(),
                                          found.column_order.data(), found.block_starts.data(), found.row_component.data(),
                                          found.column_component.data(), &found.sizes, &place),
      place);
  for (auto *list : {&found.row_order, &found.row_component}) detail::trim(*list, a.rows);
  for (auto *list : {&found.column_order, &found.column_component}) detail::trim(*list, a.columns);
  detail::trim(found.block_starts, found.sizes.blocks + 1);
  return found;
}

/* The decomposition as MATLAB's dmperm and CXSparse's cs_dmperm give it: blocktri_dmperm. */
template <class Matrix>
auto dmperm(const Matrix &matrix) {
  const auto &a = detail::look_at(matrix);
  using Index = std::decay_t<decltype(a.rows)>;
  auto rows = detail::room<Index>(a.rows), columns = detail::room<Index>(a.columns);
  auto cuts = detail::room<Index>(static_cast<std::int64_t>(a.rows < a.columns ? a.rows : a.columns) + 1);
  Dmperm<Index> found{rows, columns, cuts, cuts, columns, rows, columns, BLOCKTRI_SIZES_INIT};
  std::int64_t place = -1;
  detail::answered(detail::Calls<Index>::dmperm(a.rows, a.columns, a.starts, a.ids, a.ids_length, a.flags, found.p.data(),
                                                found.q.data(), found.r.data(), found.s.data(), found.row_of_column.data(),
                                                found.row_component.data(), found.column_component.data(), &found.sizes, &place),
                   place);
  for (auto *list : {&found.p, &found.row_component}) detail::trim(*list, a.rows);
  for (auto *list : {&found.q, &found.row_of_column, &found.column_component}) detail::trim(*list, a.columns);
  for (auto *list : {&found.r, &found.s}) detail::trim(*list, found.sizes.nb + 1);
  return found;
}

/* What a sparse LU factorisation by blocks needs: blocktri_block_order. */
template <class Matrix>
auto block_order(const Matrix &matrix, std::uint32_t flags = 0) {
  const auto &a = detail::look_at(matrix);
  using Index = std::decay_t<decltype(a.rows)>;
  auto columns = detail::room<Index>(a.columns);
  BlockOrder<Index> found{detail::room<Index>(a.rows), columns, columns, columns, 0, -1};
  std::int64_t place = -1;
  std::int32_t status = detail::Calls<Index>::block_order(
      a.rows, a.columns, a.starts, a.ids, a.ids_length, a.flags | flags, found.row_order.data(), found.column_order.data(),
      found.block_starts.data(), found.row_of_column.data(), &found.blocks, &found.rank, &place);
  detail::answered(status, place, found.rank);
  detail::trim(found.row_order, a.rows);
  for (auto *list : {&found.column_order, &found.row_of_column}) detail::trim(*list, a.columns);
  detail::trim(found.block_starts, found.blocks + 1);
  return found;
}

/* The diagonal with the greatest sum of magnitudes, and prices that prove it: blocktri_heaviest. There is one value for each id. Without
 * wants_prices the lists of prices are empty, and BLOCKTRI_PRICE_LIMIT is not thrown. */
template <class Index>
Heaviest<Index> heaviest(const Compressed<Index> &a, const std::vector<std::int64_t> &values, bool wants_prices = true) {
  detail::has_values(a, values);
  Heaviest<Index> found{detail::room<Index>(a.columns), {}, {}, {}};
  if (wants_prices) {
    found.row_prices = detail::room<std::int64_t>(a.rows);
    found.column_prices = detail::room<std::int64_t>(a.columns);
  }
  std::int64_t place = -1;
  detail::answered(detail::Calls<Index>::heaviest(a.rows, a.columns, a.starts, a.ids, a.ids_length, values.data(), a.flags,
                                                  found.row_of_column.data(), wants_prices ? found.row_prices.data() : nullptr,
                                                  wants_prices ? found.column_prices.data() : nullptr, &found.sum, nullptr, nullptr,
                                                  nullptr, &place),
                   place);
  detail::trim(found.row_of_column, a.columns);
  detail::trim(found.row_prices, wants_prices ? a.rows : Index{0});
  detail::trim(found.column_prices, wants_prices ? a.columns : Index{0});
  return found;
}

/* The same of a matrix of Eigen whose values are integers. */
template <class Matrix, class = std::enable_if_t<detail::IsEigen<Matrix>::value>>
auto heaviest(const Matrix &matrix, bool wants_prices = true) {
  return heaviest(detail::look_at(matrix), detail::values_of(matrix), wants_prices);
}

/* The diagonal whose least magnitude is greatest, and columns that prove it: blocktri_bottleneck. There is one value for each id. */
template <class Index>
Bottleneck<Index> bottleneck(const Compressed<Index> &a, const std::vector<std::int64_t> &values) {
  detail::has_values(a, values);
  Bottleneck<Index> found{detail::room<Index>(a.columns), detail::room<Index>(a.columns), 0};
  Index count = 0;
  std::int64_t place = -1;
  detail::answered(detail::Calls<Index>::bottleneck(a.rows, a.columns, a.starts, a.ids, a.ids_length, values.data(), a.flags,
                                                    found.row_of_column.data(), &found.least, nullptr, found.column_set.data(),
                                                    &count, &place),
                   place);
  detail::trim(found.row_of_column, a.columns);
  detail::trim(found.column_set, count);
  return found;
}

/* The same of a matrix of Eigen whose values are integers. */
template <class Matrix, class = std::enable_if_t<detail::IsEigen<Matrix>::value>>
auto bottleneck(const Matrix &matrix) {
  return bottleneck(detail::look_at(matrix), detail::values_of(matrix));
}

}  // namespace blocktri

#endif
