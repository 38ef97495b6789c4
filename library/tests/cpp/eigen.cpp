/* blocktri.hpp over sparse matrices of Eigen: by columns and by rows, both widths, maps, values, and matrices that are not compressed. */
#include "blocktri.hpp"

#include <Eigen/SparseCore>
#include <cstdio>
#include <cstdlib>

#define CHECK(holds) \
  do { \
    if (!(holds)) { \
      std::fprintf(stderr, "%s:%d: %s\n", __FILE__, __LINE__, #holds); \
      std::exit(1); \
    } \
  } while (0)

/* what should have been thrown was not */
[[noreturn]] static void missing(const char *what) {
  std::fprintf(stderr, "not thrown: %s\n", what);
  std::exit(1);
}

/* the flow sheet of the examples, the entry of row i and column j being 10 i + j + 1 */
template <class Value, int Order, class Index>
Eigen::SparseMatrix<Value, Order, Index> flow_sheet() {
  static const int places[][2] = {{0, 0}, {3, 0}, {1, 1}, {4, 1}, {0, 2}, {5, 2}, {0, 3}, {3, 3}, {1, 4}, {4, 4}, {1, 5}, {2, 5}};
  std::vector<Eigen::Triplet<Value, Index>> entries;
  for (auto &it : places) entries.emplace_back(it[0], it[1], static_cast<Value>(10 * it[0] + it[1] + 1));
  Eigen::SparseMatrix<Value, Order, Index> a(6, 6);
  a.setFromTriplets(entries.begin(), entries.end());
  return a;
}

template <class Value, int Order, class Index>
void is_solved_by_blocks() {
  auto a = flow_sheet<Value, Order, Index>();
  auto order = blocktri::block_order(a);
  CHECK(blocktri::rank(a) == 6 && order.blocks == 4);
  CHECK((order.column_order == std::vector<Index>{0, 3, 1, 4, 2, 5}) && (order.block_starts == std::vector<Index>{0, 2, 4, 5, 6}));
  for (std::size_t k = 0; k < 6; k++) CHECK(a.coeff(order.row_order[k], order.column_order[k]) != Value(0));
  Eigen::Map<const Eigen::SparseMatrix<Value, Order, Index>> map(6, 6, a.nonZeros(), a.outerIndexPtr(), a.innerIndexPtr(), a.valuePtr());
  CHECK(blocktri::matching(map, BLOCKTRI_LEAST).row_of_column == (std::vector<Index>{0, 1, 5, 3, 4, 2}));
  CHECK(blocktri::decomposition(map).sizes.blocks == 4 && blocktri::dmperm(a).sizes.nb == 4);
}

/* rows 2 and 5 have one entry each, 26 and 53; the others may be paired in two ways, 1 + 34 = 31 + 4 and 12 + 45 = 42 + 15 */
template <class Value, int Order>
void has_diagonals() {
  auto a = flow_sheet<Value, Order, std::int32_t>();
  auto heavy = blocktri::heaviest(a);
  CHECK(heavy.sum.low == 26 + 53 + 35 + 57 && heavy.sum.high == 0);
  CHECK(blocktri::bottleneck(a).least == 4);
}

int main() {
  is_solved_by_blocks<double, Eigen::ColMajor, std::int32_t>();
  is_solved_by_blocks<double, Eigen::RowMajor, std::int64_t>();
  is_solved_by_blocks<float, Eigen::ColMajor, std::int64_t>();
  has_diagonals<int, Eigen::ColMajor>();
  has_diagonals<std::int64_t, Eigen::RowMajor>();
  auto a = flow_sheet<double, Eigen::ColMajor, std::int32_t>();
  a.uncompress();
  try {
    blocktri::rank(a);
    missing("not compressed");
  } catch (const std::invalid_argument &) {
  }
  a.makeCompressed();
  CHECK(blocktri::rank(a) == 6);
  return 0;
}
