/* blocktri.hpp over vectors, in both widths: matrices that were worked out by hand, by columns and by rows, and each exception. */
#include "blocktri.hpp"

#include <cstdio>
#include <cstdlib>
#include <functional>

#define CHECK(holds) \
  do { \
    if (!(holds)) { \
      std::fprintf(stderr, "%s:%d: %s\n", __FILE__, __LINE__, #holds); \
      std::exit(1); \
    } \
  } while (0)

/* what should have been thrown was not */
[[noreturn]] static void missing(const char *what) {
  std::fprintf(stderr, "not thrown: %s\n", what);
  std::exit(1);
}

template <class Index>
using List = std::vector<Index>;

/* rows 0: columns 0, 1, 2; 1: columns 2, 3; 2 and 3: column 3 */
template <class Index>
void three_parts() {
  const List<Index> starts{0, 1, 2, 4, 7}, ids{0, 0, 1, 0, 3, 1, 2}, row_starts{0, 3, 5, 6, 7}, row_ids{2, 0, 1, 3, 2, 3, 3};
  for (auto a : {blocktri::compressed_columns(4, 4, starts, ids), blocktri::compressed_rows(4, 4, row_starts, row_ids)}) {
    CHECK(blocktri::rank(a) == 3);
    auto least = blocktri::matching(a, BLOCKTRI_LEAST);
    CHECK(least.size == 3 && (least.row_of_column == List<Index>{0, -1, 1, 2}) && (least.column_of_row == List<Index>{0, 2, 3, -1}));
    auto form = blocktri::decomposition(a);
    CHECK((form.row_order == List<Index>{0, 1, 2, 3}) && (form.column_order == List<Index>{0, 1, 2, 3}));
    CHECK((form.block_starts == List<Index>{0, 1}) && form.sizes.rank == 3 && form.sizes.blocks == 1);
    CHECK((form.row_component == List<Index>{0, -1, 0, 0}) && (form.column_component == List<Index>{0, 0, -1, 0}));
    auto dm = blocktri::dmperm(a);
    CHECK((dm.r == List<Index>{0, 1, 2, 4}) && (dm.s == List<Index>{0, 2, 3, 4}) && dm.sizes.nb == 3);
    CHECK(dm.p.size() == 4 && dm.q.size() == 4 && dm.row_of_column.size() == 4 && dm.row_of_column[2] == 1);
    CHECK(dm.row_component == form.row_component && dm.column_component == form.column_component);
    try {
      blocktri::block_order(a);
      missing("singular");
    } catch (const blocktri::Singular &it) {
      CHECK(it.rank() == 3 && it.status() == BLOCKTRI_SINGULAR && it.place() == -1);
    }
  }
}

/* the matrix [2 0; 3 -9], and [2 5; 3 -9] by rows */
template <class Index>
void two_rows() {
  const List<Index> starts{0, 2, 3}, ids{0, 1, 1}, row_starts{0, 2, 4}, row_ids{0, 1, 0, 1};
  auto a = blocktri::compressed_columns(2, 2, starts, ids);
  auto order = blocktri::block_order(a);
  CHECK(order.blocks == 2 && order.rank == 2 && (order.block_starts == List<Index>{0, 1, 2}));
  CHECK((order.row_order == List<Index>{1, 0}) && (order.column_order == List<Index>{1, 0}));
  CHECK((order.row_of_column == List<Index>{0, 1}));
  auto heavy = blocktri::heaviest(a, {2, 3, -9});
  CHECK((heavy.row_of_column == List<Index>{0, 1}) && heavy.sum.low == 11 && heavy.sum.high == 0);
  CHECK(heavy.row_prices[0] + heavy.column_prices[0] == 2 && heavy.row_prices[1] + heavy.column_prices[1] == 9);
  CHECK(heavy.row_prices[1] + heavy.column_prices[0] >= 3);
  auto wide = blocktri::bottleneck(blocktri::compressed_rows(2, 2, row_starts, row_ids), {2, 5, 3, -9});
  CHECK(wide.least == 3 && (wide.row_of_column == List<Index>{1, 0}) && !wide.column_set.empty());
}

/* a light diagonal, and the heaviest entries below it: no prices of 64 bits prove the one diagonal that there is */
template <class Index>
void chain() {
  const List<Index> starts{0, 2, 4, 6, 7}, ids{0, 1, 1, 2, 2, 3, 3};
  const std::vector<std::int64_t> values{1, INT64_MAX, 1, INT64_MAX, 1, INT64_MAX, 1};
  auto a = blocktri::compressed_columns(4, 4, starts, ids);
  auto found = blocktri::heaviest(a, values, false);
  CHECK(found.sum.low == 4 && found.row_prices.empty() && (found.row_of_column == List<Index>{0, 1, 2, 3}));
  try {
    blocktri::heaviest(a, values);
    missing("prices");
  } catch (const blocktri::Error &it) {
    CHECK(it.status() == BLOCKTRI_PRICE_LIMIT && it.place() == -1);
  }
}

/* nothing is left out because a list is empty */
template <class Index>
void empty() {
  const List<Index> starts{0}, ids;
  auto a = blocktri::compressed_columns(0, 0, starts, ids);
  CHECK(blocktri::rank(a) == 0 && blocktri::matching(a).row_of_column.empty());
  auto form = blocktri::decomposition(a);
  CHECK(form.sizes.horizontal_components == 0 && (form.block_starts == List<Index>{0}));
  CHECK(blocktri::dmperm(a).sizes.nb == 0 && blocktri::block_order(a).blocks == 0);
  CHECK(blocktri::heaviest(a, {}).sum.low == 0 && blocktri::bottleneck(a, {}).column_set.empty());
  auto tall = blocktri::dmperm(blocktri::compressed_columns(2, 0, starts, ids));
  CHECK(tall.sizes.vertical_rows == 2 && (tall.r == List<Index>{0, 2}) && (tall.s == List<Index>{0, 0}));
}

static void throws(std::int32_t status, std::int64_t place, const char *text, const std::function<void()> &call) {
  try {
    call();
  } catch (const blocktri::Error &it) {
    CHECK(it.status() == status && it.place() == place && std::string(it.what()) == text);
    return;
  }
  missing("an exception");
}

template <class Exception>
void throws_other(const std::function<void()> &call) {
  try {
    call();
  } catch (const Exception &) {
    return;
  }
  missing("an exception");
}

template <class Index>
void refusals() {
  const List<Index> starts{0, 1, 2}, ids{0, 1}, falling{0, 2, 1}, outside{0, 2}, both{0, 0}, one{0, 2}, none;
  auto a = blocktri::compressed_columns(2, 2, starts, ids);
  throws(BLOCKTRI_BAD_START, 2, "a start is wrong: starts[2]", [&] { blocktri::rank(blocktri::compressed_columns(2, 2, falling, ids)); });
  throws(BLOCKTRI_BAD_ROW, 1, "an id is out of range: ids[1]",
         [&] { blocktri::dmperm(blocktri::compressed_columns(2, 2, starts, outside)); });
  throws(BLOCKTRI_BAD_ARGUMENT, 6, "an argument cannot be taken: number 6", [&] { blocktri::matching(a, 1u << 30); });
  throws(BLOCKTRI_NOT_SQUARE, -1, "the matrix is not square",
         [&] { blocktri::block_order(blocktri::compressed_columns(3, 2, starts, ids)); });
  throws(BLOCKTRI_BAD_SIZE, -1, "a size is negative or too large",
         [&] { blocktri::decomposition(blocktri::compressed_columns(-1, 2, starts, ids)); });
  throws(BLOCKTRI_SUM_LIMIT, 0, "the values of one place add up to too much: ids[0]",
         [&] { blocktri::heaviest(blocktri::compressed_columns(1, 1, one, both), {INT64_MAX, 1}); });
  throws(BLOCKTRI_SINGULAR, -1, "the matrix is structurally singular",
         [&] { blocktri::bottleneck(blocktri::compressed_columns(2, 2, starts, both), {1, 1}); });
  throws_other<std::invalid_argument>([&] { blocktri::compressed_columns(2, 3, starts, ids); });
  throws_other<std::invalid_argument>([&] { blocktri::compressed_rows(3, 2, starts, ids); });
  throws_other<std::invalid_argument>([&] { blocktri::heaviest(a, {1}); });
}

template <class Index>
void all() {
  three_parts<Index>();
  two_rows<Index>();
  chain<Index>();
  empty<Index>();
  refusals<Index>();
}

int main() {
  all<std::int32_t>();
  all<std::int64_t>();
  return 0;
}
