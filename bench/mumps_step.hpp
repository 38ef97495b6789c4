// The step of MUMPS that permutes a matrix to the largest sum on its diagonal, for the programs that measure beside it.
#pragma once
#include <algorithm>
#include <cmath>
#include <cstdint>
#include <vector>

#include "columns.hpp"

static const double INFINITE = 1e300;

// Costs are not negative. `row_col` gets each row's column, `pairs` how many; `row_price` and `col_price` add up to at
// most the cost at each place, and to the cost at each pair. Before the call the first word of `by_col` says which of
// the library's variants is wanted (0: the plain one), and the first two of `row_price` how far from the best the answer
// may be (0: not at all) and what counts as no bound. Rows and columns count from 1.
extern "C" void dmumps_mtransw_(const int *rows, const int *cols, const int64_t *entries, const int64_t *start,
                                int *row, double *cost, int *row_col, int *pairs, int64_t *by_col, int *heap_place,
                                int64_t *tree, int64_t *path, int *heap, int64_t *best, double *row_price,
                                double *col_price, double *infinity);

// The library wants the entries and their starts counted from 1, and costs to be minimised: by how much an entry is
// lighter than its column's heaviest. For the largest least magnitude it wants the magnitudes.
struct Task {
  int n;
  std::vector<int64_t> start;
  std::vector<int> row;
  std::vector<double> cost, heaviest;
};

static double weight(const Columns &a, int place) { return std::abs(static_cast<double>(a.value[place])); }

static Task task(const Columns &a, bool costs) {
  Task t{a.cols, std::vector<int64_t>(a.cols + 1), std::vector<int>(a.row.size() + 1),
         std::vector<double>(a.row.size() + 1), std::vector<double>(a.cols, 0.0)};
  for (int c = 0; c <= a.cols; c++) t.start[c] = a.start[c] + 1;
  for (size_t k = 0; k < a.row.size(); k++) t.row[k] = a.row[k] + 1;
  for (int c = 0; c < a.cols; c++) {
    for (int k = a.start[c]; k < a.start[c + 1]; k++) t.heaviest[c] = std::max(t.heaviest[c], weight(a, k));
    for (int k = a.start[c]; k < a.start[c + 1]; k++) t.cost[k] = costs ? t.heaviest[c] - weight(a, k) : weight(a, k);
  }
  return t;
}

struct Diagonal {
  int pairs = 0;
  std::vector<int> row_col;
  std::vector<double> row_price, col_price;
};

static Diagonal solve(Task &t) {
  size_t n = t.n;
  int64_t entries = t.start[n] - 1;
  double infinity = INFINITE;
  Diagonal d{0, std::vector<int>(n + 1), std::vector<double>(n + 2), std::vector<double>(n + 2)};
  d.row_price[1] = infinity;
  std::vector<int64_t> by_col(n + 1), tree(n + 1), path(n + 1), best(n + 1);
  std::vector<int> heap_place(n + 1), heap(n + 1);
  dmumps_mtransw_(&t.n, &t.n, &entries, t.start.data(), t.row.data(), t.cost.data(), d.row_col.data(), &d.pairs,
                  by_col.data(), heap_place.data(), tree.data(), path.data(), heap.data(), best.data(),
                  d.row_price.data(), d.col_price.data(), &infinity);
  return d;
}
