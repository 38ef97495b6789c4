// A diagonal of a square Matrix Market integer file by MUMPS:
//
//   mumps diagonal < file.mtx         the largest sum, in the lines that `btf diagonal` writes
//   mumps bottleneck 2 < file.mtx     the largest least magnitude, by shortest paths, in the first lines of
//   mumps bottleneck 3 < file.mtx     `btf bottleneck`; 3: by thresholds, tried by halves
//
// What is called are the steps of MUMPS that permute a matrix to such a diagonal, after MC64 by Duff and Koster (1999,
// 2001), whose jobs the numbers are. They compute in doubles, so an answer is exact while no sum comes to 2^53. They
// tell no columns that show the least magnitude to be the largest.
#include <algorithm>
#include <cstdint>
#include <cstdio>
#include <string>
#include <vector>

#include "columns.hpp"
#include "mumps_step.hpp"

// The same by shortest paths over magnitudes. `col_row` gets each column's row; before the call the first word of
// `distance` says how far from the best the answer may be (0: not at all).
extern "C" void dmumps_mtransb_(const int *rows, const int *cols, const int64_t *entries, const int64_t *start,
                                const int *row, const double *magnitude, int *row_col, int *pairs, int *col_row,
                                int64_t *path, int *heap, int *heap_place, double *distance, double *infinity);

// Orders each column's entries, the largest first.
extern "C" void dmumps_mtransr_(const int *cols, const int64_t *entries, const int64_t *start, int *row,
                                double *magnitude);

// The largest least magnitude by halves, over columns in that order.
extern "C" void dmumps_mtranss_(const int *rows, const int *cols, const int64_t *entries, const int64_t *start,
                                const int *row, const double *magnitude, int *row_col, int *pairs, int *columns,
                                int *length, int *shortest, int *longest, int *order, int *kept, int *work,
                                double *slack, double *infinity);

static Diagonal solve_by_paths(const Task &t) {
  size_t n = t.n;
  int64_t entries = t.start[n] - 1;
  double infinity = INFINITE;
  Diagonal d{0, std::vector<int>(n + 1), {}, {}};
  std::vector<int> col_row(n + 1), heap(n + 1), heap_place(n + 1);
  std::vector<int64_t> path(n + 1);
  std::vector<double> distance(n + 1, 0.0);
  dmumps_mtransb_(&t.n, &t.n, &entries, t.start.data(), t.row.data(), t.cost.data(), d.row_col.data(), &d.pairs,
                  col_row.data(), path.data(), heap.data(), heap_place.data(), distance.data(), &infinity);
  return d;
}

static Diagonal solve_by_halves(const Task &t) {
  size_t n = t.n;
  int64_t entries = t.start[n] - 1;
  double infinity = INFINITE, slack = 0;
  Diagonal d{0, std::vector<int>(n + 1), {}, {}};
  std::vector<int> row(t.row), columns(n + 1), length(n + 1), shortest(n + 1), longest(n + 1), order(n + 1), kept(n + 1);
  std::vector<int> work(4 * n + 4);
  std::vector<double> magnitude(t.cost);
  dmumps_mtransr_(&t.n, &entries, t.start.data(), row.data(), magnitude.data());
  dmumps_mtranss_(&t.n, &t.n, &entries, t.start.data(), row.data(), magnitude.data(), d.row_col.data(), &d.pairs,
                  columns.data(), length.data(), shortest.data(), longest.data(), order.data(), kept.data(),
                  work.data(), &slack, &infinity);
  return d;
}

// The rows of the columns, and the magnitudes of these places.
struct Pairs {
  std::vector<int> row_of;
  std::vector<int64_t> heavy;
};

static Pairs pairs_of(const Columns &a, const Diagonal &d) {
  Pairs p{std::vector<int>(a.cols), std::vector<int64_t>(a.cols)};
  for (int r = 0; r < a.rows; r++) p.row_of[d.row_col[r] - 1] = r;
  for (int c = 0; c < a.cols; c++) {
    auto from = a.row.begin() + a.start[c], to = a.row.begin() + a.start[c + 1];
    int place = static_cast<int>(std::lower_bound(from, to, p.row_of[c]) - a.row.begin());
    p.heavy[c] = static_cast<int64_t>(weight(a, place));
  }
  return p;
}

static std::string lines(const char *name, const Pairs &p, int64_t value) {
  size_t n = p.row_of.size();
  std::string out = std::string(name) + ' ' + std::to_string(n) + ' ' + std::to_string(value) + '\n';
  for (size_t c = 0; c < n; c++)
    out += std::to_string(p.row_of[c] + 1) + ' ' + std::to_string(c + 1) + ' ' + std::to_string(p.heavy[c]) + '\n';
  return out;
}

static std::string diagonal_text(const Task &t, const Diagonal &d, const Pairs &p) {
  int64_t sum = 0;
  for (int64_t w : p.heavy) sum += w;
  std::string out = lines("diagonal", p, sum) + "row_prices";
  for (int r = 0; r < t.n; r++) out += ' ' + std::to_string(static_cast<int64_t>(-d.row_price[r]));
  out += "\ncolumn_prices";
  for (int c = 0; c < t.n; c++) out += ' ' + std::to_string(static_cast<int64_t>(t.heaviest[c] - d.col_price[c]));
  return out + "\nend\n";
}

static std::string bottleneck_text(const Pairs &p) {
  int64_t least = p.heavy.empty() ? 0 : *std::min_element(p.heavy.begin(), p.heavy.end());
  return lines("bottleneck", p, least) + "end\n";
}

int main(int argc, char **argv) {
  std::string job = argc > 1 ? argv[1] : "", way = argc > 2 ? argv[2] : "";
  bool sum = job == "diagonal", paths = job == "bottleneck" && way == "2", halves = job == "bottleneck" && way == "3";
  if (!sum && !paths && !halves) stop("usage: mumps diagonal | bottleneck 2 | bottleneck 3");
  Clock clock;
  Columns a;
  {
    Bytes bytes;
    Places places = read_places(bytes, true);
    clock.tell("read");
    a = compress(places);
  }
  if (a.rows != a.cols) stop("not square");
  Task t = task(a, sum);
  clock.tell("build");
  Diagonal d = sum ? solve(t) : paths ? solve_by_paths(t) : solve_by_halves(t);
  clock.tell("solve");
  if (d.pairs < t.n) {
    std::printf("singular %d\n", d.pairs);
    return 1;
  }
  Pairs p = pairs_of(a, d);
  std::string out = sum ? diagonal_text(t, d, p) : bottleneck_text(p);
  std::fwrite(out.data(), 1, out.size(), stdout);
  clock.tell("write");
  clock.tell_peak();
}
