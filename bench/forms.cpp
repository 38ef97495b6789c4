// blocktri_dmperm beside cs_dmperm of CXSparse on a large matrix, by seed SEED of cs_dmperm:
//
//   forms SEED < file.mtx
//
// libblocktri gets the lists with each column's rows falling and every third id twice, by columns and once more by rows, CXSparse
// what cs_dupl makes of them. Of each form it looks whether pairs stand along the diagonal, no entry is below a block, and the sizes
// fit; of ours also whether the orders are those that blocktri.h tells. Then the rank, the sizes of the parts and the blocks, as sets
// of rows and columns, have to be the same. It writes the rank and the number of blocks, or what does not hold, and ends in 1 then.
#include <algorithm>
#include <cstdint>
#include <cstdio>
#include <cstdlib>
#include <utility>
#include <vector>

#include <suitesparse/cs.h>

#include "../library/blocktri.h"
#include "columns.hpp"

using List = std::vector<int32_t>;

static const char *about = "";

#define CHECK(holds) \
  do { \
    if (!(holds)) std::printf("%s: not %s\n", about, #holds), std::exit(1); \
  } while (0)

struct Form {
  int rank;
  List p, q, r, s, rr, cc;

  size_t blocks() const { return r.size() - 1; }
};

// Compressed lines of either direction.
struct Lists {
  List start{0}, ids;
};

// Each column's rows falling, every third of them twice.
static Lists rough(const Columns &a) {
  Lists lists;
  for (int c = 0; c < a.cols; c++) {
    for (int k = a.start[c + 1]; k-- > a.start[c];) lists.ids.insert(lists.ids.end(), k % 3 ? 1 : 2, a.row[k]);
    lists.start.push_back(static_cast<int>(lists.ids.size()));
  }
  return lists;
}

static Lists turned(const Lists &lists, int rows) {
  Lists by_row;
  by_row.start = starts(lists.ids, rows);
  by_row.ids.resize(lists.ids.size());
  List at = by_row.start;
  for (int c = static_cast<int>(lists.start.size()) - 1; c-- > 0;)
    for (int k = lists.start[c]; k < lists.start[c + 1]; k++) by_row.ids[at[lists.ids[k]]++] = c;
  return by_row;
}

static bool is_entry(const Columns &a, int row, int col) {
  return std::binary_search(a.row.begin() + a.start[col], a.row.begin() + a.start[col + 1], row);
}

static bool rises(const List &list, int from, int to) {
  return std::adjacent_find(list.begin() + from, list.begin() + to, [](int x, int y) { return x >= y; }) == list.begin() + to;
}

static bool is_permutation(List list) {
  std::sort(list.begin(), list.end());
  for (size_t i = 0; i < list.size(); i++)
    if (list[i] != static_cast<int>(i)) return false;
  return true;
}

// For each row or column the block that it is in.
static List block_of(const List &order, const List &cuts) {
  List block(order.size());
  for (size_t b = 0; b + 1 < cuts.size(); b++)
    for (int x = cuts[b]; x < cuts[b + 1]; x++) block[order[x]] = static_cast<int>(b);
  return block;
}

// What blocktri_dmperm and cs_dmperm both promise: five sizes of each side that fit each other, then blocks by them.
static void has_sizes(const Columns &a, const Form &f) {
  const List &rr = f.rr, &cc = f.cc, &r = f.r, &s = f.s;
  CHECK(rr[0] == 0 && rr[3] == f.rank && rr[4] == a.rows && cc[0] == 0 && cc[1] == a.cols - f.rank && cc[4] == a.cols);
  CHECK(rr[1] == cc[2] - cc[1] && rr[2] - rr[1] == cc[3] - cc[2] && rr[3] - rr[2] == cc[4] - cc[3]);
  CHECK(std::is_sorted(rr.begin(), rr.end()) && std::is_sorted(cc.begin(), cc.end()));
  size_t first = cc[2] > 0, last = f.blocks() - (rr[2] < a.rows);
  CHECK(r[0] == 0 && s[0] == 0 && r[f.blocks()] == a.rows && s[f.blocks()] == a.cols);
  CHECK(r[first] == rr[1] && s[first] == cc[2] && r[last] == rr[2] && s[last] == cc[3]);
  for (size_t b = first; b < last; b++) CHECK(r[b + 1] > r[b] && r[b + 1] - r[b] == s[b + 1] - s[b]);
}

static void is_form(const Columns &a, const Form &f) {
  has_sizes(a, f);
  CHECK(is_permutation(f.p) && is_permutation(f.q));
  for (int x = 0; x < f.rank; x++) CHECK(is_entry(a, f.p[x], f.q[a.cols - f.rank + x]));
  List of_row = block_of(f.p, f.r), of_col = block_of(f.q, f.s);
  for (int c = 0; c < a.cols; c++)
    for (int k = a.start[c]; k < a.start[c + 1]; k++) CHECK(of_row[a.row[k]] <= of_col[c]);
}

// The orders and the matching, as blocktri.h tells them.
static void is_ours(const Columns &a, const Form &f, const List &row_of_column) {
  for (int x = 0; x < a.cols; x++) {
    int unmatched = a.cols - f.rank;
    CHECK(row_of_column[f.q[x]] == (x < unmatched ? BLOCKTRI_NONE : f.p[x - unmatched]));
  }
  CHECK(rises(f.q, 0, f.cc[1]) && rises(f.q, f.cc[1], f.cc[2]) && rises(f.q, f.cc[3], f.cc[4]) && rises(f.p, f.rr[3], f.rr[4]));
  for (size_t b = f.cc[2] > 0; b < f.blocks(); b++) CHECK(rises(f.q, f.s[b], f.s[b + 1]));
  int least = std::min(a.rows, a.cols), full = 0, kept = 0;
  while (full < least && is_entry(a, full, full)) full++;
  while (kept < least && row_of_column[kept] == kept) kept++;
  CHECK(full < least || kept == least);
}

static Form ours(const Columns &a, const Lists &lists, uint32_t flags) {
  const int32_t untouched = INT32_MIN;
  size_t room = static_cast<size_t>(std::min(a.rows, a.cols)) + 2;
  Form f{0, List(a.rows), List(a.cols), List(room, untouched), List(room, untouched), {}, {}};
  List row_of_column(a.cols);
  blocktri_sizes z = BLOCKTRI_SIZES_INIT;
  CHECK(blocktri_dmperm(a.rows, a.cols, lists.start.data(), lists.ids.data(), static_cast<int32_t>(lists.ids.size()), flags,
                        f.p.data(), f.q.data(), f.r.data(), f.s.data(), row_of_column.data(), nullptr, nullptr, &z, nullptr) == 0);
  for (List *cuts : {&f.r, &f.s}) {
    CHECK(std::count(cuts->begin() + z.nb + 1, cuts->end(), untouched) == cuts->end() - cuts->begin() - z.nb - 1);
    cuts->resize(z.nb + 1);
  }
  f.rank = static_cast<int>(z.rank);
  f.rr.assign(z.rr, z.rr + 5), f.cc.assign(z.cc, z.cc + 5);
  CHECK(z.horizontal_rows == f.rr[1] && z.horizontal_columns == f.cc[2] && z.square == f.rr[2] - f.rr[1]);
  CHECK(z.vertical_rows == f.rr[4] - f.rr[2] && z.vertical_columns == f.cc[4] - f.cc[3]);
  CHECK(z.nb == z.blocks + (z.horizontal_columns > 0) + (z.vertical_rows > 0));
  is_form(a, f);
  is_ours(a, f, row_of_column);
  return f;
}

static Form theirs(const Columns &a, const Lists &lists, int seed) {
  int count = static_cast<int>(lists.ids.size());
  cs_di *matrix = cs_di_spalloc(a.rows, a.cols, std::max(1, count), 1, 0);
  if (!matrix) stop("no memory");
  std::copy(lists.start.begin(), lists.start.end(), matrix->p);
  std::copy(lists.ids.begin(), lists.ids.end(), matrix->i);
  std::fill(matrix->x, matrix->x + count, 1.0);
  if (!cs_di_dupl(matrix) || matrix->p[a.cols] != a.start[a.cols]) stop("cs_dupl failed");
  cs_did *d = cs_di_dmperm(matrix, seed);
  if (!d) stop("cs_dmperm failed");
  int cuts = d->nb + 1;
  Form f{d->rr[3],           {d->p, d->p + a.rows}, {d->q, d->q + a.cols}, {d->r, d->r + cuts},
         {d->s, d->s + cuts}, {d->rr, d->rr + 5},    {d->cc, d->cc + 5}};
  cs_di_dfree(d);
  cs_di_spfree(matrix);
  is_form(a, f);
  return f;
}

// The least column of each row's and each column's block, or -1 where it has none: the same for two forms of the same blocks.
static List names(const Form &f) {
  List least(f.blocks(), -1), of_row = block_of(f.p, f.r), of_col = block_of(f.q, f.s);
  for (size_t b = 0; b < least.size(); b++)
    if (f.s[b] < f.s[b + 1]) least[b] = *std::min_element(f.q.begin() + f.s[b], f.q.begin() + f.s[b + 1]);
  of_row.insert(of_row.end(), of_col.begin(), of_col.end());
  for (int &block : of_row) block = least[block];
  return of_row;
}

// The rows and columns of each block, the blocks in the order of their sizes.
static std::vector<std::pair<int, int>> block_sizes(const Form &f) {
  std::vector<std::pair<int, int>> sizes;
  for (size_t b = 0; b < f.blocks(); b++) sizes.push_back({f.r[b + 1] - f.r[b], f.s[b + 1] - f.s[b]});
  std::sort(sizes.begin(), sizes.end());
  return sizes;
}

static void are_alike(const Form &one, const Form &other) {
  CHECK(one.rank == other.rank && one.rr == other.rr && one.cc == other.cc);
  CHECK(block_sizes(one) == block_sizes(other));
  CHECK(names(one) == names(other));
}

int main(int argc, char **argv) {
  if (argc != 2) stop("usage: forms SEED < file.mtx");
  Bytes bytes;
  Columns a = compress(read_places(bytes, false));
  Lists lists = rough(a);
  about = "libblocktri by columns";
  Form by_columns = ours(a, lists, 0);
  about = "libblocktri by rows";
  Form by_rows = ours(a, turned(lists, a.rows), BLOCKTRI_BY_ROWS);
  about = "libblocktri by columns and by rows";
  are_alike(by_columns, by_rows);
  about = "CXSparse";
  Form other = theirs(a, lists, std::atoi(argv[1]));
  about = "libblocktri beside CXSparse";
  are_alike(by_columns, other);
  std::printf("%d %zu\n", other.rank, other.blocks());
}
