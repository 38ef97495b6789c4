// Times the calls of libblocktri, CXSparse and SuiteSparse BTF on one real matrix, in one process and on the same
// compressed columns:
//
//   real look < file.mtx                what the matrix is: rows, columns, entries, a number for its pattern, and whether the
//                                       first look finds all
//   real times TIMES LIMIT < file.mtx   the calls' times
//
// The file is a Matrix Market file of coordinates. Symmetric ones are filled up, values are not read, and an explicit zero is an
// entry. The first look finds all if the matrix is square and has its whole diagonal, or each column finds a row that no column
// before it took.
//
// Each call first runs in a child process and is left out if it does not end within LIMIT seconds. Then the calls take turns: TIMES
// times on large matrices, up to twenty times as often on small ones, and no more once a call has taken half of LIMIT. The program
// prints one line for each call: its name, its least time in nanoseconds by the wall clock, and the numbers that it found. The time
// includes malloc and free of the lists that the call writes and works in.
#include <algorithm>
#include <cctype>
#include <csignal>
#include <cstdio>
#include <cstdlib>
#include <cstring>
#include <functional>
#include <memory>
#include <string>
#include <vector>

#include <sys/wait.h>
#include <time.h>
#include <unistd.h>

#include <suitesparse/btf.h>
#include <suitesparse/cs.h>

#include "../library/blocktri.h"
#include "columns.hpp"

using Numbers = std::vector<size_t>;  // what is compared

static const char *USAGE = "usage: real look | real times TIMES LIMIT < file.mtx";
static const size_t LARGE = 200000;  // entries of a matrix that is measured no more often than it is told

struct Call {
  std::string name;
  std::function<Numbers()> run;
  bool ends = false;
  double least = 1e300, spent = 0;
  Numbers found = {};
};

static double seconds() {
  timespec now;
  clock_gettime(CLOCK_MONOTONIC, &now);
  return static_cast<double>(now.tv_sec) + 1e-9 * static_cast<double>(now.tv_nsec);
}

// A list of numbers that are not set yet, from the same heap as the lists that the packages make.
class List {
  struct Free {
    void operator()(int *list) const { std::free(list); }
  };
  std::unique_ptr<int, Free> list;

 public:
  explicit List(size_t length) : list(static_cast<int *>(std::malloc(std::max<size_t>(1, length) * sizeof(int)))) {
    if (!list) stop("out of memory");
  }
  operator int *() const { return list.get(); }
};

// The head of the file, and whether the file keeps only one half of the matrix.
static bool is_half(Bytes &bytes) {
  std::string head;
  for (int b = bytes.next(); b >= 0 && b != '\n'; b = bytes.next()) head += static_cast<char>(std::tolower(b));
  char object[16] = "", format[16] = "", field[16] = "", symmetry[16] = "";
  std::sscanf(head.c_str(), "%%%%matrixmarket %15s %15s %15s %15s", object, format, field, symmetry);
  if (std::strcmp(object, "matrix") || std::strcmp(format, "coordinate")) stop("no Matrix Market file of coordinates");
  return std::strcmp(symmetry, "general") != 0;
}

static Columns read_matrix() {
  Bytes bytes;
  bool half = is_half(bytes);
  Places places;
  int b = bytes.next();
  places.rows = static_cast<int>(number(bytes, b));
  places.cols = static_cast<int>(number(bytes, b));
  long count = number(bytes, b);
  for (long k = 0; k < count; k++) {
    if (b != '\n') skip_line(bytes), b = '\n';
    int row = static_cast<int>(number(bytes, b)) - 1, col = static_cast<int>(number(bytes, b)) - 1;
    if (row < 0 || row >= places.rows || col < 0 || col >= places.cols) stop("a place outside of the matrix");
    places.row.push_back(row), places.col.push_back(col);
    if (half && row != col) places.row.push_back(col), places.col.push_back(row);
  }
  return compress(places);
}

// The matrix as each library wants it.
struct Arrays {
  Columns columns;
  cs_di cxsparse{};

  explicit Arrays(Columns read) : columns(std::move(read)) {
    cxsparse.nzmax = static_cast<int>(columns.row.size());
    cxsparse.m = columns.rows;
    cxsparse.n = columns.cols;
    cxsparse.p = columns.start.data();
    cxsparse.i = columns.row.data();
    cxsparse.nz = -1;
  }

  size_t rows() const { return static_cast<size_t>(columns.rows); }
  size_t cols() const { return static_cast<size_t>(columns.cols); }
  bool is_square() const { return columns.rows == columns.cols; }
};

// FNV-1a over the size and the lists: files with the same pattern give the same number.
static uint64_t pattern_number(const Columns &a) {
  uint64_t hash = 0xcbf29ce484222325u;
  auto take = [&hash](int number) { hash = (hash ^ static_cast<uint32_t>(number)) * 0x100000001b3u; };
  take(a.rows), take(a.cols);
  for (int number : a.start) take(number);
  for (int number : a.row) take(number);
  return hash;
}

static bool has_whole_diagonal(const Columns &a) {
  if (a.rows != a.cols) return false;
  for (int c = 0; c < a.cols; c++)
    if (!std::binary_search(a.row.begin() + a.start[c], a.row.begin() + a.start[c + 1], c)) return false;
  return true;
}

static bool first_look_finds_all(const Columns &a) {
  if (has_whole_diagonal(a)) return true;
  std::vector<char> taken(a.rows);
  for (int c = 0; c < a.cols; c++) {
    int k = a.start[c];
    while (k < a.start[c + 1] && taken[a.row[k]]) k++;
    if (k == a.start[c + 1]) return false;
    taken[a.row[k]] = 1;
  }
  return a.rows == a.cols;
}

static void right(int32_t status) {
  if (status != BLOCKTRI_OK) stop(blocktri_text(status));
}

// the arguments that give the matrix to a call of libblocktri
#define LISTS(a) \
  (a).columns.rows, (a).columns.cols, (a).columns.start.data(), (a).columns.row.data(), static_cast<int32_t>((a).columns.row.size())

static Numbers rank_by_blocktri(const Arrays &a) {
  int32_t rank;
  right(blocktri_rank(LISTS(a), 0, &rank, nullptr));
  return {static_cast<size_t>(rank)};
}

static Numbers rank_by_cxsparse(const Arrays &a) {
  int *both = cs_di_maxtrans(&a.cxsparse, 0);
  if (!both) stop("cs_maxtrans failed");
  size_t rank = a.rows() - static_cast<size_t>(std::count(both, both + a.rows(), -1));
  cs_di_free(both);
  return {rank};
}

static Numbers rank_by_suitesparse(Arrays &a) {
  List match(a.rows()), work(5 * a.cols());
  double steps = 0;
  return {static_cast<size_t>(btf_maxtrans(a.columns.rows, a.columns.cols, a.columns.start.data(), a.columns.row.data(), 0, &steps,
                                           match, work))};
}

// The rank, and at full rank the number of blocks.
static Numbers order_by_blocktri(const Arrays &a) {
  List row_order(a.rows()), column_order(a.cols()), block_starts(a.cols() + 1);
  int32_t blocks, rank;
  int32_t status = blocktri_block_order(LISTS(a), 0, row_order, column_order, block_starts, nullptr, &blocks, &rank, nullptr);
  if (status == BLOCKTRI_SINGULAR) return {static_cast<size_t>(rank)};
  right(status);
  return {static_cast<size_t>(rank), static_cast<size_t>(blocks)};
}

static Numbers order_by_suitesparse(Arrays &a) {
  int n = a.columns.cols, rank = 0;
  List p(a.cols()), q(a.cols()), r(a.cols() + 1), work(5 * a.cols());
  double steps = 0;
  int blocks = btf_order(n, a.columns.start.data(), a.columns.row.data(), 0, &steps, p, q, r, &rank, work);
  if (rank < n) return {static_cast<size_t>(rank)};
  return {static_cast<size_t>(rank), static_cast<size_t>(blocks)};
}

// The rank, the number of blocks of the square part, the size of it, and the rows and columns of the horizontal part and of the
// vertical part.
static Numbers parts_of(const blocktri_sizes &s) {
  Numbers found;
  for (int64_t it : {s.rank, s.blocks, s.square, s.horizontal_rows, s.horizontal_columns, s.vertical_rows, s.vertical_columns})
    found.push_back(static_cast<size_t>(it));
  return found;
}

static Numbers decomposition_by_blocktri(const Arrays &a) {
  List row_order(a.rows()), column_order(a.cols()), block_starts(a.cols() + 1), row_component(a.rows()), column_component(a.cols());
  blocktri_sizes sizes = BLOCKTRI_SIZES_INIT;
  right(blocktri_decomposition(LISTS(a), 0, row_order, column_order, block_starts, row_component, column_component, &sizes, nullptr));
  return parts_of(sizes);
}

// As cs_dmperm, which looks for no components.
static Numbers dmperm_by_blocktri(const Arrays &a) {
  size_t cuts = std::min(a.rows(), a.cols()) + 2;
  List p(a.rows()), q(a.cols()), r(cuts), s(cuts);
  blocktri_sizes sizes = BLOCKTRI_SIZES_INIT;
  right(blocktri_dmperm(LISTS(a), 0, p, q, r, s, nullptr, nullptr, nullptr, &sizes, nullptr));
  return parts_of(sizes);
}

static Numbers decomposition_by_cxsparse(const Arrays &a) {
  cs_did *d = cs_di_dmperm(&a.cxsparse, 0);
  if (!d) stop("cs_dmperm failed");
  int horizontal_rows = d->rr[1], square = d->rr[2] - d->rr[1], vertical_rows = a.columns.rows - d->rr[2];
  int horizontal_columns = d->cc[2], vertical_columns = d->cc[4] - d->cc[3];
  int blocks = d->nb - (horizontal_columns > 0) - (vertical_rows > 0);
  cs_di_dfree(d);
  Numbers found;
  for (int it : {horizontal_rows + square + vertical_columns, blocks, square, horizontal_rows, horizontal_columns, vertical_rows,
                 vertical_columns})
    found.push_back(static_cast<size_t>(it));
  return found;
}

static std::vector<Call> calls_of(Arrays &a) {
  std::vector<Call> calls;
  auto add = [&calls](const char *name, std::function<Numbers()> run) { calls.push_back({name, std::move(run)}); };
  add("blocktri_rank", [&a] { return rank_by_blocktri(a); });
  add("btf_maxtrans", [&a] { return rank_by_suitesparse(a); });
  add("cs_maxtrans", [&a] { return rank_by_cxsparse(a); });
  if (a.is_square()) {
    add("blocktri_block_order", [&a] { return order_by_blocktri(a); });
    add("btf_order", [&a] { return order_by_suitesparse(a); });
  }
  add("blocktri_decomposition", [&a] { return decomposition_by_blocktri(a); });
  add("cs_dmperm", [&a] { return decomposition_by_cxsparse(a); });
  add("blocktri_dmperm", [&a] { return dmperm_by_blocktri(a); });
  return calls;
}

// Whether the call ends in time, by a child.
static bool ends_within(const Call &call, unsigned limit) {
  std::fflush(nullptr);
  pid_t child = fork();
  if (child < 0) stop("no child");
  if (child == 0) {
    alarm(limit);
    call.run();
    _exit(0);
  }
  int status = 0;
  waitpid(child, &status, 0);
  if (WIFEXITED(status) && WEXITSTATUS(status) == 0) return true;
  if (WIFSIGNALED(status) && WTERMSIG(status) == SIGALRM) return false;
  stop((call.name + " failed").c_str());
}

static void measure(Call &call) {
  double begin = seconds();
  call.found = call.run();
  double took = seconds() - begin;
  call.least = std::min(call.least, took);
  call.spent += took;
}

static void look(const Columns &a) {
  std::printf("%d %d %zu %016llx %d\n", a.rows, a.cols, a.row.size(), static_cast<unsigned long long>(pattern_number(a)),
              first_look_finds_all(a));
}

static void take_times(Arrays &a, size_t times, unsigned limit) {
  std::vector<Call> calls = calls_of(a);
  for (Call &call : calls) call.ends = ends_within(call, limit);
  size_t more = std::clamp<size_t>(LARGE / std::max<size_t>(1, a.columns.row.size()), 1, 20);
  for (size_t turn = 0; turn < times * more; turn++)
    for (Call &call : calls)
      if (call.ends && call.spent < limit / 2.0) measure(call);
  for (const Call &call : calls) {
    if (!call.ends) continue;
    std::printf("%s %.0f", call.name.c_str(), 1e9 * call.least);
    for (size_t number : call.found) std::printf(" %zu", number);
    std::printf("\n");
  }
}

int main(int argc, char **argv) {
  std::string job = argc > 1 ? argv[1] : "";
  if (job == "look" && argc == 2) {
    look(read_matrix());
  } else if (job == "times" && argc == 4) {
    Arrays a(read_matrix());
    take_times(a, static_cast<size_t>(std::atoi(argv[2])), static_cast<unsigned>(std::atoi(argv[3])));
  } else {
    stop(USAGE);
  }
}
