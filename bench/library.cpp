// The calls of libblocktri beside those of what Debian packages, in one process, on the same compressed columns:
//
//   library rank REPEATS LIMIT < file.mtx            blocktri_rank, blocktri_matching; cs_maxtrans, btf_maxtrans, igraph, and the
//                                                    algorithm of Hopcroft and Karp in C++
//   library decomposition REPEATS LIMIT < file.mtx   blocktri_decomposition, blocktri_dmperm, on square matrices
//                                                    blocktri_block_order; cs_dmperm, on square matrices btf_order
//   library heaviest REPEATS LIMIT < file.mtx        blocktri_heaviest; MUMPS' step with the making of its costs; an integer file
//
// Each call runs first in a child of its own, which tells how much memory it takes at most beyond what is there before, and
// whether it ends within LIMIT seconds; those that do not, and those that LEFT_OUT names, are left out. Then all run in turns,
// REPEATS times, but those that have taken a quarter of LIMIT no more. It writes a line for each call: its name, the least
// nanoseconds by the clock and of the processor, the bytes, and the numbers that it found. The reader, and for igraph the making
// of its graph, are outside of all that.
#include <algorithm>
#include <cstdio>
#include <cstdlib>
#include <functional>
#include <string>
#include <vector>

#include <malloc.h>
#include <sys/wait.h>
#include <time.h>
#include <unistd.h>

#include <igraph/igraph.h>
#include <suitesparse/btf.h>
#include <suitesparse/cs.h>

#include "../library/blocktri.h"
#include "columns.hpp"
#include "mumps_step.hpp"

using Numbers = std::vector<size_t>;  // what is compared

static const char *USAGE = "usage: library rank|decomposition|heaviest REPEATS LIMIT [LEFT_OUT,..] < file.mtx";

struct Call {
  std::string name;
  std::function<Numbers()> run;
  double wall = 1e300, processor = 1e300;
  long bytes = 0;
  double spent = 0;
  bool ends = false;
  Numbers found = {};
};

static double seconds(clockid_t clock) {
  timespec now;
  clock_gettime(clock, &now);
  return static_cast<double>(now.tv_sec) + 1e-9 * static_cast<double>(now.tv_nsec);
}

static long resident_bytes() {
  FILE *file = std::fopen("/proc/self/statm", "r");
  long all = 0, resident = 0;
  if (!file || std::fscanf(file, "%ld %ld", &all, &resident) != 2) stop("no /proc/self/statm");
  std::fclose(file);
  return resident * sysconf(_SC_PAGESIZE);
}

// In a child: whether the call ends in time, and the most memory that it takes beyond what was there.
static void try_out(Call &call, unsigned limit) {
  int ends[2];
  if (pipe(ends)) stop("no pipe");
  std::fflush(nullptr);
  malloc_trim(0);
  pid_t child = fork();
  if (child < 0) stop("no child");
  if (child == 0) {
    alarm(limit);
    long before = resident_bytes();
    call.run();
    rusage usage;
    getrusage(RUSAGE_SELF, &usage);
    long more = std::max(0L, usage.ru_maxrss * 1024 - before);
    _exit(write(ends[1], &more, sizeof more) == sizeof more ? 0 : 1);
  }
  close(ends[1]);
  call.ends = read(ends[0], &call.bytes, sizeof call.bytes) == sizeof call.bytes;
  close(ends[0]);
  waitpid(child, nullptr, 0);
}

static void measure(Call &call) {
  double wall = seconds(CLOCK_MONOTONIC), processor = seconds(CLOCK_PROCESS_CPUTIME_ID);
  call.found = call.run();
  call.processor = std::min(call.processor, seconds(CLOCK_PROCESS_CPUTIME_ID) - processor);
  wall = seconds(CLOCK_MONOTONIC) - wall;
  call.wall = std::min(call.wall, wall);
  call.spent += wall;
}

// The matrix as each library wants it.
struct Arrays {
  Columns columns;
  cs_di cxsparse{};
  igraph_t graph;
  igraph_vector_bool_t sides;

  explicit Arrays(Columns read) : columns(std::move(read)) {
    cxsparse.nzmax = static_cast<int>(columns.row.size());
    cxsparse.m = columns.rows;
    cxsparse.n = columns.cols;
    cxsparse.p = columns.start.data();
    cxsparse.i = columns.row.data();
    cxsparse.nz = -1;
  }

  void make_graph() {
    igraph_vector_int_t ends;
    igraph_vector_int_init(&ends, static_cast<igraph_integer_t>(2 * columns.row.size()));
    igraph_integer_t at = 0, vertices = static_cast<igraph_integer_t>(columns.rows) + columns.cols;
    for (int c = 0; c < columns.cols; c++)
      for (int k = columns.start[c]; k < columns.start[c + 1]; k++) {
        VECTOR(ends)[at++] = columns.row[k];
        VECTOR(ends)[at++] = static_cast<igraph_integer_t>(columns.rows) + c;
      }
    igraph_create(&graph, &ends, vertices, 0);
    igraph_vector_int_destroy(&ends);
    igraph_vector_bool_init(&sides, vertices);
    for (int c = 0; c < columns.cols; c++) VECTOR(sides)[columns.rows + c] = 1;
  }
};

static void right(int32_t status) {
  if (status != BLOCKTRI_OK) stop(blocktri_text(status));
}

// the arguments that give the matrix to a call of libblocktri
#define LISTS(a) \
  (a).columns.rows, (a).columns.cols, (a).columns.start.data(), (a).columns.row.data(), static_cast<int32_t>((a).columns.row.size())

static Numbers rank_by_blocktri(const Arrays &a) {
  int32_t rank;
  right(blocktri_rank(LISTS(a), 0, &rank, nullptr));
  return {static_cast<size_t>(rank)};
}

static Numbers matching_by_blocktri(const Arrays &a) {
  int32_t size;
  std::vector<int32_t> row_of_column(a.columns.cols);
  right(blocktri_matching(LISTS(a), 0, row_of_column.data(), nullptr, &size, nullptr));
  return {static_cast<size_t>(size)};
}

static Numbers rank_by_cxsparse(const Arrays &a) {
  int *both = cs_di_maxtrans(&a.cxsparse, 0);
  if (!both) stop("cs_maxtrans failed");
  size_t rank = 0;
  for (int r = 0; r < a.columns.rows; r++) rank += both[r] >= 0;
  cs_di_free(both);
  return {rank};
}

static Numbers rank_by_suitesparse(Arrays &a) {
  std::vector<int> match(a.columns.rows + 1), work(5 * static_cast<size_t>(a.columns.cols) + 1);
  double steps = 0;
  return {static_cast<size_t>(btf_maxtrans(a.columns.rows, a.columns.cols, a.columns.start.data(), a.columns.row.data(), 0, &steps,
                                           match.data(), work.data()))};
}

static Numbers rank_by_igraph(const Arrays &a) {
  igraph_integer_t size;
  if (igraph_maximum_bipartite_matching(&a.graph, &a.sides, &size, nullptr, nullptr, nullptr, 0)) stop("igraph failed");
  return {static_cast<size_t>(size)};
}

// Hopcroft and Karp (1973): levels from all unmatched columns, then disjoint shortest paths; first each column takes the first
// unmatched row.
class HopcroftKarp {
  const Columns &a;
  std::vector<int> row_of, col_of, level, next, path, queue;

  bool levels() {
    bool found = false;
    queue.clear();
    for (int c = 0; c < a.cols; c++) {
      level[c] = row_of[c] < 0 ? 0 : -1;
      if (row_of[c] < 0) queue.push_back(c);
    }
    for (size_t head = 0; head < queue.size(); head++) {
      int c = queue[head];
      for (int k = a.start[c]; k < a.start[c + 1]; k++) {
        int d = col_of[a.row[k]];
        if (d < 0) found = true;
        else if (level[d] < 0) level[d] = level[c] + 1, queue.push_back(d);
      }
    }
    return found;
  }

  bool augment(int root) {
    path.assign(1, root);
    while (!path.empty()) {
      int c = path.back();
      if (next[c] == a.start[c + 1]) {
        level[c] = -1;
        path.pop_back();
        if (!path.empty()) next[path.back()]++;
        continue;
      }
      int d = col_of[a.row[next[c]]];
      if (d >= 0 && level[d] == level[c] + 1) path.push_back(d);
      else if (d >= 0) next[c]++;
      else break;
    }
    for (int c : path) {
      int r = a.row[next[c]];
      row_of[c] = r;
      col_of[r] = c;
      level[c] = -1;
    }
    return !path.empty();
  }

 public:
  explicit HopcroftKarp(const Columns &columns)
      : a(columns), row_of(a.cols, -1), col_of(a.rows, -1), level(a.cols), next(a.cols) {}

  size_t rank() {
    size_t size = 0;
    for (int c = 0; c < a.cols; c++)
      for (int k = a.start[c]; k < a.start[c + 1] && row_of[c] < 0; k++)
        if (col_of[a.row[k]] < 0) row_of[c] = a.row[k], col_of[a.row[k]] = c, size++;
    while (levels()) {
      std::copy(a.start.begin(), a.start.end() - 1, next.begin());
      for (int c = 0; c < a.cols; c++)
        if (row_of[c] < 0) size += augment(c);
    }
    return size;
  }
};

// The rank, the rows and columns of the horizontal part, the size and the blocks of the square part, and the rows and columns of
// the vertical part.
static Numbers parts_of(const blocktri_sizes &s) {
  Numbers found;
  for (int64_t it : {s.rank, s.horizontal_rows, s.horizontal_columns, s.square, s.blocks, s.vertical_rows, s.vertical_columns})
    found.push_back(static_cast<size_t>(it));
  return found;
}

static Numbers decomposition_by_blocktri(const Arrays &a) {
  std::vector<int32_t> row_order(a.columns.rows), column_order(a.columns.cols), block_starts(a.columns.cols + 1);
  std::vector<int32_t> row_component(a.columns.rows), column_component(a.columns.cols);
  blocktri_sizes sizes = BLOCKTRI_SIZES_INIT;
  right(blocktri_decomposition(LISTS(a), 0, row_order.data(), column_order.data(), block_starts.data(), row_component.data(),
                               column_component.data(), &sizes, nullptr));
  return parts_of(sizes);
}

// As cs_dmperm, which looks for no components.
static Numbers dmperm_by_blocktri(const Arrays &a) {
  size_t cuts = static_cast<size_t>(std::min(a.columns.rows, a.columns.cols)) + 2;
  std::vector<int32_t> p(a.columns.rows), q(a.columns.cols), r(cuts), s(cuts);
  blocktri_sizes sizes = BLOCKTRI_SIZES_INIT;
  right(blocktri_dmperm(LISTS(a), 0, p.data(), q.data(), r.data(), s.data(), nullptr, nullptr, nullptr, &sizes, nullptr));
  return parts_of(sizes);
}

static Numbers decomposition_by_cxsparse(const Arrays &a) {
  cs_did *d = cs_di_dmperm(&a.cxsparse, 0);
  if (!d) stop("cs_dmperm failed");
  const int *rr = d->rr, *cc = d->cc;
  int first = cc[2] > 0 ? 1 : 0, last = d->nb - (rr[2] < a.columns.rows ? 1 : 0);
  size_t square = rr[2] - rr[1], horizontal_rows = rr[1], vertical_columns = cc[4] - cc[3];
  Numbers found = {horizontal_rows + square + vertical_columns,
                   horizontal_rows,
                   static_cast<size_t>(cc[2]),
                   square,
                   static_cast<size_t>(last - first),
                   static_cast<size_t>(a.columns.rows - rr[2]),
                   vertical_columns};
  cs_di_dfree(d);
  return found;
}

// Of a square matrix 1 and the number of blocks where its rank is full, else 0.
static Numbers order_by_blocktri(const Arrays &a) {
  std::vector<int32_t> row_order(a.columns.rows), column_order(a.columns.cols), block_starts(a.columns.cols + 1);
  int32_t blocks;
  int32_t status = blocktri_block_order(LISTS(a), 0, row_order.data(), column_order.data(), block_starts.data(), nullptr, &blocks,
                                        nullptr, nullptr);
  if (status == BLOCKTRI_SINGULAR) return {0};
  right(status);
  return {1, static_cast<size_t>(blocks)};
}

static Numbers order_by_suitesparse(Arrays &a) {
  int n = a.columns.cols, rank = 0;
  std::vector<int> p(n + 1), q(n + 1), r(n + 2), work(5 * static_cast<size_t>(n) + 1);
  double steps = 0;
  int blocks = btf_order(n, a.columns.start.data(), a.columns.row.data(), 0, &steps, p.data(), q.data(), r.data(), &rank,
                         work.data());
  return rank == n ? Numbers{1, static_cast<size_t>(blocks)} : Numbers{0};
}

// The sum of a heaviest diagonal.
static Numbers heaviest_by_blocktri(const Arrays &a) {
  size_t n = a.columns.cols;
  std::vector<int32_t> row_of_column(n);
  std::vector<int64_t> row_prices(n), column_prices(n);
  blocktri_sum sum;
  int32_t status = blocktri_heaviest(LISTS(a), a.columns.value.data(), 0, row_of_column.data(), row_prices.data(),
                                     column_prices.data(), &sum, nullptr, nullptr, nullptr, nullptr);
  if (status == BLOCKTRI_SINGULAR) return {0};
  right(status);
  return {1, sum.low};
}

static Numbers heaviest_by_mumps(const Arrays &a) {
  Task t = task(a.columns, true);
  Diagonal d = solve(t);
  if (d.pairs < t.n) return {0};
  double sum = 0;
  for (int r = 0; r < t.n; r++) sum -= d.row_price[r];
  for (int c = 0; c < t.n; c++) sum += t.heaviest[c] - d.col_price[c];
  return {1, static_cast<size_t>(sum)};
}

static std::vector<Call> calls_of(const std::string &job, Arrays &a) {
  std::vector<Call> calls;
  auto add = [&calls](const char *name, std::function<Numbers()> run) { calls.push_back({name, std::move(run)}); };
  if (job == "rank") {
    a.make_graph();
    add("blocktri_rank", [&a] { return rank_by_blocktri(a); });
    add("blocktri_matching", [&a] { return matching_by_blocktri(a); });
    add("cs_maxtrans", [&a] { return rank_by_cxsparse(a); });
    add("btf_maxtrans", [&a] { return rank_by_suitesparse(a); });
    add("igraph", [&a] { return rank_by_igraph(a); });
    add("hopcroft_karp", [&a] { return Numbers{HopcroftKarp(a.columns).rank()}; });
  } else if (job == "decomposition") {
    add("blocktri_decomposition", [&a] { return decomposition_by_blocktri(a); });
    add("blocktri_dmperm", [&a] { return dmperm_by_blocktri(a); });
    add("cs_dmperm", [&a] { return decomposition_by_cxsparse(a); });
    if (a.columns.rows == a.columns.cols) {
      add("blocktri_block_order", [&a] { return order_by_blocktri(a); });
      add("btf_order", [&a] { return order_by_suitesparse(a); });
    }
  } else if (job == "heaviest") {
    add("blocktri_heaviest", [&a] { return heaviest_by_blocktri(a); });
    add("mumps", [&a] { return heaviest_by_mumps(a); });
  } else {
    stop(USAGE);
  }
  return calls;
}

int main(int argc, char **argv) {
  if (argc != 4 && argc != 5) stop(USAGE);
  int repeats = std::atoi(argv[2]);
  unsigned limit = static_cast<unsigned>(std::atoi(argv[3]));
  Bytes bytes;
  Arrays a(compress(read_places(bytes, std::string(argv[1]) == "heaviest")));
  std::vector<Call> calls = calls_of(argv[1], a);
  std::string left_out = argc == 5 ? std::string(",") + argv[4] + "," : "";
  for (Call &call : calls)
    if (left_out.find("," + call.name + ",") == std::string::npos) try_out(call, limit);
  for (int turn = 0; turn < repeats; turn++)
    for (Call &call : calls)
      if (call.ends && call.spent < limit / 4.0) measure(call);
  for (const Call &call : calls) {
    if (!call.ends) {
      std::printf("%s -\n", call.name.c_str());
      continue;
    }
    std::printf("%s %.0f %.0f %ld", call.name.c_str(), 1e9 * call.wall, 1e9 * call.processor, call.bytes);
    for (size_t number : call.found) std::printf(" %zu", number);
    std::printf("\n");
  }
}
