// A plain incremental program for sessions of edits: it keeps a matching, and searches from the one column and the one
// row that an edit touches. It reads what `btf edit` reads, without `report`, and writes the same ranks.
//
//     g++ -O3 -std=c++17 -o edits bench/edits.cpp && ./edits < session
//
// With words SHAPE ROWS KIND COUNT SEED it makes the matrix and the edits of bench/single_edits.rattle, and writes what that
// program writes: the nanoseconds of each edit.
#include <algorithm>
#include <chrono>
#include <cstdint>
#include <cstdio>
#include <cstdlib>
#include <cstring>
#include <string>
#include <utility>
#include <vector>

using List = std::vector<int>;

struct Session {
  int rows, cols, size = 0;
  std::vector<List> by_col, by_row;
  List row_of, col_of;          // the mates, or -1
  List seen, from, queue;       // columns or rows seen by the search of this number
  int search = 0;

  Session(int rows, int cols)
      : rows(rows), cols(cols), by_col(cols), by_row(rows), row_of(cols, -1), col_of(rows, -1),
        seen(std::max(rows, cols), 0), from(std::max(rows, cols), -1) {}

  // From a column over its rows to their mates, to an unmatched row; from a row the other way round. The path is
  // exchanged where there is one. It doesn't end in what is passed over.
  bool augment(int start, int passed, std::vector<List> &lists, List &mate, List &other) {
    ++search;
    queue.assign(1, start);
    seen[start] = search;
    for (size_t at = 0; at < queue.size(); ++at) {
      int here = queue[at];
      for (int there : lists[here]) {
        int next = other[there];
        if (next < 0 && there == passed) continue;
        if (next < 0) {
          for (int end = there; here >= 0;) {
            int before = mate[here];
            mate[here] = end;
            other[end] = here;
            if (here == start) break;
            end = before;
            here = from[here];
          }
          ++size;
          return true;
        }
        if (seen[next] != search) {
          seen[next] = search;
          from[next] = here;
          queue.push_back(next);
        }
      }
    }
    return false;
  }

  bool from_col(int col, int passed = -1) { return augment(col, passed, by_col, row_of, col_of); }
  bool from_row(int row) { return augment(row, -1, by_row, col_of, row_of); }

  static bool insert(List &list, int x) {
    auto at = std::lower_bound(list.begin(), list.end(), x);
    if (at != list.end() && *at == x) return false;
    list.insert(at, x);
    return true;
  }

  static bool erase(List &list, int x) {
    auto at = std::lower_bound(list.begin(), list.end(), x);
    if (at == list.end() || *at != x) return false;
    list.erase(at);
    return true;
  }

  void pair(int row, int col) {
    row_of[col] = row;
    col_of[row] = col;
    ++size;
  }

  void unpair(int row, int col) {
    row_of[col] = -1;
    col_of[row] = -1;
    --size;
  }

  // The row's mate looks for another row; where it finds one, the row is left to an unmatched column.
  void set(int row, int col) {
    if (!insert(by_col[col], row)) return;
    insert(by_row[row], col);
    if (size == rows || size == cols) return;
    int mate = col_of[row];
    if (mate >= 0) {
      unpair(row, mate);
      if (!from_col(mate, row)) {
        pair(row, mate);
        return;
      }
    }
    from_row(row);
  }

  void clear(int row, int col) {
    if (!erase(by_col[col], row)) return;
    erase(by_row[row], col);
    if (row_of[col] != row) return;
    unpair(row, col);
    if (!from_col(col)) from_row(row);
  }

  // A maximum matching, by phases of depth-first searches, each of which marks the rows that it has tried.
  void match_all() {
    for (int col = 0; col < cols; ++col)
      for (int row : by_col[col])
        if (col_of[row] < 0) {
          pair(row, col);
          break;
        }
    List tried(rows, -1), stack, at(cols, 0);
    bool more = true;
    for (int phase = 0; more; ++phase) {
      more = false;
      for (int root = 0; root < cols; ++root) {
        if (row_of[root] >= 0) continue;
        stack.assign(1, root);
        at[root] = 0;
        while (!stack.empty()) {
          int col = stack.back();
          if (at[col] == int(by_col[col].size())) {
            stack.pop_back();
            continue;
          }
          int row = by_col[col][at[col]++];
          if (tried[row] == phase) continue;
          tried[row] = phase;
          if (col_of[row] >= 0) {
            stack.push_back(col_of[row]);
            at[col_of[row]] = 0;
            continue;
          }
          for (; !stack.empty(); stack.pop_back()) {
            int before = row_of[stack.back()];
            row_of[stack.back()] = row;
            col_of[row] = stack.back();
            row = before;
          }
          ++size;
          more = true;
        }
      }
    }
  }
};

static uint64_t state;
static uint64_t next(uint64_t limit) {
  state = state * 6364136223846793005u + 1442695040888963407u;
  return (state >> 16) % limit;
}

// The matrix and the edits of bench/single_edits.rattle.
static int single(int shape, uint64_t n, int kind, long count) {
  using Place = std::pair<int, int>;
  uint64_t wide = shape == 1 ? n + n / 4 : n;
  Session session(n, wide);
  for (uint64_t col = 0; col < wide; ++col)
    for (int k = 0; k < 3; ++k) {
      int row = shape == 2 || col >= n ? next(n) : k == 0 ? col : col + next(n - col);
      Session::insert(session.by_col[col], row);
    }
  std::vector<Place> entries;
  for (uint64_t col = 0; col < wide; ++col)
    for (int row : session.by_col[col]) {
      session.by_row[row].push_back(col);
      entries.push_back({row, col});
    }
  session.match_all();
  size_t held = entries.size();
  std::vector<long> times[5];
  Place place{0, 0};
  for (long at = 0; at < count; ++at) {
    bool sets = true;
    if (kind == 0) {
      sets = next(2) == 0;
      if (sets) {
        place.first = next(n);
        place.second = next(wide);
      } else {
        size_t which = next(entries.size());
        place = entries[which];
        entries[which] = entries.back();
        entries.pop_back();
      }
    } else if (at % 2 == 1) {
      sets = kind == 2;
    } else if (kind == 1) {
      if (at == 0) {
        place.first = next(n);
        place.second = next(wide);
      }
    } else {
      int line = next(n);
      place = {line, line};
      sets = false;
    }
    const List &list = session.by_col[place.second];
    size_t had = list.size();
    int before = session.size;
    auto begin = std::chrono::steady_clock::now();
    if (sets)
      session.set(place.first, place.second);
    else
      session.clear(place.first, place.second);
    auto end = std::chrono::steady_clock::now();
    long time = std::chrono::duration_cast<std::chrono::nanoseconds>(end - begin).count();
    held += list.size() - had;
    int told = list.size() == had ? 4 : (sets ? 0 : 2) + (session.size != before);
    times[told].push_back(time);
    if (kind == 0 && told < 2) entries.push_back(place);
  }
  const char *names[] = {"set", "set_raising", "clear", "clear_lowering", "unchanged"};
  for (int told = 0; told < 5; ++told) {
    std::fputs(names[told], stdout);
    for (long time : times[told]) std::printf(" %ld", time);
    std::puts("");
  }
  std::printf("rank %zu %d\n", held, session.size);
  return 0;
}

int main(int words, char **word_at) {
  if (words == 6) {
    state = std::strtoull(word_at[5], nullptr, 10);
    return single(std::atoi(word_at[1]), std::strtoull(word_at[2], nullptr, 10), std::atoi(word_at[3]), std::atol(word_at[4]));
  }
  char line[256];
  int rows = 0, cols = 0;
  long entries = 0;
  while (std::fgets(line, sizeof line, stdin) && line[0] == '%') {
  }
  if (std::sscanf(line, "%d %d %ld", &rows, &cols, &entries) != 3) return 3;
  Session session(rows, cols);
  for (long i = 0; i < entries; ++i) {
    int row = 0, col = 0;
    if (std::scanf("%d %d", &row, &col) != 2) return 3;
    Session::insert(session.by_col[col - 1], row - 1);
    Session::insert(session.by_row[row - 1], col - 1);
  }
  session.match_all();
  std::string out = "rank " + std::to_string(session.size) + "\n";
  char word[16];
  int row = 0, col = 0;
  while (std::scanf("%15s %d %d", word, &row, &col) == 3) {
    if (std::strcmp(word, "set") == 0)
      session.set(row - 1, col - 1);
    else
      session.clear(row - 1, col - 1);
    out += "rank " + std::to_string(session.size) + "\n";
  }
  std::fputs(out.c_str(), stdout);
}
