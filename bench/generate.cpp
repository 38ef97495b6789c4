// Writes a Matrix Market file of a synthetic family, the same bytes for the same words on every machine.
//
//   generate FAMILY COLUMNS SEED [VALUES] > file.mtx
//
// With VALUES the file is an integer file with values from 1 to VALUES, else a pattern file; er12i, circuiti, bandi, hiloi,
// chaini and trii are integer files also without it, and have a diagonal without a hole. Behind their names can stand -ones
// (all values are 1), -twos (1 and 2), -large (to 10^12), or -late or -early: the last or the first two columns have entries
// in the first row alone, so that there is no diagonal. Entries stand by column, then by row, each once. Rows and columns
// have random names where the family has a structure that names would give away.
#include <algorithm>
#include <cstdint>
#include <cstdio>
#include <cstdlib>
#include <numeric>
#include <string>
#include <vector>

using u32 = uint32_t;
using u64 = uint64_t;

struct Random {  // splitmix64
  u64 state;
  u64 next() {
    u64 z = (state += 0x9e3779b97f4a7c15ull);
    z = (z ^ (z >> 30)) * 0xbf58476d1ce4e5b9ull;
    z = (z ^ (z >> 27)) * 0x94d049bb133111ebull;
    return z ^ (z >> 31);
  }
  u64 below(u64 n) { return static_cast<u64>((static_cast<unsigned __int128>(next()) * n) >> 64); }
};

struct Matrix {
  u64 rows = 0, cols = 0;
  bool renamed = false;
  std::vector<u64> places;  // column in the upper half, row in the lower
  void add(u64 row, u64 col) { places.push_back(col << 32 | row); }
};

// Random places: `tenths` tenths of an entry a column on average.
static Matrix uniform(u64 n, u64 tenths, Random &random) {
  Matrix a{n, n};
  for (u64 k = 0; k < n * tenths / 10; k++) {
    u64 row = random.below(n), col = random.below(n);
    a.add(row, col);
  }
  return a;
}

// Twelve random places a column on average, and a hidden diagonal.
static Matrix uniform_with_diagonal(u64 n, Random &random) {
  Matrix a = uniform(n, 120, random);
  a.renamed = true;
  for (u64 j = 0; j < n; j++) a.add(j, j);
  return a;
}

// A recursive matrix (Chakrabarti, Zhan and Faloutsos 2004) with eight draws a column.
static Matrix recursive(u64 n, Random &random) {
  u64 bits = 0;
  while ((1ull << (bits + 1)) <= n) bits++;
  Matrix a{1ull << bits, 1ull << bits, true};
  for (u64 k = 0; k < 8ull << bits; k++) {
    u64 row = 0, col = 0;
    for (u64 bit = 0; bit < bits; bit++) {
      u64 x = random.below(100);
      row = 2 * row + (x >= 76);
      col = 2 * col + ((x >= 57 && x < 76) || x >= 95);
    }
    a.add(row, col);
  }
  return a;
}

// The five-point stencil on a square grid.
static Matrix grid(u64 n) {
  u64 side = 1;
  while ((side + 1) * (side + 1) <= n) side++;
  Matrix a{side * side, side * side};
  for (u64 y = 0; y < side; y++)
    for (u64 x = 0; x < side; x++) {
      u64 v = y * side + x;
      a.add(v, v);
      if (x) a.add(v - 1, v);
      if (x + 1 < side) a.add(v + 1, v);
      if (y) a.add(v - side, v);
      if (y + 1 < side) a.add(v + side, v);
    }
  return a;
}

// One strong block of two fifths of the columns among many small ones, sparse entries above them, two dense rows.
static Matrix circuit(u64 n, Random &random) {
  Matrix a{n, n, true};
  u64 at = 0, blocks = 0;
  while (at < n) {
    u64 size = blocks == 3 ? n * 2 / 5 : 1 + (random.below(4) ? 0 : random.below(8));
    size = std::min(std::max<u64>(size, 1), n - at);
    for (u64 i = 0; i < size; i++) {
      a.add(at + i, at + i);
      if (size > 1) a.add(at + (i + 1) % size, at + i);
      if (size > 8) a.add(at + random.below(size), at + i);
      for (int above = 0; above < 2; above++) {
        u64 row = random.below(at + i + 1);
        if (row < at) a.add(row, at + i);
      }
    }
    at += size;
    blocks++;
  }
  for (u64 rail = 0; rail < 2; rail++)
    for (u64 k = 0; k < n / 20; k++) a.add(rail, random.below(n));
  return a;
}

// Groups of 100 in which each column sees the rows just before it, in its group and in the next: one perfect matching.
static Matrix staircase(u64 n) {
  u64 length = 100, groups = std::max<u64>(n / length, 1), width = 5;
  Matrix a{length * groups, length * groups, true};
  for (u64 group = 0; group < groups; group++)
    for (u64 i = 0; i < length; i++)
      for (u64 j = i >= width ? i - width + 1 : 0; j <= i; j++) {
        a.add(group * length + j, group * length + i);
        if (group + 1 < groups) a.add((group + 1) * length + j, group * length + i);
      }
  return a;
}

// Thirty-two groups on a ring; a column's five rows lie in its own group and the two beside it.
static Matrix ring(u64 n, Random &random) {
  u64 groups = 32, size = std::max<u64>(n / groups, 1);
  Matrix a{size * groups, size * groups, true};
  for (u64 group = 0; group < groups; group++)
    for (u64 i = 0; i < size; i++)
      for (int k = 0; k < 5; k++) {
        u64 other = (group + groups + random.below(3) - 1) % groups;
        a.add(other * size + random.below(size), group * size + i);
      }
  return a;
}

// Hard for the start of Karp and Sipser (after Dufosse, Kaya and Ucar): a sparse block, two diagonals, eight full lines.
static Matrix deceptive(u64 n, Random &random) {
  u64 half = std::max<u64>(n / 2, 8);
  Matrix a{2 * half, 2 * half, true};
  for (u64 c = 0; c < half; c++) {
    for (int k = 0; k < 4; k++) a.add(random.below(half), c);
    a.add(half + c, c);
    a.add(c, half + c);
  }
  for (u64 line = 0; line < 8; line++)
    for (u64 c = 0; c < half; c++) {
      a.add(half - 1 - line, half + c);
      a.add(half + c, half - 1 - line);
    }
  return a;
}

// Blocks of 32, and between each two that are at most two apart five hexagons: three columns of the one and three rows of
// the other at random, each column with an entry in two of the rows (after Cherkassky and others 1998).
static Matrix hexagons(u64 n, Random &random) {
  u64 size = 32, blocks = std::max<u64>(n / size, 1);
  Matrix a{size * blocks, size * blocks, true};
  for (u64 block = 0; block < blocks; block++)
    for (u64 other = block < 2 ? 0 : block - 2; other <= block + 2 && other < blocks; other++)
      for (int hexagon = 0; hexagon < 5; hexagon++) {
        u64 row[3], col[3];
        for (int k = 0; k < 3; k++) {
          row[k] = other * size + random.below(size);
          col[k] = block * size + random.below(size);
        }
        for (int k = 0; k < 3; k++) {
          a.add(row[k], col[k]);
          a.add(row[(k + 1) % 3], col[k]);
        }
      }
  return a;
}

// A chessboard from which one field in fifty is missing: black fields are columns, white ones rows, neighbours entries.
static Matrix chessboard(u64 n, Random &random) {
  u64 side = 1;
  while ((side + 1) * (side + 1) <= 2 * n) side++;
  std::vector<u64> number(side * side);
  std::vector<bool> there(side * side);
  Matrix a{0, 0, true};
  auto black = [side](u64 v) { return (v / side + v % side) % 2 == 0; };
  for (u64 v = 0; v < side * side; v++)
    if ((there[v] = random.below(50) != 0)) number[v] = black(v) ? a.cols++ : a.rows++;
  auto join = [&](u64 v, u64 w) {
    if (there[v] && there[w]) black(v) ? a.add(number[w], number[v]) : a.add(number[v], number[w]);
  };
  for (u64 v = 0; v < side * side; v++) {
    if (v % side + 1 < side) join(v, v + 1);
    if (v + side < side * side) join(v, v + side);
  }
  return a;
}

// Three diagonals that are closed to a ring: every line has three entries, and paths can be as long as the matrix.
static Matrix closed_band(u64 n) {
  Matrix a{n, n, true};
  for (u64 j = 0; j < n; j++)
    for (u64 k = 0; k < 3; k++) a.add((j + k) % n, j);
  return a;
}

// Two diagonals that are closed to a ring: two perfect matchings, and each path is as long as the matrix.
static Matrix closed_chain(u64 n) {
  Matrix a{n, n, true};
  for (u64 j = 0; j < n; j++)
    for (u64 k = 0; k < 2; k++) a.add((j + k) % n, j);
  return a;
}

// Four random places above a diagonal: one perfect matching.
static Matrix triangle(u64 n, Random &random) {
  Matrix a{n, n, true};
  for (u64 j = 0; j < n; j++) {
    a.add(j, j);
    for (int k = 0; k < 4; k++) a.add(random.below(j + 1), j);
  }
  return a;
}

// The matrix that `btf load` makes from a size and a seed.
static Matrix load(u64 n, u64 seed) {
  using Wide = unsigned __int128;
  Matrix a{n, n};
  for (u64 j = 0; j < n; j++) {
    a.add(static_cast<u64>((Wide{2} * j + seed) % n), j);
    a.add(static_cast<u64>((Wide{3} * j + Wide{2} * seed) % n), j);
    a.add(static_cast<u64>((Wide{5} * j + Wide{3} * seed) % n), j);
  }
  return a;
}

// So many random places in each column.
static Matrix rectangular(u64 rows, u64 cols, int places, Random &random) {
  Matrix a{rows, cols};
  for (u64 j = 0; j < cols; j++)
    for (int k = 0; k < places; k++) a.add(random.below(rows), j);
  return a;
}

// All three parts of Dulmage and Mendelsohn: a wide one, hexagons and a tall one, each column of the second and the third
// with an entry in a row of the part before it. Each maximum matching leaves columns of the first and rows of the third
// unmatched, so that from either side much is reached by columns or rows that no path leads from.
static Matrix three_parts(u64 n, Random &random) {
  Matrix wide = rectangular(n * 3 / 10 * 4 / 5 + 1, n * 3 / 10, 4, random), square = hexagons(n * 4 / 10, random);
  Matrix tall = rectangular(n * 3 / 10 * 5 / 4 + 1, n * 3 / 10, 5, random), a;
  for (const Matrix *part : {&wide, &square, &tall}) {
    for (u64 place : part->places) a.add(a.rows + static_cast<u32>(place), a.cols + (place >> 32));
    if (u64 before = part == &square ? wide.rows : square.rows; part != &wide)
      for (u64 j = 0; j < part->cols; j++) a.add(a.rows - before + random.below(before), a.cols + j);
    a.rows += part->rows;
    a.cols += part->cols;
  }
  a.renamed = true;
  return a;
}

// A band of eleven diagonals.
static Matrix band(u64 n) {
  Matrix a{n, n};
  for (u64 j = 0; j < n; j++)
    for (u64 i = j >= 5 ? j - 5 : 0; i <= j + 5 && i < n; i++) a.add(i, j);
  return a;
}

static std::vector<u64> names(u64 n, Random &random) {
  std::vector<u64> order(n);
  std::iota(order.begin(), order.end(), 0);
  for (u64 i = n; i > 1; i--) std::swap(order[i - 1], order[random.below(i)]);
  return order;
}

static void arrange(Matrix &a, Random &random) {
  if (a.renamed) {
    auto row = names(a.rows, random), col = names(a.cols, random);
    for (u64 &place : a.places) place = col[place >> 32] << 32 | row[static_cast<u32>(place)];
  }
  std::sort(a.places.begin(), a.places.end());
  a.places.erase(std::unique(a.places.begin(), a.places.end()), a.places.end());
}

// The last or the first two columns have entries in the first row alone.
static void narrow(Matrix &a, bool last) {
  u64 from = last && a.cols > 2 ? a.cols - 2 : 0;
  auto narrowed = [from](u64 place) { return place >> 32 == from || place >> 32 == from + 1; };
  a.places.erase(std::remove_if(a.places.begin(), a.places.end(), narrowed), a.places.end());
  a.add(0, from);
  a.add(0, from + 1);
  std::sort(a.places.begin(), a.places.end());
}

static void write(const Matrix &a, u64 values, Random &random) {
  std::printf("%%%%MatrixMarket matrix coordinate %s general\n", values ? "integer" : "pattern");
  std::printf("%llu %llu %zu\n", (unsigned long long)a.rows, (unsigned long long)a.cols, a.places.size());
  for (u64 place : a.places) {
    std::printf("%llu %llu", (unsigned long long)static_cast<u32>(place) + 1, (unsigned long long)(place >> 32) + 1);
    if (values) std::printf(" %llu", (unsigned long long)(1 + random.below(values)));
    std::putchar('\n');
  }
}

// The greatest value of the families of integer files.
static u64 values_of(const std::string &family, const std::string &variant) {
  if (variant == "ones") return 1;
  if (variant == "twos") return 2;
  if (variant == "large") return 1000000000000;
  if (family == "er12i") return 1000000;
  if (family == "circuiti" || family == "hiloi" || family == "chaini" || family == "trii") return 1000;
  if (family == "bandi") return 100;
  return 0;
}

int main(int argc, char **argv) {
  if (argc < 4) {
    std::fprintf(stderr, "usage: generate FAMILY COLUMNS SEED [VALUES]\n");
    return 2;
  }
  std::string family = argv[1], variant;
  if (size_t dash = family.find('-'); dash != std::string::npos) {
    variant = family.substr(dash + 1);
    family.resize(dash);
  }
  u64 n = std::strtoull(argv[2], nullptr, 10), seed = std::strtoull(argv[3], nullptr, 10);
  u64 values = argc > 4 ? std::strtoull(argv[4], nullptr, 10) : values_of(family, variant);
  Random random{seed};
  Matrix a;
  if (family == "er27") a = uniform(n, 27, random);
  else if (family == "er10") a = uniform(n, 100, random);
  else if (family == "er12") a = uniform(n, 120, random);
  else if (family == "er12i") a = uniform_with_diagonal(n, random);
  else if (family == "rmat") a = recursive(n, random);
  else if (family == "grid2d") a = grid(n);
  else if (family == "circuit" || family == "circuiti") a = circuit(n, random);
  else if (family == "hilo" || family == "hiloi") a = staircase(n);
  else if (family == "fewg") a = ring(n, random);
  else if (family == "ksbad") a = deceptive(n, random);
  else if (family == "hexa") a = hexagons(n, random);
  else if (family == "lattice") a = chessboard(n, random);
  else if (family == "ring") a = closed_band(n);
  else if (family == "load") a = load(n, seed);
  else if (family == "load30") a = load(std::max<u64>(n / 30, 1) * 30, seed);
  else if (family == "wide") a = rectangular(std::max<u64>(n * 4 / 5, 1), n, 4, random);
  else if (family == "tall") a = rectangular(std::max<u64>(n * 5 / 4, 1), n, 5, random);
  else if (family == "parts") a = three_parts(n, random);
  else if (family == "chaini") a = closed_chain(n);
  else if (family == "trii") a = triangle(n, random);
  else if (family == "band" || family == "bandi") a = band(n);
  else {
    std::fprintf(stderr, "generate: no such family\n");
    return 2;
  }
  arrange(a, random);
  if (variant == "late" || variant == "early") narrow(a, variant == "late");
  write(a, values, random);
}
