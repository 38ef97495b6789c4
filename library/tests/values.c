/* Diagonals of small random matrices with values, against all ways to choose one; and each refusal. */
#include "check.h"

enum { SIDE = 5 };

static bool is_entry[SIDE][SIDE]; /* by row and column */
static uint64_t weight[SIDE][SIDE];
static uint32_t size;

/* the places of a matrix, and the magnitudes of their sums */
static void take_weights(const struct matrix *a) {
  int64_t sums[SIDE][SIDE] = {{0}};
  memset(is_entry, 0, sizeof is_entry);
  size = (uint32_t)a->columns;
  for (uint32_t c = 0; c < size; c++)
    for (int32_t k = a->starts[c]; k < a->starts[c + 1]; k++) {
      is_entry[a->ids[k]][c] = true;
      sums[a->ids[k]][c] += a->values[k];
    }
  for (uint32_t r = 0; r < SIDE; r++)
    for (uint32_t c = 0; c < SIDE; c++) weight[r][c] = (uint64_t)(sums[r][c] < 0 ? -sums[r][c] : sums[r][c]);
}

/* of all ways to give the columns from c on a row of their own: whether there is one, the greatest sum and least weight */
struct best {
  bool is_any;
  uint64_t sum, least;
};

static struct best all_ways(uint32_t c, uint32_t taken) {
  struct best best = {false, 0, 0};
  if (c == size) return (struct best){true, 0, UINT64_MAX};
  for (uint32_t r = 0; r < size; r++) {
    if (!is_entry[r][c] || (taken >> r & 1) != 0) continue;
    struct best rest = all_ways(c + 1, taken | 1u << r);
    if (!rest.is_any) continue;
    uint64_t sum = rest.sum + weight[r][c];
    uint64_t least = rest.least < weight[r][c] ? rest.least : weight[r][c];
    if (!best.is_any || best.sum < sum) best.sum = sum;
    if (!best.is_any || best.least < least) best.least = least;
    best.is_any = true;
  }
  return best;
}

static void is_perfect(const int64_t *rows) {
  uint32_t taken = 0;
  for (uint32_t c = 0; c < size; c++) {
    CHECK(rows[c] >= 0 && rows[c] < size && is_entry[rows[c]][c] && (taken >> rows[c] & 1) == 0);
    taken |= 1u << rows[c];
  }
  for (uint32_t c = size; c < ROOM; c++) CHECK(rows[c] == UNTOUCHED);
}

/* rank and columns_count tell nothing yet, and column_set stays as it is */
static void is_heaviest(const struct answer *got, uint64_t most) {
  const int64_t *rows = got->output[HEAVIEST_ROWS], *row_prices = got->output[HEAVIEST_ROW_PRICES];
  is_perfect(rows);
  CHECK(got->output[HEAVIEST_SUM][0] == (int64_t)most && got->output[HEAVIEST_SUM][1] == 0);
  for (uint32_t c = 0; c < size; c++)
    for (uint32_t r = 0; r < size; r++) {
      int64_t both = row_prices[r] + got->output[HEAVIEST_COLUMN_PRICES][c];
      if (is_entry[r][c]) CHECK(both >= (int64_t)weight[r][c]);
      if (r == rows[c]) CHECK(both == (int64_t)weight[r][c]);
    }
  CHECK(got->output[HEAVIEST_RANK][0] == -1 && got->output[HEAVIEST_COUNT][0] == -1);
  CHECK(row_prices[size] == UNTOUCHED && got->output[HEAVIEST_COLUMN_PRICES][size] == UNTOUCHED);
  for (int k = 0; k < ROOM; k++) CHECK(got->output[HEAVIEST_SET][k] == UNTOUCHED);
}

static void is_bottleneck(const struct answer *got, uint64_t most) {
  const int64_t *rows = got->output[BOTTLENECK_ROWS], *columns = got->output[BOTTLENECK_SET];
  uint64_t least = (uint64_t)got->output[BOTTLENECK_LEAST][0];
  int64_t neighbours = 0, count = got->output[BOTTLENECK_COUNT][0];
  is_perfect(rows);
  CHECK(least == (size == 0 ? 0 : most) && count >= 0 && count <= size && got->output[BOTTLENECK_RANK][0] == -1);
  for (int64_t k = 0; k < count; k++)
    CHECK(columns[k] >= 0 && columns[k] < size && (k == 0 || columns[k - 1] < columns[k]));
  for (uint32_t c = 0; c < size; c++) CHECK(least <= weight[rows[c]][c]);
  for (uint32_t r = 0; r < size; r++) {
    bool is_met = false;
    for (int64_t k = 0; k < count; k++) is_met = is_met || (is_entry[r][columns[k]] && weight[r][columns[k]] > least);
    neighbours += is_met;
  }
  CHECK(size == 0 ? count == 0 : neighbours < count);
  for (int64_t k = count; k < ROOM; k++) CHECK(columns[k] == UNTOUCHED);
}

static void compare(const struct matrix *a, uint32_t flags, struct best best) {
  struct answer heavy = ask(HEAVIEST, a, flags), wide = ask(BOTTLENECK, a, flags);
  if (best.is_any) {
    CHECK(heavy.status == BLOCKTRI_OK && wide.status == BLOCKTRI_OK);
    CHECK(heavy.output[FAULT][0] == UNTOUCHED && wide.output[FAULT][0] == UNTOUCHED);
    is_heaviest(&heavy, best.sum);
    is_bottleneck(&wide, best.least);
  } else {
    struct answer none = untouched(HEAVIEST, BLOCKTRI_SINGULAR);
    CHECK(memcmp(&heavy, &none, sizeof none) == 0);
    none = untouched(BOTTLENECK, BLOCKTRI_SINGULAR);
    CHECK(memcmp(&wide, &none, sizeof none) == 0);
  }
}

static void random_matrices(void) {
  uint64_t state = 1;
  uint32_t with = 0;
  for (uint32_t k = 0; k < 20000; k++) {
    int32_t side = draw_from(&state, SIDE + 1);
    struct matrix a = random_matrix(&state, side, side, false), turned = by_rows(&a);
    take_weights(&a);
    struct best best = all_ways(0, 0);
    compare(&a, 0, best);
    compare(&turned, BLOCKTRI_BY_ROWS, best);
    with += best.is_any;
  }
  CHECK(with > 2000 && with < 18000);
}

/* a matrix of bidiagonal form whose diagonal is zero and whose entries below it are as heavy as can be */
static struct matrix chain(int32_t side) {
  struct matrix a = {.rows = side, .columns = side};
  for (int32_t c = 0; c < side; c++) {
    for (int32_t r = c; r < side && r <= c + 1; r++) {
      a.ids[a.count] = r;
      a.values[a.count++] = r == c ? 0 : INT64_MIN + 1;
    }
    a.starts[c + 1] = (int32_t)a.count;
  }
  widen(&a);
  return a;
}

static void is_refused(const struct matrix *a, uint32_t flags, int32_t heavy, int32_t wide, int64_t fault) {
  struct answer got = ask(HEAVIEST, a, flags), none = untouched(HEAVIEST, heavy);
  if (fault >= 0) none.output[FAULT][0] = fault;
  CHECK(memcmp(&got, &none, sizeof none) == 0);
  got = ask(BOTTLENECK, a, flags), none = untouched(BOTTLENECK, wide);
  if (fault >= 0) none.output[FAULT][0] = fault;
  CHECK(got.status == wide && (wide == BLOCKTRI_OK || memcmp(&got, &none, sizeof none) == 0));
}

static void prices_that_just_fit(void) {
  struct matrix a = chain(3);
  struct answer got = ask(HEAVIEST, &a, 0);
  const int64_t *rows = got.output[HEAVIEST_ROW_PRICES], *columns = got.output[HEAVIEST_COLUMN_PRICES];
  CHECK(got.status == BLOCKTRI_OK);
  CHECK(rows[0] == -INT64_MAX && rows[1] == 0 && rows[2] == INT64_MAX);
  CHECK(columns[0] == INT64_MAX && columns[1] == 0 && columns[2] == -INT64_MAX);
}

/* no prices of a chain of four fit; without either list there is an answer, whose one diagonal weighs nothing */
static void prices_that_nobody_asks_for(void) {
  struct matrix a = chain(4);
  unsigned rows = 1u << HEAVIEST_ROW_PRICES, columns = 1u << HEAVIEST_COLUMN_PRICES;
  CHECK(ask(HEAVIEST, &a, 0).status == BLOCKTRI_PRICE_LIMIT);
  CHECK(answer_of(HEAVIEST, &a, 0, rows).status == BLOCKTRI_PRICE_LIMIT);
  CHECK(answer_of(HEAVIEST, &a, 0, columns).status == BLOCKTRI_PRICE_LIMIT);
  struct answer narrow = answer_of(HEAVIEST, &a, 0, rows | columns), wide = answer_of_64(HEAVIEST, &a, 0, rows | columns);
  CHECK(narrow.status == BLOCKTRI_OK && memcmp(&narrow, &wide, sizeof wide) == 0);
  for (int64_t c = 0; c < 4; c++) CHECK(narrow.output[HEAVIEST_ROWS][c] == c);
  CHECK(narrow.output[HEAVIEST_SUM][0] == 0 && narrow.output[HEAVIEST_SUM][1] == 0);
}

/* three weights of 2^63 - 1 are 2^64 and 2^63 - 3 */
static void a_sum_of_two_words(void) {
  struct matrix a = chain(3);
  for (int64_t k = 0; k < a.count; k++) a.values[k] = k % 2 == 0 ? INT64_MAX : 0;
  struct answer got = ask(HEAVIEST, &a, 0);
  CHECK(got.status == BLOCKTRI_OK && got.output[HEAVIEST_SUM][0] == INT64_MAX - 2 && got.output[HEAVIEST_SUM][1] == 1);
  got = ask(BOTTLENECK, &a, 0);
  CHECK(got.status == BLOCKTRI_OK && got.output[BOTTLENECK_LEAST][0] == INT64_MAX);
}

/* Of two places of a column whose sums are too large the one of least row is told, by its first id, before it is told that the
 * matrix has no diagonal; by rows, of two places of a row the one of least column. */
static void which_sum_is_told(void) {
  struct matrix a = {.rows = 3,
                     .columns = 3,
                     .count = 6,
                     .starts = {0, 1, 1, 6},
                     .ids = {2, 1, 0, 1, 1, 0},
                     .values = {1, INT64_MIN, -1, -1, 0, INT64_MIN}};
  widen(&a);
  for (uint32_t flags = 0; flags <= BLOCKTRI_BY_ROWS; flags += BLOCKTRI_BY_ROWS) {
    a.values[2] = a.values[3] = -1;
    is_refused(&a, flags, BLOCKTRI_SUM_LIMIT, BLOCKTRI_SUM_LIMIT, 2);
    a.values[2] = 1; /* as much as a sum may be in row 0 */
    is_refused(&a, flags, BLOCKTRI_SUM_LIMIT, BLOCKTRI_SUM_LIMIT, 1);
    a.values[3] = 1;
    is_refused(&a, flags, BLOCKTRI_SINGULAR, BLOCKTRI_SINGULAR, -1);
  }
}

/* Of several columns the least is told, and in it the least row: by rows that place stands behind another one in the lists. */
static void which_column_is_told(void) {
  struct matrix a = {.rows = 3,
                     .columns = 3,
                     .count = 6,
                     .starts = {0, 2, 4, 6},
                     .ids = {2, 2, 0, 0, 0, 0},
                     .values = {INT64_MAX, 1, 1, INT64_MAX, INT64_MAX, INT64_MAX}};
  widen(&a);
  is_refused(&a, 0, BLOCKTRI_SUM_LIMIT, BLOCKTRI_SUM_LIMIT, 0);
  is_refused(&a, BLOCKTRI_BY_ROWS, BLOCKTRI_SUM_LIMIT, BLOCKTRI_SUM_LIMIT, 2);
}

/* a sum is told before it is told that the matrix is not square, and a wrong id before the sum */
static void rectangles(void) {
  struct matrix a = {.rows = 2, .columns = 1, .count = 2, .starts = {0, 2}, .ids = {1, 0}, .values = {INT64_MIN, 1}};
  widen(&a);
  is_refused(&a, 0, BLOCKTRI_SUM_LIMIT, BLOCKTRI_SUM_LIMIT, 0);
  a.values[0] = 1;
  is_refused(&a, 0, BLOCKTRI_NOT_SQUARE, BLOCKTRI_NOT_SQUARE, -1);
  a.rows = 1, a.columns = 2, a.values[0] = INT64_MIN;
  is_refused(&a, BLOCKTRI_BY_ROWS, BLOCKTRI_SUM_LIMIT, BLOCKTRI_SUM_LIMIT, 0);
  a.values[0] = 1;
  is_refused(&a, BLOCKTRI_BY_ROWS, BLOCKTRI_NOT_SQUARE, BLOCKTRI_NOT_SQUARE, -1);
  a.values[0] = INT64_MIN, a.ids[1] = 2;
  widen(&a);
  is_refused(&a, BLOCKTRI_BY_ROWS, BLOCKTRI_BAD_ROW, BLOCKTRI_BAD_ROW, 1);
}

static void refusals(void) {
  struct matrix a = chain(4);
  is_refused(&a, 0, BLOCKTRI_PRICE_LIMIT, BLOCKTRI_OK, -1);
  a.values[3] = INT64_MIN; /* row 2 of column 1 */
  is_refused(&a, 0, BLOCKTRI_SUM_LIMIT, BLOCKTRI_SUM_LIMIT, 3);
  a.values[5] = INT64_MIN;
  is_refused(&a, 0, BLOCKTRI_SUM_LIMIT, BLOCKTRI_SUM_LIMIT, 3);
  a.ids[2] = 4;
  widen(&a);
  is_refused(&a, 0, BLOCKTRI_BAD_ROW, BLOCKTRI_BAD_ROW, 2);
  a.starts[1] = 7;
  widen(&a);
  is_refused(&a, 0, BLOCKTRI_BAD_START, BLOCKTRI_BAD_START, 2);
}

int main(void) {
  random_matrices();
  prices_that_just_fit();
  prices_that_nobody_asks_for();
  a_sum_of_two_words();
  which_sum_is_told();
  which_column_is_told();
  rectangles();
  refusals();
  return 0;
}
