/* blocktri_block_order with BLOCKTRI_COMPLETE and blocktri_order_by: matrices worked out by hand, and random ones against the
 * definitions. */
#include "check.h"

enum { SIDE = 7, TIMES = 20000, NO = BLOCKTRI_NONE };

/* By hand. Of a row without pairs the answer of block_order, whose maximum matching is the only one there; else that of order_by. */
static struct row {
  const char *name;
  struct matrix matrix;
  int64_t rank, blocks;
  int64_t row_of_column[4], row_order[4], column_order[4], block_starts[5];
} table[] = {
    {.name = "of no columns", .matrix = {.rows = 0, .columns = 0}, .block_starts = {0}},
    {.name = "without entries",
     .matrix = {.rows = 2, .columns = 2},
     .blocks = 2,
     .row_of_column = {NO, NO},
     .row_order = {0, 1},
     .column_order = {0, 1},
     .block_starts = {0, 1, 2}},
    /* rows 0 and 1 and columns 1 and 2 are left: (0, 1) and (1, 2) are added */
    {.name = "of one entry",
     .matrix = {.rows = 3, .columns = 3, .count = 1, .starts = {0, 1, 1, 1}, .ids = {2}},
     .rank = 1,
     .blocks = 3,
     .row_of_column = {2, NO, NO},
     .row_order = {2, 0, 1},
     .column_order = {0, 1, 2},
     .block_starts = {0, 1, 2, 3}},
    /* row 2 and column 0 are left. Of column 2 row 1 stands in the block of column 1, which comes first */
    {.name = "in which a block waits",
     .matrix = {.rows = 3, .columns = 3, .count = 3, .starts = {0, 0, 1, 3}, .ids = {1, 0, 1}},
     .rank = 2,
     .blocks = 3,
     .row_of_column = {NO, 1, 0},
     .row_order = {2, 1, 0},
     .column_order = {0, 1, 2},
     .block_starts = {0, 1, 2, 3}},
    {.name = "a ring, with pairs beside its entries",
     .matrix = {.rows = 3, .columns = 3, .count = 3, .starts = {0, 1, 2, 3}, .ids = {1, 2, 0}, .has_pairs = true, .pairs = {0, 1, 2}},
     .blocks = 1,
     .row_order = {0, 1, 2},
     .column_order = {0, 1, 2},
     .block_starts = {0, 3}},
    {.name = "a ring, with its entries for pairs",
     .matrix = {.rows = 3, .columns = 3, .count = 3, .starts = {0, 1, 2, 3}, .ids = {1, 2, 0}, .has_pairs = true, .pairs = {1, 2, 0}},
     .blocks = 3,
     .row_order = {1, 2, 0},
     .column_order = {0, 1, 2},
     .block_starts = {0, 1, 2, 3}},
    {.name = "a triangle that stands the other way",
     .matrix = {.rows = 2, .columns = 2, .count = 3, .starts = {0, 2, 3}, .ids = {1, 0, 1}, .has_pairs = true, .pairs = {0, 1}},
     .blocks = 2,
     .row_order = {1, 0},
     .column_order = {1, 0},
     .block_starts = {0, 1, 2}},
    {.name = "a block whose columns do not rise",
     .matrix = {.rows = 2, .columns = 2, .count = 4, .starts = {0, 2, 4}, .ids = {1, 0, 0, 1}, .has_pairs = true, .pairs = {1, 0}},
     .blocks = 1,
     .row_order = {0, 1},
     .column_order = {1, 0},
     .block_starts = {0, 2}},
};

static void is_list(const int64_t *got, const int64_t *wanted, int64_t length) {
  for (int64_t i = 0; i < length; i++) CHECK(got[i] == wanted[i]);
  for (int64_t i = length; i < ROOM; i++) CHECK(got[i] == UNTOUCHED);
}

static void compare_row(const struct row *row, const struct matrix *a, uint32_t flags) {
  bool is_by = row->matrix.has_pairs;
  struct answer got = is_by ? ask(ORDER_BY, a, flags) : ask(BLOCK_ORDER, a, flags | BLOCKTRI_COMPLETE);
  CHECK(got.status == BLOCKTRI_OK && got.output[FAULT][0] == UNTOUCHED);
  CHECK(got.output[is_by ? BY_BLOCKS : ORDER_BLOCKS][0] == row->blocks);
  is_list(got.output[BY_ROWS], row->row_order, a->rows);
  is_list(got.output[BY_COLUMNS], row->column_order, a->columns);
  is_list(got.output[BY_STARTS], row->block_starts, row->blocks + 1);
  if (is_by) return;
  is_list(got.output[ORDER_PAIRS], row->row_of_column, a->columns);
  CHECK(got.output[ORDER_RANK][0] == row->rank);
}

static int32_t side;
static bool entry[SIDE][SIDE];

/* looks for a row of the column, or a chain of columns that give up theirs */
static bool augment(int32_t column, int32_t *column_of_row, bool *is_seen) {
  for (int32_t r = 0; r < side; r++) {
    if (!entry[r][column] || is_seen[r]) continue;
    is_seen[r] = true;
    if (column_of_row[r] >= 0 && !augment(column_of_row[r], column_of_row, is_seen)) continue;
    column_of_row[r] = column;
    return true;
  }
  return false;
}

static int64_t rank_of(void) {
  int32_t column_of_row[SIDE];
  int64_t rank = 0;
  for (int32_t r = 0; r < side; r++) column_of_row[r] = -1;
  for (int32_t c = 0; c < side; c++) {
    bool is_seen[SIDE] = {false};
    rank += augment(c, column_of_row, is_seen);
  }
  return rank;
}

/* the matrix with each pair as an entry */
static struct matrix filled(const struct matrix *a, const int64_t *row_of_column) {
  struct matrix b = {.rows = side, .columns = side};
  for (int32_t c = 0; c < side; c++) {
    b.ids[b.count++] = (int32_t)row_of_column[c];
    for (int32_t k = a->starts[c]; k < a->starts[c + 1]; k++) b.ids[b.count++] = a->ids[k];
    b.starts[c + 1] = (int32_t)b.count;
  }
  widen(&b);
  return b;
}

/* leads[c][d]: a chain of entries leads from column c to column d, where each row stands for the column that it is paired with */
static void find_chains(const int64_t *row_of_column, bool leads[SIDE][SIDE]) {
  for (int32_t c = 0; c < side; c++)
    for (int32_t d = 0; d < side; d++) leads[c][d] = c == d || entry[row_of_column[d]][c];
  for (int32_t via = 0; via < side; via++)
    for (int32_t c = 0; c < side; c++)
      for (int32_t d = 0; d < side; d++) leads[c][d] = leads[c][d] || (leads[c][via] && leads[via][d]);
}

/* the orders for these pairs, each row once: all that the header says of them */
static void are_orders(const struct matrix *a, const int64_t *row_of_column, const struct answer *got, int64_t blocks) {
  const int64_t *rows = got->output[BY_ROWS], *columns = got->output[BY_COLUMNS], *starts = got->output[BY_STARTS];
  bool leads[SIDE][SIDE];
  int64_t block_at[SIDE], found = 0;
  uint32_t seen = 0;
  find_chains(row_of_column, leads);
  for (int32_t k = 0; k < side; k++) {
    CHECK(columns[k] >= 0 && columns[k] < side && (seen >> columns[k] & 1) == 0 && rows[k] == row_of_column[columns[k]]);
    seen |= 1u << columns[k];
    if (k == 0 || !(leads[columns[k]][columns[k - 1]] && leads[columns[k - 1]][columns[k]])) CHECK(starts[found++] == k);
    else CHECK(rows[k - 1] < rows[k]);
    block_at[k] = found - 1;
  }
  CHECK(found == blocks && starts[blocks] == side && starts[blocks + 1] == UNTOUCHED);
  CHECK(rows[side] == UNTOUCHED && columns[side] == UNTOUCHED);
  for (int32_t x = 0; x < side; x++)
    for (int32_t y = 0; y < side; y++) {
      bool is_one_block = leads[columns[x]][columns[y]] && leads[columns[y]][columns[x]];
      CHECK(is_one_block == (block_at[x] == block_at[y]));
      if (block_at[x] > block_at[y]) CHECK(!entry[rows[x]][columns[y]]);
    }
  /* one order for each matrix: that of the decomposition of the filled one */
  struct matrix full = filled(a, row_of_column);
  struct answer form = ask(DECOMPOSITION, &full, 0);
  CHECK(form.status == BLOCKTRI_OK);
  is_list(rows, form.output[FORM_ROWS], side);
  is_list(starts, form.output[FORM_STARTS], blocks + 1);
}

/* a maximum matching, and with it in step the rows and columns that it leaves out */
static void complete(const struct answer *got, bool has_diagonal, int64_t *row_of_column) {
  const int64_t *pairs = got->output[ORDER_PAIRS];
  uint32_t taken = 0;
  int64_t size = 0, row = 0;
  for (int32_t c = 0; c < side; c++) {
    if (pairs[c] == NO) continue;
    CHECK(pairs[c] >= 0 && pairs[c] < side && entry[pairs[c]][c] && (taken >> pairs[c] & 1) == 0);
    CHECK(!has_diagonal || pairs[c] == c);
    taken |= 1u << pairs[c];
    size++;
  }
  CHECK(size == rank_of() && got->output[ORDER_RANK][0] == size);
  for (int32_t c = 0; c < side; c++) {
    row_of_column[c] = pairs[c];
    if (pairs[c] != NO) continue;
    while ((taken >> row & 1) != 0) row++;
    CHECK(!entry[row][c]);
    row_of_column[c] = row++;
  }
}

static void compare_lists(const struct matrix *a, const struct matrix *lists, uint32_t flags, bool has_diagonal) {
  int64_t row_of_column[SIDE];
  struct answer got = ask(BLOCK_ORDER, lists, flags | BLOCKTRI_COMPLETE);
  CHECK(got.status == BLOCKTRI_OK);
  complete(&got, has_diagonal, row_of_column);
  are_orders(a, row_of_column, &got, got.output[ORDER_BLOCKS][0]);
  got = ask(ORDER_BY, lists, flags);
  CHECK(got.status == BLOCKTRI_OK);
  are_orders(a, a->wide_pairs, &got, got.output[BY_BLOCKS][0]);
}

static void shuffle_pairs(struct matrix *a, uint64_t *state) {
  a->has_pairs = true;
  for (int32_t i = 0; i < side; i++) a->pairs[i] = i;
  for (int32_t i = side; i > 1; i--) {
    int32_t at = draw_from(state, i), last = a->pairs[i - 1];
    a->pairs[i - 1] = a->pairs[at], a->pairs[at] = last;
  }
  widen(a);
}

int main(void) {
  uint64_t state = 23;
  int singular = 0;
  for (size_t i = 0; i < sizeof table / sizeof *table; i++) {
    about = table[i].name;
    widen(&table[i].matrix);
    struct matrix turned = by_rows(&table[i].matrix);
    compare_row(&table[i], &table[i].matrix, 0);
    compare_row(&table[i], &turned, BLOCKTRI_BY_ROWS);
  }
  about = "";
  for (int time = 0; time < TIMES; time++) {
    bool has_diagonal = draw_from(&state, 6) == 0;
    side = draw_from(&state, SIDE + 1);
    struct matrix a = random_matrix(&state, side, side, has_diagonal);
    if (draw_from(&state, 2) == 0) shuffle_pairs(&a, &state);
    memset(entry, 0, sizeof entry);
    for (int32_t c = 0; c < side; c++)
      for (int32_t k = a.starts[c]; k < a.starts[c + 1]; k++) entry[a.ids[k]][c] = true;
    struct matrix turned = by_rows(&a);
    compare_lists(&a, &a, 0, has_diagonal);
    compare_lists(&a, &turned, BLOCKTRI_BY_ROWS, has_diagonal);
    singular += rank_of() < side;
  }
  CHECK(singular > TIMES / 10 && singular < TIMES * 9 / 10);
  struct matrix wide = {.rows = 2, .columns = 3};
  widen(&wide);
  struct answer got = ask(BLOCK_ORDER, &wide, BLOCKTRI_COMPLETE), kept = untouched(BLOCK_ORDER, BLOCKTRI_NOT_SQUARE);
  CHECK(memcmp(&got, &kept, sizeof got) == 0);
  return 0;
}
