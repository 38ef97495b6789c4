/* Matrices that were worked out by hand. */
#include "check.h"

struct row {
  const char *name;
  struct matrix matrix;
  int64_t least[MOST]; /* the least maximum matching */
  struct blocktri_sizes sizes; /* nb is that of blocktri_dmperm */
  int64_t row_order[MOST], column_order[MOST], block_starts[MOST + 1];
  int64_t row_component[MOST], column_component[MOST];
  int64_t r[MOST + 2], s[MOST + 2];
};

enum { NO = BLOCKTRI_NONE };

static struct row table[] = {
    {.name = "no rows and no columns", .sizes = {.nb = 0}},
    {.name = "rows without columns",
     .matrix = {.rows = 2},
     .sizes = {.vertical_rows = 2, .vertical_components = 2, .nb = 1, .rr = {0, 0, 0, 0, 2}},
     .row_order = {0, 1},
     .row_component = {0, 1},
     .r = {0, 2},
     .s = {0, 0}},
    {.name = "columns without rows",
     .matrix = {.columns = 2},
     .least = {NO, NO},
     .sizes = {.horizontal_columns = 2, .horizontal_components = 2, .nb = 1, .cc = {0, 2, 2, 2, 2}},
     .column_order = {0, 1},
     .column_component = {0, 1},
     .r = {0, 0},
     .s = {0, 2}},
    {.name = "one entry, given three times",
     .matrix = {.rows = 1, .columns = 1, .count = 3, .starts = {0, 3}},
     .sizes = {.rank = 1, .square = 1, .blocks = 1, .nb = 1, .rr = {0, 0, 1, 1, 1}, .cc = {0, 0, 0, 1, 1}},
     .block_starts = {0, 1},
     .row_component = {NO},
     .column_component = {NO},
     .r = {0, 1},
     .s = {0, 1}},
    /* rows 0: columns 0, 1, 2; 1: columns 2, 3; 2 and 3: column 3 */
    {.name = "three parts",
     .matrix = {.rows = 4, .columns = 4, .count = 7, .starts = {0, 1, 2, 4, 7}, .ids = {0, 0, 1, 0, 3, 1, 2}},
     .least = {0, NO, 1, 2},
     .sizes = {0, 3, 1, 2, 1, 2, 1, 1, 1, 1, .nb = 3, .rr = {0, 1, 2, 3, 4}, .cc = {0, 1, 2, 3, 4}},
     .row_order = {0, 1, 2, 3},
     .column_order = {0, 1, 2, 3},
     .block_starts = {0, 1},
     .row_component = {0, NO, 0, 0},
     .column_component = {0, 0, NO, 0},
     .r = {0, 1, 2, 4},
     .s = {0, 2, 3, 4}},
    /* rows 0: none; 1: columns 0, 3, 4; 2 and 4: column 2; 3: column 4. Column 1 has no entry */
    {.name = "two components on either side",
     .matrix = {.rows = 5, .columns = 5, .count = 6, .starts = {0, 1, 1, 3, 4, 6}, .ids = {1, 4, 2, 1, 3, 1}},
     .least = {1, NO, 2, NO, 3},
     .sizes = {0, 3, 1, 3, 1, 3, 1, 1, 2, 2, .nb = 3, .rr = {0, 1, 2, 3, 5}, .cc = {0, 2, 3, 4, 5}},
     .row_order = {1, 3, 0, 2, 4},
     .column_order = {0, 1, 3, 4, 2},
     .block_starts = {0, 1},
     .row_component = {0, 0, 1, NO, 1},
     .column_component = {0, 1, 1, 0, NO},
     .r = {0, 1, 2, 5},
     .s = {0, 3, 4, 5}},
    /* rows 0: columns 0, 2, 3; 1: columns 1, 4, 5; 2: column 5; 3: columns 0, 3; 4: columns 1, 4; 5: column 2 */
    {.name = "a flow sheet, its columns not in order and with places given twice",
     .matrix = {.rows = 6,
                .columns = 6,
                .count = 14,
                .starts = {0, 2, 5, 7, 10, 12, 14},
                .ids = {3, 0, 4, 1, 4, 5, 0, 0, 3, 0, 4, 1, 2, 1}},
     .least = {0, 1, 5, 3, 4, 2},
     .sizes = {0, 6, 0, 0, 6, 0, 0, 4, 0, 0, .nb = 4, .rr = {0, 0, 6, 6, 6}, .cc = {0, 0, 0, 6, 6}},
     .row_order = {0, 3, 1, 4, 5, 2},
     .column_order = {0, 3, 1, 4, 2, 5},
     .block_starts = {0, 2, 4, 5, 6},
     .row_component = {NO, NO, NO, NO, NO, NO},
     .column_component = {NO, NO, NO, NO, NO, NO},
     .r = {0, 2, 4, 5, 6},
     .s = {0, 2, 4, 5, 6}},
    /* a cycle: row i has columns i and i + 1, the last one the first */
    {.name = "one block of three",
     .matrix = {.rows = 3, .columns = 3, .count = 6, .starts = {0, 2, 4, 6}, .ids = {2, 0, 1, 0, 2, 1}},
     .least = {0, 1, 2},
     .sizes = {0, 3, 0, 0, 3, 0, 0, 1, 0, 0, .nb = 1, .rr = {0, 0, 3, 3, 3}, .cc = {0, 0, 0, 3, 3}},
     .row_order = {0, 1, 2},
     .column_order = {0, 1, 2},
     .block_starts = {0, 3},
     .row_component = {NO, NO, NO},
     .column_component = {NO, NO, NO},
     .r = {0, 3},
     .s = {0, 3}},
};

static void is_list(const int64_t *got, const int64_t *wanted, int64_t length) {
  for (int64_t i = 0; i < length; i++) CHECK(got[i] == wanted[i]);
  for (int64_t i = length; i < ROOM; i++) CHECK(got[i] == UNTOUCHED);
}

static bool is_entry(const struct matrix *a, int64_t row, int64_t column) {
  for (int32_t k = a->starts[column]; k < a->starts[column + 1]; k++)
    if (a->ids[k] == row) return true;
  return false;
}

static void are_sizes(struct blocktri_sizes got, struct blocktri_sizes wanted, bool has_nb) {
  wanted.size = sizeof wanted;
  if (!has_nb) wanted.nb = -1;
  CHECK(memcmp(&got, &wanted, sizeof got) == 0);
}

static void compare_form(const struct row *row, uint32_t flags, const struct matrix *a) {
  struct answer got = ask(DECOMPOSITION, a, flags);
  CHECK(got.status == BLOCKTRI_OK && got.output[FAULT][0] == UNTOUCHED);
  is_list(got.output[FORM_ROWS], row->row_order, a->rows);
  is_list(got.output[FORM_COLUMNS], row->column_order, a->columns);
  is_list(got.output[FORM_STARTS], row->block_starts, row->sizes.blocks + 1);
  is_list(got.output[FORM_ROW_COMPONENTS], row->row_component, a->rows);
  is_list(got.output[FORM_COLUMN_COMPONENTS], row->column_component, a->columns);
  are_sizes(sizes_of(&got, FORM_SIZES), row->sizes, false);
}

/* the sizes and cuts are worked out; p and q stand in the columns of the form, with the unmatched ones first */
static void compare_dmperm(const struct row *row, uint32_t flags, const struct matrix *a) {
  struct answer got = ask(DMPERM, a, flags);
  int64_t unmatched = a->columns - row->sizes.rank, outside = row->sizes.horizontal_columns;
  CHECK(got.status == BLOCKTRI_OK && got.output[FAULT][0] == UNTOUCHED);
  is_list(got.output[DMPERM_R], row->r, row->sizes.nb + 1);
  is_list(got.output[DMPERM_S], row->s, row->sizes.nb + 1);
  is_list(got.output[DMPERM_ROW_COMPONENTS], row->row_component, a->rows);
  is_list(got.output[DMPERM_COLUMN_COMPONENTS], row->column_component, a->columns);
  are_sizes(sizes_of(&got, DMPERM_SIZES), row->sizes, true);
  for (int64_t x = outside; x < a->columns; x++) CHECK(got.output[DMPERM_Q][x] == row->column_order[x]);
  for (int64_t x = 0; x < row->sizes.rank; x++)
    CHECK(is_entry(&row->matrix, got.output[DMPERM_P][x], got.output[DMPERM_Q][unmatched + x]));
}

/* a matrix of full rank has the blocks of its form, with their rows in another order: each in an entry with its column */
static void compare_order(const struct row *row, uint32_t flags, const struct matrix *a) {
  struct answer got = ask(BLOCK_ORDER, a, flags), kept = untouched(BLOCK_ORDER, BLOCKTRI_OK);
  int64_t *rows = got.output[ORDER_ROWS], *columns = got.output[ORDER_COLUMNS], blocks = row->sizes.blocks;
  CHECK(got.output[FAULT][0] == UNTOUCHED);
  if (a->rows != a->columns || row->sizes.rank != a->columns) {
    kept.status = a->rows != a->columns ? BLOCKTRI_NOT_SQUARE : BLOCKTRI_SINGULAR;
    if (kept.status == BLOCKTRI_SINGULAR) kept.output[ORDER_RANK][0] = row->sizes.rank;
    CHECK(memcmp(&got, &kept, sizeof got) == 0);
    return;
  }
  CHECK(got.status == BLOCKTRI_OK && got.output[ORDER_BLOCKS][0] == blocks && got.output[ORDER_RANK][0] == row->sizes.rank);
  is_list(columns, row->column_order, a->columns);
  is_list(got.output[ORDER_STARTS], row->block_starts, blocks + 1);
  for (int64_t k = 0; k < a->columns; k++) {
    CHECK(is_entry(&row->matrix, rows[k], columns[k]));
    CHECK(got.output[ORDER_PAIRS][columns[k]] == rows[k]);
  }
  for (int64_t b = 0; b < blocks; b++)
    for (int64_t k = row->block_starts[b]; k < row->block_starts[b + 1]; k++) {
      int found = 0;
      for (int64_t j = row->block_starts[b]; j < row->block_starts[b + 1]; j++) found += rows[j] == row->row_order[k];
      CHECK(found == 1);
    }
}

static void compare_matchings(const struct row *row, uint32_t flags, const struct matrix *a) {
  struct answer rank = ask(RANK, a, flags), least = ask(MATCHING, a, flags | BLOCKTRI_LEAST), any = ask(MATCHING, a, flags);
  int64_t columns[MOST];
  CHECK(rank.status == BLOCKTRI_OK && rank.output[RANK_RANK][0] == row->sizes.rank);
  CHECK(least.status == BLOCKTRI_OK && least.output[MATCHING_SIZE][0] == row->sizes.rank);
  CHECK(any.status == BLOCKTRI_OK && any.output[MATCHING_SIZE][0] == row->sizes.rank);
  for (int i = 0; i < MOST; i++) columns[i] = NO;
  for (int32_t c = 0; c < a->columns; c++)
    if (row->least[c] != NO) columns[row->least[c]] = c;
  is_list(least.output[MATCHING_ROWS], row->least, a->columns);
  is_list(least.output[MATCHING_COLUMNS], columns, a->rows);
}

int main(void) {
  for (size_t i = 0; i < sizeof table / sizeof *table; i++) {
    struct row *row = &table[i];
    about = row->name;
    widen(&row->matrix);
    struct matrix lists[2] = {row->matrix, by_rows(&row->matrix)};
    for (uint32_t k = 0; k < 2; k++) {
      uint32_t flags = k == 0 ? 0 : BLOCKTRI_BY_ROWS;
      compare_matchings(row, flags, &lists[k]);
      compare_form(row, flags, &lists[k]);
      compare_dmperm(row, flags, &lists[k]);
      compare_order(row, flags, &lists[k]);
    }
  }
  return 0;
}
