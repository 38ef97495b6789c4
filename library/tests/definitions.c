/* Random small matrices, answered by trying out the definitions: a row or a column belongs to an outer part if some maximum
 * matching misses it, or if it has an entry in one that does; two of the square part belong to one block if a chain of entries
 * leads from one to the other, each of which some perfect matching of the square part holds. */
#include "check.h"

enum { SIDE = 6, TIMES = 4000 };

static uint32_t rows, columns;
static bool entry[SIDE][SIDE];

/* the size of a maximum matching without the rows and columns of these sets */
static uint32_t rank_without(uint32_t gone_rows, uint32_t gone_columns) {
  static uint32_t best[SIDE + 1][1 << SIDE]; /* of the columns from one on, by the rows that are taken */
  memset(best[columns], 0, sizeof best[columns]);
  for (uint32_t c = columns; c-- > 0;)
    for (uint32_t taken = 0; taken < 1u << rows; taken++) {
      best[c][taken] = best[c + 1][taken];
      for (uint32_t r = 0; r < rows && !(gone_columns >> c & 1); r++)
        if (entry[r][c] && !((gone_rows | taken) >> r & 1) && best[c + 1][taken | 1u << r] + 1 > best[c][taken])
          best[c][taken] = best[c + 1][taken | 1u << r] + 1;
    }
  return best[0][0];
}

static uint32_t neighbours(uint32_t of_columns) {
  uint32_t found = 0;
  for (uint32_t r = 0; r < rows; r++)
    for (uint32_t c = 0; c < columns; c++)
      if (entry[r][c] && of_columns >> c & 1) found |= 1u << r;
  return found;
}

static uint32_t columns_meeting(uint32_t some_rows) {
  uint32_t found = 0;
  for (uint32_t r = 0; r < rows; r++)
    for (uint32_t c = 0; c < columns; c++)
      if (entry[r][c] && some_rows >> r & 1) found |= 1u << c;
  return found;
}

static uint32_t count(uint32_t set) { return set ? 1 + count(set & (set - 1)) : 0; }

static uint32_t write_set(int64_t *list, uint32_t at, uint32_t set) {
  for (uint32_t i = 0; i < SIDE; i++)
    if (set >> i & 1) list[at++] = i;
  return at;
}

/* the rows of the block of a column, and in of_columns its columns */
static uint32_t block_of(uint32_t column, uint32_t square_rows, uint32_t square_columns, uint32_t *of_columns) {
  uint32_t block_rows = 0, size = count(square_columns);
  *of_columns = 1u << column;
  for (bool is_more = true; is_more;) {
    is_more = false;
    for (uint32_t r = 0; r < rows; r++)
      for (uint32_t c = 0; c < columns; c++) {
        bool within = square_rows >> r & 1 && square_columns >> c & 1 && entry[r][c];
        bool has_row = block_rows >> r & 1, has_column = *of_columns >> c & 1;
        if (!within || has_row == has_column) continue;
        if (rank_without(~square_rows | 1u << r, ~square_columns | 1u << c) + 1 < size) continue;
        block_rows |= 1u << r;
        *of_columns |= 1u << c;
        is_more = true;
      }
  }
  return block_rows;
}

/* the one decomposition of the matrix, by the definitions */
struct form {
  uint32_t horizontal_rows, horizontal_columns, square_rows, square_columns, vertical_rows, vertical_columns;
  uint32_t rank, blocks;
  int64_t row_order[SIDE], column_order[SIDE], block_starts[SIDE + 1];
};

/* the columns and the rows that some maximum matching misses, and what meets them */
static struct form parts_by_definition(void) {
  struct form form;
  memset(&form, 0, sizeof form);
  form.rank = rank_without(0, 0);
  for (uint32_t c = 0; c < columns; c++)
    form.horizontal_columns |= (uint32_t)(rank_without(0, 1u << c) == form.rank) << c;
  for (uint32_t r = 0; r < rows; r++) form.vertical_rows |= (uint32_t)(rank_without(1u << r, 0) == form.rank) << r;
  form.horizontal_rows = neighbours(form.horizontal_columns);
  form.vertical_columns = columns_meeting(form.vertical_rows);
  form.square_rows = ((1u << rows) - 1) & ~form.horizontal_rows & ~form.vertical_rows;
  form.square_columns = ((1u << columns) - 1) & ~form.horizontal_columns & ~form.vertical_columns;
  return form;
}

static struct form form_by_definition(void) {
  struct form form = parts_by_definition();
  uint32_t left_rows = form.square_rows, left_columns = form.square_columns;
  uint32_t row_at = write_set(form.row_order, 0, form.horizontal_rows);
  uint32_t column_at = write_set(form.column_order, 0, form.horizontal_columns);
  while (left_columns) {
    /* of the blocks that meet no other one that is left, the one with the least column */
    uint32_t c = 0, of_columns = 0, block_rows = 0;
    for (;; c++) {
      CHECK(c < columns);
      if (!(left_columns >> c & 1)) continue;
      block_rows = block_of(c, form.square_rows, form.square_columns, &of_columns);
      if (!(neighbours(of_columns) & left_rows & ~block_rows)) break;
    }
    form.block_starts[form.blocks++] = row_at - count(form.horizontal_rows);
    row_at = write_set(form.row_order, row_at, block_rows);
    column_at = write_set(form.column_order, column_at, of_columns);
    left_rows &= ~block_rows;
    left_columns &= ~of_columns;
  }
  form.block_starts[form.blocks] = count(form.square_rows);
  CHECK(!left_rows && write_set(form.row_order, row_at, form.vertical_rows) == rows);
  CHECK(write_set(form.column_order, column_at, form.vertical_columns) == columns);
  return form;
}

static void are_sizes(const struct form *form, const struct blocktri_sizes *sizes, int64_t nb) {
  int64_t h = count(form->horizontal_rows), w = count(form->horizontal_columns), k = count(form->square_rows);
  const int64_t rr[5] = {0, h, h + k, form->rank, rows}, cc[5] = {0, (int64_t)columns - form->rank, w, w + k, columns};
  CHECK(sizes->size == sizeof *sizes && sizes->rank == form->rank && sizes->blocks == form->blocks);
  CHECK(sizes->horizontal_rows == h && sizes->horizontal_columns == w && sizes->square == k);
  CHECK(sizes->vertical_rows == count(form->vertical_rows) && sizes->vertical_columns == count(form->vertical_columns));
  CHECK(memcmp(sizes->rr, rr, sizeof rr) == 0 && memcmp(sizes->cc, cc, sizeof cc) == 0 && sizes->nb == nb);
}

static void is_list(const int64_t *got, const int64_t *wanted, uint32_t length) {
  for (uint32_t i = 0; i < length; i++) CHECK(got[i] == wanted[i]);
  for (uint32_t i = length; i < ROOM; i++) CHECK(got[i] == UNTOUCHED);
}

static void compare_form(const struct form *form, const struct answer *got) {
  struct blocktri_sizes sizes = sizes_of(got, FORM_SIZES);
  CHECK(got->status == BLOCKTRI_OK && got->output[FAULT][0] == UNTOUCHED);
  is_list(got->output[FORM_ROWS], form->row_order, rows);
  is_list(got->output[FORM_COLUMNS], form->column_order, columns);
  is_list(got->output[FORM_STARTS], form->block_starts, form->blocks + 1);
  are_sizes(form, &sizes, -1);
}

/* the rows of the component of a column or a row of a part, and in of_columns its columns */
static uint32_t joined(uint32_t joined_rows, uint32_t *of_columns, uint32_t part_rows, uint32_t part_columns) {
  for (bool is_more = true; is_more;) {
    is_more = false;
    for (uint32_t r = 0; r < rows; r++)
      for (uint32_t c = 0; c < columns; c++) {
        bool within = part_rows >> r & 1 && part_columns >> c & 1 && entry[r][c];
        bool has_row = joined_rows >> r & 1, has_column = *of_columns >> c & 1;
        if (!within || has_row == has_column) continue;
        joined_rows |= 1u << r;
        *of_columns |= 1u << c;
        is_more = true;
      }
  }
  return joined_rows;
}

static void mark(int64_t *numbers, uint32_t set, uint32_t number) {
  for (uint32_t i = 0; i < SIDE; i++)
    if (set >> i & 1) numbers[i] = number;
}

static void compare_components(const struct form *form, const int64_t *of_rows, const int64_t *of_columns,
                               struct blocktri_sizes sizes) {
  int64_t row_component[SIDE], column_component[SIDE];
  uint32_t number = 0;
  for (uint32_t i = 0; i < SIDE; i++) row_component[i] = column_component[i] = BLOCKTRI_NONE;
  for (uint32_t c = 0; c < columns; c++)
    if (form->horizontal_columns >> c & 1 && column_component[c] == BLOCKTRI_NONE) {
      uint32_t members = 1u << c, member_rows = joined(0, &members, form->horizontal_rows, form->horizontal_columns);
      mark(row_component, member_rows, number), mark(column_component, members, number), number++;
    }
  CHECK(sizes.horizontal_components == number);
  number = 0;
  for (uint32_t r = 0; r < rows; r++)
    if (form->vertical_rows >> r & 1 && row_component[r] == BLOCKTRI_NONE) {
      uint32_t members = 0, member_rows = joined(1u << r, &members, form->vertical_rows, form->vertical_columns);
      mark(row_component, member_rows, number), mark(column_component, members, number), number++;
    }
  CHECK(sizes.vertical_components == number);
  is_list(of_rows, row_component, rows);
  is_list(of_columns, column_component, columns);
}

/* pairs of rows and columns by entries, none twice, as many as the rank */
static void is_maximum(const struct form *form, const int64_t *row_of_column) {
  uint32_t taken = 0, size = 0;
  for (uint32_t c = 0; c < columns; c++) {
    int64_t row = row_of_column[c];
    if (row == BLOCKTRI_NONE) continue;
    CHECK(row >= 0 && row < rows && entry[row][c] && !(taken >> row & 1));
    taken |= 1u << row;
    size++;
  }
  for (uint32_t c = columns; c < ROOM; c++) CHECK(row_of_column[c] == UNTOUCHED);
  CHECK(size == form->rank);
}

static uint32_t set_of(const int64_t *list, int64_t from, int64_t to) {
  uint32_t found = 0;
  for (int64_t i = from; i < to; i++) {
    CHECK(list[i] >= 0 && list[i] < SIDE && !(found >> list[i] & 1));
    found |= 1u << list[i];
  }
  return found;
}

static void is_rising(const int64_t *list, int64_t from, int64_t to) {
  for (int64_t i = from + 1; i < to; i++) CHECK(list[i - 1] < list[i]);
}

/* where the blocks of r and s begin: an outer part that has a column or a row is one block, and each fine block */
static uint32_t compare_cuts(const struct form *form, const int64_t *r, const int64_t *s) {
  int64_t row_cuts[SIDE + 3] = {0}, column_cuts[SIDE + 3] = {0};
  int64_t h = count(form->horizontal_rows), w = count(form->horizontal_columns), k = count(form->square_rows);
  uint32_t nb = form->horizontal_columns ? 1 : 0;
  for (uint32_t b = 0; b < form->blocks; b++) {
    row_cuts[nb] = h + form->block_starts[b];
    column_cuts[nb++] = w + form->block_starts[b];
  }
  if (form->vertical_rows) row_cuts[nb] = h + k, column_cuts[nb++] = w + k;
  row_cuts[nb] = rows, column_cuts[nb] = columns;
  is_list(r, row_cuts, nb + 1);
  is_list(s, column_cuts, nb + 1);
  return nb;
}

static void compare_dmperm(const struct form *form, const struct answer *got) {
  const int64_t *p = got->output[DMPERM_P], *q = got->output[DMPERM_Q], *pairs = got->output[DMPERM_PAIRS];
  int64_t rank = form->rank, unmatched = columns - rank, w = count(form->horizontal_columns), square_end = w;
  struct blocktri_sizes sizes = sizes_of(got, DMPERM_SIZES);
  CHECK(got->status == BLOCKTRI_OK && got->output[FAULT][0] == UNTOUCHED);
  is_maximum(form, pairs);
  CHECK(set_of(p, 0, rows) == (1u << rows) - 1 && set_of(q, 0, columns) == (1u << columns) - 1);
  CHECK(set_of(q, 0, w) == form->horizontal_columns);
  for (int64_t x = 0; x < unmatched; x++) CHECK(pairs[q[x]] == BLOCKTRI_NONE);
  for (int64_t x = 0; x < rank; x++) CHECK(pairs[q[unmatched + x]] == p[x]);
  is_rising(q, 0, unmatched), is_rising(q, unmatched, w), is_rising(p, rank, rows);
  for (uint32_t b = 0; b < form->blocks; b++) {
    square_end = w + form->block_starts[b + 1];
    CHECK(set_of(q, w + form->block_starts[b], square_end) == set_of(form->column_order, w + form->block_starts[b], square_end));
    is_rising(q, w + form->block_starts[b], square_end);
  }
  is_rising(q, square_end, columns);
  are_sizes(form, &sizes, compare_cuts(form, got->output[DMPERM_R], got->output[DMPERM_S]));
  compare_components(form, got->output[DMPERM_ROW_COMPONENTS], got->output[DMPERM_COLUMN_COMPONENTS], sizes);
  /* no entry stands below the blocks */
  for (int64_t b = 0; b < sizes.nb; b++)
    for (int64_t x = got->output[DMPERM_R][b + 1]; x < rows; x++)
      for (int64_t y = 0; y < got->output[DMPERM_S][b + 1]; y++) CHECK(!entry[p[x]][q[y]]);
}

/* of a matrix of full rank the blocks of its form, with an entry at each place of the diagonal */
static void compare_order(const struct form *form, const struct answer *got) {
  const int64_t *order_rows = got->output[ORDER_ROWS], *order_columns = got->output[ORDER_COLUMNS];
  struct answer kept = untouched(BLOCK_ORDER, rows == columns ? BLOCKTRI_SINGULAR : BLOCKTRI_NOT_SQUARE);
  if (rows != columns || form->rank != rows) {
    if (rows == columns) kept.output[ORDER_RANK][0] = form->rank;
    CHECK(memcmp(got, &kept, sizeof kept) == 0);
    return;
  }
  CHECK(got->status == BLOCKTRI_OK && got->output[ORDER_BLOCKS][0] == form->blocks && got->output[ORDER_RANK][0] == form->rank);
  is_maximum(form, got->output[ORDER_PAIRS]);
  is_list(order_columns, form->column_order, columns);
  is_list(got->output[ORDER_STARTS], form->block_starts, form->blocks + 1);
  for (uint32_t k = 0; k < rows; k++) CHECK(got->output[ORDER_PAIRS][order_columns[k]] == order_rows[k]);
  for (uint32_t b = 0; b < form->blocks; b++) {
    int64_t from = form->block_starts[b], to = form->block_starts[b + 1];
    CHECK(set_of(order_rows, from, to) == set_of(form->row_order, from, to));
  }
}

/* column_of_row says the same as row_of_column */
static void compare_sides(const struct answer *got) {
  int64_t column_of_row[SIDE];
  for (uint32_t r = 0; r < rows; r++) column_of_row[r] = BLOCKTRI_NONE;
  for (uint32_t c = 0; c < columns; c++)
    if (got->output[MATCHING_ROWS][c] != BLOCKTRI_NONE) column_of_row[got->output[MATCHING_ROWS][c]] = c;
  is_list(got->output[MATCHING_COLUMNS], column_of_row, rows);
}

/* each column has the least row, or else none, with which a maximum matching is still to be had */
static void compare_least(const struct form *form, const struct answer *got) {
  uint32_t taken = 0, done = 0, size = 0;
  int64_t least[SIDE];
  for (uint32_t c = 0; c < columns; c++) {
    uint32_t row = 0;
    done |= 1u << c;
    while (row < rows && !(entry[row][c] && !(taken >> row & 1) && size + 1 + rank_without(taken | 1u << row, done) == form->rank))
      row++;
    least[c] = row < rows ? (int64_t)row : BLOCKTRI_NONE;
    if (row < rows) taken |= 1u << row, size++;
  }
  CHECK(got->status == BLOCKTRI_OK && size == form->rank && got->output[MATCHING_SIZE][0] == size);
  is_list(got->output[MATCHING_ROWS], least, columns);
  compare_sides(got);
}

static void compare_all(const struct form *form, const struct matrix *a, uint32_t flags) {
  struct answer rank = ask(RANK, a, flags), any = ask(MATCHING, a, flags), least = ask(MATCHING, a, flags | BLOCKTRI_LEAST);
  struct answer got = ask(DECOMPOSITION, a, flags), dmperm = ask(DMPERM, a, flags), order = ask(BLOCK_ORDER, a, flags);
  CHECK(rank.status == BLOCKTRI_OK && rank.output[RANK_RANK][0] == form->rank);
  compare_form(form, &got);
  compare_components(form, got.output[FORM_ROW_COMPONENTS], got.output[FORM_COLUMN_COMPONENTS], sizes_of(&got, FORM_SIZES));
  compare_dmperm(form, &dmperm);
  compare_order(form, &order);
  compare_least(form, &least);
  CHECK(any.status == BLOCKTRI_OK && any.output[MATCHING_SIZE][0] == form->rank);
  is_maximum(form, any.output[MATCHING_ROWS]);
  compare_sides(&any);
}

int main(void) {
  uint64_t state = 1;
  for (int time = 0; time < TIMES; time++) {
    rows = (uint32_t)draw_from(&state, SIDE + 1), columns = (uint32_t)draw_from(&state, SIDE + 1);
    struct matrix a = random_matrix(&state, (int32_t)rows, (int32_t)columns, draw_from(&state, 8) == 0), turned = by_rows(&a);
    memset(entry, 0, sizeof entry);
    for (uint32_t c = 0; c < columns; c++)
      for (int32_t k = a.starts[c]; k < a.starts[c + 1]; k++) entry[a.ids[k]][c] = true;
    struct form form = form_by_definition();
    compare_all(&form, &a, 0);
    compare_all(&form, &turned, BLOCKTRI_BY_ROWS);
  }
  return 0;
}
