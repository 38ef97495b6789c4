/* calls_of.h: the calls of one width. calls.c includes it twice, with
 *
 *   I         the type of indices, and U the same without sign;
 *   GREATEST  the limit of rows, columns and ids_length;
 *   WIDTH     the name of a call, or of a function here, in this width. */

static const U WIDTH(zero) = 0;

/* What the caller says of the matrix. */
struct WIDTH(matrix) {
  I rows, columns;
  const I *starts, *ids;
  I ids_length;
  bool has_values;
  const int64_t *values;
  uint32_t flags;
};

/* The same as the proved calls take it. Numbers below 0 become large ones here, which are no starts and no ids. */
struct WIDTH(lists) {
  U others;
  const U *starts;
  size_t starts_length;
  const U *ids;
  size_t ids_length;
  bool by_rows;
};

/* The number of the first argument up to flags that cannot be taken, or 0. */
static uint64_t WIDTH(bad_argument)(const struct WIDTH(matrix) *a, uint32_t known) {
  I parted = (a->flags & BLOCKTRI_BY_ROWS) != 0 ? a->rows : a->columns;
  if (a->starts == NULL && parted != 0) return 3;
  if (a->ids == NULL && a->ids_length != 0) return 4;
  if (a->has_values && a->values == NULL && a->ids_length != 0) return 6;
  if ((a->flags & ~known) != 0) return a->has_values ? 7 : 6;
  return 0;
}

static bool WIDTH(is_size)(I number) { return number >= 0 && number <= GREATEST; }

/* Looks at the arguments. later is the number of an argument behind flags that cannot be taken, or 0. */
static int32_t WIDTH(take)(const struct WIDTH(matrix) *a, uint32_t known, uint64_t later, struct WIDTH(lists) *lists,
                           uint64_t *place) {
  bool by_rows = (a->flags & BLOCKTRI_BY_ROWS) != 0;
  *place = WIDTH(bad_argument)(a, known);
  if (*place == 0) *place = later;
  if (*place != 0) return BLOCKTRI_BAD_ARGUMENT;
  if (!WIDTH(is_size)(a->rows) || !WIDTH(is_size)(a->columns) || !WIDTH(is_size)(a->ids_length)) return BLOCKTRI_BAD_SIZE;
  lists->by_rows = by_rows;
  lists->others = (U)(by_rows ? a->columns : a->rows);
  lists->starts = a->starts == NULL ? &WIDTH(zero) : (const U *)a->starts;
  lists->starts_length = (size_t)(by_rows ? a->rows : a->columns) + 1;
  lists->ids = a->ids == NULL ? &WIDTH(zero) : (const U *)a->ids;
  lists->ids_length = (size_t)a->ids_length;
  return BLOCKTRI_OK;
}

static void WIDTH(put)(I *to, I number) {
  if (to != NULL) *to = number;
}

int32_t WIDTH(blocktri_rank)(I rows, I columns, const I *starts, const I *ids, I ids_length, uint32_t flags, I *rank,
                             int64_t *fault) {
  const struct WIDTH(matrix) a = {rows, columns, starts, ids, ids_length, false, NULL, flags};
  struct WIDTH(lists) m;
  uint64_t place;
  uint32_t found = 0;
  int32_t status = WIDTH(take)(&a, BLOCKTRI_BY_ROWS, 0, &m, &place);
  if (status == BLOCKTRI_OK)
    status = WIDTH(proved_rank)(m.others, m.starts, m.starts_length, m.ids, m.ids_length, m.by_rows, &found, &place);
  if (status != BLOCKTRI_OK) return refused(status, place, fault);
  WIDTH(put)(rank, (I)found);
  return status;
}

int32_t WIDTH(blocktri_matching)(I rows, I columns, const I *starts, const I *ids, I ids_length, uint32_t flags, I *row_of_column,
                                 I *column_of_row, I *size, int64_t *fault) {
  const struct WIDTH(matrix) a = {rows, columns, starts, ids, ids_length, false, NULL, flags};
  struct WIDTH(lists) m;
  uint64_t place;
  uint32_t nothing = 0, found = 0;
  int32_t status = WIDTH(take)(&a, BLOCKTRI_BY_ROWS | BLOCKTRI_LEAST, 0, &m, &place);
  if (status != BLOCKTRI_OK) return refused(status, place, fault);
  struct room of_columns = room(row_of_column, (size_t)columns, &nothing), of_rows = room(column_of_row, (size_t)rows, &nothing);
  status = WIDTH(proved_matching)(m.others, m.starts, m.starts_length, m.ids, m.ids_length, m.by_rows,
                                  (flags & BLOCKTRI_LEAST) != 0, of_columns.numbers, of_columns.length, of_rows.numbers,
                                  of_rows.length, &found, &place);
  if (status != BLOCKTRI_OK) return refused(status, place, fault);
  WIDTH(widen)(row_of_column, (size_t)columns);
  WIDTH(widen)(column_of_row, (size_t)rows);
  WIDTH(put)(size, (I)found);
  return status;
}

int32_t WIDTH(blocktri_decomposition)(I rows, I columns, const I *starts, const I *ids, I ids_length, uint32_t flags, I *row_order,
                                      I *column_order, I *block_starts, I *row_component, I *column_component,
                                      struct blocktri_sizes *sizes, int64_t *fault) {
  const struct WIDTH(matrix) a = {rows, columns, starts, ids, ids_length, false, NULL, flags};
  struct WIDTH(lists) m;
  uint64_t place;
  int32_t status = WIDTH(take)(&a, BLOCKTRI_BY_ROWS, is_too_small(sizes) ? 12 : 0, &m, &place);
  if (status != BLOCKTRI_OK) return refused(status, place, fault);
  bool wants_blocks = row_order != NULL || column_order != NULL || block_starts != NULL;
  bool wants_components = row_component != NULL || column_component != NULL;
  size_t height = (size_t)rows, width = (size_t)columns;
  uint32_t nothing = 0;
  struct proved_sizes found;
  struct room of_rows = room(row_order, height, &nothing), of_columns = room(column_order, width, &nothing);
  struct room of_blocks = room(block_starts, width + 1, &nothing);
  struct room row_parts = room(row_component, height, &nothing), column_parts = room(column_component, width, &nothing);
  status = WIDTH(proved_decomposition)(m.others, m.starts, m.starts_length, m.ids, m.ids_length, m.by_rows, wants_blocks,
                                       wants_components, of_rows.numbers, of_rows.length, of_columns.numbers, of_columns.length,
                                       of_blocks.numbers, of_blocks.length, row_parts.numbers, row_parts.length,
                                       column_parts.numbers, column_parts.length, &found, &place);
  if (status != BLOCKTRI_OK) return refused(status, place, fault);
  WIDTH(widen)(row_order, height);
  WIDTH(widen)(column_order, width);
  WIDTH(widen_starts)(block_starts, (size_t)(found.blocks + 1));
  WIDTH(widen)(row_component, height);
  WIDTH(widen)(column_component, width);
  write_sizes(&found, rows, columns, false, sizes);
  return status;
}

int32_t WIDTH(blocktri_dmperm)(I rows, I columns, const I *starts, const I *ids, I ids_length, uint32_t flags, I *p, I *q, I *r,
                               I *s, I *row_of_column, I *row_component, I *column_component, struct blocktri_sizes *sizes,
                               int64_t *fault) {
  const struct WIDTH(matrix) a = {rows, columns, starts, ids, ids_length, false, NULL, flags};
  struct WIDTH(lists) m;
  uint64_t place;
  int32_t status = WIDTH(take)(&a, BLOCKTRI_BY_ROWS, is_too_small(sizes) ? 14 : 0, &m, &place);
  if (status != BLOCKTRI_OK) return refused(status, place, fault);
  bool wants_blocks = p != NULL || q != NULL || r != NULL || s != NULL;
  bool wants_components = row_component != NULL || column_component != NULL;
  size_t height = (size_t)rows, width = (size_t)columns, cuts = (height < width ? height : width) + 2;
  uint32_t nothing = 0;
  struct proved_sizes found;
  struct room of_rows = room(p, height, &nothing), of_columns = room(q, width, &nothing);
  struct room row_cuts = room(r, cuts, &nothing), column_cuts = room(s, cuts, &nothing);
  struct room pairs = room(row_of_column, width, &nothing);
  struct room row_parts = room(row_component, height, &nothing), column_parts = room(column_component, width, &nothing);
  status = WIDTH(proved_dmperm)(m.others, m.starts, m.starts_length, m.ids, m.ids_length, m.by_rows, wants_blocks, wants_components,
                                of_rows.numbers, of_rows.length, of_columns.numbers, of_columns.length, row_cuts.numbers,
                                row_cuts.length, column_cuts.numbers, column_cuts.length, pairs.numbers, pairs.length,
                                row_parts.numbers, row_parts.length, column_parts.numbers, column_parts.length, &found, &place);
  if (status != BLOCKTRI_OK) return refused(status, place, fault);
  WIDTH(widen)(p, height);
  WIDTH(widen)(q, width);
  WIDTH(widen_starts)(r, number_of_cuts(&found));
  WIDTH(widen_starts)(s, number_of_cuts(&found));
  WIDTH(widen)(row_of_column, width);
  WIDTH(widen)(row_component, height);
  WIDTH(widen)(column_component, width);
  write_sizes(&found, rows, columns, wants_blocks, sizes);
  return status;
}

int32_t WIDTH(blocktri_block_order)(I rows, I columns, const I *starts, const I *ids, I ids_length, uint32_t flags, I *row_order,
                                    I *column_order, I *block_starts, I *row_of_column, I *blocks, I *rank, int64_t *fault) {
  const struct WIDTH(matrix) a = {rows, columns, starts, ids, ids_length, false, NULL, flags};
  struct WIDTH(lists) m;
  uint64_t place;
  int32_t status = WIDTH(take)(&a, BLOCKTRI_BY_ROWS | BLOCKTRI_COMPLETE, 0, &m, &place);
  if (status != BLOCKTRI_OK) return refused(status, place, fault);
  bool wants_blocks = row_order != NULL || column_order != NULL || block_starts != NULL;
  bool completes = (flags & BLOCKTRI_COMPLETE) != 0;
  size_t height = (size_t)rows, width = (size_t)columns;
  uint32_t nothing = 0, found = 0, found_rank = 0;
  struct room of_rows = room(row_order, height, &nothing), of_columns = room(column_order, width, &nothing);
  struct room of_blocks = room(block_starts, width + 1, &nothing), pairs = room(row_of_column, width, &nothing);
  status = (completes ? WIDTH(proved_completed_order) : WIDTH(proved_block_order))(
      m.others, m.starts, m.starts_length, m.ids, m.ids_length, m.by_rows, wants_blocks, of_rows.numbers, of_rows.length,
      of_columns.numbers, of_columns.length, of_blocks.numbers, of_blocks.length, pairs.numbers, pairs.length, &found, &found_rank,
      &place);
  if (status == BLOCKTRI_SINGULAR) WIDTH(put)(rank, (I)found_rank);
  if (status != BLOCKTRI_OK) return refused(status, place, fault);
  WIDTH(widen)(row_order, height);
  WIDTH(widen)(column_order, width);
  WIDTH(widen_starts)(block_starts, (size_t)found + 1);
  WIDTH(widen)(row_of_column, width);
  WIDTH(put)(blocks, wants_blocks ? (I)found : -1);
  WIDTH(put)(rank, (I)found_rank);
  return status;
}

int32_t WIDTH(blocktri_order_by)(I rows, I columns, const I *starts, const I *ids, I ids_length, uint32_t flags,
                                 const I *row_of_column, I *row_order, I *column_order, I *block_starts, I *blocks,
                                 int64_t *fault) {
  const struct WIDTH(matrix) a = {rows, columns, starts, ids, ids_length, false, NULL, flags};
  struct WIDTH(lists) m;
  uint64_t place;
  int32_t status = WIDTH(take)(&a, BLOCKTRI_BY_ROWS, row_of_column == NULL && columns != 0 ? 7 : 0, &m, &place);
  if (status != BLOCKTRI_OK) return refused(status, place, fault);
  size_t height = (size_t)rows, width = (size_t)columns;
  uint32_t nothing = 0, found = 0;
  const U *pairs = row_of_column == NULL ? &WIDTH(zero) : (const U *)row_of_column;
  struct room of_rows = room(row_order, height, &nothing), of_columns = room(column_order, width, &nothing);
  struct room of_blocks = room(block_starts, width + 1, &nothing);
  status = WIDTH(proved_order_by)(m.others, m.starts, m.starts_length, m.ids, m.ids_length, m.by_rows, pairs, width,
                                  of_rows.numbers, of_rows.length, of_columns.numbers, of_columns.length, of_blocks.numbers,
                                  of_blocks.length, &found, &place);
  if (status != BLOCKTRI_OK) return refused(status, place, fault);
  WIDTH(widen)(row_order, height);
  WIDTH(widen)(column_order, width);
  WIDTH(widen_starts)(block_starts, (size_t)found + 1);
  WIDTH(put)(blocks, (I)found);
  return status;
}

int32_t WIDTH(blocktri_heaviest)(I rows, I columns, const I *starts, const I *ids, I ids_length, const int64_t *values,
                                 uint32_t flags, I *row_of_column, int64_t *row_prices, int64_t *column_prices,
                                 struct blocktri_sum *sum, I *rank, I *column_set, I *columns_count, int64_t *fault) {
  const struct WIDTH(matrix) a = {rows, columns, starts, ids, ids_length, true, values, flags};
  struct WIDTH(lists) m;
  uint64_t place;
  (void)column_set; /* later versions write it at BLOCKTRI_SINGULAR */
  int32_t status = WIDTH(take)(&a, BLOCKTRI_BY_ROWS, 0, &m, &place);
  if (status != BLOCKTRI_OK) return refused(status, place, fault);
  size_t height = (size_t)rows, width = (size_t)columns;
  uint32_t nothing = 0;
  int64_t no_price = 0;
  const int64_t no_value = 0;
  struct proved_sum found = {0, 0};
  struct room pairs = room(row_of_column, width, &nothing);
  status = WIDTH(proved_heaviest)(m.others, m.starts, m.starts_length, m.ids, m.ids_length, values == NULL ? &no_value : values,
                                  m.ids_length, m.by_rows, pairs.numbers, pairs.length,
                                  row_prices == NULL ? &no_price : row_prices, row_prices == NULL ? 0 : height,
                                  column_prices == NULL ? &no_price : column_prices, column_prices == NULL ? 0 : width, &found,
                                  &place);
  if (status != BLOCKTRI_OK) return refused(status, place, fault);
  WIDTH(widen)(row_of_column, width);
  if (sum != NULL) sum->low = found.low, sum->high = found.high;
  WIDTH(put)(rank, -1);
  WIDTH(put)(columns_count, -1);
  return status;
}

int32_t WIDTH(blocktri_bottleneck)(I rows, I columns, const I *starts, const I *ids, I ids_length, const int64_t *values,
                                   uint32_t flags, I *row_of_column, int64_t *least, I *rank, I *column_set, I *columns_count,
                                   int64_t *fault) {
  const struct WIDTH(matrix) a = {rows, columns, starts, ids, ids_length, true, values, flags};
  struct WIDTH(lists) m;
  uint64_t place;
  int32_t status = WIDTH(take)(&a, BLOCKTRI_BY_ROWS, 0, &m, &place);
  if (status != BLOCKTRI_OK) return refused(status, place, fault);
  size_t width = (size_t)columns;
  uint32_t nothing = 0, count = 0;
  const int64_t no_value = 0;
  uint64_t found = 0;
  struct room pairs = room(row_of_column, width, &nothing), shown_by = room(column_set, width, &nothing);
  status = WIDTH(proved_bottleneck)(m.others, m.starts, m.starts_length, m.ids, m.ids_length, values == NULL ? &no_value : values,
                                    m.ids_length, m.by_rows, pairs.numbers, pairs.length, &found, shown_by.numbers,
                                    shown_by.length, &count, &place);
  if (status != BLOCKTRI_OK) return refused(status, place, fault);
  WIDTH(widen)(row_of_column, width);
  WIDTH(widen)(column_set, count);
  WIDTH(put)(columns_count, (I)count);
  WIDTH(put)(rank, -1);
  if (least != NULL) *least = (int64_t)found;
  return status;
}
