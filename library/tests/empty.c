/* Matrices without rows, without columns or without entries, with NULL for the lists that may be NULL and with pointers. */
#include "check.h"

/* what the definitions say of a matrix without entries: all columns are of the horizontal part, all rows of the vertical one, and
 * each is a component of its own; no row and no column has a mate */
static void compare_form(const struct answer *got, int64_t m, int64_t n) {
  struct blocktri_sizes sizes = sizes_of(got, FORM_SIZES);
  CHECK(got->status == BLOCKTRI_OK && sizes.rank == 0 && sizes.square == 0 && sizes.blocks == 0 && sizes.nb == -1);
  CHECK(sizes.horizontal_rows == 0 && sizes.horizontal_columns == n && sizes.horizontal_components == n);
  CHECK(sizes.vertical_rows == m && sizes.vertical_columns == 0 && sizes.vertical_components == m);
  CHECK(sizes.rr[1] == 0 && sizes.rr[2] == 0 && sizes.rr[3] == 0 && sizes.rr[4] == m);
  CHECK(sizes.cc[1] == n && sizes.cc[2] == n && sizes.cc[3] == n && sizes.cc[4] == n);
  for (int64_t i = 0; i < m; i++) CHECK(got->output[FORM_ROWS][i] == i && got->output[FORM_ROW_COMPONENTS][i] == i);
  for (int64_t i = 0; i < n; i++) CHECK(got->output[FORM_COLUMNS][i] == i && got->output[FORM_COLUMN_COMPONENTS][i] == i);
  CHECK(got->output[FORM_STARTS][0] == 0 && got->output[FORM_STARTS][1] == UNTOUCHED);
  CHECK(got->output[FORM_ROWS][m] == UNTOUCHED && got->output[FORM_COLUMNS][n] == UNTOUCHED);
}

static void compare_dmperm(const struct answer *got, int64_t m, int64_t n) {
  struct blocktri_sizes sizes = sizes_of(got, DMPERM_SIZES);
  int64_t nb = (n > 0) + (m > 0);
  CHECK(got->status == BLOCKTRI_OK && sizes.rank == 0 && sizes.nb == nb);
  for (int64_t i = 0; i < m; i++) CHECK(got->output[DMPERM_P][i] == i);
  for (int64_t i = 0; i < n; i++) CHECK(got->output[DMPERM_Q][i] == i && got->output[DMPERM_PAIRS][i] == BLOCKTRI_NONE);
  CHECK(got->output[DMPERM_R][0] == 0 && got->output[DMPERM_S][0] == 0);
  CHECK(got->output[DMPERM_R][nb] == m && got->output[DMPERM_S][nb] == n);
  if (nb == 2) CHECK(got->output[DMPERM_R][1] == 0 && got->output[DMPERM_S][1] == n);
  for (int64_t k = nb + 1; k < ROOM; k++) CHECK(got->output[DMPERM_R][k] == UNTOUCHED && got->output[DMPERM_S][k] == UNTOUCHED);
}

static void compare_square(const struct matrix *a, uint32_t flags, int64_t m, int64_t n) {
  struct answer order = ask(BLOCK_ORDER, a, flags), heavy = ask(HEAVIEST, a, flags), wide = ask(BOTTLENECK, a, flags);
  int64_t status = m != n ? BLOCKTRI_NOT_SQUARE : m > 0 ? BLOCKTRI_SINGULAR : BLOCKTRI_OK;
  CHECK(order.status == status && heavy.status == status && wide.status == status);
  if (m == n) CHECK(order.output[ORDER_RANK][0] == 0);
  if (status != BLOCKTRI_OK) return;
  CHECK(order.output[ORDER_BLOCKS][0] == 0 && order.output[ORDER_STARTS][0] == 0);
  CHECK(heavy.output[HEAVIEST_SUM][0] == 0 && heavy.output[HEAVIEST_SUM][1] == 0);
  CHECK(wide.output[BOTTLENECK_LEAST][0] == 0 && wide.output[BOTTLENECK_COUNT][0] == 0);
}

static void compare_all(const struct matrix *a, uint32_t flags, int64_t m, int64_t n) {
  struct answer rank = ask(RANK, a, flags), form = ask(DECOMPOSITION, a, flags), dmperm = ask(DMPERM, a, flags);
  CHECK(rank.status == BLOCKTRI_OK && rank.output[RANK_RANK][0] == 0);
  for (uint32_t least = 0; least <= BLOCKTRI_LEAST; least++) {
    struct answer pairs = ask(MATCHING, a, flags | least);
    CHECK(pairs.status == BLOCKTRI_OK && pairs.output[MATCHING_SIZE][0] == 0);
    for (int64_t i = 0; i < n; i++) CHECK(pairs.output[MATCHING_ROWS][i] == BLOCKTRI_NONE);
    for (int64_t i = 0; i < m; i++) CHECK(pairs.output[MATCHING_COLUMNS][i] == BLOCKTRI_NONE);
  }
  compare_form(&form, m, n);
  compare_dmperm(&dmperm, m, n);
  compare_square(a, flags, m, n);
}

int main(void) {
  for (int64_t m = 0; m <= 3; m++)
    for (int64_t n = 0; n <= 3; n++)
      for (uint32_t flags = 0; flags <= BLOCKTRI_BY_ROWS; flags += BLOCKTRI_BY_ROWS) {
        struct matrix a = {.rows = m, .columns = n};
        int64_t parted = flags == 0 ? n : m;
        for (unsigned left_out = 0; left_out < 8; left_out++) {
          a.left_out = left_out;
          if ((left_out & NO_STARTS) == 0 || parted == 0) compare_all(&a, flags, m, n);
        }
      }
  return 0;
}
