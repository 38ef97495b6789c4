/* A circuit that no simulator can solve: two voltage sources stand side by side between node 1 and ground, and a resistor
 * leads from node 1 to node 2. The decomposition tells which equations contradict each other, and which unknowns are not
 * determined, before any number is known.
 *
 *                v1  v2  i1  i2
 *   current at 1  x   x   x   x
 *   current at 2  x   x
 *   source 1      x
 *   source 2      x
 */
#include <inttypes.h>
#include <stdio.h>

#include "blocktri.h"

enum { ROWS = 4, COLUMNS = 4 };

static const char *const equations[] = {"current at 1", "current at 2", "source 1", "source 2"};
static const char *const unknowns[] = {"v1", "v2", "i1", "i2"};

static void tell(const char *what, const char *const *names, const int32_t *order, int64_t from, int64_t to) {
  printf("  %s:", what);
  for (int64_t i = from; i < to; i++) printf("%s %s", i > from ? "," : "", names[order[i]]);
  printf("\n");
}

int main(void) {
  const int32_t starts[COLUMNS + 1] = {0, 4, 6, 7, 8}, ids[] = {0, 1, 2, 3, 0, 1, 0, 0};
  int32_t row_order[ROWS], column_order[COLUMNS], block_starts[COLUMNS + 1];
  struct blocktri_sizes sizes = BLOCKTRI_SIZES_INIT;
  int32_t status = blocktri_decomposition(ROWS, COLUMNS, starts, ids, 8, 0, row_order, column_order, block_starts, NULL, NULL,
                                          &sizes, NULL);
  if (status != BLOCKTRI_OK) return fprintf(stderr, "%s\n", blocktri_text(status)), 1;
  printf("rank %" PRId64 " of %d\n", sizes.rank, ROWS);
  if (sizes.horizontal_columns > 0) {
    printf("more unknowns than equations\n");
    tell("equations", equations, row_order, 0, sizes.horizontal_rows);
    tell("unknowns", unknowns, column_order, 0, sizes.horizontal_columns);
  }
  if (sizes.vertical_rows > 0) {
    printf("more equations than unknowns\n");
    tell("equations", equations, row_order, ROWS - sizes.vertical_rows, ROWS);
    tell("unknowns", unknowns, column_order, COLUMNS - sizes.vertical_columns, COLUMNS);
  }
  return 0;
}
