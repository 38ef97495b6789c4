/* What KLU asks of SuiteSparse's btf_order, for a square matrix of full structural rank: orders P of the rows and Q of the
 * columns in which it is block upper triangular and has no zero on its diagonal, and where each block begins. Which entries of a
 * block stand on the diagonal is left open, so the program does not print P: it counts the zeros on the diagonal. */
#include <inttypes.h>
#include <stdbool.h>
#include <stdio.h>

#include "blocktri.h"
#include "examples/flow_sheet.h"

static bool is_entry(int32_t row, int32_t column) {
  for (int32_t k = starts[column]; k < starts[column + 1]; k++)
    if (ids[k] == row) return true;
  return false;
}

static void tell(const char *name, const int32_t *list, int32_t length) {
  printf("%s", name);
  for (int32_t i = 0; i < length; i++) printf(" %" PRId32, list[i]);
  printf("\n");
}

int main(void) {
  int32_t p[SIZE], q[SIZE], r[SIZE + 1], blocks;
  int32_t status = blocktri_block_order(SIZE, SIZE, starts, ids, ENTRIES, 0, p, q, r, NULL, &blocks, NULL, NULL);
  if (status != BLOCKTRI_OK) return fprintf(stderr, "%s\n", blocktri_text(status)), 1;
  printf("%" PRId32 " blocks\n", blocks);
  tell("Q", q, SIZE);
  tell("R", r, blocks + 1);
  int32_t zeros = 0;
  for (int32_t k = 0; k < SIZE; k++) zeros += !is_entry(p[k], q[k]);
  printf("%" PRId32 " zeros on the diagonal\n", zeros);
  return 0;
}
