/* Three equations in three unknowns, of which the last stands in no equation: at most two can be paired. */
#include <inttypes.h>
#include <stdio.h>

#include "blocktri.h"

int main(void) {
  int32_t starts[] = {0, 3, 4, 4}, ids[] = {0, 1, 2, 0}, rank;
  int32_t status = blocktri_rank(3, 3, starts, ids, 4, 0, &rank, NULL);
  if (status != BLOCKTRI_OK) return fprintf(stderr, "%s\n", blocktri_text(status)), 1;
  printf("rank %" PRId32 "\n", rank);
  return 0;
}
