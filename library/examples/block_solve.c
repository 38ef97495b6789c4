/* Solves a system block by block, from the last to the first: only the blocks on the diagonal are factorised. */
#include <inttypes.h>
#include <math.h>
#include <stdio.h>

#include "blocktri.h"
#include "examples/flow_sheet.h"

static const double values[ENTRIES] = {4, 1, 3, 1, 5, 2, 1, 2, 1, 4, 7, 3};

/* Gaussian elimination with row pivots, of a dense block; the solution takes the place of b. */
static void eliminate(int n, double a[SIZE][SIZE], double *b) {
  for (int k = 0; k < n; k++) {
    int best = k;
    for (int i = k + 1; i < n; i++)
      if (fabs(a[i][k]) > fabs(a[best][k])) best = i;
    for (int j = 0; j < n; j++) {
      double swapped = a[k][j];
      a[k][j] = a[best][j], a[best][j] = swapped;
    }
    double swapped = b[k];
    b[k] = b[best], b[best] = swapped;
    for (int i = k + 1; i < n; i++) {
      double factor = a[i][k] / a[k][k];
      for (int j = k; j < n; j++) a[i][j] -= factor * a[k][j];
      b[i] -= factor * b[k];
    }
  }
  for (int k = n - 1; k >= 0; k--) {
    for (int j = k + 1; j < n; j++) b[k] -= a[k][j] * b[j];
    b[k] /= a[k][k];
  }
}

int main(void) {
  int32_t row_order[SIZE], column_order[SIZE], block_starts[SIZE + 1], place[SIZE];
  struct blocktri_sizes sizes = BLOCKTRI_SIZES_INIT;
  int32_t status = blocktri_decomposition(SIZE, SIZE, starts, ids, ENTRIES, 0, row_order, column_order, block_starts, NULL, NULL,
                                          &sizes, NULL);
  if (status != BLOCKTRI_OK) return fprintf(stderr, "%s\n", blocktri_text(status)), 1;
  if (sizes.square != SIZE) return fprintf(stderr, "no values make this matrix regular\n"), 1;
  for (int32_t i = 0; i < SIZE; i++) place[row_order[i]] = i;

  /* the right side is the matrix times 1, 2, .., 6, in the order of the form */
  double rest[SIZE] = {0}, solution[SIZE];
  for (int32_t j = 0; j < SIZE; j++)
    for (int32_t k = starts[j]; k < starts[j + 1]; k++) rest[place[ids[k]]] += values[k] * (j + 1);

  for (int64_t b = sizes.blocks; b-- > 0;) {
    int32_t begin = block_starts[b], end = block_starts[b + 1];
    double block[SIZE][SIZE] = {{0}};
    for (int32_t j = begin; j < end; j++) {
      int32_t column = column_order[j];
      for (int32_t k = starts[column]; k < starts[column + 1]; k++)
        if (place[ids[k]] >= begin) block[place[ids[k]] - begin][j - begin] += values[k];
    }
    eliminate(end - begin, block, rest + begin);
    for (int32_t j = begin; j < end; j++) {
      int32_t column = column_order[j];
      solution[column] = rest[j];
      for (int32_t k = starts[column]; k < starts[column + 1]; k++)
        if (place[ids[k]] < begin) rest[place[ids[k]]] -= values[k] * rest[j];
    }
  }
  for (int32_t j = 0; j < SIZE; j++) printf("x%" PRId32 " = %.3f\n", j, solution[j]);
  return 0;
}
