/* The compressed rows of a matrix give what its compressed columns give. */
#include "one_answer.h"

enum { TIMES = 1500 };

int main(void) {
  uint64_t state = 5;
  int counts[3] = {0, 0, 0};
  for (int time = 0; time < TIMES; time++) {
    int32_t rows = draw_from(&state, 8), columns = time % 2 == 0 ? rows : draw_from(&state, 8);
    struct matrix a = random_matrix(&state, rows, columns, false), turned = by_rows(&a);
    same_answers(&a, 0, &turned, BLOCKTRI_BY_ROWS);
    counts[ask(BLOCK_ORDER, &a, 0).status]++;
  }
  CHECK(counts[BLOCKTRI_OK] > 100 && counts[BLOCKTRI_SINGULAR] > 100 && counts[BLOCKTRI_NOT_SQUARE] > 100);
  return 0;
}
