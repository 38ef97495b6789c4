/* one_answer.h: what a call tells of a matrix that is one for each matrix, whatever its lists. */
#ifndef ONE_ANSWER_H
#define ONE_ANSWER_H

#include "check.h"

static inline void same_output(const struct answer *one, const struct answer *other, int output) {
  CHECK(memcmp(one->output[output], other->output[output], sizeof one->output[output]) == 0);
}

/* rank, least matching and decomposition have one answer; of a matching the size is one */
static inline void same_patterns(const struct matrix *a, uint32_t flags, const struct matrix *b, uint32_t other_flags) {
  struct answer one = ask(RANK, a, flags), other = ask(RANK, b, other_flags);
  CHECK(one.status == BLOCKTRI_OK && memcmp(&one, &other, sizeof one) == 0);
  one = ask(MATCHING, a, flags | BLOCKTRI_LEAST), other = ask(MATCHING, b, other_flags | BLOCKTRI_LEAST);
  CHECK(one.status == BLOCKTRI_OK && memcmp(&one, &other, sizeof one) == 0);
  one = ask(MATCHING, a, flags), other = ask(MATCHING, b, other_flags);
  CHECK(one.status == BLOCKTRI_OK && other.status == BLOCKTRI_OK);
  same_output(&one, &other, MATCHING_SIZE);
  one = ask(DECOMPOSITION, a, flags), other = ask(DECOMPOSITION, b, other_flags);
  CHECK(one.status == BLOCKTRI_OK && memcmp(&one, &other, sizeof one) == 0);
}

/* of dmperm all but the pairs, the rows beside them, and which columns of the horizontal part they leave out */
static inline void same_orders(const struct matrix *a, uint32_t flags, const struct matrix *b, uint32_t other_flags) {
  struct answer one = ask(DMPERM, a, flags), other = ask(DMPERM, b, other_flags);
  CHECK(one.status == BLOCKTRI_OK && other.status == BLOCKTRI_OK);
  for (int output = DMPERM_R; output <= DMPERM_SIZES; output++)
    if (output != DMPERM_PAIRS) same_output(&one, &other, output);
  int64_t outside = sizes_of(&one, DMPERM_SIZES).horizontal_columns;
  for (int64_t k = outside; k < a->columns; k++) CHECK(one.output[DMPERM_Q][k] == other.output[DMPERM_Q][k]);
  one = ask(BLOCK_ORDER, a, flags), other = ask(BLOCK_ORDER, b, other_flags);
  CHECK(one.status == other.status);
  for (int output = ORDER_COLUMNS; output <= ORDER_RANK; output++)
    if (output != ORDER_PAIRS) same_output(&one, &other, output);
  one = ask(ORDER_BY, a, flags), other = ask(ORDER_BY, b, other_flags);
  CHECK(memcmp(&one, &other, sizeof one) == 0);
}

/* of the diagonals the greatest sum, and the greatest least weight */
static inline void same_diagonals(const struct matrix *a, uint32_t flags, const struct matrix *b, uint32_t other_flags) {
  struct answer one = ask(HEAVIEST, a, flags), other = ask(HEAVIEST, b, other_flags);
  CHECK(one.status == other.status);
  same_output(&one, &other, HEAVIEST_SUM);
  one = ask(BOTTLENECK, a, flags), other = ask(BOTTLENECK, b, other_flags);
  CHECK(one.status == other.status);
  same_output(&one, &other, BOTTLENECK_LEAST);
}

static inline void same_answers(const struct matrix *a, uint32_t flags, const struct matrix *b, uint32_t other_flags) {
  same_patterns(a, flags, b, other_flags);
  same_orders(a, flags, b, other_flags);
  same_diagonals(a, flags, b, other_flags);
}

#endif
