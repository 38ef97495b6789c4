/* What the tests share: small matrices, and every call with every output as one list of numbers. */
#ifndef CHECK_H
#define CHECK_H

#include <inttypes.h>
#include <limits.h>
#include <stdbool.h>
#include <stdio.h>
#include <stdlib.h>
#include <string.h>

#include "blocktri.h"

/* what is looked at, for the message of a check that fails */
static const char *about = "";

#define CHECK(holds) \
  do { \
    if (!(holds)) { \
      fprintf(stderr, "%s:%d: %s %s\n", __FILE__, __LINE__, #holds, about); \
      exit(1); \
    } \
  } while (0)

#define UNTOUCHED INT64_C(0x5a5a5a5a5a5a5a5a)

enum { MOST = 16, MOST_IDS = 96, OUTPUTS = 9, ROOM = 24 };

/* bits of left_out: the lists for which NULL is passed */
enum { NO_STARTS = 1, NO_IDS = 2, NO_VALUES = 4, NO_PAIRS = 8 };

/* lists with indices of both widths, a value for each id, and a row for each column: column j itself without has_pairs */
struct matrix {
  int64_t rows, columns, count;
  unsigned left_out;
  bool has_pairs;
  int32_t pairs[MOST];
  int64_t wide_pairs[MOST];
  int32_t starts[MOST + 1], ids[MOST_IDS];
  int64_t wide_starts[MOST + 1], wide_ids[MOST_IDS], values[MOST_IDS];
};

static inline void widen(struct matrix *a) {
  for (int32_t i = 0; i <= MOST; i++) a->wide_starts[i] = a->starts[i];
  for (int64_t i = 0; i < a->count; i++) a->wide_ids[i] = a->ids[i];
  for (int32_t i = 0; i < MOST; i++) {
    if (!a->has_pairs) a->pairs[i] = i;
    a->wide_pairs[i] = a->pairs[i];
  }
}

enum call { RANK, MATCHING, DECOMPOSITION, DMPERM, BLOCK_ORDER, ORDER_BY, HEAVIEST, BOTTLENECK, CALLS };

/* the outputs of each call, in the order of its arguments; FAULT is one of each */
enum { RANK_RANK };
enum { MATCHING_ROWS, MATCHING_COLUMNS, MATCHING_SIZE };
enum { FORM_ROWS, FORM_COLUMNS, FORM_STARTS, FORM_ROW_COMPONENTS, FORM_COLUMN_COMPONENTS, FORM_SIZES };
enum {
  DMPERM_P,
  DMPERM_Q,
  DMPERM_R,
  DMPERM_S,
  DMPERM_PAIRS,
  DMPERM_ROW_COMPONENTS,
  DMPERM_COLUMN_COMPONENTS,
  DMPERM_SIZES
};
enum { ORDER_ROWS, ORDER_COLUMNS, ORDER_STARTS, ORDER_PAIRS, ORDER_BLOCKS, ORDER_RANK };
enum { BY_ROWS, BY_COLUMNS, BY_STARTS, BY_BLOCKS }; /* of ORDER_BY */
enum {
  HEAVIEST_ROWS,
  HEAVIEST_ROW_PRICES,
  HEAVIEST_COLUMN_PRICES,
  HEAVIEST_SUM,
  HEAVIEST_RANK,
  HEAVIEST_SET,
  HEAVIEST_COUNT
};
enum { BOTTLENECK_ROWS, BOTTLENECK_LEAST, BOTTLENECK_RANK, BOTTLENECK_SET, BOTTLENECK_COUNT };
enum { FAULT = OUTPUTS - 1 };

static const int outputs_of[CALLS] = {1, 3, 6, 8, 6, 4, 7, 5};

/* the flags that a call knows */
static inline uint32_t known_to(enum call call) {
  if (call == BLOCK_ORDER) return BLOCKTRI_BY_ROWS | BLOCKTRI_COMPLETE;
  return call == MATCHING ? BLOCKTRI_BY_ROWS | BLOCKTRI_LEAST : BLOCKTRI_BY_ROWS;
}

/* what a call gives and leaves as it is: each output is one row of numbers, a struct by its members */
struct answer {
  int64_t status;
  int64_t output[OUTPUTS][ROOM];
};

static inline bool is_sizes(enum call call, int output) {
  return (call == DECOMPOSITION && output == FORM_SIZES) || (call == DMPERM && output == DMPERM_SIZES);
}

/* outputs of 64 bits in both widths */
static inline bool is_long(enum call call, int output) {
  if (output == FAULT || is_sizes(call, output)) return true;
  if (call == HEAVIEST) return output >= HEAVIEST_ROW_PRICES && output <= HEAVIEST_SUM;
  return call == BOTTLENECK && output == BOTTLENECK_LEAST;
}

static inline bool is_valued(enum call call) { return call == HEAVIEST || call == BOTTLENECK; }

/* what a call leaves that writes nothing */
static inline struct answer untouched(enum call call, int64_t status) {
  struct answer answer;
  memset(&answer, 0x5a, sizeof answer);
  answer.status = status;
  for (int i = 0; i < OUTPUTS; i++)
    if (is_sizes(call, i)) answer.output[i][0] = sizeof(struct blocktri_sizes);
  return answer;
}

static inline struct blocktri_sizes sizes_of(const struct answer *answer, int output) {
  struct blocktri_sizes sizes;
  memcpy(&sizes, answer->output[output], sizeof sizes);
  return sizes;
}

#define I int32_t
#define WIDTH(name) name
#define STARTS(a) (a)->starts
#define IDS(a) (a)->ids
#define PAIRS(a) (a)->pairs
#include "ask.h"
#undef I
#undef WIDTH
#undef STARTS
#undef IDS
#undef PAIRS

#define I int64_t
#define WIDTH(name) name##_64
#define STARTS(a) (a)->wide_starts
#define IDS(a) (a)->wide_ids
#define PAIRS(a) (a)->wide_pairs
#include "ask.h"
#undef I
#undef WIDTH
#undef STARTS
#undef IDS
#undef PAIRS

/* asks a call in both widths, which must answer alike */
static inline struct answer ask(enum call call, const struct matrix *a, uint32_t flags) {
  struct answer narrow = answer_of(call, a, flags, 0), wide = answer_of_64(call, a, flags, 0);
  CHECK(memcmp(&narrow, &wide, sizeof narrow) == 0);
  return narrow;
}

/* the same matrix as compressed rows */
static inline struct matrix by_rows(const struct matrix *a) {
  struct matrix turned = {.rows = a->rows, .columns = a->columns, .count = 0, .has_pairs = a->has_pairs};
  memcpy(turned.pairs, a->pairs, sizeof turned.pairs);
  for (int32_t r = 0; r < a->rows; r++) {
    for (int32_t c = 0; c < a->columns; c++)
      for (int32_t k = a->starts[c]; k < a->starts[c + 1]; k++)
        if (a->ids[k] == r) turned.values[turned.count] = a->values[k], turned.ids[turned.count++] = c;
    turned.starts[r + 1] = (int32_t)turned.count;
  }
  widen(&turned);
  return turned;
}

/* the same numbers each time a test runs */
static inline int32_t draw_from(uint64_t *state, int32_t below) {
  *state = *state * UINT64_C(6364136223846793005) + UINT64_C(1442695040888963407);
  return (int32_t)((*state >> 33) % (uint64_t)below);
}

/* A random matrix: its rows stand in any order within a column, some places are given twice or more, and each value is at most 9 in
 * magnitude. With full_diagonal each place (j, j) is an entry. */
static inline struct matrix random_matrix(uint64_t *state, int32_t rows, int32_t columns, bool full_diagonal) {
  struct matrix a = {.rows = rows, .columns = columns, .count = 0};
  int32_t one_in = 1 + draw_from(state, 6);
  for (int32_t c = 0; c < columns; c++) {
    for (int32_t r = 0; r < rows; r++) {
      bool is_entry = (full_diagonal && r == c) || draw_from(state, one_in) == 0;
      for (int32_t times = is_entry ? 1 + (draw_from(state, 8) == 0) : 0; times > 0 && a.count < MOST_IDS - MOST; times--) {
        int32_t at = a.starts[c] + draw_from(state, (int32_t)a.count - a.starts[c] + 1);
        a.ids[a.count] = a.ids[at], a.values[a.count++] = a.values[at];
        a.ids[at] = r, a.values[at] = draw_from(state, 19) - 9;
      }
    }
    a.starts[c + 1] = (int32_t)a.count;
  }
  widen(&a);
  return a;
}

#endif
