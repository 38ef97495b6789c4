/* blocktri_mex.c: the calls of libblocktri for Octave and MATLAB. The functions blocktri_sprank, blocktri_dmperm, blocktri_btf and
 * blocktri_heaviest check their arguments and call it; help blocktri_sprank and so on is the reference.
 *
 *   rank = blocktri_mex ('sprank', A)
 *   row_of_column = blocktri_mex ('matching', A)
 *   [p, q, r, s, cc, rr] = blocktri_mex ('dmperm', A)
 *   [p, q, r] = blocktri_mex ('btf', A)
 *   [p, row_prices, column_prices, low, high] = blocktri_mex ('heaviest', A, values)
 *
 * A is a sparse matrix, of which the places count alone, and values an int64 list with one number for each place of A. It converts,
 * calls the C library once and names what is wrong; it computes nothing of the answer. */
#include <stdint.h>
#include <string.h>

#include "blocktri.h"
#include "mex.h"

typedef char indices_have_64_bits[sizeof(mwIndex) == sizeof(int64_t) ? 1 : -1];

/* A matrix as the calls take it. */
struct matrix {
  int64_t rows, columns, count;
  const int64_t *starts, *ids;
};

static struct matrix matrix_of(const mxArray *given) {
  struct matrix a;
  a.rows = (int64_t)mxGetM(given);
  a.columns = (int64_t)mxGetN(given);
  a.starts = (const int64_t *)mxGetJc(given);
  a.ids = (const int64_t *)mxGetIr(given);
  a.count = a.starts[a.columns];
  return a;
}

/* Room for numbers, and for one more, so that its pointer is not NULL. It goes when the call returns. */
static int64_t *room(int64_t length) { return mxMalloc(((size_t)length + 1) * sizeof(int64_t)); }

/* Ends with an error if a call has no answer. */
static void answered(int32_t status) {
  const char *identifier = "blocktri:badMatrix";
  if (status == BLOCKTRI_OK) return;
  if (status == BLOCKTRI_SINGULAR) identifier = "blocktri:singular";
  if (status == BLOCKTRI_NOT_SQUARE) identifier = "blocktri:notSquare";
  if (status == BLOCKTRI_SUM_LIMIT) identifier = "blocktri:sumLimit";
  if (status == BLOCKTRI_OUT_OF_MEMORY) identifier = "blocktri:outOfMemory";
  if (status == BLOCKTRI_BAD_SIZE) identifier = "blocktri:tooLarge";
  if (status == BLOCKTRI_PRICE_LIMIT) identifier = "blocktri:priceLimit";
  if (status == BLOCKTRI_BAD_ARGUMENT) identifier = "blocktri:oldLibrary";
  mexErrMsgIdAndTxt(identifier, "blocktri: %s", blocktri_text(status));
}

/* A row of numbers that count from 1; none, which is -1, becomes 0. */
static mxArray *row_of(const int64_t *numbers, int64_t length) {
  mxArray *row = mxCreateDoubleMatrix(1, (mwSize)length, mxREAL);
  double *to = mxGetPr(row);
  for (int64_t i = 0; i < length; i++) to[i] = (double)(numbers[i] + 1);
  return row;
}

static mxArray *wide_list(mwSize rows, mwSize columns, const void *numbers, mxClassID type) {
  mxArray *list = mxCreateNumericMatrix(rows, columns, type, mxREAL);
  if (rows * columns > 0) memcpy(mxGetData(list), numbers, rows * columns * sizeof(int64_t));
  return list;
}

static void sprank(const struct matrix *a, mxArray **results) {
  int64_t rank = 0;
  answered(blocktri_rank_64(a->rows, a->columns, a->starts, a->ids, a->count, 0, &rank, NULL));
  results[0] = mxCreateDoubleScalar((double)rank);
}

static void matching(const struct matrix *a, mxArray **results) {
  int64_t *pairs = room(a->columns);
  answered(blocktri_matching_64(a->rows, a->columns, a->starts, a->ids, a->count, 0, pairs, NULL, NULL, NULL));
  results[0] = row_of(pairs, a->columns);
}

/* p, q, r, s, cc and rr, all of them: the caller takes what it wants. */
static void dmperm(const struct matrix *a, mxArray **results) {
  int64_t cuts = (a->rows < a->columns ? a->rows : a->columns) + 2;
  int64_t *p = room(a->rows), *q = room(a->columns), *r = room(cuts), *s = room(cuts);
  struct blocktri_sizes sizes = BLOCKTRI_SIZES_INIT;
  answered(blocktri_dmperm_64(a->rows, a->columns, a->starts, a->ids, a->count, 0, p, q, r, s, NULL, NULL, NULL, &sizes, NULL));
  results[0] = row_of(p, a->rows);
  results[1] = row_of(q, a->columns);
  results[2] = row_of(r, sizes.nb + 1);
  results[3] = row_of(s, sizes.nb + 1);
  results[4] = row_of(sizes.cc, 5);
  results[5] = row_of(sizes.rr, 5);
}

/* p, q and r; the columns that no maximum matching of the library's choice has are negative in q. */
static void btf(const struct matrix *a, mxArray **results) {
  int64_t *p = room(a->rows), *q = room(a->columns), *r = room(a->columns + 1), *pairs = room(a->columns), blocks = 0;
  answered(blocktri_block_order_64(a->rows, a->columns, a->starts, a->ids, a->count, BLOCKTRI_COMPLETE, p, q, r, pairs, &blocks,
                                   NULL, NULL));
  results[0] = row_of(p, a->rows);
  results[1] = row_of(q, a->columns);
  results[2] = row_of(r, blocks + 1);
  double *marked = mxGetPr(results[1]);
  for (int64_t k = 0; k < a->columns; k++)
    if (pairs[q[k]] == BLOCKTRI_NONE) marked[k] = -marked[k];
}

/* Prices only where they are asked for, since there are answers without prices that fit. */
static void heaviest(const struct matrix *a, const int64_t *values, int results_length, mxArray **results) {
  int64_t *pairs = room(a->columns), *row_prices = results_length > 1 ? room(a->rows) : NULL;
  int64_t *column_prices = results_length > 1 ? room(a->columns) : NULL;
  struct blocktri_sum sum = {0, 0};
  answered(blocktri_heaviest_64(a->rows, a->columns, a->starts, a->ids, a->count, values, 0, pairs, row_prices, column_prices, &sum,
                                NULL, NULL, NULL, NULL));
  results[0] = row_of(pairs, a->columns);
  if (results_length < 2) return;
  results[1] = wide_list((mwSize)a->rows, 1, row_prices, mxINT64_CLASS);
  results[2] = wide_list(1, (mwSize)a->columns, column_prices, mxINT64_CLASS);
  results[3] = wide_list(1, 1, &sum.low, mxUINT64_CLASS);
  results[4] = wide_list(1, 1, &sum.high, mxUINT64_CLASS);
}

void mexFunction(int results_length, mxArray *results[], int given_length, const mxArray *given[]) {
  char name[16];
  mxArray *found[6] = {NULL, NULL, NULL, NULL, NULL, NULL};
  if (given_length < 2 || mxGetString(given[0], name, sizeof name) != 0 || !mxIsSparse(given[1]))
    mexErrMsgIdAndTxt("blocktri:usage", "blocktri_mex is called by blocktri_sprank, _dmperm, _btf and _heaviest");
  struct matrix a = matrix_of(given[1]);
  if (strcmp(name, "sprank") == 0) {
    sprank(&a, found);
  } else if (strcmp(name, "matching") == 0) {
    matching(&a, found);
  } else if (strcmp(name, "dmperm") == 0) {
    dmperm(&a, found);
  } else if (strcmp(name, "btf") == 0) {
    btf(&a, found);
  } else if (strcmp(name, "heaviest") == 0 && given_length == 3 && mxIsInt64(given[2]) &&
             (int64_t)mxGetNumberOfElements(given[2]) == a.count) {
    heaviest(&a, mxGetData(given[2]), results_length, found);
  } else {
    mexErrMsgIdAndTxt("blocktri:usage", "blocktri_mex has no call '%s' with these arguments", name);
  }
  for (int i = 0; i < 6 && (i == 0 || i < results_length); i++) results[i] = found[i];
}
