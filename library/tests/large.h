/* Every call on a matrix of SIDE rows and columns and IDS ids at most, in both widths. */
enum {
  RANK_CASE,
  MATCHING_CASE,
  LEAST_CASE,
  DECOMPOSITION_CASE,
  DMPERM_CASE,
  BLOCK_ORDER_CASE,
  COMPLETE_CASE,
  ORDER_BY_CASE,
  HEAVIEST_CASE,
  BOTTLENECK_CASE,
  CASES
};

static int32_t rows, columns, count;
static int64_t values[IDS], prices[2][SIDE], least;
static struct blocktri_sizes sizes;
static struct blocktri_sum sum;

#define I int32_t
#define WIDTH(name) name
#include "large_case.h"
#undef I
#undef WIDTH

#define I int64_t
#define WIDTH(name) name##_64
#include "large_case.h"
#undef I
#undef WIDTH
