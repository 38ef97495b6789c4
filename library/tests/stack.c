/* Every call on matrices of a million columns in which searches are as long as they can be, by a thread with 64 KiB of stack. */
#include <pthread.h>

#include "check.h"

#ifdef __SANITIZE_ADDRESS__
enum { STACK = 1 << 20, SIDE = 100000 }; /* the sanitizer takes stack and time of its own */
#else
enum { STACK = 1 << 16, SIDE = 1000000 };
#endif

enum { IDS = 2 * SIDE };

#include "large.h"

static uint32_t flags;

static void add(int32_t row, int64_t value) {
  values[count] = value;
  ids_64[count] = row;
  ids[count++] = row;
}

/* column j has the rows j and j + 1 */
static void begin(int32_t full_columns) {
  count = 0;
  for (int32_t j = 0; j < full_columns; j++) {
    starts_64[j] = starts[j] = count;
    add(j, 3);
    add(j + 1, 1);
  }
  starts_64[full_columns] = starts[full_columns] = count;
}

static void end_last_column(void) {
  rows = columns = SIDE;
  starts_64[SIDE] = starts[SIDE] = count;
}

/* The one perfect matching pairs the last column with row 0, and column j with row j + 1: the first look has to be undone to its
 * beginning. Each column is a block, and each but one comes behind the one before it. */
static void *ring_with_one_matching(void *unused) {
  for (int which = 0; which < CASES; which++) {
    rank = 0, number = 0;
    CHECK(call_case(which, flags) == BLOCKTRI_OK);
    if (which <= LEAST_CASE || which == BLOCK_ORDER_CASE || which == COMPLETE_CASE) CHECK(rank == SIDE);
    if (which == ORDER_BY_CASE) CHECK(number == 1 && lists[2][1] == SIDE);
    if (which == MATCHING_CASE || which == LEAST_CASE)
      CHECK(lists[0][SIDE - 1] == 0 && lists[0][0] == 1 && lists[1][SIDE - 1] == SIDE - 2);
    if (which == DECOMPOSITION_CASE || which == DMPERM_CASE)
      CHECK(sizes.rank == SIDE && sizes.blocks == SIDE && sizes.square == SIDE);
    if (which == BLOCK_ORDER_CASE || which == COMPLETE_CASE) CHECK(number == SIDE && lists[2][SIDE] == SIDE);
    if (which == HEAVIEST_CASE) CHECK(sum.low == (uint64_t)SIDE - 1 + 7 && sum.high == 0);
    if (which == BOTTLENECK_CASE) CHECK(least == 1);
    CHECK(call_case_64(which, flags) == BLOCKTRI_OK);
    if (which <= LEAST_CASE || which == BLOCK_ORDER_CASE) CHECK(rank_64 == SIDE);
    if (which == DMPERM_CASE) CHECK(lists_64[4][SIDE - 1] == 0 && lists_64[2][SIDE] == SIDE && sizes.nb == SIDE);
  }
  return unused;
}

/* A ring of two perfect matchings is one block. The diagonal weighs 3 everywhere, the other one 1. */
static void *ring_of_one_block(void *unused) {
  for (int which = 0; which < CASES; which++) {
    rank = 0, number = 0;
    CHECK(call_case(which, flags) == BLOCKTRI_OK);
    if (which <= LEAST_CASE || which == BLOCK_ORDER_CASE) CHECK(rank == SIDE);
    if (which == MATCHING_CASE || which == LEAST_CASE)
      CHECK(lists[0][0] == 0 && lists[0][SIDE - 1] == SIDE - 1);
    if (which == DECOMPOSITION_CASE || which == DMPERM_CASE) CHECK(sizes.blocks == 1 && sizes.square == SIDE);
    if (which >= BLOCK_ORDER_CASE && which <= ORDER_BY_CASE) CHECK(number == 1 && lists[2][1] == SIDE);
    if (which == HEAVIEST_CASE) CHECK(sum.low == 3 * (uint64_t)SIDE && sum.high == 0);
    if (which == BOTTLENECK_CASE) CHECK(least == 3);
  }
  return unused;
}

/* a path with one row less than columns, or, by rows, with one column less than rows, is one component of an outer part */
static void *paths_of_outer_parts(void *unused) {
  for (int which = 0; which < CASES; which++) {
    bool is_square_asked = which >= BLOCK_ORDER_CASE;
    rank = 0;
    CHECK(call_case(which, flags) == (is_square_asked ? BLOCKTRI_NOT_SQUARE : BLOCKTRI_OK));
    if (which <= LEAST_CASE) CHECK(rank == SIDE - 1);
    if (which == DECOMPOSITION_CASE || which == DMPERM_CASE) {
      CHECK(sizes.rank == SIDE - 1 && sizes.square == 0 && sizes.blocks == 0);
      CHECK(sizes.horizontal_columns == (flags == 0 ? 0 : SIDE) && sizes.horizontal_components == (flags != 0));
      CHECK(sizes.vertical_rows == (flags == 0 ? SIDE : 0) && sizes.vertical_components == (flags == 0));
    }
  }
  return unused;
}

static void run(void *(*calls)(void *)) {
  pthread_attr_t attributes;
  pthread_t thread;
  CHECK(pthread_attr_init(&attributes) == 0 && pthread_attr_setstacksize(&attributes, STACK) == 0);
  CHECK(pthread_create(&thread, &attributes, calls, NULL) == 0 && pthread_join(thread, NULL) == 0);
  CHECK(pthread_attr_destroy(&attributes) == 0);
}

int main(void) {
  about = "with one matching";
  begin(SIDE - 1), add(0, -7), end_last_column();
  run(ring_with_one_matching);
  about = "of one block";
  begin(SIDE - 1), add(SIDE - 1, 3), add(0, 1), end_last_column();
  run(ring_of_one_block);
  about = "with a row more than columns";
  begin(SIDE - 1), rows = SIDE, columns = SIDE - 1;
  run(paths_of_outer_parts);
  about = "with a column more than rows";
  flags = BLOCKTRI_BY_ROWS, rows = SIDE - 1, columns = SIDE;
  run(paths_of_outer_parts);
  return 0;
}
