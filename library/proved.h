/* proved.h: the proved exports of crates/blocktri_c, which calls.c calls. Neither library shows these names.
 *
 * A list is a pointer and the number of its elements. No pointer may be null, not even that of an empty list. A list to be written has
 * the length that its call asks for, or length 0 if it is not wanted. At status 0 a call writes what it is asked for; at any other
 * status it writes nothing, but *fault at 4, 20, 21 and 27, and what a call names below.
 *
 * by_rows says that the lists are compressed rows: then others is the number of columns, and ids are column numbers. Without it others
 * is the number of rows, and ids are row numbers. Numbers of rows, columns and components have 32 bits in both widths; UINT32_MAX
 * stands for none. */
#ifndef PROVED_H
#define PROVED_H

#include <stdbool.h>
#include <stddef.h>
#include <stdint.h>

/* The statuses: 0 there is an answer; 1 singular; 2 not square; 4 sum limit; 7 out of memory; 20 bad start; 21 bad row; 22 a list to
 * be written has a wrong length; 23 too many rows; 24 price limit; 27 bad pair. */

/* -1 stands for a number that is not known, since it was not wanted. */
struct proved_sizes {
  int64_t rank, horizontal_rows, horizontal_columns, square, vertical_rows, vertical_columns;
  int64_t blocks, horizontal_components, vertical_components;
};

struct proved_sum {
  uint64_t low, high;
};

/* The matrix in each width, a list to be written, and one of prices. */
#define NARROW uint32_t others, const uint32_t *starts, size_t starts_length, const uint32_t *ids, size_t ids_length
#define WIDE uint64_t others, const uint64_t *starts, size_t starts_length, const uint64_t *ids, size_t ids_length
#define LIST(name) uint32_t *name, size_t name##_length
#define PRICES(name) int64_t *name, size_t name##_length

#define RANK bool by_rows, uint32_t *rank, uint64_t *fault
int32_t proved_rank(NARROW, RANK);
int32_t proved_rank_64(WIDE, RANK);

/* row_of_column: columns; column_of_row: rows. */
#define MATCHING bool by_rows, bool is_least, LIST(row_of_column), LIST(column_of_row), uint32_t *size, uint64_t *fault
int32_t proved_matching(NARROW, MATCHING);
int32_t proved_matching_64(WIDE, MATCHING);

/* row_order and row_component: rows; column_order and column_component: columns; block_starts: columns + 1. Without wants_blocks no
 * orders and no starts are written, and sizes->blocks is -1; without wants_components no components are written, and their numbers are
 * -1. */
#define DECOMPOSITION \
  bool by_rows, bool wants_blocks, bool wants_components, LIST(row_order), LIST(column_order), LIST(block_starts), \
      LIST(row_component), LIST(column_component), struct proved_sizes *sizes, uint64_t *fault
int32_t proved_decomposition(NARROW, DECOMPOSITION);
int32_t proved_decomposition_64(WIDE, DECOMPOSITION);

/* p: rows; q: columns; r and s: the lesser of rows and columns, and 2 more; row_of_column and column_component: columns;
 * row_component: rows. Without wants_blocks p, q, r and s are not written, and sizes->blocks is -1; without wants_components as above. */
#define DMPERM \
  bool by_rows, bool wants_blocks, bool wants_components, LIST(p), LIST(q), LIST(r), LIST(s), LIST(row_of_column), \
      LIST(row_component), LIST(column_component), struct proved_sizes *sizes, uint64_t *fault
int32_t proved_dmperm(NARROW, DMPERM);
int32_t proved_dmperm_64(WIDE, DMPERM);

/* row_order: rows; column_order and row_of_column: columns; block_starts: columns + 1. Without wants_blocks the orders and starts are
 * not written, and *blocks gets UINT32_MAX. At status 1 *rank is written. */
#define BLOCK_ORDER \
  bool by_rows, bool wants_blocks, LIST(row_order), LIST(column_order), LIST(block_starts), LIST(row_of_column), uint32_t *blocks, \
      uint32_t *rank, uint64_t *fault
int32_t proved_block_order(NARROW, BLOCK_ORDER);
int32_t proved_block_order_64(WIDE, BLOCK_ORDER);

/* The same lists. There is no status 1: unmatched rows and columns are paired. */
int32_t proved_completed_order(NARROW, BLOCK_ORDER);
int32_t proved_completed_order_64(WIDE, BLOCK_ORDER);

/* pairs and column_order: columns; row_order: rows; block_starts: columns + 1. pairs are read, and have the width of ids. */
#define ORDER_BY(U) \
  bool by_rows, const U *pairs, size_t pairs_length, LIST(row_order), LIST(column_order), LIST(block_starts), uint32_t *blocks, \
      uint64_t *fault
int32_t proved_order_by(NARROW, ORDER_BY(uint32_t));
int32_t proved_order_by_64(WIDE, ORDER_BY(uint64_t));

/* values: ids_length; row_of_column and column_prices: columns; row_prices: rows. If both lists of prices have length 0 there is no
 * status 24. */
#define HEAVIEST \
  const int64_t *values, size_t values_length, bool by_rows, LIST(row_of_column), PRICES(row_prices), PRICES(column_prices), \
      struct proved_sum *sum, uint64_t *fault
int32_t proved_heaviest(NARROW, HEAVIEST);
int32_t proved_heaviest_64(WIDE, HEAVIEST);

/* values: ids_length; row_of_column and columns: columns. The first *columns_count numbers of columns are written. */
#define BOTTLENECK \
  const int64_t *values, size_t values_length, bool by_rows, LIST(row_of_column), uint64_t *least, LIST(columns), \
      uint32_t *columns_count, uint64_t *fault
int32_t proved_bottleneck(NARROW, BOTTLENECK);
int32_t proved_bottleneck_64(WIDE, BOTTLENECK);

#endif
