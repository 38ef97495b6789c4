/* blocktri.h: libblocktri 1.0, the structural analysis of a sparse matrix: structural rank, maximum matching, Dulmage-Mendelsohn
 * decomposition, block triangular form, and diagonals of greatest weight.
 *
 * C99 or later, C++11 or later. Link with -lblocktri.
 *
 * Each answer is proved correct; that an answer comes, threads, the heap, and calls.c are tested. For every input, what this file says
 * of a status is proved of the code below calls.c. calls.c passes your arguments on to it: calls.c handles null pointers, limits, the
 * width of indices, the struct of sizes, texts and the version, and computes no answer.
 *
 * TWO WIDTHS. Each call exists twice: with int32_t indices, and with int64_t indices under a name that ends in _64. Indices count
 * from 0.
 *
 * THE MATRIX. Five arguments give it, and nothing in them is trusted:
 *
 *   rows, columns  its size.
 *   starts         columns + 1 numbers. The first is 0, none is less than the one before it, and the last is ids_length. Column j
 *                  has the row numbers ids[starts[j]], .., ids[starts[j + 1] - 1].
 *   ids            row numbers. Within a column they may rise, fall or stand in any order. A place that is given several times is one
 *                  entry.
 *   ids_length     how many row numbers there are.
 *
 * These are compressed columns, as CXSparse, KLU and SciPy's csc_matrix have them. With the flag BLOCKTRI_BY_ROWS they are compressed
 * rows: starts has rows + 1 numbers, and ids are column numbers. The outputs have the same meaning either way.
 *
 * rows, columns and ids_length are each at most 2,147,483,647, and in the _64 calls at most 4,294,967,295.
 *
 * NULL. Any output may be NULL, and fault too: the call then leaves that output out and writes all others. What nobody asks for is
 * not computed: the fine blocks if all of the orders and starts are NULL, the connected components if both lists of components are
 * NULL, prices that fit 64 bits if both lists of prices are NULL. starts may be NULL if it would tell of 0 columns (by rows: of 0
 * rows), and ids and values if ids_length is 0. No other pointer may be NULL.
 *
 * Pointers must be aligned for their type, and lists as long as this file says. What a call writes must not overlap with anything
 * else that it is passed. While a call runs, no other thread may write what it reads, or use what it writes.
 *
 * THREADS. A call starts no thread, takes no lock and keeps nothing. Calls may run at the same time, each with outputs of its own.
 * A call cannot be cancelled: it runs to its end.
 *
 * MEMORY comes from malloc and realloc, and the call frees all of it before it returns.
 *
 * FORK AND SIGNALS. Never call from the forked child of a process that has had more than one thread, unless the child has called exec.
 * Do not call from a signal handler.
 *
 * HOW MUCH MEMORY. The most that a call holds at one time, beyond your arrays: so many bytes for each row, column and id, and 4,096
 * more, in both widths, and by rows too unless a line of its own says otherwise. Measured, not proved. Most matrices take less: a
 * list that grows doubles, both lists are held while it moves, and the figures are of matrices for which that comes at its worst.
 *
 *   call                 row  column   id
 *   rank                   8      36   16
 *   matching               8      36   16
 *   matching, LEAST       20      40   16
 *   decomposition         44      56   16
 *   dmperm                44      56   16
 *   block_order           20      56   16
 *   order_by              20      56   16
 *   heaviest               8      40  124
 *   bottleneck            16      60   40
 *   bottleneck by rows    16      60   72
 *
 * tests/memory.c reads this table and measures each call against it.
 *
 * STACK. A call needs at most 64 KiB of stack, whatever the matrix.
 *
 * WORK. One unit is a look at each row, column and id. Reading the matrix takes a fixed number of units, and the time to sort
 * the columns whose ids do not rise. A square matrix by columns is read in place, and nothing of it is sorted, if its diagonal is
 * full, or if a first look, in which each column takes the first of its rows that no column before it took, matches every column.
 * Each call tells below what it takes beyond that.
 */
#ifndef BLOCKTRI_H
#define BLOCKTRI_H

#include <stdint.h>

#ifdef __cplusplus
extern "C" {
#endif

/* The version of this header. blocktri_version() gives that of the library that is linked. A library with the same major version
 * and a later minor one serves programs that were compiled with this header. */
#define BLOCKTRI_VERSION_MAJOR 1
#define BLOCKTRI_VERSION_MINOR 0
#define BLOCKTRI_VERSION_PATCH 0
#define BLOCKTRI_VERSION (BLOCKTRI_VERSION_MAJOR * 1000000 + BLOCKTRI_VERSION_MINOR * 1000 + BLOCKTRI_VERSION_PATCH)

int32_t blocktri_version(void);

/* What a call returns. At BLOCKTRI_OK there is an answer, and *fault keeps its value. At any other status there is none: the call
 * has written nothing but *fault at 4, 20, 21, 25 and 27, and *rank of blocktri_block_order at 1.
 *
 * If several things are wrong, the call returns the first of: 25, 23, 20, 21, 4, 2, 27, 1, 24. A call may return 7 instead of any answer
 * or refusal from 4 on in this list. Numbers that are missing here are never used, or are kept for later versions. */
enum blocktri_status {
  BLOCKTRI_OK = 0,

  /* The matrix is square, but its structural rank is less than its size. */
  BLOCKTRI_SINGULAR = 1,

  BLOCKTRI_NOT_SQUARE = 2,

  /* The values of one place add up to more than 9,223,372,036,854,775,807 in magnitude. ids[*fault] is the first id of that place.
   * Of several such places it is the one in the least column, and there in the least row; by rows too. */
  BLOCKTRI_SUM_LIMIT = 4,

  BLOCKTRI_OUT_OF_MEMORY = 7,

  /* starts[*fault] is the first start that is wrong: the first start is not 0, a start is less than the one before it, or the last
   * start is not ids_length. A negative number counts as greater than all others: so the call tells the start behind it, unless it is
   * the first or the last one. */
  BLOCKTRI_BAD_START = 20,

  /* The starts are right, and ids[*fault] is the first id out of range: negative, or not less than rows (by rows: columns). */
  BLOCKTRI_BAD_ROW = 21,

  /* rows, columns or ids_length is negative, or greater than its limit. */
  BLOCKTRI_BAD_SIZE = 23,

  /* No prices of 64 bits prove that the diagonal is heaviest. */
  BLOCKTRI_PRICE_LIMIT = 24,

  /* An argument cannot be taken: it is NULL and must not be, flags has a bit that this call does not know, or sizes->size is too
   * small. *fault is the number of the first such argument, counted from 1. */
  BLOCKTRI_BAD_ARGUMENT = 25,

  /* Column *fault is the first whose given row cannot be taken: it is no row, or a column before has it. */
  BLOCKTRI_BAD_PAIR = 27
};

/* A sentence for a status, also for numbers that are no status. Never NULL. */
const char *blocktri_text(int32_t status);

/* No row, no column, no component. */
#define BLOCKTRI_NONE (-1)

/* Flags, to be joined with |. Each call names those that it knows, and refuses all others with BLOCKTRI_BAD_ARGUMENT. */
#define BLOCKTRI_LEAST UINT32_C(1)
#define BLOCKTRI_START UINT32_C(2)    /* for a later version: no call knows it yet */
#define BLOCKTRI_COMPLETE UINT32_C(4) /* order a singular matrix too */
#define BLOCKTRI_BY_ROWS UINT32_C(8)  /* the lists are compressed rows; every call knows it */

/* STRUCTURAL RANK: how many rows can be paired with columns by entries, no row and no column twice. It is the greatest rank of all
 * matrices with these entries. (The latter is a theorem of the literature, not proved here.)
 *
 *   flags  BLOCKTRI_BY_ROWS.
 *   *rank  gets the structural rank.
 *
 * Statuses: 0, 7, 20, 21, 23, 25.
 * Work: one look at the ids if pairing each column with the first free row is enough; else at most 128 passes, and then at most
 * 2 sqrt(rank) + 2 more, each of two units. */
int32_t blocktri_rank(int32_t rows, int32_t columns, const int32_t *starts, const int32_t *ids, int32_t ids_length, uint32_t flags,
                      int32_t *rank, int64_t *fault);
int32_t blocktri_rank_64(int64_t rows, int64_t columns, const int64_t *starts, const int64_t *ids, int64_t ids_length,
                         uint32_t flags, int64_t *rank, int64_t *fault);

/* MAXIMUM MATCHING: as many pairs as the structural rank.
 *
 *   flags          BLOCKTRI_BY_ROWS, BLOCKTRI_LEAST.
 *   row_of_column  gets for each column its row, or BLOCKTRI_NONE.
 *   column_of_row  gets for each row its column, or BLOCKTRI_NONE.
 *   *size          gets the number of pairs.
 *
 * With BLOCKTRI_LEAST it is the least maximum matching: of all maximum matchings the one whose row_of_column comes first in
 * lexicographic order, with BLOCKTRI_NONE greater than every row. Each matrix has one. Without the flag it may be any maximum
 * matching, but a full natural diagonal is kept: if (j, j) is an entry for each j less than rows and columns, then row_of_column[j]
 * is j for each such j, whatever the order of the ids.
 *
 * Statuses: 0, 7, 20, 21, 23, 25.
 * Work: as blocktri_rank. With BLOCKTRI_LEAST in the worst case one look at all ids for each column besides. */
int32_t blocktri_matching(int32_t rows, int32_t columns, const int32_t *starts, const int32_t *ids, int32_t ids_length,
                          uint32_t flags, int32_t *row_of_column, int32_t *column_of_row, int32_t *size, int64_t *fault);
int32_t blocktri_matching_64(int64_t rows, int64_t columns, const int64_t *starts, const int64_t *ids, int64_t ids_length,
                             uint32_t flags, int64_t *row_of_column, int64_t *column_of_row, int64_t *size, int64_t *fault);

/* The sizes of a block triangular form. A number that is not known, because nobody asked for it, is -1.
 *
 * Set size before a call, as BLOCKTRI_SIZES_INIT does:
 *
 *     struct blocktri_sizes sizes = BLOCKTRI_SIZES_INIT;
 *
 * Later versions may add members at the end. A call writes at most as many bytes as size says, and sets size to how many it wrote. */
struct blocktri_sizes {
  uint64_t size;                 /* in bytes; at least sizeof(struct blocktri_sizes) of version 1.0, which is 168 */
  int64_t rank;                  /* the structural rank */
  int64_t horizontal_rows;       /* the horizontal part, with more columns than rows; 0 columns if there is none */
  int64_t horizontal_columns;
  int64_t square;                /* rows, and as many columns, of the square part */
  int64_t vertical_rows;         /* the vertical part, with more rows than columns; 0 rows if there is none */
  int64_t vertical_columns;
  int64_t blocks;                /* fine blocks of the square part */
  int64_t horizontal_components; /* connected components of the horizontal part */
  int64_t vertical_components;   /* connected components of the vertical part */
  int64_t nb;                    /* blocks of r and s (blocktri_dmperm alone) */
  int64_t rr[5];                 /* 0, horizontal_rows, horizontal_rows + square, rank, rows */
  int64_t cc[5];                 /* 0, columns - rank, horizontal_columns, horizontal_columns + square, columns */
};

#define BLOCKTRI_SIZES_INIT {sizeof(struct blocktri_sizes), 0, 0, 0, 0, 0, 0, 0, 0, 0, 0, {0, 0, 0, 0, 0}, {0, 0, 0, 0, 0}}

/* DULMAGE-MENDELSOHN DECOMPOSITION, with the fine blocks of its square part and the connected components of its outer parts, as
 * orders in which the matrix is block upper triangular.
 *
 *   flags             BLOCKTRI_BY_ROWS.
 *   row_order         gets the rows, column_order the columns: first the horizontal part, then the blocks, then the vertical part.
 *                     Within a part and within a block the numbers rise. Row i of the form is row row_order[i] of the matrix.
 *   block_starts      has room for columns + 1 numbers. Block b has the rows of the form from horizontal_rows + block_starts[b] up
 *                     to but not horizontal_rows + block_starts[b + 1], and the columns from horizontal_columns + block_starts[b] up
 *                     to but not horizontal_columns + block_starts[b + 1]. The call writes blocks + 1 numbers and leaves the rest of
 *                     the list as it is.
 *   row_component     gets for each row, column_component for each column, the number of its connected component in its outer part,
 *                     or BLOCKTRI_NONE in the square part. Two rows or columns of an outer part are in one component if a chain of
 *                     entries of that part leads from one to the other. Each part counts from 0: the horizontal part in the order
 *                     of the least column of each component, the vertical part in the order of the least row.
 *   sizes             gets the sizes. nb is -1; blocks is -1 if both orders and block_starts are NULL; both numbers of components are
 *                     -1 if both lists of components are NULL.
 *
 * Each matrix has one decomposition, and these orders of it. Within a block the diagonal may have zeros: blocktri_dmperm and
 * blocktri_block_order have none.
 *
 * Statuses: 0, 7, 20, 21, 23, 25.
 * Work: as blocktri_rank, and a fixed number of units. */
int32_t blocktri_decomposition(int32_t rows, int32_t columns, const int32_t *starts, const int32_t *ids, int32_t ids_length,
                               uint32_t flags, int32_t *row_order, int32_t *column_order, int32_t *block_starts,
                               int32_t *row_component, int32_t *column_component, struct blocktri_sizes *sizes, int64_t *fault);
int32_t blocktri_decomposition_64(int64_t rows, int64_t columns, const int64_t *starts, const int64_t *ids, int64_t ids_length,
                                  uint32_t flags, int64_t *row_order, int64_t *column_order, int64_t *block_starts,
                                  int64_t *row_component, int64_t *column_component, struct blocktri_sizes *sizes, int64_t *fault);

/* The same decomposition in the form of CXSparse's cs_dmperm and MATLAB's dmperm, with a maximum matching along the diagonal.
 *
 *   flags             BLOCKTRI_BY_ROWS.
 *   p                 gets the rows in their order, q the columns: p[x] is the row that the matching pairs with column
 *                     q[columns - rank + x], for each x less than rank. q has first the unmatched columns, rising; then the other
 *                     columns of the horizontal part; then the blocks; then the vertical part. Within each of these the columns rise.
 *                     p ends with the unmatched rows, rising.
 *   r, s              have room for min(rows, columns) + 2 numbers each. Block b of the form has rows r[b] up to but not r[b + 1] of
 *                     p, and columns s[b] up to but not s[b + 1] of q. The first block is the horizontal part if that has a column,
 *                     and the last one the vertical part if that has a row. The call writes nb + 1 numbers to each, and leaves the
 *                     rest as it is.
 *   row_of_column     gets the matching: for each column its row, or BLOCKTRI_NONE. A full natural diagonal is kept, as by
 *                     blocktri_matching.
 *   row_component     as in blocktri_decomposition, and column_component too.
 *   sizes             gets the sizes; cc and rr are those of cs_dmperm. nb and blocks are -1 if p, q, r and s are all NULL; the
 *                     numbers of components are -1 if both lists of components are NULL.
 *
 * Statuses: 0, 7, 20, 21, 23, 25.
 * Work: as blocktri_decomposition. */
int32_t blocktri_dmperm(int32_t rows, int32_t columns, const int32_t *starts, const int32_t *ids, int32_t ids_length, uint32_t flags,
                        int32_t *p, int32_t *q, int32_t *r, int32_t *s, int32_t *row_of_column, int32_t *row_component,
                        int32_t *column_component, struct blocktri_sizes *sizes, int64_t *fault);
int32_t blocktri_dmperm_64(int64_t rows, int64_t columns, const int64_t *starts, const int64_t *ids, int64_t ids_length,
                           uint32_t flags, int64_t *p, int64_t *q, int64_t *r, int64_t *s, int64_t *row_of_column,
                           int64_t *row_component, int64_t *column_component, struct blocktri_sizes *sizes, int64_t *fault);

/* BLOCK ORDER of a square matrix: what a sparse LU factorisation by blocks needs, as KLU needs btf_order. In these orders the matrix
 * is block upper triangular. If its structural rank is full, it has an entry at each place of the diagonal.
 *
 *   flags          BLOCKTRI_BY_ROWS, BLOCKTRI_COMPLETE.
 *   column_order   gets the columns as blocktri_decomposition orders them, row_order the rows: row_order[k] is the row that the
 *                  matching pairs with column_order[k].
 *   block_starts   has room for columns + 1 numbers. Block b has the places block_starts[b] up to but not block_starts[b + 1] of both
 *                  orders. The call writes *blocks + 1 numbers and leaves the rest of the list as it is.
 *   row_of_column  gets for each column its row. A full natural diagonal is kept, as by blocktri_matching.
 *   *blocks        gets the number of blocks, or -1 if row_order, column_order and block_starts are all NULL.
 *   *rank          gets the structural rank, at BLOCKTRI_SINGULAR too.
 *
 * With BLOCKTRI_COMPLETE a singular matrix is ordered too, and status 1 does not occur:
 *
 *   - The unmatched rows and the unmatched columns, both rising, are paired in step: the first with the first, and so on. None of
 *     these pairs is an entry, but they count as entries: the blocks are those of the matrix with these entries added.
 *   - row_order has the blocks in the order in which blocktri_decomposition has them for that matrix, and in each block the rows
 *     rise. column_order[k] is the column that is paired with row_order[k]. At full rank too, in place of columns that rise.
 *   - row_of_column has BLOCKTRI_NONE for the unmatched columns. So *rank places of the diagonal have an entry.
 *
 * Which blocks a singular matrix has then depends on the matching, which may be any maximum one.
 *
 * Statuses: 0, 1, 2, 7, 20, 21, 23, 25.
 * Work: as blocktri_decomposition. */
int32_t blocktri_block_order(int32_t rows, int32_t columns, const int32_t *starts, const int32_t *ids, int32_t ids_length,
                             uint32_t flags, int32_t *row_order, int32_t *column_order, int32_t *block_starts,
                             int32_t *row_of_column, int32_t *blocks, int32_t *rank, int64_t *fault);
int32_t blocktri_block_order_64(int64_t rows, int64_t columns, const int64_t *starts, const int64_t *ids, int64_t ids_length,
                                uint32_t flags, int64_t *row_order, int64_t *column_order, int64_t *block_starts,
                                int64_t *row_of_column, int64_t *blocks, int64_t *rank, int64_t *fault);

/* ORDER BY GIVEN PAIRS of a square matrix: the orders that blocktri_block_order gives with BLOCKTRI_COMPLETE, for pairs of yours, as
 * btf_strongcomp finds them.
 *
 *   flags          BLOCKTRI_BY_ROWS.
 *   row_of_column  has for each column the row that is paired with it, each row once. It may be NULL if columns is 0. A pair need
 *                  not be an entry, but counts as one: the blocks are those of the matrix with these entries added.
 *   row_order      gets the rows: the blocks in the order in which blocktri_decomposition has them for that matrix, and in each
 *                  block the rows rise. column_order[k] gets the column that is paired with row_order[k].
 *   block_starts   as in blocktri_block_order.
 *   *blocks        gets the number of blocks.
 *
 * Each matrix with such pairs has one answer.
 *
 * Statuses: 0, 2, 7, 20, 21, 23, 25, 27.
 * Work: a fixed number of units. */
int32_t blocktri_order_by(int32_t rows, int32_t columns, const int32_t *starts, const int32_t *ids, int32_t ids_length,
                          uint32_t flags, const int32_t *row_of_column, int32_t *row_order, int32_t *column_order,
                          int32_t *block_starts, int32_t *blocks, int64_t *fault);
int32_t blocktri_order_by_64(int64_t rows, int64_t columns, const int64_t *starts, const int64_t *ids, int64_t ids_length,
                             uint32_t flags, const int64_t *row_of_column, int64_t *row_order, int64_t *column_order,
                             int64_t *block_starts, int64_t *blocks, int64_t *fault);

/* VALUES. The two calls below take one value for each id. The weight of a place is the magnitude of the sum of its values. Both look
 * for a perfect matching of a square matrix: each row paired with a column by an entry. */

/* A sum of weights: low + 2^64 * high. */
struct blocktri_sum {
  uint64_t low;
  uint64_t high;
};

/* HEAVIEST DIAGONAL: a perfect matching with the greatest sum of weights, and prices that prove it.
 *
 *   values          has ids_length numbers.
 *   flags           BLOCKTRI_BY_ROWS.
 *   row_of_column   gets for each column its row.
 *   row_prices      gets a price for each row, column_prices one for each column. Each entry (i, j) weighs at most
 *                   row_prices[i] + column_prices[j], and each pair of the matching exactly that, so no perfect matching weighs
 *                   more. (Add them in 128 bits: the sum of two prices may pass 64.)
 *   sum             gets the sum of the weights.
 *   *rank, *columns_count
 *                   get -1, and column_set is left as it is: they are for a later version.
 *
 * BLOCKTRI_PRICE_LIMIT means that no such prices fit 64 bits. If row_prices and column_prices are both NULL, the call does not
 * return it.
 *
 * Statuses: 0, 1, 2, 4, 7, 20, 21, 23, 24, 25.
 * Work: at most two maximum matchings and the fine blocks; then searches, each of which matches at least one column more and looks at
 * each id at most three times. If the prices that they leave do not fit, at most one look at all ids for each row besides. */
int32_t blocktri_heaviest(int32_t rows, int32_t columns, const int32_t *starts, const int32_t *ids, int32_t ids_length,
                          const int64_t *values, uint32_t flags, int32_t *row_of_column, int64_t *row_prices,
                          int64_t *column_prices, struct blocktri_sum *sum, int32_t *rank, int32_t *column_set,
                          int32_t *columns_count, int64_t *fault);
int32_t blocktri_heaviest_64(int64_t rows, int64_t columns, const int64_t *starts, const int64_t *ids, int64_t ids_length,
                             const int64_t *values, uint32_t flags, int64_t *row_of_column, int64_t *row_prices,
                             int64_t *column_prices, struct blocktri_sum *sum, int64_t *rank, int64_t *column_set,
                             int64_t *columns_count, int64_t *fault);

/* BOTTLENECK DIAGONAL: a perfect matching whose least weight is greatest, and columns that prove it.
 *
 *   values          has ids_length numbers.
 *   flags           BLOCKTRI_BY_ROWS.
 *   row_of_column   gets for each column its row.
 *   *least          gets the least weight, which is 0 if there are no pairs.
 *   column_set      has room for one number a column. It gets *columns_count columns, rising. They are more than the rows in which
 *                   they have entries of a weight above *least, so each perfect matching has a pair of weight *least or less. (A
 *                   matrix without columns has none.) The call leaves the rest of the list as it is.
 *   *columns_count  gets how many columns column_set has.
 *   *rank           gets -1: it is for a later version.
 *
 * Statuses: 0, 1, 2, 4, 7, 20, 21, 23, 25.
 * Work: at most three maximum matchings, and one for each binary digit of the number of distinct weights. */
int32_t blocktri_bottleneck(int32_t rows, int32_t columns, const int32_t *starts, const int32_t *ids, int32_t ids_length,
                            const int64_t *values, uint32_t flags, int32_t *row_of_column, int64_t *least, int32_t *rank,
                            int32_t *column_set, int32_t *columns_count, int64_t *fault);
int32_t blocktri_bottleneck_64(int64_t rows, int64_t columns, const int64_t *starts, const int64_t *ids, int64_t ids_length,
                               const int64_t *values, uint32_t flags, int64_t *row_of_column, int64_t *least, int64_t *rank,
                               int64_t *column_set, int64_t *columns_count, int64_t *fault);

#ifdef __cplusplus
}
#endif

#endif
