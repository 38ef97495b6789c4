/* Memory: each allocation is refused in turn, and then the status says so and nothing is written; every call frees all of it; and none
 * holds more than the table in blocktri.h says.
 *
 *     static_memory measure     prints what each call held on each matrix, in place of comparing it */
#include <malloc.h>

#include "check.h"

static long calls, failing_at;
static int64_t live, most; /* bytes */

void *__real_malloc(size_t size);
void *__real_realloc(void *old, size_t size);
void __real_free(void *old);
void *__wrap_malloc(size_t size);
void *__wrap_realloc(void *old, size_t size);
void __wrap_free(void *old);

static int64_t bytes_of(void *block) { return block == NULL ? 0 : (int64_t)malloc_usable_size(block); }

static void *begun(void *block, int64_t old_bytes) {
  live += bytes_of(block);
  if (live > most) most = live;
  live -= old_bytes;
  return block;
}

void *__wrap_malloc(size_t size) { return ++calls == failing_at ? NULL : begun(__real_malloc(size), 0); }

/* while a block moves both are held */
void *__wrap_realloc(void *old, size_t size) {
  int64_t old_bytes = bytes_of(old);
  if (++calls == failing_at) return NULL;
  void *block = __real_realloc(old, size);
  return block == NULL ? NULL : begun(block, old_bytes);
}

void __wrap_free(void *old) {
  live -= bytes_of(old);
  __real_free(old);
}

/* the fourth column falls, and the rank is less than the sides, so that every part of the work is done */
static struct matrix parts = {
    .rows = 4, .columns = 4, .count = 7, .starts = {0, 1, 2, 4, 7}, .ids = {0, 0, 1, 0, 3, 1, 2}};

/* a cycle in which the first look leaves the last column unmatched, so that a search has to match it */
static struct matrix cycle = {
    .rows = 3, .columns = 3, .count = 5, .starts = {0, 2, 3, 5}, .ids = {0, 1, 2, 0, 2}, .values = {1, 5, 2, 4, 3}};

static void refuse_in_turn(enum call call, const struct matrix *a, uint32_t flags, bool is_wide) {
  long refusals = 0;
  for (failing_at = 1;; failing_at++) {
    int64_t before = live;
    calls = 0;
    struct answer got = is_wide ? answer_of_64(call, a, flags, 0) : answer_of(call, a, flags, 0);
    struct answer kept = untouched(call, BLOCKTRI_OUT_OF_MEMORY);
    CHECK(live == before);
    if (calls < failing_at) {
      CHECK(got.status == BLOCKTRI_OK);
      break;
    }
    CHECK(memcmp(&got, &kept, sizeof got) == 0);
    refusals++;
  }
  CHECK(refusals > 0);
  failing_at = 0;
}

static void refusals(void) {
  widen(&parts), widen(&cycle);
  for (int call = 0; call < CALLS; call++)
    for (int is_wide = 0; is_wide < 2; is_wide++) {
      bool is_square = call >= BLOCK_ORDER;
      struct matrix turned = by_rows(is_square ? &cycle : &parts);
      refuse_in_turn((enum call)call, is_square ? &cycle : &parts, 0, is_wide == 1);
      refuse_in_turn((enum call)call, &turned, BLOCKTRI_BY_ROWS, is_wide == 1);
      if (call == MATCHING) refuse_in_turn(MATCHING, &parts, BLOCKTRI_LEAST, is_wide == 1);
      if (call == BLOCK_ORDER) refuse_in_turn(BLOCK_ORDER, &parts, BLOCKTRI_COMPLETE, is_wide == 1);
    }
}

/* Large matrices. The side is a little above a power of two: a list that doubles as it grows has most to spare there. */
enum { SIDE = 2050, IDS = 16 * SIDE, DENSE_SIDE = 200 };

#include "large.h"

static uint64_t state;

static const char *const names[CASES] = {"rank",        "matching",    "matching, LEAST", "decomposition", "dmperm",
                                         "block_order", "block_order", "order_by",        "heaviest",      "bottleneck"};

/* the shapes of matrices: each has one of the sides, the ids, or the work of one part of the analysis at its greatest */
enum shape {
  ROWS_ALONE,
  COLUMNS_ALONE,
  FALLING_COLUMN,
  LONG_COLUMN,
  DIAGONAL,
  FALLING_TRIANGLE,
  LADDER,
  RING,
  PATH,
  BAND,
  RANDOM_2,
  RANDOM_4,
  RANDOM_15,
  WIDE,
  TALL,
  TWICE,
  SHAPES
};

static const char *const shapes[SHAPES] = {"rows alone",       "columns alone", "falling column", "long column", "diagonal",
                                           "falling triangle", "ladder",        "ring",           "path",        "band",
                                           "random 2",         "random 4",      "random 15",      "wide",        "tall",
                                           "twice"};

static int32_t width_of(enum shape shape) {
  switch (shape) {
    case ROWS_ALONE:
    case FALLING_COLUMN: return 1;
    case FALLING_TRIANGLE:
    case LADDER: return DENSE_SIDE;
    case PATH: return SIDE - 1;
    case TALL: return SIDE / 10;
    default: return SIDE;
  }
}

static int32_t height_of(enum shape shape) {
  switch (shape) {
    case COLUMNS_ALONE: return 1;
    case FALLING_TRIANGLE:
    case LADDER: return DENSE_SIDE;
    case WIDE: return SIDE / 10;
    default: return SIDE;
  }
}

/* how many ids a column has */
static int32_t length_of(enum shape shape, int32_t column) {
  switch (shape) {
    case ROWS_ALONE:
    case COLUMNS_ALONE: return 0;
    case FALLING_COLUMN: return 8 * rows;
    case LONG_COLUMN: return column == 0 ? 8 * rows : column % 2 == 0 ? 3 : 0;
    case DIAGONAL: return 1;
    case FALLING_TRIANGLE: return column + 1;
    case LADDER: return column == 0 ? rows - 1 : column + 1 < columns ? rows - column : 2;
    case RING: return column + 1 < columns ? 2 : 1;
    case PATH:
    case RANDOM_2: return 2;
    case BAND:
    case TWICE: return 8;
    case RANDOM_15: return 15;
    default: return 4;
  }
}

static int32_t id_of(enum shape shape, int32_t column, int32_t k) {
  switch (shape) {
    case DIAGONAL: return column;
    case FALLING_COLUMN: return rows - 1 - k / 8;
    case LONG_COLUMN: return column == 0 ? (8 * rows - 1 - k) / 32 : draw_from(&state, rows / 4);
    case FALLING_TRIANGLE: return column - k;
    case LADDER: return (column == 0 ? k + 1 : column + k) % rows;
    case RING: return column + 1 < columns ? column + k : 0;
    case PATH: return column + k;
    case BAND: return (column + k * k) % rows;
    case TWICE: return (column + k / 2) % rows;
    default: return draw_from(&state, rows);
  }
}

/* Values that take few distinct weights, or many and large ones. In the ladder the first column has to be paired with the first row,
 * which lies behind all the others, and each step of the search for it comes nearer to all rows beyond. */
static int64_t value_of(enum shape shape, int32_t column, int32_t row, bool is_large) {
  int64_t drawn = draw_from(&state, 1000) + 1, scale = is_large ? INT64_C(1) << 44 : 1, step = row - column;
  if (shape == LADDER) return scale * (DENSE_SIDE * DENSE_SIDE - (row == 0 ? 0 : step * step));
  return is_large ? (INT64_MAX >> 5) - drawn * draw_from(&state, INT32_MAX) : drawn;
}

/* the same lists in both widths; by rows they give the matrix with rows and columns exchanged */
static void make(enum shape shape, bool is_large) {
  state = 9;
  rows = height_of(shape), columns = width_of(shape), count = 0;
  for (int32_t c = 0; c < columns; c++) {
    for (int32_t k = 0; k < length_of(shape, c); k++) {
      ids_64[count] = ids[count] = id_of(shape, c, k);
      values[count] = value_of(shape, c, ids[count], is_large);
      count++;
    }
    starts_64[c + 1] = starts[c + 1] = count;
  }
}

/* bytes for each row, column and id, as blocktri.h tells them */
struct figures {
  long row, column, id;
};

static struct figures figures_of(const char *name) {
  FILE *header = fopen("blocktri.h", "r");
  char line[200], wanted[200];
  struct figures figures = {0, 0, 0};
  bool are_told = false;
  CHECK(header != NULL);
  snprintf(wanted, sizeof wanted, " *   %-18s ", name);
  while (!are_told && fgets(line, sizeof line, header) != NULL)
    if (strncmp(line, wanted, strlen(wanted)) == 0)
      are_told = sscanf(line + strlen(wanted), "%ld %ld %ld", &figures.row, &figures.column, &figures.id) == 3;
  fclose(header);
  CHECK(are_told);
  return figures;
}

/* the most that a call held while it worked on the matrix */
static int64_t held(int which, uint32_t flags, bool is_wide) {
  int64_t before = live;
  most = live;
  int32_t status = is_wide ? call_case_64(which, flags) : call_case(which, flags);
  CHECK(status == BLOCKTRI_OK || status == BLOCKTRI_SINGULAR || status == BLOCKTRI_NOT_SQUARE);
  CHECK(live == before);
  return most - before;
}

static int64_t bound(const struct figures *figures) {
  return 4096 + figures->row * rows + figures->column * columns + figures->id * count;
}

static void print_held(int which, enum shape shape, bool is_large, bool is_by_rows, bool is_wide, int64_t bytes) {
  printf("%-16s %-16s %-6s %-7s %-6s %6" PRId32 " rows %6" PRId32 " columns %7" PRId32 " ids: %9" PRId64 "\n", names[which],
         shapes[shape], is_large ? "large" : "", is_by_rows ? "by rows" : "", is_wide ? "_64" : "", rows, columns, count, bytes);
}

/* One call on one matrix in both widths, and on the matrix that its lists give by rows, which has rows and columns exchanged. */
static void compare_with_figures(int which, enum shape shape, bool is_large, bool is_measured) {
  make(shape, is_large);
  for (int is_by_rows = 0; is_by_rows < 2; is_by_rows++) {
    int32_t height = rows;
    if (is_by_rows == 1) rows = columns, columns = height;
    about = is_by_rows == 1 && which == BOTTLENECK_CASE ? "bottleneck by rows" : names[which];
    struct figures figures = figures_of(about);
    for (int is_wide = 0; is_wide < 2; is_wide++) {
      int64_t bytes = held(which, is_by_rows == 1 ? BLOCKTRI_BY_ROWS : 0, is_wide == 1);
      if (is_measured) print_held(which, shape, is_large, is_by_rows == 1, is_wide == 1, bytes);
      if (!is_measured) CHECK(bytes <= bound(&figures));
    }
  }
}

int main(int argc, char **argv) {
  bool is_measured = argc == 2 && strcmp(argv[1], "measure") == 0;
  if (!is_measured) refusals();
  for (int which = 0; which < CASES; which++)
    for (int shape = 0; shape < SHAPES; shape++) {
      compare_with_figures(which, (enum shape)shape, false, is_measured);
      if (which >= HEAVIEST_CASE) compare_with_figures(which, (enum shape)shape, true, is_measured);
    }
  return 0;
}
