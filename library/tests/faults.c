/* Each kind of fault at each place: its status and its place, and nothing else is written. */
#include "check.h"

static const struct matrix right = {
    .rows = 4, .columns = 4, .count = 7, .starts = {0, 1, 2, 4, 7}, .ids = {0, 0, 1, 0, 3, 1, 2}, .pairs = {0, 1, 2, 3}};

enum { NO_PLACE = -1 };

/* the answer of one width tells this status and place, and nothing else was written */
static void tells(enum call call, const struct answer *got, int64_t status, int64_t place) {
  struct answer kept = untouched(call, status);
  if (place != NO_PLACE) kept.output[FAULT][0] = place;
  CHECK(memcmp(got, &kept, sizeof kept) == 0);
}

/* every call in 32 bits, as the lists of columns and as those of rows, for the lists of a square matrix may be either */
static void narrow_refused(const struct matrix *a, int64_t status, int64_t place) {
  for (int call = 0; call < CALLS; call++)
    for (uint32_t flags = 0; flags <= BLOCKTRI_BY_ROWS; flags += BLOCKTRI_BY_ROWS) {
      struct answer got = answer_of((enum call)call, a, flags, 0);
      tells((enum call)call, &got, status, place);
      got = answer_of((enum call)call, a, flags, 1u << FAULT);
      tells((enum call)call, &got, status, NO_PLACE);
    }
}

static void wide_refused(const struct matrix *a, int64_t status, int64_t place) {
  for (int call = 0; call < CALLS; call++)
    for (uint32_t flags = 0; flags <= BLOCKTRI_BY_ROWS; flags += BLOCKTRI_BY_ROWS) {
      struct answer got = answer_of_64((enum call)call, a, flags, 0);
      tells((enum call)call, &got, status, place);
      got = answer_of_64((enum call)call, a, flags, 1u << FAULT);
      tells((enum call)call, &got, status, NO_PLACE);
    }
}

static void refused(struct matrix *a, int64_t status, int64_t place) {
  widen(a);
  narrow_refused(a, status, place);
  wide_refused(a, status, place);
}

/* numbers that are no start anywhere: of the first and the last start it is that place, of another the one behind it, since a
 * negative one counts as greater than all others */
static void starts_that_are_wrong(void) {
  static const int32_t narrow[] = {INT32_MAX, INT32_MIN, -1, 8};
  static const int64_t wide[] = {INT64_MAX, INT64_MIN, -1, 8, INT64_C(1) << 32, (INT64_C(1) << 32) + 1, (INT64_C(1) << 32) + 7};
  for (int at = 0; at <= 4; at++) {
    int64_t place = at == 0 || at == 4 ? at : at + 1;
    struct matrix a = right;
    for (size_t i = 0; i < sizeof narrow / sizeof *narrow; i++) {
      a.starts[at] = narrow[i];
      narrow_refused(&a, BLOCKTRI_BAD_START, place);
    }
    a = right;
    widen(&a);
    for (size_t i = 0; i < sizeof wide / sizeof *wide; i++) {
      a.wide_starts[at] = wide[i];
      wide_refused(&a, BLOCKTRI_BAD_START, place);
    }
    /* less than the one before it */
    if (at > 1) {
      a = right;
      a.starts[at] = a.starts[at - 1] - 1;
      refused(&a, BLOCKTRI_BAD_START, at);
    }
  }
}

static void last_starts_that_are_wrong(void) {
  struct matrix a = right;
  a.count = 6;
  refused(&a, BLOCKTRI_BAD_START, 4);
  a.count = 8;
  refused(&a, BLOCKTRI_BAD_START, 4);
  a.count = 0;
  refused(&a, BLOCKTRI_BAD_START, 4);
  a.left_out = NO_IDS | NO_VALUES;
  refused(&a, BLOCKTRI_BAD_START, 4);
  /* of no columns the one start is the last one too */
  struct matrix none = {.rows = 0, .columns = 0, .count = 1, .ids = {0}};
  refused(&none, BLOCKTRI_BAD_START, 0);
  none.left_out = NO_STARTS;
  refused(&none, BLOCKTRI_BAD_START, 0);
}

static void ids_out_of_range(void) {
  static const int32_t narrow[] = {4, INT32_MAX, -1, INT32_MIN};
  static const int64_t wide[] = {4, INT64_MAX, -1, INT64_MIN, UINT32_MAX, INT64_C(1) << 32, (INT64_C(1) << 32) + 1};
  for (int at = 0; at < right.count; at++) {
    struct matrix a = right;
    for (size_t i = 0; i < sizeof narrow / sizeof *narrow; i++) {
      a.ids[at] = narrow[i];
      narrow_refused(&a, BLOCKTRI_BAD_ROW, at);
    }
    /* a later one is told later, a wrong start before */
    a.ids[6] = -1;
    narrow_refused(&a, BLOCKTRI_BAD_ROW, at);
    a.starts[0] = 1;
    narrow_refused(&a, BLOCKTRI_BAD_START, 0);
    a = right;
    widen(&a);
    for (size_t i = 0; i < sizeof wide / sizeof *wide; i++) {
      a.wide_ids[at] = wide[i];
      wide_refused(&a, BLOCKTRI_BAD_ROW, at);
    }
  }
}

/* by columns ids are less than rows, by rows less than columns */
static void ids_of_the_other_side(void) {
  struct matrix a = {.rows = 3, .columns = 2, .count = 2, .starts = {0, 1, 2}, .ids = {1, 2}};
  widen(&a);
  struct answer got = ask(RANK, &a, 0);
  CHECK(got.status == BLOCKTRI_OK && got.output[RANK_RANK][0] == 2);
  a.rows = 2, a.columns = 3;
  got = ask(RANK, &a, BLOCKTRI_BY_ROWS);
  CHECK(got.status == BLOCKTRI_OK && got.output[RANK_RANK][0] == 2);
  a.rows = 3, a.columns = 2, a.count = 2, a.starts[3] = 2;
  widen(&a);
  got = ask(RANK, &a, BLOCKTRI_BY_ROWS);
  tells(RANK, &got, BLOCKTRI_BAD_ROW, 1);
}

/* each size at a time, which is told before a wrong start */
static void sizes_out_of_range(void) {
  static const int64_t narrow[] = {-1, INT32_MIN}, wide[] = {-1, INT64_MIN, INT64_MAX, INT64_C(1) << 32};
  for (int which = 0; which < 3; which++) {
    struct matrix a = right;
    int64_t *size = which == 0 ? &a.rows : which == 1 ? &a.columns : &a.count;
    a.starts[0] = 1;
    widen(&a);
    for (size_t i = 0; i < sizeof narrow / sizeof *narrow; i++) {
      *size = narrow[i];
      narrow_refused(&a, BLOCKTRI_BAD_SIZE, NO_PLACE);
    }
    for (size_t i = 0; i < sizeof wide / sizeof *wide; i++) {
      *size = wide[i];
      wide_refused(&a, BLOCKTRI_BAD_SIZE, NO_PLACE);
    }
  }
}

/* sizes at their limits are looked at no more than others: the wrong start is told */
static void sizes_at_their_limits(void) {
  static const int64_t sizes[] = {INT32_MAX, INT64_C(1) << 31, UINT32_MAX};
  for (size_t i = 0; i < sizeof sizes / sizeof *sizes; i++)
    for (int call = 0; call < CALLS; call++) {
      struct matrix a = right;
      a.starts[4] = 6, a.count = sizes[i];
      for (int k = 0; k <= 4; k++) a.wide_starts[k] = a.starts[k];
      a.rows = sizes[i];
      struct answer got = answer_of_64((enum call)call, &a, 0, 0);
      tells((enum call)call, &got, BLOCKTRI_BAD_START, 4);
      a.rows = 4, a.columns = sizes[i];
      got = answer_of_64((enum call)call, &a, BLOCKTRI_BY_ROWS, 0);
      tells((enum call)call, &got, BLOCKTRI_BAD_START, 4);
      if (i > 0) continue;
      got = answer_of((enum call)call, &a, BLOCKTRI_BY_ROWS, 0);
      tells((enum call)call, &got, BLOCKTRI_BAD_START, 4);
    }
}

/* the number of the argument flags */
static int64_t flags_of(enum call call) { return is_valued(call) ? 7 : 6; }

/* both widths, with an argument that cannot be taken, beside sizes and starts that are wrong and are told later */
static void bad_argument(enum call call, struct matrix a, uint32_t flags, int64_t number) {
  for (int is_worse = 0; is_worse < 2; is_worse++) {
    struct answer got = ask(call, &a, flags);
    tells(call, &got, BLOCKTRI_BAD_ARGUMENT, number);
    a.starts[0] = 1, a.rows = -1;
    widen(&a);
  }
}

static void arguments_that_cannot_be_taken(void) {
  struct matrix a = right;
  widen(&a);
  for (int k = 0; k < CALLS; k++) {
    enum call call = (enum call)k;
    for (int bit = 0; bit < 32; bit++) {
      uint32_t flag = UINT32_C(1) << bit;
      if ((flag & known_to(call)) != 0) continue;
      a.left_out = 0;
      bad_argument(call, a, flag, flags_of(call));
      bad_argument(call, a, flag | known_to(call), flags_of(call));
      /* of several the first */
      a.left_out = NO_IDS | NO_VALUES;
      bad_argument(call, a, flag, 4);
    }
    for (uint32_t flags = 0; flags <= BLOCKTRI_BY_ROWS; flags += BLOCKTRI_BY_ROWS) {
      a.left_out = NO_STARTS;
      bad_argument(call, a, flags, 3);
      a.left_out = NO_STARTS | NO_IDS | NO_VALUES;
      bad_argument(call, a, flags, 3);
      a.left_out = NO_IDS;
      bad_argument(call, a, flags, 4);
      a.left_out = NO_VALUES;
      if (is_valued(call)) bad_argument(call, a, flags, 6);
      a.left_out = NO_PAIRS;
      if (call == ORDER_BY) bad_argument(call, a, flags, 7);
    }
  }
}

/* starts may be NULL for no columns, by rows for no rows, and only there */
static void starts_of_one_side(void) {
  struct matrix a = {.rows = 2, .columns = 0, .left_out = NO_STARTS | NO_IDS | NO_VALUES};
  for (int k = 0; k < CALLS; k++) {
    enum call call = (enum call)k;
    a.rows = 2, a.columns = 0;
    struct answer got = ask(call, &a, BLOCKTRI_BY_ROWS);
    tells(call, &got, BLOCKTRI_BAD_ARGUMENT, 3);
    a.rows = 0, a.columns = 2;
    got = ask(call, &a, 0);
    tells(call, &got, BLOCKTRI_BAD_ARGUMENT, 3);
    a.rows = 0, a.columns = -1;
    got = ask(call, &a, 0);
    tells(call, &got, BLOCKTRI_BAD_ARGUMENT, 3);
  }
}

/* pairs that are none at each place, in both widths; a matrix that is not square is told before them */
static void pairs_that_are_wrong(void) {
  static const int32_t narrow[] = {4, INT32_MAX, -1, INT32_MIN};
  static const int64_t wide[] = {4, INT64_MAX, -1, INT64_MIN, UINT32_MAX, INT64_C(1) << 32, (INT64_C(1) << 32) + 3};
  for (int at = 0; at < 4; at++)
    for (uint32_t flags = 0; flags <= BLOCKTRI_BY_ROWS; flags += BLOCKTRI_BY_ROWS) {
      struct matrix a = right;
      a.has_pairs = true;
      for (size_t i = 0; i < sizeof narrow / sizeof *narrow; i++) {
        a.pairs[at] = narrow[i], a.pairs[3] = at < 3 ? -7 : narrow[i];
        struct answer got = answer_of(ORDER_BY, &a, flags, 0);
        tells(ORDER_BY, &got, BLOCKTRI_BAD_PAIR, at);
        got = answer_of(ORDER_BY, &a, flags, 1u << FAULT);
        tells(ORDER_BY, &got, BLOCKTRI_BAD_PAIR, NO_PLACE);
      }
      for (size_t i = 0; i < sizeof wide / sizeof *wide; i++) {
        a = right, a.has_pairs = true;
        widen(&a);
        a.wide_pairs[at] = wide[i];
        struct answer got = answer_of_64(ORDER_BY, &a, flags, 0);
        tells(ORDER_BY, &got, BLOCKTRI_BAD_PAIR, at);
      }
      /* a row that stood before */
      a = right, a.has_pairs = true;
      a.pairs[at] = at > 0 ? a.pairs[at - 1] : a.pairs[0];
      widen(&a);
      struct answer got = ask(ORDER_BY, &a, flags);
      if (at > 0) tells(ORDER_BY, &got, BLOCKTRI_BAD_PAIR, at);
    }
  struct matrix tall = {.rows = 4, .columns = 3, .has_pairs = true, .pairs = {-1, -1, -1}};
  widen(&tall);
  struct answer got = ask(ORDER_BY, &tall, 0);
  tells(ORDER_BY, &got, BLOCKTRI_NOT_SQUARE, NO_PLACE);
  tall.count = 1, tall.starts[3] = 1, tall.ids[0] = 4;
  widen(&tall);
  got = ask(ORDER_BY, &tall, 0);
  tells(ORDER_BY, &got, BLOCKTRI_BAD_ROW, 0);
}

static void texts(void) {
  static const int32_t statuses[] = {BLOCKTRI_OK,        BLOCKTRI_SINGULAR,     BLOCKTRI_NOT_SQUARE, BLOCKTRI_SUM_LIMIT,
                                     BLOCKTRI_OUT_OF_MEMORY, BLOCKTRI_BAD_START, BLOCKTRI_BAD_ROW,    BLOCKTRI_BAD_SIZE,
                                     BLOCKTRI_PRICE_LIMIT, BLOCKTRI_BAD_ARGUMENT, BLOCKTRI_BAD_PAIR, -1 /* no status */};
  static const int32_t numbers[] = {0, 1, 2, 4, 7, 20, 21, 23, 24, 25, 27, -1};
  size_t count = sizeof statuses / sizeof *statuses;
  for (size_t i = 0; i < count; i++) {
    CHECK(statuses[i] == numbers[i] && strlen(blocktri_text(statuses[i])) > 0);
    for (size_t j = 0; j < i; j++) CHECK(strcmp(blocktri_text(statuses[i]), blocktri_text(statuses[j])) != 0);
  }
  static const int32_t none[] = {3, 5, 6, 8, 19, 22, 26, 28, 29, INT32_MAX, INT32_MIN};
  for (size_t i = 0; i < sizeof none / sizeof *none; i++) CHECK(strcmp(blocktri_text(none[i]), blocktri_text(-1)) == 0);
}

static void version(void) {
  CHECK(BLOCKTRI_VERSION_MAJOR == 1 && BLOCKTRI_VERSION_MINOR == 0 && BLOCKTRI_VERSION_PATCH == 0);
  CHECK(BLOCKTRI_VERSION == 1000000 && blocktri_version() == 1000000);
}

int main(void) {
  starts_that_are_wrong();
  last_starts_that_are_wrong();
  ids_out_of_range();
  ids_of_the_other_side();
  sizes_out_of_range();
  sizes_at_their_limits();
  arguments_that_cannot_be_taken();
  starts_of_one_side();
  pairs_that_are_wrong();
  texts();
  version();
  return 0;
}
