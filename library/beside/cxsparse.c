/* blocktri_dmperm beside cs_dmperm of CXSparse, on random matrices: the same parts and the same sizes of blocks, and both keep what
 * blocktri.h says of p and q. In both widths, with each way in which cs_dmperm orders its search. CXSparse wants each place once. */
#define NCOMPLEX /* without complex numbers, whose header defines I */
#include <suitesparse/cs.h>

#include "tests/check.h"

enum { TIMES = 3000, SIDE = 9 };

/* one form of a matrix, from either package */
struct form {
  int64_t rows, columns, rank, nb;
  int64_t p[ROOM], q[ROOM], r[ROOM], s[ROOM], rr[5], cc[5];
};

static struct form ours(const struct matrix *a) {
  struct answer got = ask(DMPERM, a, 0);
  struct blocktri_sizes sizes = sizes_of(&got, DMPERM_SIZES);
  struct form form = {.rows = a->rows, .columns = a->columns, .rank = sizes.rank, .nb = sizes.nb};
  CHECK(got.status == BLOCKTRI_OK);
  memcpy(form.p, got.output[DMPERM_P], sizeof form.p), memcpy(form.q, got.output[DMPERM_Q], sizeof form.q);
  memcpy(form.r, got.output[DMPERM_R], sizeof form.r), memcpy(form.s, got.output[DMPERM_S], sizeof form.s);
  memcpy(form.rr, sizes.rr, sizeof form.rr), memcpy(form.cc, sizes.cc, sizeof form.cc);
  return form;
}

/* what cs_dmperm found, whose lists have numbers of either width */
#define TAKE(form, found) \
  do { \
    for (int64_t i = 0; i < (form).rows; i++) (form).p[i] = (found)->p[i]; \
    for (int64_t i = 0; i < (form).columns; i++) (form).q[i] = (found)->q[i]; \
    for (int64_t i = 0; i <= (found)->nb; i++) (form).r[i] = (found)->r[i], (form).s[i] = (found)->s[i]; \
    for (int i = 0; i < 5; i++) (form).rr[i] = (found)->rr[i], (form).cc[i] = (found)->cc[i]; \
    (form).nb = (found)->nb, (form).rank = (found)->rr[3]; \
  } while (0)

static struct form theirs(struct matrix *a, int seed) {
  cs_di lists = {.nzmax = (int)a->count, .m = (int)a->rows, .n = (int)a->columns, .p = a->starts, .i = a->ids, .nz = -1};
  cs_did *found = cs_di_dmperm(&lists, seed);
  struct form form = {.rows = a->rows, .columns = a->columns};
  CHECK(found != NULL);
  TAKE(form, found);
  cs_di_dfree(found);
  return form;
}

static struct form theirs_64(struct matrix *a, int seed) {
  cs_dl lists = {.nzmax = a->count, .m = a->rows, .n = a->columns, .p = a->wide_starts, .i = a->wide_ids, .nz = -1};
  cs_dld *found = cs_dl_dmperm(&lists, seed);
  struct form form = {.rows = a->rows, .columns = a->columns};
  CHECK(found != NULL);
  TAKE(form, found);
  cs_dl_dfree(found);
  return form;
}

static bool is_entry(const struct matrix *a, int64_t row, int64_t column) {
  for (int32_t k = a->starts[column]; k < a->starts[column + 1]; k++)
    if (a->ids[k] == row) return true;
  return false;
}

static void is_permutation(const int64_t *list, int64_t length) {
  uint32_t found = 0;
  for (int64_t i = 0; i < length; i++) {
    CHECK(list[i] >= 0 && list[i] < length && (found >> list[i] & 1) == 0);
    found |= 1u << list[i];
  }
}

/* pairs on the diagonal, and no entry below the blocks */
static void is_form(const struct matrix *a, const struct form *form) {
  is_permutation(form->p, form->rows);
  is_permutation(form->q, form->columns);
  for (int64_t x = 0; x < form->rank; x++) CHECK(is_entry(a, form->p[x], form->q[form->columns - form->rank + x]));
  CHECK(form->r[0] == 0 && form->s[0] == 0 && form->r[form->nb] == form->rows && form->s[form->nb] == form->columns);
  for (int64_t b = 0; b < form->nb; b++)
    for (int64_t x = form->r[b + 1]; x < form->rows; x++)
      for (int64_t y = form->s[b]; y < form->s[b + 1]; y++) CHECK(!is_entry(a, form->p[x], form->q[y]));
}

/* how many blocks have so many rows and so many columns */
static int count_of(const struct form *form, int64_t rows, int64_t columns) {
  int found = 0;
  for (int64_t b = 0; b < form->nb; b++)
    found += form->r[b + 1] - form->r[b] == rows && form->s[b + 1] - form->s[b] == columns;
  return found;
}

static void are_alike(const struct form *one, const struct form *other) {
  CHECK(one->rank == other->rank && one->nb == other->nb);
  CHECK(memcmp(one->rr, other->rr, sizeof one->rr) == 0 && memcmp(one->cc, other->cc, sizeof one->cc) == 0);
  for (int64_t m = 0; m <= SIDE; m++)
    for (int64_t n = 0; n <= SIDE; n++) CHECK(count_of(one, m, n) == count_of(other, m, n));
}

/* a random matrix that gives each place once */
static struct matrix drawn(uint64_t *state) {
  struct matrix a = {.rows = 1 + draw_from(state, SIDE), .columns = 1 + draw_from(state, SIDE)};
  int32_t one_in = 1 + draw_from(state, 6);
  for (int64_t c = 0; c < a.columns; c++) {
    for (int32_t r = 0; r < a.rows; r++)
      if (draw_from(state, one_in) == 0) a.ids[a.count++] = r;
    a.starts[c + 1] = (int32_t)a.count;
  }
  widen(&a);
  return a;
}

int main(void) {
  static const int seeds[] = {0, -1, 7};
  uint64_t state = 11;
  for (int time = 0; time < TIMES; time++) {
    struct matrix a = drawn(&state);
    struct form our = ours(&a);
    is_form(&a, &our);
    for (size_t k = 0; k < sizeof seeds / sizeof *seeds; k++) {
      struct form narrow = theirs(&a, seeds[k]), wide = theirs_64(&a, seeds[k]);
      is_form(&a, &narrow);
      is_form(&a, &wide);
      are_alike(&our, &narrow);
      are_alike(&our, &wide);
    }
  }
  return 0;
}
