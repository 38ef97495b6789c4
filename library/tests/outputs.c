/* Each subset of the outputs may be left out: the others get what they get with all of them. And sizes of any length. */
#include "check.h"

/* the numbers of the sizes by their place among the members */
enum { BLOCKS = 7, HORIZONTAL_COMPONENTS = 8, VERTICAL_COMPONENTS = 9, NB = 10 };

static bool is_left_out(unsigned without, int output) { return (without >> output & 1) != 0; }

/* whether the call is asked for blocks, or for components: in one of these lists */
static bool wants(unsigned without, int first, int last) {
  for (int i = first; i <= last; i++)
    if (!is_left_out(without, i)) return true;
  return false;
}

/* numbers that nobody asks for are -1 */
static void leave_unknown(enum call call, unsigned without, struct answer *answer) {
  if (answer->status != BLOCKTRI_OK) return;
  if (call == BLOCK_ORDER && !wants(without, ORDER_ROWS, ORDER_STARTS)) answer->output[ORDER_BLOCKS][0] = -1;
  if (call != DECOMPOSITION && call != DMPERM) return;
  bool is_form = call == DECOMPOSITION;
  int64_t *sizes = answer->output[is_form ? FORM_SIZES : DMPERM_SIZES];
  if (!wants(without, 0, is_form ? FORM_STARTS : DMPERM_S)) sizes[BLOCKS] = sizes[NB] = -1;
  if (!wants(without, is_form ? FORM_ROW_COMPONENTS : DMPERM_ROW_COMPONENTS,
             is_form ? FORM_COLUMN_COMPONENTS : DMPERM_COLUMN_COMPONENTS))
    sizes[HORIZONTAL_COMPONENTS] = sizes[VERTICAL_COMPONENTS] = -1;
}

static void each_subset(enum call call, const struct matrix *a, uint32_t flags) {
  struct answer all = ask(call, a, flags);
  for (unsigned subset = 0; subset < 2u << outputs_of[call]; subset++) {
    /* the last bit of a subset is that of fault */
    unsigned is_without_fault = subset >> outputs_of[call] & 1;
    unsigned without = (subset & ((1u << outputs_of[call]) - 1)) | is_without_fault << FAULT;
    struct answer wanted = untouched(call, all.status), with = all;
    leave_unknown(call, without, &with);
    for (int i = 0; i < OUTPUTS; i++)
      if (!is_left_out(without, i)) memcpy(wanted.output[i], with.output[i], sizeof wanted.output[i]);
    struct answer narrow = answer_of(call, a, flags, without), wide = answer_of_64(call, a, flags, without);
    CHECK(memcmp(&narrow, &wanted, sizeof wanted) == 0);
    CHECK(memcmp(&wide, &wanted, sizeof wanted) == 0);
  }
}

static void subsets(void) {
  uint64_t state = 7;
  int statuses[3] = {0, 0, 0};
  for (int time = 0; time < 60; time++) {
    int32_t rows = draw_from(&state, 7), columns = time % 2 == 0 ? rows : draw_from(&state, 7);
    struct matrix a = random_matrix(&state, rows, columns, time % 3 == 0), turned = by_rows(&a);
    for (int call = 0; call < CALLS; call++) {
      each_subset((enum call)call, &a, 0);
      each_subset((enum call)call, &turned, BLOCKTRI_BY_ROWS);
    }
    each_subset(MATCHING, &a, BLOCKTRI_LEAST);
    each_subset(BLOCK_ORDER, &a, BLOCKTRI_COMPLETE);
    statuses[ask(BLOCK_ORDER, &a, 0).status]++;
  }
  CHECK(statuses[BLOCKTRI_OK] > 5 && statuses[BLOCKTRI_SINGULAR] > 5 && statuses[BLOCKTRI_NOT_SQUARE] > 5);
}

/* rows 0: columns 0, 1, 2; 1: columns 2, 3; 2 and 3: column 3. Two columns and a row are unmatched, and it has one block */
static const int32_t starts[] = {0, 1, 2, 4, 7}, ids[] = {0, 0, 1, 0, 3, 1, 2};
static const int64_t wide_starts[] = {0, 1, 2, 4, 7}, wide_ids[] = {0, 0, 1, 0, 3, 1, 2};

static int32_t call_with(int which, struct blocktri_sizes *sizes, int64_t *fault) {
  int32_t p[4];
  int64_t wide[4];
  switch (which) {
    case 0: return blocktri_decomposition(4, 4, starts, ids, 7, 0, p, NULL, NULL, NULL, NULL, sizes, fault);
    case 1: return blocktri_decomposition_64(4, 4, wide_starts, wide_ids, 7, 0, wide, NULL, NULL, NULL, NULL, sizes, fault);
    case 2: return blocktri_dmperm(4, 4, starts, ids, 7, 0, p, NULL, NULL, NULL, NULL, NULL, NULL, sizes, fault);
    default: return blocktri_dmperm_64(4, 4, wide_starts, wide_ids, 7, 0, wide, NULL, NULL, NULL, NULL, NULL, NULL, sizes, fault);
  }
}

/* a struct as a later version may have it, and what stands behind it */
union grown {
  struct blocktri_sizes sizes;
  unsigned char bytes[400];
};

static void greater_sizes(int which) {
  static const uint64_t sizes[] = {168, 169, 176, 400, UINT64_MAX};
  for (size_t i = 0; i < sizeof sizes / sizeof *sizes; i++) {
    union grown grown;
    int64_t fault = UNTOUCHED;
    memset(&grown, 0x5a, sizeof grown);
    grown.sizes.size = sizes[i];
    CHECK(call_with(which, &grown.sizes, &fault) == BLOCKTRI_OK && fault == UNTOUCHED);
    CHECK(grown.sizes.size == 168 && grown.sizes.rank == 3 && grown.sizes.blocks == 1 && grown.sizes.cc[4] == 4);
    for (size_t k = 168; k < sizeof grown; k++) CHECK(grown.bytes[k] == 0x5a);
  }
}

static void lesser_sizes(int which) {
  for (uint64_t size = 0; size < 168; size++) {
    union grown grown, kept;
    int64_t fault = UNTOUCHED;
    memset(&grown, 0x5a, sizeof grown);
    grown.sizes.size = size;
    kept = grown;
    CHECK(call_with(which, &grown.sizes, &fault) == BLOCKTRI_BAD_ARGUMENT && fault == (which < 2 ? 12 : 14));
    CHECK(memcmp(&grown, &kept, sizeof kept) == 0);
    CHECK(call_with(which, &grown.sizes, NULL) == BLOCKTRI_BAD_ARGUMENT);
  }
}

/* an unknown flag is told before the sizes, and the sizes before a number of rows that is none */
static void sizes_in_order(void) {
  struct blocktri_sizes sizes = {.size = 8};
  int64_t fault = UNTOUCHED;
  int32_t status = blocktri_decomposition(-1, 4, starts, ids, 7, 16, NULL, NULL, NULL, NULL, NULL, &sizes, &fault);
  CHECK(status == BLOCKTRI_BAD_ARGUMENT && fault == 6);
  status = blocktri_decomposition(-1, 4, starts, ids, 7, 0, NULL, NULL, NULL, NULL, NULL, &sizes, &fault);
  CHECK(status == BLOCKTRI_BAD_ARGUMENT && fault == 12);
  status = blocktri_dmperm(-1, 4, starts, ids, 7, 0, NULL, NULL, NULL, NULL, NULL, NULL, NULL, &sizes, &fault);
  CHECK(status == BLOCKTRI_BAD_ARGUMENT && fault == 14);
}

int main(void) {
  subsets();
  for (int which = 0; which < 4; which++) {
    greater_sizes(which);
    lesser_sizes(which);
  }
  sizes_in_order();
  return 0;
}
