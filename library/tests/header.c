/* The header by itself, in C99, C11, C++11 and C++20: its macros, its structs, and a call of each width. */
#include "blocktri.h"

#include <stddef.h>

/* 1.0 tells 168 bytes, and each member lies where it will always lie */
typedef char size_is_kept[sizeof(struct blocktri_sizes) == 168 ? 1 : -1];
typedef char nb_is_kept[offsetof(struct blocktri_sizes, nb) == 80 ? 1 : -1];
typedef char cc_is_kept[offsetof(struct blocktri_sizes, cc) == 128 ? 1 : -1];
typedef char sum_is_kept[sizeof(struct blocktri_sum) == 16 ? 1 : -1];

#if BLOCKTRI_VERSION != 1000000 || BLOCKTRI_VERSION_MAJOR != 1
#error "the version cannot be compared by the preprocessor"
#endif

static struct blocktri_sizes sizes = BLOCKTRI_SIZES_INIT;

int main(void) {
  static const int32_t starts[2] = {0, 1}, ids[1] = {0};
  static const int64_t wide_starts[2] = {0, 1}, wide_ids[1] = {0};
  uint32_t flags = BLOCKTRI_BY_ROWS | 0u;
  int32_t rank = BLOCKTRI_NONE;
  int64_t wide_rank = BLOCKTRI_NONE;
  int32_t none = blocktri_decomposition(0, 0, NULL, NULL, 0, 0, NULL, NULL, NULL, NULL, NULL, &sizes, NULL);
  if (none != BLOCKTRI_OK || sizes.rank != 0 || sizes.size != sizeof sizes) return 1;
  if (blocktri_rank(1, 1, starts, ids, 1, flags, &rank, NULL) != BLOCKTRI_OK || rank != 1) return 2;
  if (blocktri_rank_64(1, 1, wide_starts, wide_ids, 1, flags, &wide_rank, NULL) != BLOCKTRI_OK || wide_rank != 1) return 3;
  if (blocktri_version() != BLOCKTRI_VERSION || blocktri_text(BLOCKTRI_OK) == NULL) return 4;
  return 0;
}
