/* calls.c: the public calls, over the proved ones of crates/blocktri_c (proved.h). It does five things:
 *
 *   1. it gives the proved calls a list of length 0, or a number of its own, for each NULL;
 *   2. it refuses sizes that are negative or past their limit, unknown flags, and pointers that must not be NULL;
 *   3. it makes the lists of the _64 calls wide;
 *   4. it copies the sizes, which are a struct that may grow, and adds rr, cc and nb up from them;
 *   5. it tells texts and the version.
 *
 * It takes no memory, keeps nothing, and computes no answer. It is tested and not proved. */
#include "blocktri.h"

#include <stdbool.h>
#include <stddef.h>
#include <string.h>

#include "proved.h"

int32_t blocktri_version(void) { return BLOCKTRI_VERSION; }

const char *blocktri_text(int32_t status) {
  switch (status) {
    case BLOCKTRI_OK: return "there is an answer";
    case BLOCKTRI_SINGULAR: return "the matrix is structurally singular";
    case BLOCKTRI_NOT_SQUARE: return "the matrix is not square";
    case BLOCKTRI_SUM_LIMIT: return "the values of one place add up to too much";
    case BLOCKTRI_OUT_OF_MEMORY: return "there is not enough memory";
    case BLOCKTRI_BAD_START: return "a start is wrong";
    case BLOCKTRI_BAD_ROW: return "an id is out of range";
    case BLOCKTRI_BAD_SIZE: return "a size is negative or too large";
    case BLOCKTRI_PRICE_LIMIT: return "no prices of 64 bits prove the diagonal";
    case BLOCKTRI_BAD_ARGUMENT: return "an argument cannot be taken";
    case BLOCKTRI_BAD_PAIR: return "a given pair is none, or has a row that stood before";
    default: return "this is no status of libblocktri";
  }
}

/* Gives a status back, with the place of the fault where that status has one. */
static int32_t refused(int32_t status, uint64_t place, int64_t *fault) {
  bool has_place = status == BLOCKTRI_SUM_LIMIT || status == BLOCKTRI_BAD_START || status == BLOCKTRI_BAD_ROW ||
                   status == BLOCKTRI_BAD_ARGUMENT || status == BLOCKTRI_BAD_PAIR;
  if (has_place && fault != NULL) *fault = (int64_t)place;
  return status;
}

/* The size of 1.0. A program compiled with a later header tells a greater one; none tells a lesser one. */
enum { LEAST_SIZE = 168 };

/* How many numbers the lists r and s of blocktri_dmperm have: one for each block of the form, and one more. */
static size_t number_of_cuts(const struct proved_sizes *found) {
  return (size_t)((found->horizontal_columns > 0) + found->blocks + (found->vertical_rows > 0) + 1);
}

/* Writes the sizes, at most as many bytes as the caller's struct has. */
static void write_sizes(const struct proved_sizes *found, int64_t rows, int64_t columns, bool has_nb, struct blocktri_sizes *to) {
  struct blocktri_sizes sizes = BLOCKTRI_SIZES_INIT;
  if (to == NULL) return;
  sizes.rank = found->rank;
  sizes.horizontal_rows = found->horizontal_rows;
  sizes.horizontal_columns = found->horizontal_columns;
  sizes.square = found->square;
  sizes.vertical_rows = found->vertical_rows;
  sizes.vertical_columns = found->vertical_columns;
  sizes.blocks = found->blocks;
  sizes.horizontal_components = found->horizontal_components;
  sizes.vertical_components = found->vertical_components;
  sizes.nb = has_nb ? (int64_t)number_of_cuts(found) - 1 : -1;
  sizes.rr[1] = found->horizontal_rows;
  sizes.rr[2] = found->horizontal_rows + found->square;
  sizes.rr[3] = found->rank;
  sizes.rr[4] = rows;
  sizes.cc[1] = columns - found->rank;
  sizes.cc[2] = found->horizontal_columns;
  sizes.cc[3] = found->horizontal_columns + found->square;
  sizes.cc[4] = columns;
  if (sizes.size > to->size) sizes.size = to->size;
  memcpy(to, &sizes, (size_t)sizes.size);
}

static bool is_too_small(const struct blocktri_sizes *sizes) { return sizes != NULL && sizes->size < LEAST_SIZE; }

/* A list that a proved call writes. */
struct room {
  uint32_t *numbers;
  size_t length;
};

/* The caller's list, or one of length 0 for NULL. A proved call writes 32 bits a number, in both widths. */
static struct room room(void *list, size_t length, uint32_t *nothing) {
  struct room given = {list, length}, left_out = {nothing, 0};
  return list == NULL ? left_out : given;
}

/* A list of 32 bits a number stands as the proved call wrote it, whose "none" is -1 here. */
static void widen(int32_t *list, size_t length) { (void)list, (void)length; }

static void widen_starts(int32_t *list, size_t length) { (void)list, (void)length; }

/* Makes a list of 64 bits a number, in its place, of one of 32 bits that stands in the first half of its room. The last number comes
 * first: so no number is written over before it is read. */
static void widen_starts_64(int64_t *list, size_t length) {
  const unsigned char *from = (const unsigned char *)list;
  if (list == NULL) return;
  for (size_t i = length; i-- > 0;) {
    uint32_t number;
    memcpy(&number, from + i * sizeof number, sizeof number);
    list[i] = number;
  }
}

/* The same for numbers of rows, columns and components, of which the greatest 32-bit number stands for none. */
static void widen_64(int64_t *list, size_t length) {
  if (list == NULL) return;
  widen_starts_64(list, length);
  for (size_t i = 0; i < length; i++)
    if (list[i] == UINT32_MAX) list[i] = BLOCKTRI_NONE;
}

#define I int32_t
#define U uint32_t
#define GREATEST INT32_MAX
#define WIDTH(name) name
#include "calls_of.h"
#undef I
#undef U
#undef GREATEST
#undef WIDTH

#define I int64_t
#define U uint64_t
#define GREATEST UINT32_MAX
#define WIDTH(name) name##_64
#include "calls_of.h"
