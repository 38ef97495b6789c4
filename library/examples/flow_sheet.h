/* A flow sheet of six equations in six unknowns, for the examples:
 *
 *       0 1 2 3 4 5
 *   0   x . x x . .
 *   1   . x . . x x
 *   2   . . . . . x
 *   3   x . . x . .
 *   4   . x . . x .
 *   5   . . x . . .
 */
#include <stdint.h>

enum { SIZE = 6, ENTRIES = 12 };

static const int32_t starts[SIZE + 1] = {0, 2, 4, 6, 8, 10, 12};
static const int32_t ids[ENTRIES] = {0, 3, 1, 4, 0, 5, 0, 3, 1, 4, 1, 2};
