/* ask.h: every call of one width. check.h includes it twice, with I, the type of indices, WIDTH(name), the name of a call in this
 * width, and STARTS(matrix), IDS(matrix) and PAIRS(matrix). */

/* The room that a call is given to write to. A pointer is NULL where an output is left out. */
struct WIDTH(room) {
  I numbers[OUTPUTS][ROOM], *n[OUTPUTS];
  int64_t longs[OUTPUTS][ROOM], *l[OUTPUTS];
  struct blocktri_sum sum, *to_sum;
  struct blocktri_sizes sizes, *to_sizes;
};

static inline void WIDTH(make_room)(enum call call, struct WIDTH(room) *to, unsigned without) {
  memset(to, 0x5a, sizeof *to);
  to->sizes.size = sizeof to->sizes;
  to->to_sum = NULL, to->to_sizes = NULL;
  for (int i = 0; i < OUTPUTS; i++) {
    bool is_wanted = (without >> i & 1) == 0;
    to->n[i] = is_wanted ? to->numbers[i] : NULL;
    to->l[i] = is_wanted ? to->longs[i] : NULL;
    if (is_wanted && is_sizes(call, i)) to->to_sizes = &to->sizes;
    if (is_wanted && call == HEAVIEST && i == HEAVIEST_SUM) to->to_sum = &to->sum;
  }
}

static inline int32_t WIDTH(call_of)(enum call call, const struct matrix *a, uint32_t flags, struct WIDTH(room) *to) {
  I m = (I)a->rows, n = (I)a->columns, count = (I)a->count, **o = to->n;
  const I *starts = (a->left_out & NO_STARTS) != 0 ? NULL : STARTS(a), *ids = (a->left_out & NO_IDS) != 0 ? NULL : IDS(a);
  const I *pairs = (a->left_out & NO_PAIRS) != 0 ? NULL : PAIRS(a);
  const int64_t *values = (a->left_out & NO_VALUES) != 0 ? NULL : a->values;
  int64_t **l = to->l;
  switch (call) {
    case RANK: return WIDTH(blocktri_rank)(m, n, starts, ids, count, flags, o[0], l[FAULT]);
    case MATCHING: return WIDTH(blocktri_matching)(m, n, starts, ids, count, flags, o[0], o[1], o[2], l[FAULT]);
    case DECOMPOSITION:
      return WIDTH(blocktri_decomposition)(m, n, starts, ids, count, flags, o[0], o[1], o[2], o[3], o[4], to->to_sizes, l[FAULT]);
    case DMPERM:
      return WIDTH(blocktri_dmperm)(m, n, starts, ids, count, flags, o[0], o[1], o[2], o[3], o[4], o[5], o[6], to->to_sizes,
                                    l[FAULT]);
    case BLOCK_ORDER:
      return WIDTH(blocktri_block_order)(m, n, starts, ids, count, flags, o[0], o[1], o[2], o[3], o[4], o[5], l[FAULT]);
    case ORDER_BY: return WIDTH(blocktri_order_by)(m, n, starts, ids, count, flags, pairs, o[0], o[1], o[2], o[3], l[FAULT]);
    case HEAVIEST:
      return WIDTH(blocktri_heaviest)(m, n, starts, ids, count, values, flags, o[0], l[1], l[2], to->to_sum, o[4], o[5], o[6],
                                      l[FAULT]);
    case BOTTLENECK:
      return WIDTH(blocktri_bottleneck)(m, n, starts, ids, count, values, flags, o[0], l[1], o[2], o[3], o[4], l[FAULT]);
    default: return -1;
  }
}

/* asks a call that leaves out the outputs whose bits are set */
static inline struct answer WIDTH(answer_of)(enum call call, const struct matrix *a, uint32_t flags, unsigned without) {
  struct WIDTH(room) room;
  struct answer answer;
  WIDTH(make_room)(call, &room, without);
  memset(&answer, 0x5a, sizeof answer);
  answer.status = WIDTH(call_of)(call, a, flags, &room);
  memcpy(room.longs[HEAVIEST_SUM], &room.sum, call == HEAVIEST ? sizeof room.sum : 0);
  for (int i = 0; i < OUTPUTS; i++) {
    for (int k = 0; k < ROOM; k++) {
      bool is_written = is_long(call, i) || room.numbers[i][k] != (I)UNTOUCHED;
      answer.output[i][k] = !is_written ? UNTOUCHED : is_long(call, i) ? room.longs[i][k] : room.numbers[i][k];
    }
    if (is_sizes(call, i)) memcpy(answer.output[i], &room.sizes, sizeof room.sizes);
  }
  return answer;
}
