/* Every call on a matrix of SIDE rows and columns and IDS ids at most, in one width: included once for each. The file that includes
 * it has the sizes and the values. */
static I WIDTH(starts)[SIDE + 1], WIDTH(ids)[IDS], WIDTH(lists)[7][SIDE + 2], WIDTH(number), WIDTH(rank);

static int32_t WIDTH(call_case)(int which, uint32_t flags) {
  const I *s = WIDTH(starts), *i = WIDTH(ids);
  I(*list)[SIDE + 2] = WIDTH(lists), *to_number = &WIDTH(number), *to_rank = &WIDTH(rank);
  sizes.size = sizeof sizes;
  switch (which) {
    case RANK_CASE: return WIDTH(blocktri_rank)(rows, columns, s, i, count, flags, to_rank, NULL);
    case MATCHING_CASE: return WIDTH(blocktri_matching)(rows, columns, s, i, count, flags, list[0], list[1], to_rank, NULL);
    case LEAST_CASE:
      return WIDTH(blocktri_matching)(rows, columns, s, i, count, flags | BLOCKTRI_LEAST, list[0], list[1], to_rank, NULL);
    case DECOMPOSITION_CASE:
      return WIDTH(blocktri_decomposition)(rows, columns, s, i, count, flags, list[0], list[1], list[2], list[3], list[4], &sizes,
                                           NULL);
    case DMPERM_CASE:
      return WIDTH(blocktri_dmperm)(rows, columns, s, i, count, flags, list[0], list[1], list[2], list[3], list[4], list[5],
                                    list[6], &sizes, NULL);
    case BLOCK_ORDER_CASE:
      return WIDTH(blocktri_block_order)(rows, columns, s, i, count, flags, list[0], list[1], list[2], list[3], to_number,
                                         to_rank, NULL);
    case COMPLETE_CASE:
      return WIDTH(blocktri_block_order)(rows, columns, s, i, count, flags | BLOCKTRI_COMPLETE, list[0], list[1], list[2], list[3],
                                         to_number, to_rank, NULL);
    case ORDER_BY_CASE:
      for (int32_t c = 0; c < columns; c++) list[6][c] = c;
      return WIDTH(blocktri_order_by)(rows, columns, s, i, count, flags, list[6], list[0], list[1], list[2], to_number, NULL);
    case HEAVIEST_CASE:
      return WIDTH(blocktri_heaviest)(rows, columns, s, i, count, values, flags, list[0], prices[0], prices[1], &sum, NULL, NULL,
                                      NULL, NULL);
    default:
      return WIDTH(blocktri_bottleneck)(rows, columns, s, i, count, values, flags, list[0], &least, NULL, list[1], to_number, NULL);
  }
}
