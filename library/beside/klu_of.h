/* klu_of.h: the figures of one width. klu.c includes it twice, with I, the type of indices, WIDTH(name), the name of a function here in
 * this width, and KLU(name), that of KLU. */

struct WIDTH(system) {
  I n, *starts, *ids, *row; /* row[j] is a row of column j, each once, but for the shape ANY */
  double *values, *right;
};

static I WIDTH(drawn)(I below) { return draw_from(&state, (int32_t)below); }

static void *WIDTH(list_of)(I length, size_t size) {
  void *list = malloc(((size_t)length + 1) * size);
  CHECK(list != NULL);
  return list;
}

static I *WIDTH(permutation)(I n) {
  I *list = WIDTH(list_of)(n, sizeof(I));
  for (I i = 0; i < n; i++) {
    I at = WIDTH(drawn)(i + 1);
    list[i] = list[at], list[at] = i;
  }
  return list;
}

/* the place of a neighbour in the grid, or -1 */
static I WIDTH(neighbour)(I column, int step) {
  I x = column % GRID_SIDE + (step == 0) - (step == 1), y = column / GRID_SIDE + (step == 2) - (step == 3);
  return x < 0 || y < 0 || x >= GRID_SIDE || y >= GRID_SIDE ? -1 : y * GRID_SIDE + x;
}

static void WIDTH(add)(struct WIDTH(system) *a, I column, I *count, I row, double value) {
  for (I k = a->starts[column]; k < *count; k++)
    if (a->ids[k] == row) return;
  a->values[*count] = value;
  a->ids[(*count)++] = row;
}

/* ids that rise, or for the shuffled grid those of the neighbours before that of the diagonal */
static void WIDTH(fill_grid_column)(struct WIDTH(system) *a, bool is_rising, I column, I *count) {
  static const int order[2][5] = {{3, 1, 4, 0, 2}, {2, 0, 1, 3, 4}};
  a->row[column] = column;
  for (int k = 0; k < 5; k++) {
    int step = order[is_rising ? 0 : 1][k];
    I row = step == 4 ? column : WIDTH(neighbour)(column, step);
    if (row >= 0) WIDTH(add)(a, column, count, row, step == 4 ? 3 + drawn_value() / 5 : -drawn_value() / 5);
  }
}

static void WIDTH(fill_column)(struct WIDTH(system) *a, enum shape shape, I column, I *count) {
  I more = WIDTH(drawn)(shape == MANY_BLOCKS ? 3 : 5);
  if (shape == GRID || shape == SHUFFLED_GRID) {
    WIDTH(fill_grid_column)(a, shape == GRID, column, count);
    return;
  }
  if (shape != ANY) WIDTH(add)(a, column, count, a->row[column], 3 * drawn_value() + 3);
  for (; more > 0; more--) {
    I row = shape == MANY_BLOCKS ? a->row[WIDTH(drawn)(column + 1)] : WIDTH(drawn)(a->n);
    WIDTH(add)(a, column, count, row, drawn_value() - 3);
  }
}

static struct WIDTH(system) WIDTH(make)(enum shape shape) {
  I n = shape == GRID || shape == SHUFFLED_GRID ? GRID_SIDE * GRID_SIDE : 1 + WIDTH(drawn)(300), count = 0;
  struct WIDTH(system) a = {.n = n, .row = WIDTH(permutation)(n)};
  a.starts = WIDTH(list_of)(n + 1, sizeof(I)), a.ids = WIDTH(list_of)(6 * n, sizeof(I));
  a.values = WIDTH(list_of)(6 * n, sizeof(double)), a.right = WIDTH(list_of)(n, sizeof(double));
  a.starts[0] = 0;
  for (I j = 0; j < n; j++) {
    a.right[j] = drawn_value() - 3;
    WIDTH(fill_column)(&a, shape, j, &count);
    a.starts[j + 1] = count;
  }
  return a;
}

/* the greatest |Ax - b|, by 1 and the greatest |x| */
static double WIDTH(residual_of)(const struct WIDTH(system) *a, const double *x) {
  double *rest = WIDTH(list_of)(a->n, sizeof(double)), worst = 0, largest = 0;
  for (I i = 0; i < a->n; i++) rest[i] = -a->right[i];
  for (I j = 0; j < a->n; j++) {
    largest = fmax(largest, fabs(x[j]));
    for (I k = a->starts[j]; k < a->starts[j + 1]; k++) rest[a->ids[k]] += a->values[k] * x[j];
  }
  for (I i = 0; i < a->n; i++) worst = fmax(worst, fabs(rest[i]));
  free(rest);
  return worst / (1 + largest);
}

/* The entries of L and U, and the residual of the solution; 0 for both where KLU finds the matrix singular. */
static void WIDTH(solve)(const struct WIDTH(system) *a, KLU(symbolic) *symbolic, KLU(common) *common, struct figures *it) {
  KLU(numeric) *numeric = KLU(factor)(a->starts, a->ids, a->values, symbolic, common);
  if (numeric == NULL) return;
  double *x = WIDTH(list_of)(a->n, sizeof(double));
  memcpy(x, a->right, (size_t)a->n * sizeof *x);
  CHECK(KLU(solve)(symbolic, numeric, a->n, 1, x, common) != 0);
  it->entries = numeric->lnz + numeric->unz;
  it->residual = WIDTH(residual_of)(a, x);
  free(x);
  KLU(free_numeric)(&numeric, common);
}

static struct figures WIDTH(figures_of)(const struct WIDTH(system) *a, KLU(symbolic) *symbolic, KLU(common) *common, bool is_given) {
  struct figures it = {.n = a->n, .rank = is_given ? -1 : common->structural_rank, .blocks = -1, .largest = -1, .sizes = -1};
  CHECK(symbolic != NULL);
  if (!is_given && it.rank < a->n) return it;
  it.blocks = symbolic->nblocks, it.largest = symbolic->maxblock, it.sizes = 0;
  for (I b = 0; b < symbolic->nblocks; b++) {
    long long size = symbolic->R[b + 1] - symbolic->R[b];
    it.sizes += size * size * size; /* a sum tells sizes in any order */
  }
  WIDTH(solve)(a, symbolic, common, &it);
  return it;
}

/* As KLU orders it, and in a random order of the columns with the rows that are theirs. */
static void WIDTH(try_shape)(enum shape shape) {
  struct WIDTH(system) a = WIDTH(make)(shape);
  I *q = WIDTH(permutation)(a.n), *p = WIDTH(list_of)(a.n, sizeof(I));
  KLU(common) common;
  for (I k = 0; k < a.n; k++) p[k] = a.row[q[k]];
  CHECK(KLU(defaults)(&common) != 0);
  KLU(symbolic) *symbolic = KLU(analyze)(a.n, a.starts, a.ids, &common);
  print_figures("analyze", shapes[shape], WIDTH(figures_of)(&a, symbolic, &common, false));
  KLU(free_symbolic)(&symbolic, &common);
  symbolic = KLU(analyze_given)(a.n, a.starts, a.ids, p, q, &common);
  print_figures("given", shapes[shape], WIDTH(figures_of)(&a, symbolic, &common, true));
  KLU(free_symbolic)(&symbolic, &common);
  free(p), free(q), free(a.row), free(a.starts), free(a.ids), free(a.values), free(a.right);
}
