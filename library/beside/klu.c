/* KLU's own calls on SuiteSparse's BTF and on libblocktri_btf, in both widths: klu_analyze, klu_analyze_given, klu_factor and klu_solve
 * on random matrices. The structural rank and, at full rank, the number and the sizes of the blocks have to be equal. Entries of L and U
 * are printed beside each other, and the residuals, which may be at most tenfold; where both keep the diagonal L and U are equal too.
 *
 *     beside_klu            runs itself twice, the second time with libblocktri_btf loaded before libbtf
 *     beside_klu figures    prints what KLU tells of each matrix */
#define _GNU_SOURCE
#include <dlfcn.h>
#include <math.h>
#include <suitesparse/klu.h>

#include "tests/check.h"

enum { TIMES = 40, GRID_SIDE = 24 };

static uint64_t state = 29;

/* The shapes. All but the last have the row row[j] in column j, so that their rank is full. Both grids have the natural diagonal, which
 * libbtf keeps only where ids rise. */
enum shape { GRID, SHUFFLED_GRID, SPARSE, MANY_BLOCKS, ANY, SHAPES };

static const char *const shapes[SHAPES] = {"grid", "shuffled grid", "sparse", "many blocks", "any"};

/* what is compared: what must be equal, and what is told beside each other */
struct figures {
  char name[40];
  long long n, rank, blocks, largest, sizes, entries;
  double residual;
};

static double drawn_value(void) { return 1 + draw_from(&state, 1000) / 250.0; }

static void print_figures(const char *call, const char *shape, struct figures it) {
  printf("%s,%s %lld %lld %lld %lld %lld %lld %.3e\n", call, shape, it.n, it.rank, it.blocks, it.largest, it.sizes, it.entries,
         it.residual);
}

#define I int
#define WIDTH(name) name
#define KLU(name) klu_##name
#include "beside/klu_of.h"
#undef I
#undef WIDTH
#undef KLU

#define I SuiteSparse_long
#define WIDTH(name) name##_64
#define KLU(name) klu_l_##name
#include "beside/klu_of.h"

/* the file that btf_order comes from, then the figures of each matrix */
static void print_all(void) {
  Dl_info info;
  void *order = dlsym(RTLD_DEFAULT, "btf_order");
  CHECK(order != NULL && dladdr(order, &info) != 0);
  printf("%s\n", info.dli_fname);
  for (int time = 0; time < TIMES; time++)
    for (int shape = 0; shape < SHAPES; shape++) try_shape((enum shape)shape), try_shape_64((enum shape)shape);
}

static bool read_figures(FILE *from, struct figures *it) {
  char line[300];
  if (fgets(line, sizeof line, from) == NULL) return false;
  return sscanf(line, "%39[^0-9] %lld %lld %lld %lld %lld %lld %lg", it->name, &it->n, &it->rank, &it->blocks, &it->largest,
                &it->sizes, &it->entries, &it->residual) == 8;
}

static FILE *begin(const char *environment, const char *program, const char *library) {
  char command[500], line[500];
  snprintf(command, sizeof command, "%s %s figures", environment, program);
  FILE *run = popen(command, "r");
  CHECK(run != NULL && fgets(line, sizeof line, run) != NULL && strstr(line, library) != NULL);
  return run;
}

int main(int argc, char **argv) {
  if (argc == 2 && strcmp(argv[1], "figures") == 0) return print_all(), 0;
  FILE *theirs = begin("", argv[0], "/libbtf.so.1");
  FILE *ours = begin("LD_LIBRARY_PATH=build LD_PRELOAD=build/libblocktri_btf.so.1", argv[0], "libblocktri_btf.so.1");
  struct figures a, b;
  long long entries[2] = {0, 0}, number = 0, singular = 0;
  double worst[2] = {0, 0};
  while (read_figures(theirs, &a)) {
    about = a.name;
    CHECK(read_figures(ours, &b) && strcmp(a.name, b.name) == 0 && a.n == b.n && a.rank == b.rank);
    CHECK(a.blocks == b.blocks && a.largest == b.largest && a.sizes == b.sizes);
    CHECK(b.residual <= 10 * fmax(a.residual, 1e-8)); /* less is small enough */
    if (strstr(a.name, "analyze,grid") != NULL) CHECK(a.entries == b.entries);
    entries[0] += a.entries, entries[1] += b.entries;
    worst[0] = fmax(worst[0], a.residual), worst[1] = fmax(worst[1], b.residual);
    number++, singular += a.blocks < 0;
  }
  CHECK(!read_figures(ours, &b) && pclose(theirs) == 0 && pclose(ours) == 0 && singular > 10 && number - singular > 100);
  printf("KLU on libbtf and on libblocktri_btf: %lld matrices, %lld of them singular; L + U %lld and %lld; worst residual %.1e and %.1e\n",
         number, singular, entries[0], entries[1], worst[0], worst[1]);
  return 0;
}
