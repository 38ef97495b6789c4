/* 64 threads call at once, each with a matrix of its own, and get what one of them gets alone. */
#include <pthread.h>

#include "check.h"

enum { THREADS = 64, TURNS = 50 };

struct job {
  struct matrix matrix;
  struct answer alone[CALLS];
};

/* a band whose width hangs on the thread's number */
static void fill(struct matrix *a, int32_t number) {
  a->rows = a->columns = 8 + number % 8;
  for (int32_t j = 0; j < a->columns; j++) {
    for (int32_t k = 0; k < 1 + number % 4 && j + k < a->rows; k++) {
      a->values[a->count] = number + k;
      a->ids[a->count++] = j + k;
    }
    a->starts[j + 1] = (int32_t)a->count;
  }
  widen(a);
}

static void *work(void *of) {
  const struct job *job = of;
  for (int turn = 0; turn < TURNS; turn++)
    for (int call = 0; call < CALLS; call++) {
      struct answer got = ask((enum call)call, &job->matrix, 0);
      CHECK(memcmp(&got, &job->alone[call], sizeof got) == 0);
    }
  return NULL;
}

int main(void) {
  static struct job jobs[THREADS];
  pthread_t threads[THREADS];
  for (int32_t i = 0; i < THREADS; i++) {
    fill(&jobs[i].matrix, i);
    for (int call = 0; call < CALLS; call++) {
      jobs[i].alone[call] = ask((enum call)call, &jobs[i].matrix, 0);
      CHECK(jobs[i].alone[call].status == BLOCKTRI_OK);
    }
    CHECK(jobs[i].alone[RANK].output[RANK_RANK][0] == jobs[i].matrix.rows);
  }
  for (int i = 0; i < THREADS; i++) CHECK(pthread_create(&threads[i], NULL, work, &jobs[i]) == 0);
  for (int i = 0; i < THREADS; i++) CHECK(pthread_join(threads[i], NULL) == 0);
  return 0;
}
