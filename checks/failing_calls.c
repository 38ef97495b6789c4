/* Lets calls of the C library fail: loaded before it (LD_PRELOAD) by failing_calls.py.
 *
 * CALL names what fails: memory, read, write (of standard output), thread. AT is the number of the call that fails,
 * from 1; 0 is none of them, and -1 is each. SHORT is the most bytes that one read or write moves, if it is not 0.
 * At the end the number of calls of that kind is written to the descriptor COUNT_TO. */
#define _GNU_SOURCE
#include <dlfcn.h>
#include <errno.h>
#include <pthread.h>
#include <stdatomic.h>
#include <stdio.h>
#include <stdlib.h>
#include <string.h>
#include <unistd.h>

static atomic_long calls;
static long failing_at;
static size_t most_bytes;
static int count_to = -1;
static enum { NOTHING, MEMORY, READ, WRITE, THREAD } failing;

extern void *__libc_malloc(size_t);
extern void *__libc_realloc(void *, size_t);

__attribute__((constructor)) static void begin(void) {
  const char *call = getenv("CALL"), *at = getenv("AT"), *most = getenv("SHORT"), *to = getenv("COUNT_TO");
  failing_at = at ? atol(at) : 0;
  most_bytes = most ? (size_t)atol(most) : 0;
  count_to = to ? atoi(to) : -1;
  if (call && !strcmp(call, "memory")) failing = MEMORY;
  if (call && !strcmp(call, "read")) failing = READ;
  if (call && !strcmp(call, "write")) failing = WRITE;
  if (call && !strcmp(call, "thread")) failing = THREAD;
}

static void tell(void) {
  char line[32];
  if (count_to < 0) return;
  int length = snprintf(line, sizeof line, "%ld\n", atomic_load(&calls));
  ssize_t (*real)(int, const void *, size_t) = dlsym(RTLD_NEXT, "write");
  if (real(count_to, line, (size_t)length) < 0) return;
}

__attribute__((destructor)) static void end(void) { tell(); }

/* The program may leave without running what is to be done at its end. */
void _exit(int status) {
  void (*real)(int) = dlsym(RTLD_NEXT, "_exit");
  tell();
  real(status);
  __builtin_unreachable();
}

static int fails(int kind) {
  if ((int)failing != kind) return 0;
  long number = atomic_fetch_add(&calls, 1) + 1;
  return failing_at == -1 || failing_at == number;
}

static size_t at_most(size_t bytes) { return most_bytes && bytes > most_bytes ? most_bytes : bytes; }

void *malloc(size_t size) { return fails(MEMORY) ? NULL : __libc_malloc(size); }

void *realloc(void *old, size_t size) { return fails(MEMORY) ? NULL : __libc_realloc(old, size); }

ssize_t read(int from, void *into, size_t bytes) {
  ssize_t (*real)(int, void *, size_t) = dlsym(RTLD_NEXT, "read");
  if (from == 0 && fails(READ)) {
    errno = EIO;
    return -1;
  }
  return real(from, into, from == 0 ? at_most(bytes) : bytes);
}

static ssize_t write_some(const char *name, int to, const void *from, size_t bytes) {
  ssize_t (*real)(int, const void *, size_t) = dlsym(RTLD_NEXT, name);
  if (to == 1 && fails(WRITE)) {
    errno = EIO;
    return -1;
  }
  return real(to, from, to == 1 ? at_most(bytes) : bytes);
}

ssize_t write(int to, const void *from, size_t bytes) { return write_some("write", to, from, bytes); }

ssize_t __write(int to, const void *from, size_t bytes) { return write_some("__write", to, from, bytes); }

int pthread_create(pthread_t *thread, const pthread_attr_t *how, void *(*run)(void *), void *with) {
  int (*real)(pthread_t *, const pthread_attr_t *, void *(*)(void *), void *) = dlsym(RTLD_NEXT, "pthread_create");
  return fails(THREAD) ? EAGAIN : real(thread, how, run, with);
}
