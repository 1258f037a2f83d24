/* Preloaded into a program, notes when it begins, when it makes its first thread, when the last of its first THREADS threads has
 * ended and was waited for, and when it ends. It then writes to the file MARKS how many seconds there are from the beginning to
 * the end, and from the first thread to the last of these, or 0 where there was none. bench/workers compiles it. */
#define _GNU_SOURCE
#include <dlfcn.h>
#include <pthread.h>
#include <stdatomic.h>
#include <stdio.h>
#include <stdlib.h>
#include <sys/syscall.h>
#include <time.h>
#include <unistd.h>

enum { MOST = 64 };

static double began;
static int wanted;
static atomic_int made;
static _Atomic pthread_t ids[MOST];
static _Atomic double first;
static _Atomic double last;

static double now(void) {
  struct timespec at;
  clock_gettime(CLOCK_MONOTONIC, &at);
  return at.tv_sec + at.tv_nsec / 1e9;
}

__attribute__((constructor)) static void begin(void) {
  const char *threads = getenv("THREADS");
  wanted = threads ? atoi(threads) : 0;
  if (wanted > MOST) wanted = MOST;
  began = now();
}

int pthread_create(pthread_t *thread, const pthread_attr_t *attributes, void *(*run)(void *), void *argument) {
  int (*make)(pthread_t *, const pthread_attr_t *, void *(*)(void *), void *) = dlsym(RTLD_NEXT, "pthread_create");
  int number = atomic_fetch_add(&made, 1);
  if (number == 0) first = now();
  int answer = make(thread, attributes, run, argument);
  if (number < wanted && answer == 0) ids[number] = *thread;
  return answer;
}

int pthread_join(pthread_t thread, void **result) {
  int (*wait)(pthread_t, void **) = dlsym(RTLD_NEXT, "pthread_join");
  int answer = wait(thread, result);
  for (int number = 0; number < wanted; number++) {
    if (!ids[number] || !pthread_equal(ids[number], thread)) continue;
    ids[number] = 0;
    double ended = now(), before = last;
    while (before < ended && !atomic_compare_exchange_weak(&last, &before, ended)) {
    }
  }
  return answer;
}

/* A Rattle program ends by this call, without what the C library does at an exit. */
void _exit(int status) {
  const char *marks = getenv("MARKS");
  FILE *file = marks ? fopen(marks, "w") : NULL;
  if (file) {
    fprintf(file, "%.6f %.6f\n", now() - began, last > 0 ? last - first : 0);
    fclose(file);
  }
  syscall(SYS_exit_group, status);
  __builtin_unreachable();
}
