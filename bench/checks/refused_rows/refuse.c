// Refuses allocations or starts of threads of a program, by LD_PRELOAD: the call FAIL_AT of the kind FAIL, in the
// plural that one and all later ones. It makes the file HIT where it refuses one.
#define _GNU_SOURCE
#include <dlfcn.h>
#include <errno.h>
#include <fcntl.h>
#include <pthread.h>
#include <stdatomic.h>
#include <stdlib.h>
#include <string.h>

extern void *__libc_malloc(size_t);
extern void *__libc_realloc(void *, size_t);
static atomic_long calls;

static int hit(const char *kind) {
  const char *which = getenv("FAIL"), *at = getenv("FAIL_AT");
  size_t length = strlen(kind);
  if (!which || !at || strncmp(which, kind, length)) return 0;
  long call = atomic_fetch_add(&calls, 1) + 1;
  if (call < atol(at) || (call > atol(at) && which[length] != 's')) return 0;
  creat(getenv("HIT"), 0600);
  return 1;
}

void *malloc(size_t size) {
  if (hit("allocation")) { errno = ENOMEM; return 0; }
  return __libc_malloc(size);
}

void *realloc(void *old, size_t size) {
  if (hit("allocation")) { errno = ENOMEM; return 0; }
  return __libc_realloc(old, size);
}

int pthread_create(pthread_t *thread, const pthread_attr_t *attributes, void *(*start)(void *), void *argument) {
  static int (*create)(pthread_t *, const pthread_attr_t *, void *(*)(void *), void *);
  if (hit("thread")) return EAGAIN;
  if (!create) create = dlsym(RTLD_NEXT, "pthread_create");
  return create(thread, attributes, start, argument);
}
