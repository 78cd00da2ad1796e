/* Refuses requests for memory. Loaded before a program by LD_PRELOAD, it counts the program's requests (malloc, calloc,
   realloc and the aligned ones) from 1, and refuses the one of number REFUSE_AT, with REFUSE_REST=1 all later ones too. At
   the first that it refuses it writes `r` to the descriptor REFUSE_TELL. With REFUSE_THREADS=1 it creates no thread, and
   writes `t` there for each that is requested. It rests on names of glibc. */
#define _GNU_SOURCE
#include <dlfcn.h>
#include <errno.h>
#include <pthread.h>
#include <stdatomic.h>
#include <stdlib.h>
#include <unistd.h>

extern void *__libc_malloc(size_t), *__libc_calloc(size_t, size_t), *__libc_realloc(void *, size_t),
    *__libc_memalign(size_t, size_t);

static atomic_ulong requests;
static unsigned long at;
static int rest, tell = -1, no_threads;
static int (*real_create)(pthread_t *, const pthread_attr_t *, void *(*)(void *), void *);

static unsigned long number(const char *name) {
  const char *text = getenv(name);
  return text ? strtoul(text, NULL, 10) : 0;
}

__attribute__((constructor)) static void begin(void) {
  tell = number("REFUSE_TELL");
  rest = number("REFUSE_REST") != 0;
  no_threads = number("REFUSE_THREADS") != 0;
  real_create = (int (*)(pthread_t *, const pthread_attr_t *, void *(*)(void *), void *))dlsym(RTLD_NEXT, "pthread_create");
  at = number("REFUSE_AT");
}

static int refused(void) {
  if (at == 0) return 0;
  unsigned long count = atomic_fetch_add(&requests, 1) + 1;
  if (count == at && write(tell, "r", 1) != 1) abort();
  if (count != at && !(rest && count > at)) return 0;
  errno = ENOMEM;
  return 1;
}

void *malloc(size_t size) { return refused() ? NULL : __libc_malloc(size); }

void *calloc(size_t count, size_t size) { return refused() ? NULL : __libc_calloc(count, size); }

void *realloc(void *old, size_t size) { return refused() ? NULL : __libc_realloc(old, size); }

void *memalign(size_t align, size_t size) { return refused() ? NULL : __libc_memalign(align, size); }

void *aligned_alloc(size_t align, size_t size) { return memalign(align, size); }

int posix_memalign(void **made, size_t align, size_t size) {
  void *block = memalign(align, size);
  if (block == NULL) return ENOMEM;
  *made = block;
  return 0;
}

int pthread_create(pthread_t *thread, const pthread_attr_t *attributes, void *(*begin)(void *), void *given) {
  if (!no_threads) return real_create(thread, attributes, begin, given);
  if (write(tell, "t", 1) != 1) abort();
  return EAGAIN;
}
