/* Counts memory requests. Loaded before a program by LD_PRELOAD, it keeps these counts in the file of descriptor
   COUNT_IN: the requests (malloc, calloc, realloc and the aligned ones), their blocks and bytes that are still held,
   the writes to standard output, the bytes of the largest request, the threads, the requests of each thread, and the
   requests before each write. It depends on names of glibc. */
#define _GNU_SOURCE
#include <dlfcn.h>
#include <errno.h>
#include <malloc.h>
#include <stdatomic.h>
#include <stdlib.h>
#include <sys/mman.h>
#include <unistd.h>

extern void *__libc_malloc(size_t), *__libc_calloc(size_t, size_t), *__libc_realloc(void *, size_t),
    *__libc_memalign(size_t, size_t);
extern void __libc_free(void *);

enum { WRITES = 1000, THREADS = 256 };

struct counts {
  atomic_ulong requests, blocks, bytes, writes, largest, threads, by_thread[THREADS];
  unsigned long at_write[WRITES];
};

static struct counts unread, *counts = &unread;
static _Thread_local unsigned long thread; /* its number, from 1, or 0 if it has requested nothing */

__attribute__((constructor)) static void begin(void) {
  const char *descriptor = getenv("COUNT_IN");
  if (descriptor == NULL) return;
  void *shared = mmap(NULL, sizeof *counts, PROT_READ | PROT_WRITE, MAP_SHARED, atoi(descriptor), 0);
  if (shared != MAP_FAILED) counts = shared;
  thread = 0;
}

static void note(size_t size) {
  counts->requests++;
  if (thread == 0) thread = ++counts->threads;
  if (thread <= THREADS) counts->by_thread[thread - 1]++;
  unsigned long largest = counts->largest;
  while (largest < size && !atomic_compare_exchange_weak(&counts->largest, &largest, size)) continue;
}

static void *made(void *block, size_t size) {
  note(size);
  if (block != NULL) {
    counts->blocks++;
    counts->bytes += malloc_usable_size(block);
  }
  return block;
}

void *malloc(size_t size) { return made(__libc_malloc(size), size); }

void *calloc(size_t count, size_t size) { return made(__libc_calloc(count, size), count * size); }

void *memalign(size_t align, size_t size) { return made(__libc_memalign(align, size), size); }

void *aligned_alloc(size_t align, size_t size) { return memalign(align, size); }

int posix_memalign(void **block, size_t align, size_t size) {
  void *found = memalign(align, size);
  if (found == NULL) return ENOMEM;
  *block = found;
  return 0;
}

void free(void *block) {
  if (block != NULL) {
    counts->blocks--;
    counts->bytes -= malloc_usable_size(block);
  }
  __libc_free(block);
}

void *realloc(void *old, size_t size) {
  size_t before = old == NULL ? 0 : malloc_usable_size(old);
  void *block = __libc_realloc(old, size);
  note(size);
  if (block == NULL) return NULL;
  counts->blocks += old == NULL;
  counts->bytes += malloc_usable_size(block) - before;
  return block;
}

ssize_t write(int descriptor, const void *from, size_t size) {
  static ssize_t (*real)(int, const void *, size_t);
  if (real == NULL) real = (ssize_t (*)(int, const void *, size_t))dlsym(RTLD_NEXT, "write");
  unsigned long place = descriptor == 1 ? counts->writes++ : WRITES;
  if (place < WRITES) counts->at_write[place] = counts->requests;
  return real(descriptor, from, size);
}
