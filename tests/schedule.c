/* Makes a schedule. It is loaded before a program by LD_PRELOAD and depends on the glibc functions that the program calls.

   SIZES_IN=FD     Counts the calls of malloc for each size below 4096 bytes, in the file of this descriptor.
   HOLD_SIZE=SIZE  For a program with two threads. Each malloc of SIZE bytes by the first thread waits until the other thread
                   sleeps or has ended. The other thread starts, and each of its allocations returns, only after the first
                   thread waits that way, sleeps, or waits for the other thread's end. If the first thread allocates SIZE bytes
                   only while it holds a lock, the other thread therefore meets it there, under any load.
   TICKS_IN=FD     A wait with a time limit ends when a byte can be read from this descriptor, and prints its limit on standard
                   error. After the end of that file such waits behave as usual. */
#define _GNU_SOURCE
#include <dlfcn.h>
#include <errno.h>
#include <linux/futex.h>
#include <pthread.h>
#include <stdarg.h>
#include <stdatomic.h>
#include <stdio.h>
#include <stdlib.h>
#include <sys/mman.h>
#include <sys/syscall.h>
#include <time.h>
#include <unistd.h>

extern void *__libc_malloc(size_t), *__libc_realloc(void *, size_t), __libc_free(void *);

enum { SIZES = 4096, COMMANDS = 127, LOOK_MICROSECONDS = 50, MOST_LOOKS = 1000000, LONGEST_SECONDS = 3600 };

static atomic_uint unread[SIZES], *sizes = unread;
static long (*real_syscall)(long, ...);
static int (*real_create)(pthread_t *, const pthread_attr_t *, void *(*)(void *), void *);
static int (*real_join)(pthread_t, void **);
static unsigned long held_size;
static int ticks = -1;

/* The number of threads that have started and neither ended nor wait for another thread's end; how many of them sleep; and
   whether the first thread is held. */
static atomic_int at_work = 1, sleepers, is_first_held;
static _Thread_local int is_new;

/* A thread's function with its argument. */
struct beginning {
  void *(*begin)(void *);
  void *given;
};

static unsigned long number(const char *name) {
  const char *text = getenv(name);
  return text == NULL ? 0 : strtoul(text, NULL, 10);
}

__attribute__((constructor)) static void begin(void) {
  real_syscall = (long (*)(long, ...))dlsym(RTLD_NEXT, "syscall");
  real_create = (int (*)(pthread_t *, const pthread_attr_t *, void *(*)(void *), void *))dlsym(RTLD_NEXT, "pthread_create");
  real_join = (int (*)(pthread_t, void **))dlsym(RTLD_NEXT, "pthread_join");
  held_size = number("HOLD_SIZE");
  if (getenv("TICKS_IN") != NULL) ticks = number("TICKS_IN");
  if (getenv("SIZES_IN") == NULL) return;
  void *shared = mmap(NULL, sizeof unread, PROT_READ | PROT_WRITE, MAP_SHARED, number("SIZES_IN"), 0);
  if (shared != MAP_FAILED) sizes = shared;
}

/* Returns true if a held thread has to wait longer. Aborts if the other thread neither sleeps nor ends for a minute. */
static int looks_again(int *looks) {
  if (at_work - sleepers <= 1 || is_new && is_first_held) return 0;
  if ((*looks)++ == MOST_LOOKS) abort();
  usleep(LOOK_MICROSECONDS);
  return 1;
}

static void hold(size_t size) {
  int looks = 0;
  if (held_size == 0 || !is_new && size != held_size) return;
  if (!is_new) is_first_held = 1;
  while (looks_again(&looks));
  if (!is_new) is_first_held = 0;
}

void *malloc(size_t size) {
  if (size < SIZES) sizes[size]++;
  hold(size);
  return __libc_malloc(size);
}

void *realloc(void *block, size_t size) {
  hold(size);
  return __libc_realloc(block, size);
}

static int is_wait(long number, int command) {
  return number == SYS_futex && ((command & COMMANDS) == FUTEX_WAIT || (command & COMMANDS) == FUTEX_WAIT_BITSET);
}

/* Returns true if a tick ended the wait with this limit. */
static int was_ticked(const struct timespec *limit) {
  char tick;
  if (ticks < 0 || read(ticks, &tick, 1) != 1) return 0;
  dprintf(STDERR_FILENO, "[%ld ms]", limit->tv_sec * 1000 + limit->tv_nsec / 1000000);
  errno = ETIMEDOUT;
  return 1;
}

long syscall(long number, ...) {
  va_list rest;
  long given[6];
  va_start(rest, number);
  for (int at = 0; at < 6; at++) given[at] = va_arg(rest, long);
  va_end(rest);
  const struct timespec *limit = (const struct timespec *)given[3];
  int waits = is_wait(number, given[1]);
  int is_limited = waits && limit != NULL && limit->tv_sec < LONGEST_SECONDS;
  if (is_limited && was_ticked(limit)) return -1;
  int sleeps = waits && !is_limited;
  sleepers += sleeps;
  long result = real_syscall(number, given[0], given[1], given[2], given[3], given[4], given[5]);
  sleepers -= sleeps;
  return result;
}

static void *run_beginning(void *given) {
  struct beginning own = *(struct beginning *)given;
  __libc_free(given);
  is_new = 1;
  hold(0);
  void *result = own.begin(own.given);
  at_work--;
  return result;
}

int pthread_create(pthread_t *thread, const pthread_attr_t *attributes, void *(*begin)(void *), void *given) {
  struct beginning *own = __libc_malloc(sizeof *own);
  if (own == NULL) abort();
  *own = (struct beginning){begin, given};
  at_work++;
  int error = real_create(thread, attributes, run_beginning, own);
  if (error != 0) at_work--;
  return error;
}

int pthread_join(pthread_t thread, void **result) {
  at_work--;
  int error = real_join(thread, result);
  at_work++;
  return error;
}
