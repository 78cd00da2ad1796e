/* Counts waits. Loaded before a program by LD_PRELOAD, it keeps four counts in the file of descriptor COUNT_IN for
   each word on which the program's threads wait: how often they waited there for less than a second, how often without
   a limit, and how often one was woken. These are naps at the lock's door, sleep at a bell, and its ringing. The fourth
   counts what a place of the lock never does: a wait at another word than its first, at the word of another thread, or
   for another number than 0 (a nap) or 1 (sleep), and a wake at its own word. Before these it keeps the nanoseconds that the program's threads had worked at the first write to standard output, and at
   the end of the last. With HOLD_UP=1 a memory request waits, once there are threads, until another thread sleeps, or
   20 ms: adding a route allocates inside the lock, so all others who come then meet it there. With HOLD_WAKES=1 a
   thread wakes nobody before its own next wait, memory request or end. So two threads that wait for each other meet at
   each entry, even on a single processor. It depends on the program's calls of glibc, and on names of glibc. */
#define _GNU_SOURCE
#include <dlfcn.h>
#include <linux/futex.h>
#include <pthread.h>
#include <stdarg.h>
#include <stdatomic.h>
#include <stdlib.h>
#include <sys/mman.h>
#include <sys/syscall.h>
#include <time.h>
#include <unistd.h>

extern void *__libc_malloc(size_t);

enum { WORDS = 1000, COMMANDS = 127, MOST_LOOKS = 200 };

struct word {
  atomic_long place;
  atomic_ulong naps, sleeps, wakes, strange;
  atomic_long owner; /* the thread that waited there first */
};

struct counts {
  unsigned long first_write, last_write;
  struct word words[WORDS];
};

static struct counts unread, *counts = &unread;
static long (*real_syscall)(long, ...);
static ssize_t (*real_write)(int, const void *, size_t);
static int (*real_create)(pthread_t *, const pthread_attr_t *, void *(*)(void *), void *);
static int (*real_join)(pthread_t, void **);
static int holds_up, holds_wakes;
static atomic_int has_threads, sleepers;

/* The call with which a thread is still to wake another one; if its number is 0 there is none. */
static _Thread_local long held[7];

/* A thread's function with its argument. */
struct beginning {
  void *(*begin)(void *);
  void *given;
};

__attribute__((constructor)) static void begin(void) {
  real_syscall = (long (*)(long, ...))dlsym(RTLD_NEXT, "syscall");
  real_write = (ssize_t (*)(int, const void *, size_t))dlsym(RTLD_NEXT, "write");
  real_create = (int (*)(pthread_t *, const pthread_attr_t *, void *(*)(void *), void *))dlsym(RTLD_NEXT, "pthread_create");
  real_join = (int (*)(pthread_t, void **))dlsym(RTLD_NEXT, "pthread_join");
  holds_up = getenv("HOLD_UP") != NULL;
  holds_wakes = getenv("HOLD_WAKES") != NULL;
  const char *descriptor = getenv("COUNT_IN");
  if (descriptor == NULL) return;
  void *shared = mmap(NULL, sizeof *counts, PROT_READ | PROT_WRITE, MAP_SHARED, atoi(descriptor), 0);
  if (shared != MAP_FAILED) counts = shared;
}

static struct word *word_at(long place) {
  for (int at = 0; at < WORDS; at++) {
    struct word *word = &counts->words[at];
    long found = 0;
    if (atomic_compare_exchange_strong(&word->place, &found, place) || found == place) return word;
  }
  abort();
}

/* The word at which this thread waited first. */
static _Thread_local struct word *own;

/* Returns true if the word is this thread's own, and no other's. */
static int is_own(struct word *word) {
  long found = 0, thread = (long)&own;
  if (own == NULL) own = word;
  return own == word && (atomic_compare_exchange_strong(&word->owner, &found, thread) || found == thread);
}

/* Counts a wait. Returns true if its thread will sleep. */
static int count_wait(struct word *word, unsigned expected, const struct timespec *limit) {
  int naps = limit != NULL && limit->tv_sec < 1;
  if (naps) word->naps++;
  else word->sleeps++;
  if (!is_own(word) || expected != !naps) word->strange++;
  return !naps;
}

/* Counts the call. Returns true if its thread will sleep. */
static int count(long place, int command, unsigned expected, const struct timespec *limit) {
  if (command == FUTEX_WAKE) {
    struct word *word = word_at(place);
    word->wakes++;
    if (word == own) word->strange++;
  }
  if (command != FUTEX_WAIT && command != FUTEX_WAIT_BITSET) return 0;
  return count_wait(word_at(place), expected, limit);
}

static void let_go(void) {
  long number = held[0];
  held[0] = 0;
  if (number != 0) real_syscall(number, held[1], held[2], held[3], held[4], held[5], held[6]);
}

long syscall(long number, ...) {
  va_list rest;
  long given[6];
  va_start(rest, number);
  for (int at = 0; at < 6; at++) given[at] = va_arg(rest, long);
  va_end(rest);
  let_go();
  int sleeps = number == SYS_futex && count(given[0], given[1] & COMMANDS, (unsigned)given[2], (const struct timespec *)given[3]);
  if (holds_wakes && number == SYS_futex && (given[1] & COMMANDS) == FUTEX_WAKE) {
    held[0] = number;
    for (int at = 0; at < 6; at++) held[at + 1] = given[at];
    return 0;
  }
  sleepers += sleeps;
  long result = real_syscall(number, given[0], given[1], given[2], given[3], given[4], given[5]);
  sleepers -= sleeps;
  return result;
}

static void *run_beginning(void *given) {
  struct beginning own = *(struct beginning *)given;
  free(given);
  void *result = own.begin(own.given);
  let_go();
  return result;
}

int pthread_create(pthread_t *thread, const pthread_attr_t *attributes, void *(*begin)(void *), void *given) {
  struct beginning *own = __libc_malloc(sizeof *own);
  if (own == NULL) abort();
  *own = (struct beginning){begin, given};
  has_threads = 1;
  return real_create(thread, attributes, run_beginning, own);
}

int pthread_join(pthread_t thread, void **result) {
  let_go();
  return real_join(thread, result);
}

void *malloc(size_t size) {
  let_go();
  for (int looks = 0; holds_up && has_threads && sleepers == 0 && looks < MOST_LOOKS; looks++) usleep(100);
  return __libc_malloc(size);
}

static unsigned long worked(void) {
  struct timespec now;
  clock_gettime(CLOCK_PROCESS_CPUTIME_ID, &now);
  return now.tv_sec * 1000000000UL + now.tv_nsec;
}

ssize_t write(int descriptor, const void *from, size_t size) {
  if (descriptor == 1 && counts->first_write == 0) counts->first_write = worked();
  ssize_t written = real_write(descriptor, from, size);
  if (descriptor == 1) counts->last_write = worked();
  return written;
}
