/* Says that the machine has PROCESSORS processors, whatever it has, and writes a byte to the descriptor THREADS_TO for each thread
   that the program starts. It is loaded before the program by LD_PRELOAD. */
#define _GNU_SOURCE
#include <dlfcn.h>
#include <pthread.h>
#include <sched.h>
#include <stdlib.h>
#include <string.h>
#include <unistd.h>

static int number(const char *name) {
  return atoi(getenv(name));
}

int sched_getaffinity(pid_t process, size_t size, cpu_set_t *set) {
  memset(set, 0, size);
  for (int at = 0; at < number("PROCESSORS"); at++) CPU_SET_S(at, size, set);
  return 0;
}

long sysconf(int name) {
  long (*real)(int) = (long (*)(int))dlsym(RTLD_NEXT, "sysconf");
  return name == _SC_NPROCESSORS_ONLN ? number("PROCESSORS") : real(name);
}

int pthread_create(pthread_t *thread, const pthread_attr_t *attributes, void *(*begin)(void *), void *given) {
  int (*real)(pthread_t *, const pthread_attr_t *, void *(*)(void *), void *) =
      (int (*)(pthread_t *, const pthread_attr_t *, void *(*)(void *), void *))dlsym(RTLD_NEXT, "pthread_create");
  if (write(number("THREADS_TO"), "t", 1) != 1) abort();
  return real(thread, attributes, begin, given);
}
