/* Locks and unlocks a mutex so often as its argument says, and prints how many nanoseconds of the processor one time took. A
   second thread is there, as wherever a mutex is of use: glibc spares a process of one thread the atomic accesses. */
#include <pthread.h>
#include <stdio.h>
#include <stdlib.h>
#include <time.h>

static pthread_mutex_t mutex = PTHREAD_MUTEX_INITIALIZER, held = PTHREAD_MUTEX_INITIALIZER;

static void *wait_for_the_end(void *none) {
  pthread_mutex_lock(&held);
  pthread_mutex_unlock(&held);
  return none;
}

int main(int count, char **words) {
  long times = count > 1 ? atol(words[1]) : 1000;
  struct timespec before, after;
  pthread_t other;
  pthread_mutex_lock(&held);
  if (pthread_create(&other, NULL, wait_for_the_end, NULL) != 0) return 1;
  clock_gettime(CLOCK_THREAD_CPUTIME_ID, &before);
  for (long at = 0; at < times; at++) {
    pthread_mutex_lock(&mutex);
    pthread_mutex_unlock(&mutex);
  }
  clock_gettime(CLOCK_THREAD_CPUTIME_ID, &after);
  pthread_mutex_unlock(&held);
  pthread_join(other, NULL);
  printf("%f\n", ((after.tv_sec - before.tv_sec) * 1e9 + (after.tv_nsec - before.tv_nsec)) / times);
  return 0;
}
