/* Two threads count under a lock. With the predicates of `guarded.pred`, which say who holds the lock and what is known of `c`
   then, the table has no line `s 1 0` or `s 2 0`: neither the assertion nor an unlock fails. */
#include <assert.h>
#include <pthread.h>
int c = 0;
pthread_mutex_t m = PTHREAD_MUTEX_INITIALIZER;
void *worker(void *arg) {
  pthread_mutex_lock(&m);
  c = c + 1;
  assert(c >= 1); /* held */
  c = c - 1;
  pthread_mutex_unlock(&m);
  return NULL;
}
int main(void) {
  pthread_t t1, t2;
  pthread_create(&t1, NULL, worker, NULL);
  pthread_create(&t2, NULL, worker, NULL);
  pthread_join(t1, NULL);
  pthread_join(t2, NULL);
  return 0;
}
