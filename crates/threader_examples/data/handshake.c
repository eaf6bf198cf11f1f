/* One thread hands a number over and says so; the other looks whether it may take it. Without
   predicates nothing is known of `data` when `ready` is 1, so the assertion may fail. */
#include <assert.h>
#include <pthread.h>

int data = 0;
int ready = 0;

void *producer(void *arg) {
    data = 7;
    ready = 1;
}

void *consumer(void *arg) {
    int got;
    while (ready == 0)
        ;
    got = data;
    assert(got == 7);
}

int main() {
    pthread_t first;
    pthread_t second;
    pthread_create(&first, 0, producer, 0);
    pthread_create(&second, 0, consumer, 0);
    return 0;
}
