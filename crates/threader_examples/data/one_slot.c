/* A producer hands three numbers over through one slot, and a consumer takes them. Each looks under the lock whether it is its
   turn. Without predicates nothing is known of `slot` when it is full, so the assertion may fail. */
#include <assert.h>
#include <pthread.h>

int slot;
int full = 0;
pthread_mutex_t lock;

void *producer(void *arg) {
    int next = 1;
    while (next <= 3) {
        pthread_mutex_lock(&lock);
        if (!full) {
            slot = next;
            full = 1;
            next++;
        }
        pthread_mutex_unlock(&lock);
    }
    return NULL;
}

void *consumer(void *arg) {
    int got = 0;
    for (int taken = 0; taken < 3;) {
        pthread_mutex_lock(&lock);
        if (full && slot > got) {
            got = slot;
            full = 0;
            taken += 1;
        }
        pthread_mutex_unlock(&lock);
    }
    assert(got == 3);
    return NULL;
}

int main(void) {
    pthread_t first, second;
    pthread_mutex_init(&lock, NULL);
    pthread_create(&first, NULL, producer, NULL);
    pthread_create(&second, NULL, consumer, NULL);
    pthread_join(first, NULL);
    pthread_join(second, NULL);
    pthread_mutex_destroy(&lock);
    return 0;
}
