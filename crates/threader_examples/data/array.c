/* Arrays are not in the language: the answer is the rule that the text breaks, and the byte at which it does. */
#include <pthread.h>

int count[2];

void *worker(void *arg) {
    count[0] = count[0] + 1;
}

int main() {
    pthread_t thread;
    pthread_create(&thread, 0, worker, 0);
    return 0;
}
