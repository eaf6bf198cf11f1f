/* Two threads count without a lock: each reads, adds and writes in steps of its own. Each has a local
   of its own. Without predicates each location that the text leads to is found. */
#include <pthread.h>

int count;

void *worker(void *arg) {
    int read;
    int turns;
    turns = 0;
    while (turns < 3) {
        read = count; // another thread may count between these two steps
        count = read + 1;
        turns = turns + 1;
    }
}

int main() {
    pthread_t one;
    pthread_t two;
    pthread_create(&one, 0, worker, 0);
    pthread_create(&two, 0, worker, 0);
    return 0;
}
