/* A lock of one variable: who finds 0 there and puts 1 is inside. The test and the setting are one step. Without predicates
   nothing is known of `inside`, so the assertion may fail. */
#include <assert.h>
#include <pthread.h>

int locked = 0;
int inside = 0;

void *worker(void *arg) {
    for (int turn = 0; turn < 2; turn++) {
        int was = 1;
        while (was == 1) {
            __VERIFIER_atomic_begin();
            was = locked;
            locked = 1;
            __VERIFIER_atomic_end();
        }
        inside = inside + 1;
        assert(inside == 1);
        inside = inside - 1;
        locked = 0;
    }
    return NULL;
}

int main(void) {
    pthread_t first, second;
    pthread_create(&first, NULL, worker, NULL);
    pthread_create(&second, NULL, worker, NULL);
    pthread_join(first, NULL);
    pthread_join(second, NULL);
    return 0;
}
