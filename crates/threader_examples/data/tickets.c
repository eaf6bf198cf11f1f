/* Each thread takes tickets, one step a ticket. What the assertion says holds by this step alone, whatever the other thread
   does, so no predicates are needed: the table has no line at a location 0, and no interleaving fails. */
#include <assert.h>
#include <pthread.h>

int next = 0;

void *worker(void *arg) {
    for (int taken = 0; taken < 3; taken++) {
        int mine;
        __VERIFIER_atomic_begin();
        mine = next;
        next = next + 1;
        assert(next > mine);
        __VERIFIER_atomic_end();
    }
    return NULL;
}

int main(void) {
    pthread_t first, second;
    pthread_create(&first, NULL, worker, NULL);
    pthread_create(&second, NULL, worker, NULL);
    pthread_join(first, NULL);
    pthread_join(second, NULL);
    return 0;
}
