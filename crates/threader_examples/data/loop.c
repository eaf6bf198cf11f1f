/* Two numbers grow together, so they are equal behind the loop. Without predicates the assertion may
   fail; with those in loop.pred the table has no line `s 1 0`. */
#include <assert.h>
#include <pthread.h>

void *run(void *arg) {
    int i;
    int j;
    i = 0;
    j = 0;
    while (i != 5) {
        i = i + 1;
        j = j + 1;
    }
    assert(j == 5);
}

int main() {
    pthread_t thread;
    pthread_create(&thread, 0, run, 0);
    return 0;
}
