// The assertion may fail: the table has the line `s 1 0 :`.
#include <assert.h>
#include <pthread.h>

int state;

void *run(void *arg) {
    state = 1;
    if (__VERIFIER_nondet_int())
        assert(0);
    state = 2;
}

int main() {
    pthread_t thread;
    pthread_create(&thread, 0, run, 0);
    return 0;
}
