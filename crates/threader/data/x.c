int x;
void *f(void *a) { x = 1; }
int main() { pthread_t t; pthread_create(&t, 0, f, 0); return 0; }
