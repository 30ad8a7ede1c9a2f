/* A plain store beside a plain load in another thread: a race that each detector has to find. */
#include <pthread.h>
#include <stddef.h>

static volatile long shared;

static void *store(void *given) {
    shared = 1;
    return given;
}

int main(void) {
    pthread_t other;
    if (pthread_create(&other, NULL, store, NULL) != 0) return 2;
    long seen = shared;
    pthread_join(other, NULL);
    return seen > 1;
}
