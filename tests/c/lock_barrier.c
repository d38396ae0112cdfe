#include "haft.h"
#include <pthread.h>
static pthread_barrier_t barrier;
static int cells[3] = {1, 2, 3}, next[3];
static void *work(void *arg) {
    int me = (int)(long)arg;
    for (int round = 0; round < 3; round++) {
        next[me] = cells[me] + cells[(me + 1) % 3];
        pthread_barrier_wait(&barrier);
        cells[me] = next[me];
        pthread_barrier_wait(&barrier);
    }
    return NULL;
}
int main(void) {
    pthread_t t[3];
    pthread_barrier_init(&barrier, NULL, 3);
    for (long k = 0; k < 3; k++)
        pthread_create(&t[k], NULL, work, (void *)k);
    for (int k = 0; k < 3; k++)
        pthread_join(t[k], NULL);
    for (int k = 0; k < 3; k++)
        haft_out(cells[k]);
    pthread_barrier_destroy(&barrier);
    return 0;
}
