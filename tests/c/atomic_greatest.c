#include "haft.h"
#include <pthread.h>
#include <stdatomic.h>
static _Atomic int greatest = -1;
static void offer(int v) {
    int old = atomic_load(&greatest);
    while (old < v && !atomic_compare_exchange_weak(&greatest, &old, v))
        ;
}
static void *work(void *arg) {
    for (int i = 0; i < 5; i++)
        offer((i * 37 + 13 * (int)(long)arg) % 100);
    return NULL;
}
int main(void) {
    pthread_t t[3];
    for (long k = 0; k < 3; k++)
        pthread_create(&t[k], NULL, work, (void *)k);
    for (int k = 0; k < 3; k++)
        pthread_join(t[k], NULL);
    return atomic_load(&greatest);
}
