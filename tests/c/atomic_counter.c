#include "haft.h"
#include <pthread.h>
#include <stdatomic.h>
static atomic_int count;
static _Atomic uint64_t bits;
static void *work(void *arg) {
    for (int i = 0; i < 6; i++) {
        atomic_fetch_add(&count, i);
        atomic_fetch_or(&bits, 1ull << (8 * (long)arg + i));
    }
    atomic_fetch_sub_explicit(&count, 1, memory_order_relaxed);
    return NULL;
}
int main(void) {
    pthread_t t[3];
    for (long k = 0; k < 3; k++)
        pthread_create(&t[k], NULL, work, (void *)k);
    for (int k = 0; k < 3; k++)
        pthread_join(t[k], NULL);
    haft_out(atomic_load(&count));
    haft_out(atomic_load(&bits));
    return 0;
}
