#include "haft.h"
#include <pthread.h>
#include <stdatomic.h>
static _Atomic uint8_t small = 250;
static _Atomic(long) box = 1;
static void *work(void *arg) {
    for (int i = 0; i < 3; i++)
        small += 3;
    long mine = (long)arg;
    mine = atomic_exchange(&box, mine);
    return (void *)mine;
}
int main(void) {
    pthread_t t;
    pthread_create(&t, NULL, work, (void *)7);
    pthread_join(t, NULL);
    small ^= 0x55;
    atomic_thread_fence(memory_order_seq_cst);
    haft_out(small);
    haft_out((uint64_t)atomic_exchange(&box, 9));
    haft_out((uint64_t)box);
    return 0;
}
