#include "haft.h"
#include <pthread.h>
#include <stdatomic.h>
static atomic_flag busy = ATOMIC_FLAG_INIT;
static long shared_;
static void *work(void *arg) {
    for (int i = 0; i < 4; i++) {
        while (atomic_flag_test_and_set_explicit(&busy, memory_order_acquire))
            ;
        shared_ += (long)arg;
        atomic_flag_clear_explicit(&busy, memory_order_release);
    }
    return NULL;
}
int main(void) {
    pthread_t t[2];
    for (long k = 0; k < 2; k++)
        pthread_create(&t[k], NULL, work, (void *)(k + 10));
    for (int k = 0; k < 2; k++)
        pthread_join(t[k], NULL);
    haft_out((uint64_t)shared_);
    return 0;
}
