#include "haft.h"
#include <pthread.h>
#include <stdatomic.h>
#include <stdbool.h>
static int letter[4];
static atomic_bool ready;
static void *writer(void *arg) {
    (void)arg;
    for (int i = 0; i < 4; i++)
        letter[i] = 100 + i;
    atomic_store_explicit(&ready, true, memory_order_release);
    return NULL;
}
int main(void) {
    pthread_t t;
    pthread_create(&t, NULL, writer, NULL);
    while (!atomic_load_explicit(&ready, memory_order_acquire))
        ;
    for (int i = 0; i < 4; i++)
        haft_out(letter[i]);
    pthread_join(t, NULL);
    return 0;
}
