#include "haft.h"
#include <pthread.h>
#include <stdatomic.h>
static atomic_uint next_ticket, serving;
static unsigned order[9], used;
static void *work(void *arg) {
    for (int i = 0; i < 3; i++) {
        unsigned mine = atomic_fetch_add(&next_ticket, 1);
        while (atomic_load(&serving) != mine)
            ;
        order[used++] = mine;
        atomic_fetch_add(&serving, 1);
    }
    return arg;
}
int main(void) {
    pthread_t t[3];
    for (int k = 0; k < 3; k++)
        pthread_create(&t[k], NULL, work, NULL);
    for (int k = 0; k < 3; k++)
        pthread_join(t[k], NULL);
    for (unsigned k = 0; k < used; k++)
        haft_out(order[k]);
    return 0;
}
