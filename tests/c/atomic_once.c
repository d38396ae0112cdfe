#include "haft.h"
#include <pthread.h>
#include <stdatomic.h>
#include <stdlib.h>
static _Atomic(int *) shared_;
static int *get(void) {
    int *known = atomic_load(&shared_);
    if (known)
        return known;
    int *mine = malloc(sizeof *mine);
    if (!mine)
        exit(1);
    *mine = 42;
    if (atomic_compare_exchange_strong(&shared_, &known, mine))
        return mine;
    free(mine);
    return known;
}
static void *work(void *arg) {
    *(int *)arg = *get();
    return NULL;
}
int main(void) {
    pthread_t t[3];
    int seen[3];
    for (int k = 0; k < 3; k++)
        pthread_create(&t[k], NULL, work, &seen[k]);
    for (int k = 0; k < 3; k++)
        pthread_join(t[k], NULL);
    haft_out(seen[0] + seen[1] + seen[2]);
    return 0;
}
