#include "haft.h"
#include <pthread.h>
static struct { pthread_mutex_t lock; int values[8]; int used; } buckets[4];
static void *work(void *arg) {
    for (int i = (int)(long)arg; i < 24; i += 3) {
        int b = i * 7 % 4;
        pthread_mutex_lock(&buckets[b].lock);
        buckets[b].values[buckets[b].used++] = i;
        pthread_mutex_unlock(&buckets[b].lock);
    }
    return NULL;
}
int main(void) {
    pthread_t t[3];
    for (long k = 0; k < 3; k++)
        pthread_create(&t[k], NULL, work, (void *)k);
    for (int k = 0; k < 3; k++)
        pthread_join(t[k], NULL);
    for (int b = 0; b < 4; b++) {
        int sum = 0;
        for (int i = 0; i < buckets[b].used; i++)
            sum += buckets[b].values[i];
        haft_out(sum);
    }
    return 0;
}
