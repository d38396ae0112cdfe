#include "haft.h"
#include <pthread.h>
struct account { pthread_mutex_t lock; int64_t money; };
static struct account all[3];
static void move(int from, int to, int64_t sum) {
    int low = from < to ? from : to, high = from < to ? to : from;
    pthread_mutex_lock(&all[low].lock);
    pthread_mutex_lock(&all[high].lock);
    all[from].money -= sum;
    all[to].money += sum;
    pthread_mutex_unlock(&all[high].lock);
    pthread_mutex_unlock(&all[low].lock);
}
static void *work(void *arg) {
    int me = (int)(long)arg;
    for (int k = 0; k < 4; k++)
        move(me, (me + 1 + k % 2) % 3, 10 * k + me);
    return NULL;
}
int main(void) {
    pthread_t t[3];
    for (long k = 0; k < 3; k++) {
        pthread_mutex_init(&all[k].lock, NULL);
        all[k].money = 1000;
    }
    for (long k = 0; k < 3; k++)
        pthread_create(&t[k], NULL, work, (void *)k);
    for (int k = 0; k < 3; k++)
        pthread_join(t[k], NULL);
    for (int k = 0; k < 3; k++)
        haft_out((uint64_t)all[k].money);
    return 0;
}
