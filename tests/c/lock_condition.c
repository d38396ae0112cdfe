#include "haft.h"
#include <pthread.h>
static pthread_mutex_t lock = PTHREAD_MUTEX_INITIALIZER;
static pthread_cond_t changed = PTHREAD_COND_INITIALIZER;
static int room[2], used, put;
static void *producer(void *arg) {
    (void)arg;
    for (int v = 1; v <= 6; v++) {
        pthread_mutex_lock(&lock);
        while (used == 2)
            pthread_cond_wait(&changed, &lock);
        room[put++ % 2] = v * v;
        used++;
        pthread_cond_signal(&changed);
        pthread_mutex_unlock(&lock);
    }
    return NULL;
}
int main(void) {
    pthread_t t;
    pthread_create(&t, NULL, producer, NULL);
    for (int taken = 0; taken < 6; taken++) {
        pthread_mutex_lock(&lock);
        while (used == 0)
            pthread_cond_wait(&changed, &lock);
        haft_out(room[taken % 2]);
        used--;
        pthread_cond_signal(&changed);
        pthread_mutex_unlock(&lock);
    }
    pthread_join(t, NULL);
    return used;
}
