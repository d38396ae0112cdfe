#include "haft.h"
#include <pthread.h>
static pthread_mutex_t lock = PTHREAD_MUTEX_INITIALIZER;
static int count;
static void *work(void *arg) {
    for (int i = 0; i < (int)(long)arg; i++) {
        pthread_mutex_lock(&lock);
        count++;
        pthread_mutex_unlock(&lock);
    }
    return NULL;
}
int main(void) {
    pthread_t a, b;
    pthread_create(&a, NULL, work, (void *)5);
    pthread_create(&b, NULL, work, (void *)7);
    pthread_join(a, NULL);
    pthread_join(b, NULL);
    haft_out(count);
    return 0;
}
