#include "haft.h"
#include <pthread.h>
#include <semaphore.h>
static sem_t ping, pong;
static int ball;
static void *other(void *arg) {
    (void)arg;
    for (int i = 0; i < 3; i++) {
        sem_wait(&ping);
        ball *= 3;
        sem_post(&pong);
    }
    return NULL;
}
int main(void) {
    pthread_t t;
    sem_init(&ping, 0, 0);
    sem_init(&pong, 0, 0);
    pthread_create(&t, NULL, other, NULL);
    for (int i = 0; i < 3; i++) {
        ball += 1;
        sem_post(&ping);
        sem_wait(&pong);
        haft_out(ball);
    }
    pthread_join(t, NULL);
    return 0;
}
