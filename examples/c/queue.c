/* A work queue: main puts numbers into a ring of four places, and three workers take them out and count Collatz steps.
 *
 *     tools/haft-cc examples/c/queue.c > queue.ll
 *     ./haft run queue.ll examples/c/round_robin.sched
 *
 * Who takes which number depends on the schedule. Each result goes to a place of its own, so what is put out doesn't: the steps of each
 * number, how many numbers were taken, and the most that ever waited, which is never more than the ring has places.
 */
#include "haft.h"

#include <pthread.h>
#include <stdbool.h>
#include <stddef.h>

#define PLACES 4
#define WORKERS 3
#define JOBS 12

struct job {
    uint32_t number;
    uint32_t *steps; /* where the result goes */
};

struct queue {
    pthread_mutex_t lock;
    pthread_cond_t changed;
    struct job ring[PLACES];
    unsigned first, used, most;
    bool closed;
};

static struct queue queue = {.lock = PTHREAD_MUTEX_INITIALIZER, .changed = PTHREAD_COND_INITIALIZER};
static uint32_t results[JOBS];
static unsigned taken[WORKERS];

static void put(struct queue *q, struct job job) {
    pthread_mutex_lock(&q->lock);
    while (q->used == PLACES)
        pthread_cond_wait(&q->changed, &q->lock);
    q->ring[(q->first + q->used++) % PLACES] = job;
    if (q->used > q->most)
        q->most = q->used;
    pthread_cond_broadcast(&q->changed);
    pthread_mutex_unlock(&q->lock);
}

/* Takes the next job, or finds that none comes any more. */
static bool take(struct queue *q, struct job *job) {
    pthread_mutex_lock(&q->lock);
    while (q->used == 0 && !q->closed)
        pthread_cond_wait(&q->changed, &q->lock);
    bool found = q->used > 0;
    if (found) {
        *job = q->ring[q->first];
        q->first = (q->first + 1) % PLACES;
        q->used--;
        pthread_cond_broadcast(&q->changed);
    }
    pthread_mutex_unlock(&q->lock);
    return found;
}

static void close_queue(struct queue *q) {
    pthread_mutex_lock(&q->lock);
    q->closed = true;
    pthread_cond_broadcast(&q->changed);
    pthread_mutex_unlock(&q->lock);
}

static uint32_t collatz(uint64_t n) {
    uint32_t steps = 0;
    while (n != 1) {
        n = n % 2 ? 3 * n + 1 : n / 2;
        steps++;
    }
    return steps;
}

static void *work(void *arg) {
    unsigned *mine = arg;
    struct job job;
    while (take(&queue, &job)) {
        *job.steps = collatz(job.number);
        ++*mine;
    }
    return NULL;
}

int main(void) {
    pthread_t threads[WORKERS];
    for (int k = 0; k < WORKERS; k++)
        pthread_create(&threads[k], NULL, work, &taken[k]);
    for (uint32_t k = 0; k < JOBS; k++)
        put(&queue, (struct job){.number = 3 * k + 1, .steps = &results[k]});
    close_queue(&queue);

    unsigned all = 0;
    for (int k = 0; k < WORKERS; k++) {
        pthread_join(threads[k], NULL);
        all += taken[k];
    }
    for (int k = 0; k < JOBS; k++)
        haft_out(results[k]);
    haft_out(all);
    return queue.most <= PLACES && queue.used == 0 ? 0 : 1;
}
