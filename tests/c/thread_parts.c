#include "haft.h"
#include <pthread.h>
struct part { const int *from, *to; int64_t sum; };
static int cells[40];
static void *add(void *arg) {
    struct part *p = arg;
    for (const int *c = p->from; c < p->to; c++)
        p->sum += *c;
    return NULL;
}
int main(void) {
    for (int i = 0; i < 40; i++)
        cells[i] = i * i - 100;
    struct part parts[4];
    pthread_t t[4];
    for (int k = 0; k < 4; k++) {
        parts[k] = (struct part){cells + 10 * k, cells + 10 * k + 10, 0};
        pthread_create(&t[k], NULL, add, &parts[k]);
    }
    int64_t sum = 0;
    for (int k = 0; k < 4; k++) {
        pthread_join(t[k], NULL);
        sum += parts[k].sum;
    }
    haft_out((uint64_t)sum);
    return 0;
}
