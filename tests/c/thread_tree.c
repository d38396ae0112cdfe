#include "haft.h"
#include <pthread.h>
struct job { int low, high; long result; };
static void *solve(void *arg) {
    struct job *j = arg;
    if (j->high - j->low < 8) {
        j->result = 0;
        for (int i = j->low; i < j->high; i++)
            j->result += (long)i * i;
        return NULL;
    }
    int mid = (j->low + j->high) / 2;
    struct job left = {j->low, mid, 0}, right = {mid, j->high, 0};
    pthread_t t;
    pthread_create(&t, NULL, solve, &left);
    solve(&right);
    pthread_join(t, NULL);
    j->result = left.result + right.result;
    return NULL;
}
int main(void) {
    struct job all = {0, 30, 0};
    solve(&all);
    haft_out((uint64_t)all.result);
    return 0;
}
