#include "haft.h"
static void sift(int *a, int root, int n) {
    for (;;) {
        int child = 2 * root + 1;
        if (child >= n)
            return;
        if (child + 1 < n && a[child + 1] > a[child])
            child++;
        if (a[root] >= a[child])
            return;
        int t = a[root];
        a[root] = a[child];
        a[child] = t;
        root = child;
    }
}
int main(void) {
    int a[15];
    for (int i = 0; i < 15; i++)
        a[i] = (i * 7919) % 101;
    for (int i = 7; i >= 0; i--)
        sift(a, i, 15);
    for (int n = 14; n > 0; n--) {
        int t = a[0];
        a[0] = a[n];
        a[n] = t;
        sift(a, 0, n);
    }
    for (int i = 0; i < 15; i++)
        haft_out(a[i]);
    return 0;
}
