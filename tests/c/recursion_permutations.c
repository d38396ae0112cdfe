#include "haft.h"
static int a[5] = {1, 2, 3, 4, 5}, count;
static void permute(int k) {
    if (k == 5) {
        if (count++ % 17 == 0)
            haft_out(a[0] * 10000 + a[1] * 1000 + a[2] * 100 + a[3] * 10 + a[4]);
        return;
    }
    for (int i = k; i < 5; i++) {
        int t = a[k]; a[k] = a[i]; a[i] = t;
        permute(k + 1);
        t = a[k]; a[k] = a[i]; a[i] = t;
    }
}
int main(void) {
    permute(0);
    return count;
}
