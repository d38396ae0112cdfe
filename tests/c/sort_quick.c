#include "haft.h"
static void quick(int64_t *a, int low, int high) {
    if (low >= high)
        return;
    int64_t pivot = a[(low + high) / 2];
    int i = low, j = high;
    while (i <= j) {
        while (a[i] < pivot) i++;
        while (a[j] > pivot) j--;
        if (i <= j) {
            int64_t t = a[i];
            a[i++] = a[j];
            a[j--] = t;
        }
    }
    quick(a, low, j);
    quick(a, i, high);
}
int main(void) {
    int64_t a[20];
    uint64_t x = 12345;
    for (int i = 0; i < 20; i++) {
        x = x * 6364136223846793005u + 1442695040888963407u;
        a[i] = (int64_t)(x >> 40);
    }
    quick(a, 0, 19);
    for (int i = 0; i < 20; i++)
        haft_out((uint64_t)a[i]);
    return 0;
}
