#include "haft.h"
static void sort(short *a, int n) {
    for (int i = 1; i < n; i++) {
        short v = a[i];
        int j = i - 1;
        while (j >= 0 && a[j] > v) {
            a[j + 1] = a[j];
            j--;
        }
        a[j + 1] = v;
    }
}
int main(void) {
    short a[10] = {5, 2, 9, 1, 5, 6, -4, 300, -300, 0};
    sort(a, 10);
    for (int i = 0; i < 10; i++)
        haft_out((unsigned short)a[i]);
    return a[9] - a[8];
}
