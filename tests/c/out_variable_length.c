#include "haft.h"
static int sum(int n) {
    int cells[n], all = 0;
    for (int i = 0; i < n; i++)
        cells[i] = i;
    for (int i = n - 1; i >= 0; i--)
        all = all * 3 + cells[i];
    return all;
}
int main(void) {
    haft_out(sum((int)haft_arg(0) + 5));
    return 0;
}
