#include "haft.h"
int main(void) {
    static const int a[] = {7, -7, 7, -7, 0, 2147483647, -2147483647 - 1}, b[] = {2, 2, -2, -2, 5, -1, 2};
    for (int i = 0; i < 7; i++) {
        haft_out((uint32_t)(a[i] / b[i]));
        haft_out((uint32_t)(a[i] % b[i]));
        haft_out((uint32_t)a[i] / 3);
        haft_out((uint32_t)(a[i] >> 3));
    }
    return 0;
}
