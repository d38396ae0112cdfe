#include "haft.h"
static long det(const long *m, int n) {
    if (n == 1)
        return m[0];
    long sum = 0, minor[16];
    for (int skip = 0; skip < n; skip++) {
        int k = 0;
        for (int r = 1; r < n; r++)
            for (int c = 0; c < n; c++)
                if (c != skip)
                    minor[k++] = m[r * n + c];
        sum += (skip % 2 ? -1 : 1) * m[skip] * det(minor, n - 1);
    }
    return sum;
}
int main(void) {
    const long m[] = {2, 0, 1, 3, 1, 4, -2, 1, 0, 5, 2, 2, 3, 1, 1, -1};
    haft_out((uint64_t)det(m, 4));
    return 0;
}
