#include "haft.h"
#include <string.h>
#define N 24
int main(void) {
    uint32_t a[N], b[N];
    for (uint32_t i = 0; i < N; i++)
        a[i] = (i * 0x9e3779b9u) ^ (i << 7);
    for (int shift = 0; shift < 32; shift += 8) {
        int start[257] = {0};
        for (int i = 0; i < N; i++)
            start[((a[i] >> shift) & 255) + 1]++;
        for (int k = 0; k < 256; k++)
            start[k + 1] += start[k];
        for (int i = 0; i < N; i++)
            b[start[(a[i] >> shift) & 255]++] = a[i];
        memcpy(a, b, sizeof a);
    }
    for (int i = 0; i < N; i++)
        haft_out(a[i]);
    return 0;
}
