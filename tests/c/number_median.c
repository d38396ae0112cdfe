#include "haft.h"
#include <stdlib.h>
static int min(int a, int b) { return a < b ? a : b; }
static int max(int a, int b) { return a > b ? a : b; }
static int median(int a, int b, int c) { return max(min(a, b), min(max(a, b), c)); }
int main(void) {
    unsigned x = 17;
    for (int i = 0; i < 10; i++) {
        int v[3];
        for (int k = 0; k < 3; k++) {
            x = x * 1103515245u + 12345u;
            v[k] = (int)(x >> 16 & 255) - 128;
        }
        haft_out((uint64_t)(int64_t)median(v[0], v[1], v[2]));
        haft_out(abs(v[0]) + (uint64_t)labs(v[1]));
    }
    return 0;
}
