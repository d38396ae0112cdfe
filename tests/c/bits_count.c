#include "haft.h"
int main(void) {
    uint32_t x = 0x12345678;
    for (int i = 0; i < 8; i++) {
        haft_out(__builtin_popcount(x));
        haft_out(__builtin_clz(x | 1));
        haft_out(__builtin_ctz(x | 0x80000000u));
        x = x * 1664525 + 1013904223;
    }
    haft_out(__builtin_popcountll(0xf0f0f0f0f0f0f0f0ull));
    haft_out(__builtin_clzll(1));
    haft_out(__builtin_ctzll(1ull << 63));
    return 0;
}
