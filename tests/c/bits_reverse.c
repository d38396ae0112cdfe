#include "haft.h"
static uint32_t reverse(uint32_t x) {
    x = ((x >> 1) & 0x55555555u) | ((x & 0x55555555u) << 1);
    x = ((x >> 2) & 0x33333333u) | ((x & 0x33333333u) << 2);
    x = ((x >> 4) & 0x0f0f0f0fu) | ((x & 0x0f0f0f0fu) << 4);
    return __builtin_bswap32(x);
}
int main(void) {
    for (uint32_t x = 1; x; x <<= 3)
        haft_out(reverse(x | 5));
    haft_out(__builtin_bswap16(0x1234));
    haft_out(__builtin_bswap64(0x0102030405060708ull));
    return 0;
}
