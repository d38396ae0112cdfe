#include "haft.h"
static uint32_t root(uint64_t n) {
    uint64_t r = 0, bit = 1ull << 62;
    while (bit > n) bit >>= 2;
    while (bit) {
        if (n >= r + bit) {
            n -= r + bit;
            r = (r >> 1) + bit;
        } else {
            r >>= 1;
        }
        bit >>= 2;
    }
    return (uint32_t)r;
}
int main(void) {
    for (uint64_t n = 1; n < 1ull << 50; n *= 37)
        haft_out(root(n));
    haft_out(root(~0ull));
    return 0;
}
