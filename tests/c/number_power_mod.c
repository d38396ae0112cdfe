#include "haft.h"
static uint64_t power(uint64_t b, uint64_t e, uint64_t m) {
    uint64_t r = 1;
    for (b %= m; e; e >>= 1, b = b * b % m)
        if (e & 1)
            r = r * b % m;
    return r;
}
int main(void) {
    haft_out(power(3, 200, 1000003));
    haft_out(power(2, 1000002, 1000003));
    haft_out(power(123456789, 987654321, 998244353));
    return 0;
}
