#include "haft.h"
static uint64_t spread(uint32_t v) {
    uint64_t x = v;
    x = (x | x << 16) & 0x0000ffff0000ffffull;
    x = (x | x << 8) & 0x00ff00ff00ff00ffull;
    x = (x | x << 4) & 0x0f0f0f0f0f0f0f0full;
    x = (x | x << 2) & 0x3333333333333333ull;
    return (x | x << 1) & 0x5555555555555555ull;
}
int main(void) {
    for (uint32_t x = 1; x < 1000; x = x * 3 + 1)
        haft_out(spread(x) | spread(x + 1) << 1);
    return 0;
}
