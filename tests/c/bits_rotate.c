#include "haft.h"
static uint32_t left(uint32_t x, unsigned n) { return (x << (n & 31)) | (x >> (-n & 31)); }
static uint64_t right(uint64_t x, unsigned n) { return (x >> (n & 63)) | (x << (-n & 63)); }
int main(void) {
    for (unsigned n = 0; n < 36; n += 5) {
        haft_out(left(0x80000001u, n));
        haft_out(right(0x8000000000000001ull, n));
    }
    return 0;
}
