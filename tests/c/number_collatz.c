#include "haft.h"
int main(void) {
    unsigned longest = 0, from = 0;
    for (unsigned n = 1; n < 100; n++) {
        unsigned length = 0;
        for (uint64_t x = n; x != 1; x = x & 1 ? 3 * x + 1 : x / 2)
            length++;
        if (length > longest)
            longest = length, from = n;
    }
    haft_out(from);
    return (int)longest;
}
