#include "haft.h"
static int solve(unsigned all, unsigned columns, unsigned left, unsigned right) {
    if (columns == all)
        return 1;
    int found = 0;
    unsigned free_ = all & ~(columns | left | right);
    while (free_) {
        unsigned bit = free_ & -free_;
        free_ ^= bit;
        found += solve(all, columns | bit, (left | bit) << 1, (right | bit) >> 1);
    }
    return found;
}
int main(void) {
    for (int n = 1; n <= 6; n++)
        haft_out(solve((1u << n) - 1, 0, 0, 0));
    return 0;
}
