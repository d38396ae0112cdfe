#include "haft.h"
static int twice(int x) { return 2 * x; }
static int square(int x) { return x * x; }
static int (*const table[])(int) = {twice, square};
int main(void) {
    haft_out(table[haft_arg(0) & 1](7));
    return 0;
}
