#include "haft.h"
static unsigned next(void) {
    static unsigned state = 1;
    state = state * 214013u + 2531011u;
    return state >> 16 & 0x7fff;
}
static long many(char a, short b, int c, long d, unsigned char e, unsigned short f, unsigned g, unsigned long h) {
    return a + b + c + d + e + f + (long)g + (long)h;
}
int main(void) {
    for (int i = 0; i < 5; i++)
        haft_out(next());
    haft_out((uint64_t)many(-1, -2, -3, -4, 255, 65535, 7, 8));
    haft_out(haft_arg(0));
    return 0;
}
