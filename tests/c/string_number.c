#include "haft.h"
#include <stdio.h>
#include <stdlib.h>
static void digits(long n, char *to) {
    char back[24];
    int k = 0, minus = n < 0;
    unsigned long m = minus ? 0ul - (unsigned long)n : (unsigned long)n;
    do {
        back[k++] = (char)('0' + m % 10);
        m /= 10;
    } while (m);
    if (minus)
        *to++ = '-';
    while (k)
        *to++ = back[--k];
    *to = 0;
}
int main(void) {
    char room[24];
    digits(-1234567890123l, room);
    puts(room);
    haft_out((uint64_t)atol(room));
    digits(0, room);
    puts(room);
    return atoi("  42x");
}
