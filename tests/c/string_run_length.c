#include "haft.h"
#include <stdio.h>
#include <string.h>
static int pack(const char *from, char *to) {
    char *begin = to;
    while (*from) {
        int n = 1;
        while (from[n] == *from && n < 9)
            n++;
        *to++ = *from;
        *to++ = (char)('0' + n);
        from += n;
    }
    *to = 0;
    return (int)(to - begin);
}
int main(void) {
    char packed[64];
    int n = pack("aaaabbbccd", packed);
    puts(packed);
    haft_out(n);
    return (int)strlen(packed) == n ? 0 : 1;
}
