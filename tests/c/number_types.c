#include "haft.h"
#include <stdbool.h>
int main(void) {
    signed char c = (signed char)200;
    unsigned char d = (unsigned char)-3;
    short s = (short)70000;
    bool b = 256;
    long l = -1;
    haft_out((uint64_t)(int64_t)c);
    haft_out(d);
    haft_out((uint64_t)(int64_t)s);
    haft_out(b + b);
    haft_out((uint32_t)l);
    haft_out((uint64_t)(l < 0u));
    haft_out(c + d > 0);
    haft_out((uint16_t)(s << 3));
    return (int)sizeof(long);
}
