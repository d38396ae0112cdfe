#include "haft.h"
int main(void) {
    const char *text = "Wikipedia";
    uint32_t a = 1, b = 0;
    for (; *text; text++) {
        a = (a + (unsigned char)*text) % 65521;
        b = (b + a) % 65521;
    }
    haft_out(b << 16 | a);
    return (b << 16 | a) == 0x11e60398u ? 0 : 1;
}
