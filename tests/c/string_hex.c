#include "haft.h"
#include <stdio.h>
static const char digits[16] = "0123456789abcdef";
int main(void) {
    unsigned char bytes[] = {0, 1, 0x7f, 0x80, 0xff, 0xa5};
    char text[2 * sizeof bytes + 1];
    for (unsigned i = 0; i < sizeof bytes; i++) {
        text[2 * i] = digits[bytes[i] >> 4];
        text[2 * i + 1] = digits[bytes[i] & 15];
    }
    text[2 * sizeof bytes] = '\0';
    puts(text);
    return 0;
}
