#include "haft.h"
#include <string.h>
static uint32_t table[256];
static void fill(void) {
    for (uint32_t n = 0; n < 256; n++) {
        uint32_t c = n;
        for (int k = 0; k < 8; k++)
            c = c & 1 ? 0xedb88320u ^ (c >> 1) : c >> 1;
        table[n] = c;
    }
}
static uint32_t crc(const void *at, size_t size) {
    const uint8_t *p = at;
    uint32_t c = ~0u;
    while (size--)
        c = table[(c ^ *p++) & 0xff] ^ (c >> 8);
    return ~c;
}
int main(void) {
    fill();
    const char *text = "123456789";
    haft_out(crc(text, strlen(text)));
    return crc(text, 9) == 0xcbf43926u ? 0 : 1;
}
