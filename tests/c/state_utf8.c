#include "haft.h"
static int decode(const unsigned char *p, uint32_t *out) {
    if (p[0] < 0x80) { *out = p[0]; return 1; }
    if (p[0] >> 5 == 6) { *out = (p[0] & 31u) << 6 | (p[1] & 63u); return 2; }
    if (p[0] >> 4 == 14) { *out = (p[0] & 15u) << 12 | (p[1] & 63u) << 6 | (p[2] & 63u); return 3; }
    *out = (p[0] & 7u) << 18 | (p[1] & 63u) << 12 | (p[2] & 63u) << 6 | (p[3] & 63u);
    return 4;
}
int main(void) {
    const unsigned char text[] = "a\xc3\xa9\xe2\x82\xac\xf0\x9f\x98\x80z";
    for (const unsigned char *p = text; *p;) {
        uint32_t c;
        p += decode(p, &c);
        haft_out(c);
    }
    return 0;
}
