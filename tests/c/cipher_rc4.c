#include "haft.h"
int main(void) {
    uint8_t s[256], key[] = {'K', 'e', 'y'};
    for (int i = 0; i < 256; i++)
        s[i] = (uint8_t)i;
    for (int i = 0, j = 0; i < 256; i++) {
        j = (j + s[i] + key[i % 3]) & 255;
        uint8_t t = s[i];
        s[i] = s[j];
        s[j] = t;
    }
    const char *text = "Plaintext";
    for (uint8_t i = 0, j = 0; *text; text++) {
        i++;
        j += s[i];
        uint8_t t = s[i];
        s[i] = s[j];
        s[j] = t;
        haft_out((uint8_t)(*text ^ s[(uint8_t)(s[i] + s[j])]));
    }
    return 0;
}
