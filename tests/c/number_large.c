#include "haft.h"
#define DIGITS 40
int main(void) {
    unsigned char n[DIGITS] = {1};
    for (int f = 2; f <= 30; f++) {
        int carry = 0;
        for (int i = 0; i < DIGITS; i++) {
            int v = n[i] * f + carry;
            n[i] = (unsigned char)(v % 10);
            carry = v / 10;
        }
    }
    int i = DIGITS - 1;
    while (!n[i])
        i--;
    for (; i >= 0; i--)
        haft_out(n[i]);
    return 0;
}
