#include "haft.h"
#include <stdio.h>
static const struct { int value; const char *digits; } steps[] = {
    {1000, "M"}, {900, "CM"}, {500, "D"}, {400, "CD"}, {100, "C"}, {90, "XC"}, {50, "L"}, {40, "XL"}, {10, "X"}, {9, "IX"}, {5, "V"}, {4, "IV"}, {1, "I"},
};
int main(void) {
    int years[] = {1994, 2026, 449};
    for (int y = 0; y < 3; y++) {
        int n = years[y];
        for (unsigned k = 0; k < sizeof steps / sizeof *steps; k++)
            for (; n >= steps[k].value; n -= steps[k].value)
                for (const char *p = steps[k].digits; *p; p++)
                    putchar(*p);
        putchar('\n');
    }
    return 0;
}
