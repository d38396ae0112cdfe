#include "haft.h"
#include <string.h>
static unsigned char now[10][10], then[10][10];
static int around(int r, int c) {
    int n = 0;
    for (int i = -1; i <= 1; i++)
        for (int j = -1; j <= 1; j++)
            if (i || j)
                n += now[(r + i + 10) % 10][(c + j + 10) % 10];
    return n;
}
int main(void) {
    now[1][2] = now[2][3] = now[3][1] = now[3][2] = now[3][3] = 1;
    for (int t = 0; t < 4; t++) {
        for (int r = 0; r < 10; r++)
            for (int c = 0; c < 10; c++) {
                int n = around(r, c);
                then[r][c] = n == 3 || (now[r][c] && n == 2);
            }
        memcpy(now, then, sizeof now);
    }
    for (int r = 0; r < 10; r++)
        for (int c = 0; c < 10; c++)
            if (now[r][c])
                haft_out(10 * r + c);
    return 0;
}
