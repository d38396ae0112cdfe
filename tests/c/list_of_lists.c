#include "haft.h"
static int *rows[4];
static int cells[10];
int main(void) {
    int **row = rows, *cell = cells;
    for (int k = 0; k < 4; k++) {
        *row++ = cell;
        for (int i = 0; i <= k; i++)
            *cell++ = (k + 1) * 10 + i;
    }
    for (int k = 3; k >= 0; k--)
        for (int i = 0; i <= k; i++)
            haft_out(rows[k][i]);
    return (int)(cell - cells);
}
