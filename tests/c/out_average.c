#include "haft.h"
int main(void) {
    int cells[] = {3, 4, 8};
    double sum = 0;
    for (int i = 0; i < 3; i++)
        sum += cells[i] + (double)haft_arg(0);
    haft_out((uint64_t)(sum / 3 * 100));
    return 0;
}
