#include "haft.h"
static unsigned moves;
static void hanoi(int n, int from, int to, int by) {
    if (n == 0)
        return;
    hanoi(n - 1, from, by, to);
    moves++;
    if (n == 5)
        haft_out(10 * from + to);
    hanoi(n - 1, by, to, from);
}
int main(void) {
    hanoi(7, 1, 3, 2);
    return (int)moves;
}
