#include "haft.h"
#include <stdbool.h>
static unsigned ring[8], head, tail;
static bool put(unsigned v) {
    if (tail - head == 8)
        return false;
    ring[tail++ % 8] = v;
    return true;
}
static bool take(unsigned *v) {
    if (head == tail)
        return false;
    *v = ring[head++ % 8];
    return true;
}
int main(void) {
    unsigned lost = 0, v;
    for (unsigned k = 0; k < 30; k++) {
        lost += !put(k * k);
        if (k % 3 == 2 && take(&v))
            haft_out(v);
    }
    while (take(&v))
        haft_out(v);
    return (int)lost;
}
