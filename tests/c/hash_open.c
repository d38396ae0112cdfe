#include "haft.h"
#define SIZE 64
static struct { int used, key, value; } slots[SIZE];
static int probe(int key) {
    unsigned at = (unsigned)key * 31u % SIZE;
    while (slots[at].used && slots[at].key != key)
        at = (at + 1) % SIZE;
    return (int)at;
}
int main(void) {
    for (int k = 0; k < 50; k++) {
        int at = probe(k % 37 * 100);
        slots[at].used = 1;
        slots[at].key = k % 37 * 100;
        slots[at].value += k;
    }
    for (int k = 0; k < 3700; k += 300)
        haft_out(slots[probe(k)].value);
    return 0;
}
