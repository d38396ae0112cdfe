#include "haft.h"
#include <stdbool.h>
static uint64_t words[4];
static void put(unsigned k) { words[k / 64] |= 1ull << (k % 64); }
static bool has(unsigned k) { return words[k / 64] >> (k % 64) & 1; }
static void drop(unsigned k) { words[k / 64] &= ~(1ull << (k % 64)); }
int main(void) {
    for (unsigned k = 0; k < 256; k += 7)
        put(k);
    drop(49);
    unsigned count = 0;
    for (unsigned k = 0; k < 256; k++)
        count += has(k);
    haft_out(count);
    haft_out(has(49));
    haft_out(has(56));
    return 0;
}
