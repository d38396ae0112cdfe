#include "haft.h"
static const int primes[] = {2, 3, 5, 7, 11, 13, 17, 19, 23, 29, 31, 37};
static int find(int x) {
    int low = 0, high = (int)(sizeof primes / sizeof *primes) - 1;
    while (low <= high) {
        int mid = low + (high - low) / 2;
        if (primes[mid] == x)
            return mid;
        if (primes[mid] < x)
            low = mid + 1;
        else
            high = mid - 1;
    }
    return -1;
}
int main(void) {
    for (int x = 0; x < 40; x += 3)
        haft_out((uint64_t)find(x));
    return find(37);
}
