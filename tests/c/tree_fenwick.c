#include "haft.h"
#define N 32
static int64_t sums[N + 1];
static void add(int i, int64_t v) { for (; i <= N; i += i & -i) sums[i] += v; }
static int64_t upto(int i) { int64_t s = 0; for (; i > 0; i &= i - 1) s += sums[i]; return s; }
int main(void) {
    for (int i = 1; i <= N; i++)
        add(i, i % 2 ? i : -i);
    for (int i = 1; i <= N; i += 5)
        haft_out((uint64_t)upto(i));
    return (int)(upto(20) - upto(10));
}
