#include "haft.h"
struct fraction { long num, den; };
static long gcd(long a, long b) { return b ? gcd(b, a % b) : a < 0 ? -a : a; }
static struct fraction made(long num, long den) {
    long g = gcd(num, den);
    return (struct fraction){num / g, den / g};
}
static struct fraction plus(struct fraction a, struct fraction b) { return made(a.num * b.den + b.num * a.den, a.den * b.den); }
int main(void) {
    struct fraction sum = {0, 1};
    for (long k = 1; k <= 10; k++)
        sum = plus(sum, made(1, k));
    haft_out(sum.num);
    haft_out(sum.den);
    return 0;
}
