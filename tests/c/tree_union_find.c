#include "haft.h"
static int up[20], size[20];
static int top(int i) {
    while (up[i] != i)
        i = up[i] = up[up[i]];
    return i;
}
static int join(int a, int b) {
    a = top(a);
    b = top(b);
    if (a == b)
        return 0;
    if (size[a] < size[b]) { int t = a; a = b; b = t; }
    up[b] = a;
    size[a] += size[b];
    return 1;
}
int main(void) {
    for (int i = 0; i < 20; i++)
        up[i] = i, size[i] = 1;
    int joins = 0;
    for (int i = 0; i < 20; i++)
        joins += join(i, i * 7 % 20) + join(i, (i + 5) % 20);
    for (int i = 0; i < 20; i += 6)
        haft_out(size[top(i)]);
    return joins;
}
