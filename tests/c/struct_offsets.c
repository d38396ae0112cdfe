#include "haft.h"
#include <stddef.h>
struct mixed { char a; short b; char c; long d; char e; int f; };
struct nested { char a; struct mixed m[2]; char z; };
int main(void) {
    haft_out(offsetof(struct mixed, b));
    haft_out(offsetof(struct mixed, d));
    haft_out(offsetof(struct mixed, f));
    haft_out(sizeof(struct mixed));
    haft_out(offsetof(struct nested, m[1].d));
    haft_out(sizeof(struct nested));
    static struct nested n;
    n.m[1].d = 77;
    n.z = 5;
    return (int)*(long *)((char *)&n + offsetof(struct nested, m[1].d)) + ((char *)&n)[offsetof(struct nested, z)];
}
