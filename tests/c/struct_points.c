#include "haft.h"
struct point { int x, y; };
struct box { struct point low, high; };
static struct point shifted(struct point p, int dx, int dy) {
    p.x += dx;
    p.y += dy;
    return p;
}
static int area(struct box b) { return (b.high.x - b.low.x) * (b.high.y - b.low.y); }
int main(void) {
    struct box b = {{1, 2}, {5, 9}};
    haft_out(area(b));
    b.high = shifted(b.high, 3, -2);
    haft_out(area(b));
    haft_out(b.high.x * 100 + b.high.y);
    return 0;
}
