#include "haft.h"
#include <stdbool.h>
struct shape {
    enum { CIRCLE, SQUARE, RECTANGLE } kind;
    union { int radius; int side; struct { short width, height; }; };
    bool filled;
};
static int area(const struct shape *s) {
    switch (s->kind) {
    case CIRCLE: return 355 * s->radius * s->radius / 113;
    case SQUARE: return s->side * s->side;
    case RECTANGLE: return s->width * s->height;
    }
    return -1;
}
static const struct shape all[] = {
    {.kind = CIRCLE, .radius = 10, .filled = true}, {.kind = SQUARE, .side = 7}, {.kind = RECTANGLE, .width = 3, .height = 11, .filled = true},
};
int main(void) {
    int filled = 0;
    for (int i = 0; i < 3; i++) {
        haft_out(area(&all[i]));
        filled += all[i].filled;
    }
    return filled;
}
