#include "haft.h"
#include <stdlib.h>
struct buffer { int used, room; int cells[]; };
int main(void) {
    struct buffer *b = malloc(sizeof *b + 8 * sizeof(int));
    if (!b)
        return 1;
    b->used = 0;
    b->room = 8;
    while (b->used < b->room)
        b->cells[b->used] = b->used * 3, b->used++;
    int sum = 0;
    for (int i = 0; i < b->used; i++)
        sum += b->cells[i];
    haft_out(sum);
    free(b);
    return 0;
}
