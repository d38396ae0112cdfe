#include "haft.h"
static const int weight[] = {3, 4, 5, 9, 14}, worth[] = {3, 4, 4, 10, 15};
static int best(int k, int room) {
    if (k < 0)
        return 0;
    int without = best(k - 1, room);
    if (weight[k] > room)
        return without;
    int with = worth[k] + best(k - 1, room - weight[k]);
    return with > without ? with : without;
}
int main(void) {
    for (int room = 0; room <= 30; room += 5)
        haft_out(best(4, room));
    return 0;
}
