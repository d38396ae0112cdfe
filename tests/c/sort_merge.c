#include "haft.h"
#include <stdlib.h>
#include <string.h>
static void merge_sort(unsigned *a, unsigned *room, size_t n) {
    if (n < 2)
        return;
    size_t half = n / 2;
    merge_sort(a, room, half);
    merge_sort(a + half, room, n - half);
    size_t i = 0, j = half, k = 0;
    while (i < half && j < n)
        room[k++] = a[i] <= a[j] ? a[i++] : a[j++];
    while (i < half)
        room[k++] = a[i++];
    while (j < n)
        room[k++] = a[j++];
    memcpy(a, room, n * sizeof *a);
}
int main(void) {
    size_t n = 33;
    unsigned *a = malloc(n * sizeof *a), *room = malloc(n * sizeof *room);
    for (size_t i = 0; i < n; i++)
        a[i] = (unsigned)(i * 2654435761u) >> 20;
    merge_sort(a, room, n);
    for (size_t i = 0; i < n; i++)
        haft_out(a[i]);
    free(a);
    free(room);
    return 0;
}
