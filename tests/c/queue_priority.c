#include "haft.h"
static int heap[32], size;
static void push(int v) {
    int i = size++;
    while (i > 0 && heap[(i - 1) / 2] > v) {
        heap[i] = heap[(i - 1) / 2];
        i = (i - 1) / 2;
    }
    heap[i] = v;
}
static int pop(void) {
    int least = heap[0], v = heap[--size], i = 0;
    for (int c; (c = 2 * i + 1) < size; i = c) {
        if (c + 1 < size && heap[c + 1] < heap[c])
            c++;
        if (v <= heap[c])
            break;
        heap[i] = heap[c];
    }
    heap[i] = v;
    return least;
}
int main(void) {
    for (int i = 0; i < 20; i++)
        push((i * 37 + 11) % 50);
    while (size)
        haft_out(pop());
    return 0;
}
