#include "haft.h"
struct stack { int cells[32]; int top; };
static struct stack in, out;
static void push(struct stack *s, int v) { s->cells[s->top++] = v; }
static int pop(struct stack *s) { return s->cells[--s->top]; }
static int take(void) {
    if (!out.top)
        while (in.top)
            push(&out, pop(&in));
    return pop(&out);
}
int main(void) {
    for (int i = 0; i < 10; i++) {
        push(&in, i);
        push(&in, 100 + i);
        haft_out(take());
    }
    return in.top + out.top;
}
