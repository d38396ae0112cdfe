#include "haft.h"
struct link { struct link *back, *next; int value; };
static struct link ring = {&ring, &ring, 0}, pool[10];
static void insert(struct link *after, struct link *l) {
    l->back = after;
    l->next = after->next;
    after->next->back = l;
    after->next = l;
}
static void drop(struct link *l) {
    l->back->next = l->next;
    l->next->back = l->back;
}
int main(void) {
    for (int i = 0; i < 10; i++) {
        pool[i].value = i;
        insert(i % 2 ? &ring : ring.back, &pool[i]);
    }
    drop(&pool[4]);
    drop(ring.next);
    for (struct link *l = ring.next; l != &ring; l = l->next)
        haft_out(l->value);
    for (struct link *l = ring.back; l != &ring; l = l->back)
        haft_out(l->value);
    return 0;
}
