#include "haft.h"
#include <stdlib.h>
struct node { int value; struct node *next; };
static struct node *pushed(struct node *list, int value) {
    struct node *n = malloc(sizeof *n);
    if (!n)
        exit(1);
    *n = (struct node){value, list};
    return n;
}
static struct node *reversed(struct node *list) {
    struct node *done = NULL;
    while (list) {
        struct node *next = list->next;
        list->next = done;
        done = list;
        list = next;
    }
    return done;
}
int main(void) {
    struct node *list = NULL;
    for (int i = 1; i <= 9; i++)
        list = pushed(list, i * i);
    list = reversed(list);
    for (struct node *n = list; n; n = n->next)
        haft_out(n->value);
    while (list) {
        struct node *next = list->next;
        free(list);
        list = next;
    }
    return 0;
}
