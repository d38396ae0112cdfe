#include "haft.h"
#include <stdlib.h>
struct tree { int key; struct tree *left, *right; };
static void insert(struct tree **at, int key) {
    while (*at) {
        if (key == (*at)->key)
            return;
        at = key < (*at)->key ? &(*at)->left : &(*at)->right;
    }
    *at = calloc(1, sizeof **at);
    if (!*at)
        exit(1);
    (*at)->key = key;
}
static void walk(const struct tree *t) {
    if (!t)
        return;
    walk(t->left);
    haft_out(t->key);
    walk(t->right);
}
static int height(const struct tree *t) {
    if (!t)
        return 0;
    int l = height(t->left), r = height(t->right);
    return 1 + (l > r ? l : r);
}
int main(void) {
    struct tree *root = NULL;
    for (int i = 1; i < 60; i++)
        insert(&root, i * 31 % 47);
    walk(root);
    return height(root);
}
