#include "haft.h"
#include <stdlib.h>
struct entry {
    uint64_t key, value;
    struct entry *next;
};
static struct entry *table[16];
static unsigned slot(uint64_t key) { return (unsigned)(key * 0x9e3779b97f4a7c15ull >> 60); }
static struct entry *find(uint64_t key) {
    for (struct entry *e = table[slot(key)]; e; e = e->next)
        if (e->key == key)
            return e;
    return NULL;
}
static void put(uint64_t key, uint64_t value) {
    struct entry *e = find(key);
    if (!e) {
        e = malloc(sizeof *e);
        if (!e)
            exit(1);
        e->key = key;
        e->next = table[slot(key)];
        table[slot(key)] = e;
    }
    e->value = value;
}
int main(void) {
    for (uint64_t k = 0; k < 40; k++)
        put(k * k, k);
    put(81, 900);
    for (uint64_t k = 0; k < 100; k += 9) {
        struct entry *e = find(k);
        haft_out(e ? e->value : 0xffff);
    }
    return 0;
}
