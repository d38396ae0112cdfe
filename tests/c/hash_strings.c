#include "haft.h"
#include <string.h>
static uint32_t fnv(const char *text) {
    uint32_t h = 2166136261u;
    while (*text)
        h = (h ^ (unsigned char)*text++) * 16777619u;
    return h;
}
static const char *keys[8];
static int slot_of(const char *key) {
    for (uint32_t at = fnv(key) & 7;; at = (at + 1) & 7)
        if (!keys[at] || strcmp(keys[at], key) == 0)
            return (int)at;
}
int main(void) {
    static const char *const all[] = {"red", "green", "blue", "red", "grey", "green"};
    int made = 0;
    for (unsigned i = 0; i < sizeof all / sizeof *all; i++) {
        int at = slot_of(all[i]);
        made += !keys[at];
        keys[at] = all[i];
        haft_out(fnv(all[i]));
    }
    return made;
}
