#include "haft.h"
#include <string.h>
static struct { short child[26]; short ends; } nodes[64];
static int made = 1;
static void add(const char *word) {
    int at = 0;
    for (; *word; word++) {
        short *next = &nodes[at].child[*word - 'a'];
        if (!*next)
            *next = (short)made++;
        at = *next;
    }
    nodes[at].ends++;
}
static int count(const char *word) {
    int at = 0;
    for (; *word; word++)
        if (!(at = nodes[at].child[*word - 'a']))
            return 0;
    return nodes[at].ends;
}
int main(void) {
    const char *words[] = {"tea", "ten", "to", "tea", "inn", "in", "i"};
    for (unsigned i = 0; i < 7; i++)
        add(words[i]);
    haft_out(count("tea"));
    haft_out(count("te"));
    haft_out(count("inn"));
    haft_out(count("nothing"));
    return made;
}
