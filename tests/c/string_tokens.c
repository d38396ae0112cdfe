#include "haft.h"
#include <stdio.h>
#include <string.h>
int main(void) {
    char line[] = "alpha;beta;;gamma";
    char *at = line;
    int count = 0;
    while (at) {
        char *next = strchr(at, ';');
        if (next)
            *next++ = 0;
        puts(at);
        count++;
        at = next;
    }
    return count;
}
