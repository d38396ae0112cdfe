#include "haft.h"
#include <stdio.h>
static char turn(char c, int by) {
    if (c >= 'a' && c <= 'z')
        return (char)('a' + (c - 'a' + by + 26) % 26);
    if (c >= 'A' && c <= 'Z')
        return (char)('A' + (c - 'A' + by + 26) % 26);
    return c;
}
int main(void) {
    char text[] = "Hello, World";
    for (int i = 0; text[i]; i++)
        text[i] = turn(text[i], 13);
    puts(text);
    for (int i = 0; text[i]; i++)
        text[i] = turn(text[i], -13);
    puts(text);
    return 0;
}
