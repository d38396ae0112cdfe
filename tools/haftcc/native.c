/* haft's externals for a program that runs natively: `cc prog.c native.c -lpthread`. Numbers and bytes are put out as haft's report has
 * them, and the numbers of haft_arg are the words after the program's name. */
#include <stdint.h>
#include <stdio.h>
#include <stdlib.h>

static int count;
static char **words;

__attribute__((constructor)) static void take_words(int argc, char **argv) {
    count = argc;
    words = argv;
}

void haft_out(uint64_t number) {
    printf("out %llu\n", (unsigned long long)number);
}

uint64_t haft_arg(uint64_t place) {
    return place + 1 < (uint64_t)count ? strtoull(words[place + 1], NULL, 10) : 0;
}

int putchar(int c) {
    printf("put %d\n", (unsigned char)c);
    return (unsigned char)c;
}

int puts(const char *text) {
    while (*text)
        putchar(*text++);
    return putchar('\n');
}
