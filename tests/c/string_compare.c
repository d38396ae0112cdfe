#include "haft.h"
#include <string.h>
static int sign(int n) { return (n > 0) - (n < 0); }
int main(void) {
    const char *words[] = {"apple", "apples", "banana", "", "apple"};
    for (int i = 0; i < 5; i++)
        for (int j = 0; j < 5; j++)
            haft_out((uint64_t)(10 + sign(strcmp(words[i], words[j]))));
    haft_out(strncmp(words[0], words[1], 5) == 0);
    return 0;
}
