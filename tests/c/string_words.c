#include "haft.h"
#include <stdbool.h>
int main(void) {
    const char *text = "  it was the best of times,\n it was the worst of times ";
    bool inside = false;
    int words = 0, longest = 0, run = 0;
    for (; *text; text++) {
        bool letter = *text >= 'a' && *text <= 'z';
        if (letter && !inside)
            words++;
        run = letter ? run + 1 : 0;
        if (run > longest)
            longest = run;
        inside = letter;
    }
    haft_out(words);
    haft_out(longest);
    return 0;
}
