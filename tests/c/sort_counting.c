#include "haft.h"
int main(void) {
    const char *text = "the quick brown fox jumps over the lazy dog";
    int count[256] = {0};
    for (const char *p = text; *p; p++)
        count[(unsigned char)*p]++;
    for (int c = 'a'; c <= 'z'; c++)
        haft_out(count[c]);
    return count[' '];
}
