#include "haft.h"
#include <ctype.h>
static int palindrome(const char *text) {
    const char *end = text;
    while (*end)
        end++;
    while (text < end) {
        if (!isalpha((unsigned char)*text)) { text++; continue; }
        end--;
        while (end > text && !isalpha((unsigned char)*end)) end--;
        if (tolower((unsigned char)*text) != tolower((unsigned char)*end))
            return 0;
        text++;
    }
    return 1;
}
int main(void) {
    haft_out(palindrome("A man, a plan, a canal: Panama"));
    haft_out(palindrome("Not one"));
    return 0;
}
