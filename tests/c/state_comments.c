#include "haft.h"
#include <stdio.h>
enum state { CODE, SLASH, LINE, BLOCK, STAR };
int main(void) {
    const char *p = "a /* b * c */ d // e\nf / g";
    enum state s = CODE;
    int kept = 0;
    for (; *p; p++) {
        switch (s) {
        case CODE:
            if (*p == '/') s = SLASH;
            else kept++, putchar(*p);
            break;
        case SLASH:
            if (*p == '*') s = BLOCK;
            else if (*p == '/') s = LINE;
            else { putchar('/'); putchar(*p); kept += 2; s = CODE; }
            break;
        case LINE:
            if (*p == '\n') { putchar('\n'); kept++; s = CODE; }
            break;
        case BLOCK:
            if (*p == '*') s = STAR;
            break;
        case STAR:
            s = *p == '/' ? CODE : *p == '*' ? STAR : BLOCK;
            break;
        }
    }
    haft_out(kept);
    return s;
}
