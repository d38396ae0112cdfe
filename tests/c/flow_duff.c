#include "haft.h"
static void send(int *to, const int *from, int count) {
    int rounds = (count + 3) / 4;
    switch (count % 4) {
    case 0: do { *to++ = *from++; /* fall through */
    case 3:      *to++ = *from++; /* fall through */
    case 2:      *to++ = *from++; /* fall through */
    case 1:      *to++ = *from++;
            } while (--rounds > 0);
    }
}
int main(void) {
    int a[11], b[11] = {0};
    for (int i = 0; i < 11; i++)
        a[i] = i * 11;
    send(b, a, 11);
    for (int i = 0; i < 11; i++)
        haft_out(b[i]);
    return 0;
}
