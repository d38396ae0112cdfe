#include "haft.h"
int main(void) {
    int i = 0, sum = 0;
again:
    if (i >= 10)
        goto done;
    i++;
    if (i % 3 == 0)
        goto again;
    sum += i;
    goto again;
done:
    haft_out(sum);
    for (i = 0; i < 5; i++)
        for (int j = 0; j < 5; j++)
            if (i * j == 12)
                goto found;
    return 1;
found:
    haft_out(i);
    return 0;
}
