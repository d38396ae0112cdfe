#include "haft.h"
#include <stdbool.h>
struct date { short year; unsigned char month, day; };
static bool leap(int y) { return (y % 4 == 0 && y % 100 != 0) || y % 400 == 0; }
static struct date next(struct date d) {
    static const unsigned char days[] = {31, 28, 31, 30, 31, 30, 31, 31, 30, 31, 30, 31};
    int in_month = days[d.month - 1] + (d.month == 2 && leap(d.year));
    if (++d.day > in_month) {
        d.day = 1;
        if (++d.month > 12)
            d.month = 1, d.year++;
    }
    return d;
}
int main(void) {
    struct date d = {1999, 12, 30};
    for (int i = 0; i < 64; i++)
        d = next(d);
    haft_out(d.year * 10000 + d.month * 100 + d.day);
    return 0;
}
