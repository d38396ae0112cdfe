#include "haft.h"
static int days_after(int month) {
    int days = 0;
    switch (month) {
    case 9: days += 31; /* fall through */
    case 10: days += 31; /* fall through */
    case 11: days += 30; /* fall through */
    case 12: days += 31; break;
    case 1 ... 3: days = -1; break;
    default: days = 99;
    }
    return days;
}
int main(void) {
    for (int m = 0; m < 14; m++)
        haft_out((uint64_t)(int64_t)days_after(m));
    return 0;
}
