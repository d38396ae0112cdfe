#include "haft.h"
#include <stdio.h>
int main(void) {
    printf("the number is %lu\n", (unsigned long)haft_arg(0));
    return 0;
}
