#include "haft.h"
static const char *at;
static long sum(void);
static long factor(void) {
    if (*at == '(') {
        at++;
        long v = sum();
        at++;
        return v;
    }
    if (*at == '-') {
        at++;
        return -factor();
    }
    long v = 0;
    while (*at >= '0' && *at <= '9')
        v = v * 10 + (*at++ - '0');
    return v;
}
static long product(void) {
    long v = factor();
    while (*at == '*' || *at == '/' || *at == '%') {
        char op = *at++;
        long w = factor();
        v = op == '*' ? v * w : op == '/' ? v / w : v % w;
    }
    return v;
}
static long sum(void) {
    long v = product();
    while (*at == '+' || *at == '-')
        v = *at++ == '+' ? v + product() : v - product();
    return v;
}
int main(void) {
    const char *texts[] = {"1+2*3", "(1+2)*3", "-(4-10)*7/4", "100%7-2*-3", "((2))"};
    for (int i = 0; i < 5; i++) {
        at = texts[i];
        haft_out((uint64_t)sum());
    }
    return 0;
}
