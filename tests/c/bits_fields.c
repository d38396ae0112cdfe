#include "haft.h"
struct flags {
    unsigned ready : 1, kind : 3, size : 12;
    int level : 5;
};
int main(void) {
    struct flags f = {0};
    f.ready = 1;
    f.kind = 5;
    f.size = 4000;
    f.level = -7;
    haft_out(f.ready + f.kind);
    haft_out(f.size);
    haft_out((uint64_t)(int64_t)f.level);
    f.size += 200;
    haft_out(f.size);
    return sizeof f;
}
