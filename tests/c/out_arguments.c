#include "haft.h"
int main(int argc, char **argv) {
    haft_out(argc > 1 ? argv[1][0] : 0);
    return 0;
}
