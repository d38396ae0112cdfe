#include "haft.h"
union word {
    uint32_t whole;
    uint8_t bytes[4];
    struct { uint16_t low, high; } halves;
};
int main(void) {
    union word w = {.whole = 0x11223344};
    haft_out(w.bytes[0]);
    haft_out(w.halves.high);
    w.bytes[3] = 0xff;
    haft_out(w.whole);
    return sizeof w;
}
