#include "haft.h"
enum op { PUSH, ADD, MUL, DUP, SWAP, JNZ, OUT, HALT };
static const int program[] = {PUSH, 1, PUSH, 6, DUP, SWAP, PUSH, -1, ADD, DUP, OUT, DUP, JNZ, 4, HALT};
int main(void) {
    int64_t stack[64];
    int top = 0, pc = 0, steps = 0;
    for (;;) {
        steps++;
        switch (program[pc++]) {
        case PUSH: stack[top++] = program[pc++]; break;
        case ADD: top--; stack[top - 1] += stack[top]; break;
        case MUL: top--; stack[top - 1] *= stack[top]; break;
        case DUP: stack[top] = stack[top - 1]; top++; break;
        case SWAP: { int64_t t = stack[top - 1]; stack[top - 1] = stack[top - 2]; stack[top - 2] = t; break; }
        case JNZ: { int to = program[pc++]; if (stack[--top]) pc = to; break; }
        case OUT: haft_out((uint64_t)stack[--top]); break;
        case HALT: haft_out(steps); return top;
        default: return 99;
        }
    }
}
