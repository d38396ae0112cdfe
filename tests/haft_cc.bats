#!/usr/bin/env bats
# Tests of tools/haft-cc: modules from C are accepted, and run as the C programs do natively; what stays out is reported with its line.
#
# The program is crates/haft/out/haft, or $HAFT. Where there is no clang (14 to 19) or no Python 3, these tests are skipped.

bats_require_minimum_version 1.5.0
load answers

seconds=60

names=(bank queue stack lru words matrix)

# Clang in a version that haft-cc takes, and Python.
tools_are_there() {
    clang --version 2>/dev/null | grep -qE 'version 1[4-9]\.' && command -v python3 >/dev/null
}

# Each example's module is made once.
setup_file() {
    tools_are_there || return 0
    local name
    for name in "${names[@]}"; do
        "$BATS_TEST_DIRNAME/../tools/haft-cc" -o "$BATS_FILE_TMPDIR/$name.ll" "$BATS_TEST_DIRNAME/../examples/c/$name.c"
    done
}

setup() {
    tests=$BATS_TEST_DIRNAME
    tools=$tests/../tools
    examples=$tests/../examples/c
    modules=$BATS_FILE_TMPDIR
    tools_are_there || skip "clang (14 to 19) or python3 is not installed"
    program=$(realpath -e "${HAFT:-$tests/../crates/haft/out/haft}")
    cd "$BATS_TEST_TMPDIR"
}

# native SOURCE PROGRAM builds a C program, or a module, to run on this machine.
native() {
    local pointers=()
    if [ "${1##*.}" = ll ] && clang --version | grep -q 'version 14\.'; then
        pointers=(-mllvm -opaque-pointers)
    fi
    clang -w -I"$tools/haftcc/include" "${pointers[@]}" "$1" "$tools/haftcc/native.c" -lpthread -o "$2"
}

# translated LINE..: the C program of these lines goes through haft-cc, as prog.c to prog.ll.
translated() {
    printf '%s\n' '#include "haft.h"' "$@" >prog.c
    "$tools/haft-cc" "-O${level:-1}" prog.c >prog.ll
}

# put_out FILE: the last answer's outputs are these, and it ended with code 0.
put_out() {
    grep -E '^(out|put|stop) ' written | cmp - <(cat "$1"; echo "stop end 0")
}

# no_module LINE..: haft-cc refuses the C program of these lines at -O0, as prog.c, and writes no module.
no_module() {
    printf '%s\n' "$@" >prog.c
    run ! --separate-stderr "$tools/haft-cc" -O0 prog.c
    [ -z "$output" ]
}

# refused LINE PART..: what was refused has these words at this line of prog.c.
refused() {
    local line=$1 part
    shift
    for part; do
        grep -F "prog.c:$line: " <<<"$stderr" | grep -qF -- "$part" || { echo "$stderr"; return 1; }
    done
}

@test "each example runs natively as its outputs say, from C and from its module" {
    local name
    for name in "${names[@]}"; do
        echo "$name"
        native "$examples/$name.c" from_c
        ./from_c | cmp - "$examples/$name.out"
        native "$modules/$name.ll" from_module
        ./from_module | cmp - "$examples/$name.out"
    done
}

# run_hardened NAME SCHEDULE: says whether the example's outputs under this schedule are those that stand beside it.
run_hardened() {
    "$program" run "$modules/$1.ll" "$examples/$2.sched" | grep -E '^(out|put|stop) ' |
        cmp -s - <(cat "$examples/$1.out"; echo "stop end 0") && echo "$1 $2 alike"
}

@test "each example runs hardened to the same outputs under three schedules" {
    local name schedule
    for name in "${names[@]}"; do
        for schedule in round_robin mixed long_turns; do
            run_hardened "$name" "$schedule" >"$name.$schedule" &
        done
        wait
    done
    cat ./*.round_robin ./*.mixed ./*.long_turns
    [ "$(cat ./*.round_robin ./*.mixed ./*.long_turns | grep -c ' alike$')" -eq 18 ]
}

@test "no run of an example's source races at -O0" {
    local name
    for name in "${names[@]}"; do
        "$tools/haft-cc" -O0 -o "$name.ll" "$examples/$name.c"
        "$program" src "$name.ll" "$examples/mixed.sched" >"$name.report" &
    done
    wait
    for name in "${names[@]}"; do
        echo "$name"
        cp "$name.report" written
        put_out "$examples/$name.out"
    done
}

@test "every twelfth program of c/ is accepted, and runs natively, as a module and hardened alike" {
    ls "$tests"/c/[a-n]*.c "$tests"/c/[p-z]*.c | awk 'NR % 12 == 1' >some
    [ "$(wc -l <some)" -ge 8 ]
    xargs "$tests/c/report.py" --haft "$program" --levels 1 --run <some
}

@test "floating point is refused at its line" {
    no_module 'double half(double x) {' '    return x / 2;' '}' 'int main(void) {' '    return (int)half(4.0);' '}'
    refused 1 "a floating-point type (double)" "write it with integers"
    refused 2 "floating-point arithmetic (fdiv)"
}

@test "vectors are refused at their line" {
    no_module 'typedef int four __attribute__((vector_size(16)));' 'int main(void) {' '    four v = {1, 2, 3, 4};' \
        '    v += v;' '    return v[2];' '}'
    refused 4 "a vector"
}

@test "calls by pointer and addresses of functions are refused at their lines" {
    no_module 'static int one(void) { return 1; }' 'int main(int argc, char **argv) {' '    int (*call)(void) = one;' \
        '    return call();' '}'
    refused 2 "main with parameters" "haft_arg"
    refused 3 "the address of the function one"
    refused 4 "a call by pointer" "write a switch"
}

@test "calls of functions that haft and haft-cc don't have are refused at their lines" {
    no_module '#include <stdio.h>' '#include <stdlib.h>' 'int own(void);' 'int main(void) {' '    printf("%d", rand());' '    return own();' '}'
    refused 5 "a call of printf, which takes any number of arguments" "a call of rand" "a generator of your own"
    refused 6 "a call of own, which is defined in none of the files" "write the function in C"
}

@test "what is left of threads is refused at its line" {
    no_module '#include <pthread.h>' '_Thread_local int mine;' '_Alignas(64) int wide;' 'void *work(void *x) { return x; }' \
        'int main(void) {' '    pthread_t t;' '    void *result;' '    pthread_create(&t, 0, work, &wide);' '    pthread_join(t, &result);' \
        '    return mine;' '}'
    refused 2 "each thread has its own of" "a struct that the thread gets"
    refused 3 "a multiple of 64"
    refused 9 "a thread's result"
}

@test "arrays of variable length, assembly and computed jumps are refused at their lines" {
    no_module 'int main(void) {' '    int n = 3;' '    volatile int *p = &n;' '    int cells[*p];' '    cells[0] = 1;' \
        '    __asm__("nop");' '    void *to = &&end;' '    goto *to;' 'end:' '    return cells[0];' '}'
    refused 4 "an array of variable length" "malloc"
    refused 6 "inline assembly"
    refused 7 "the address of a label" "write a switch"
}

@test "a program without main, and a file that isn't C, end with status 1" {
    echo 'int one(void) { return 1; }' >prog.c
    run -1 "$tools/haft-cc" prog.c
    [ "$output" = "there is no main; write int main(void)" ]
    echo 'int main(void) { return' >prog.c
    run -1 "$tools/haft-cc" prog.c
    grep -q 'prog.c:1' <<<"$output"
}

@test "a clang that isn't there, or no file, is reported" {
    echo 'int main(void) { return 0; }' >prog.c
    run -1 "$tools/haft-cc" --clang clang-3 prog.c
    [ "$output" = "haft-cc: clang-3 isn't here in a version from 14 to 19" ]
    run -2 "$tools/haft-cc"
}

@test "several files are one program, and names that two of them keep for themselves don't meet" {
    printf '%s\n' 'static int value(void) { return 3; }' 'int outer = 4;' 'int first(void) { return value() * outer; }' >a.c
    printf '%s\n' 'int first(void);' 'extern int outer;' 'static int value(void) { return 5; }' \
        'int main(void) { outer++; return first() + value(); }' >b.c
    for level in 0 1 2; do
        "$tools/haft-cc" "-O$level" a.c b.c >prog.ll
        echo "turn 0 1000" >schedule
        answer src prog.ll schedule
        [ "$status" -eq 0 ]
        grep -qx 'stop end 20' written
    done
}

@test "an operator that clang moves before its condition stays defined" {
    # At -O1 the shift by 40 is done before it is known that the sum is wanted; LLVM says that it comes to nothing.
    translated 'int main(void) {' '    unsigned n = 40u + (unsigned)haft_arg(0);' \
        '    haft_out(n < 32 ? 1u << n : 7u);' '    return 0;' '}'
    echo "turn 0 100" >schedule
    answer src prog.ll schedule
    grep -qx 'out 7' written
    grep -qx 'stop end 0' written
}

@test "a load that clang could do before its condition stays after it, so that no race comes up" {
    # Without a word to LLVM's passes, main loads what the thread stores at -O1 and -O2, and a schedule finds the race.
    printf '%s\n' '#include "haft.h"' '#include <pthread.h>' 'static int shared;' \
        'static void *work(void *arg) { shared = 5; return arg; }' 'int main(void) {' '    pthread_t t;' \
        '    pthread_create(&t, 0, work, 0);' '    int seen = 0;' '    if (haft_arg(0))' '        seen = shared;' '    haft_out(seen);' \
        '    pthread_join(t, 0);' '    haft_out(shared);' '    return 0;' '}' >prog.c
    for level in 1 2; do
        "$tools/haft-cc" "-O$level" prog.c >prog.ll
        for seed in 1 2 6; do
            echo "mix 2 $seed 300" >schedule
            answer src prog.ll schedule
            grep -qx 'stop end 0' written
        done
    done
}

@test "at -O0 a sum that goes past its range is still reported" {
    level=0
    translated 'int main(void) {' '    int most = 2147483647 - (int)haft_arg(0);' '    most++;' '    return most < 0;' '}'
    echo "turn 0 100" >schedule
    answer src prog.ll schedule
    grep -q '^stop undefined .* poison$' written
}

@test "what intrinsics become comes to what LLVM's own do" {
    "$tests/c/intrinsics.py" intrinsics.ll lowered.ll
    native intrinsics.ll by_intrinsics
    native lowered.ll by_functions
    ./by_intrinsics >wanted
    [ "$(wc -l <wanted)" -gt 1500 ]
    ./by_functions | cmp - wanted
    echo "turn 0 1000000" >schedule
    answer src lowered.ll schedule
    grep '^out ' written | cmp - wanted
}

@test "packed structs and bit-fields lie as they do natively" {
    cat >prog.c <<'C'
#include "haft.h"
struct __attribute__((packed)) record { char tag; int size; short kind; char *name; long last; };
struct __attribute__((packed)) inner { int x; };
struct outer { struct inner i; char c; } pairs[2] = {{{5}, 6}, {{7}, 8}};
struct fields { uint16_t first; unsigned small : 20; int sign : 3; uint64_t wide; };
static struct { char a; struct record r[3]; int b; } all = {1, {{'a', 70000, -2, 0, 4}, {'b', 5, 6, 0, 8}}, 99};
static struct fields fields = {7, 176, -3, 0x698C18C883BD3BF9};
int main(void) {
    for (unsigned k = 0; k < 3; k++) {
        all.r[k].size += (int)k + all.a;
        haft_out((uint64_t)all.r[k].size);
        haft_out((uint64_t)all.r[k].kind);
        haft_out((uint64_t)all.r[k].last);
    }
    struct record *at = &all.r[haft_arg(0)], copy;
    at->name = &all.a;
    copy = *at;
    haft_out(copy.name == &all.a);
    fields.small += 3;
    fields.sign++;
    haft_out(fields.small);
    haft_out((uint64_t)fields.sign);
    haft_out(fields.wide);
    for (uint64_t k = 0; k < 2; k++)
        haft_out((uint64_t)(pairs[k].i.x + pairs[k].c));
    haft_out(sizeof(struct outer));
    return sizeof all;
}
C
    native prog.c from_c
    ./from_c >wanted || [ "$?" -eq 76 ]
    echo "turn 0 10000" >schedule
    for level in 0 1 2; do
        "$tools/haft-cc" "-O$level" prog.c >prog.ll
        native prog.ll from_module
        ./from_module | cmp - wanted
        answer run prog.ll schedule
        grep '^out ' written | cmp - wanted
        grep -qx 'stop end 76' written
    done
}

@test "what is copied at addresses that are no multiple of its size is copied by bytes" {
    translated '#include <string.h>' 'static char bytes[32];' 'struct __attribute__((packed)) odd { char a; };' 'int main(void) {' \
        '    uint64_t word = 0x0102030405060708u + haft_arg(0), back;' '    memcpy(bytes + 3, &word, 8);' \
        '    memcpy(&back, bytes + 3, 8);' '    haft_out(back);' '    haft_out(bytes[4]);' '    return 0;' '}'
    echo "turn 0 1000" >schedule
    answer run prog.ll schedule
    [ "$(head -2 written)" = $'out 72623859790382856\nout 7' ]
}
