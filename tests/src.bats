#!/usr/bin/env bats
# Tests of `src F S`: what runs of the source come to, as a user meets it. The modules and schedules stand in programs/ (answers.bash).
#
# The program is crates/haft/out/haft, or $HAFT.

load answers

command=src
seconds=60

@test "branches, switches, phis, calls, returns and the stack" {
    all_told control
}

@test "operators, predicates, casts and atomic operations, at each width" {
    all_operators
}

@test "undefined operators" {
    all_told undefined
}

@test "layout: sizes of types, addresses of globals, offsets, and which accesses are valid" {
    all_told layout
}

@test "memory: where accesses are valid, how words stand, malloc" {
    all_told memory
}

@test "threads, locks and the other externals" {
    all_told threads
}

@test "atomic instructions" {
    all_told atomics
}

@test "races, and which pair is told" {
    all_told races
}

@test "the examples" {
    local base
    for base in counter race; do
        answer src "$tests/../examples/$base.ll" "$tests/../examples/$base.sched"
        [ "$status" -eq 0 ]
        cmp written "$tests/../examples/$base.src.expected"
    done
}

@test "the examples that run hardened, too, run from their source" {
    answer src "$tests/../examples/sum.ll" "$tests/../examples/sum.sched"
    [ "$status" -eq 0 ]
}

@test "src takes two files, neither one nor three" {
    answer src
    answered 2
    answer src "$tests/../examples/sum.ll"
    answered 2
    answer src "$tests/../examples/sum.ll" "$tests/../examples/sum.sched" more
    answered 2
}

@test "a module that isn't accepted is refused before the schedule is looked at" {
    printf 'define i32 @main() {\n  ret i64 0\n}\n' >module.ll
    echo "no schedule" >schedule
    answer src module.ll schedule
    answered 1 "refused module TypeMismatch main/0/0"
    printf 'define i32 @main() {\n  ret i32 0\n}\n' >module.ll
    answer src module.ll schedule
    answered 1 "refused schedule 1"
}

@test "files that aren't there, and files that are too long" {
    printf 'define i32 @main() {\n  ret i32 0\n}\n' >module.ll
    echo "turn 0 1" >schedule
    answer src missing.ll schedule
    answered 3
    answer src module.ll missing
    answered 3
    head -c 4194305 /dev/zero >long
    answer src long schedule
    answered 1 "refused long first"
    answer src module.ll long
    answered 1 "refused long second"
}

@test "the greatest schedule" {
    loop >module.ll
    told "turn 0 4194304" "stop bound | src 0*4194304"
}

@test "the greatest schedule in 64 MiB of memory" {
    loop >module.ll
    memory=$((64 * 1024))
    told "turn 0 4194304" "stop bound | src 0*4194304"
}

@test "where memory is short the answer is status 5 with nothing written" {
    loop >module.ll
    echo "turn 0 1000" >schedule
    for mebibytes in 3 4 5 6 7 8 12 16 32; do
        echo "$mebibytes MiB"
        memory=$((mebibytes * 1024))
        answer src module.ll schedule
        [ "$status" -ne 0 ] || answered 0 "stop bound" "src 0*1000"
        [ "$status" -eq 0 ] || [ ! -s written ]
    done
}
