#!/usr/bin/env bats
# Tests of `run F S`: what runs of hardened programs come to, as a user meets it. The modules and schedules stand in programs/
# (answers.bash); turns are counted by the images of their instructions, and a place's index too. What is struck is in upsets.txt, and how
# transactions come to an end in transactions.txt.
#
# The program is crates/haft/out/haft, or $HAFT.

load answers

command=run
seconds=60

@test "branches, switches, phis, calls, returns and the stack" {
    all_told control
}

@test "operators, predicates, casts and atomic operations, at each width" {
    all_operators
}

@test "undefined operators" {
    all_told undefined
}

@test "memory: where accesses are valid, how words stand, malloc and free" {
    all_told memory
}

@test "threads, locks and the other externals" {
    all_told threads
}

@test "atomic instructions" {
    all_told atomics
}

@test "runs that stop, or give others their turns, in the middle of an image" {
    all_told images
}

@test "transactions: commits, aborts, retries, cuts, and locks that are watched" {
    all_told transactions
}

@test "upsets: missed, in a window, undone, standing, and one while another stands" {
    all_told upsets
}

# stores COUNT writes a main that stores to so many cache lines, one after the other.
stores() {
    echo "@g = global [$1 x [8 x i64]] zeroinitializer"
    echo 'define i32 @main() {'
    seq -f "  store i64 1, ptr getelementptr ([$1 x [8 x i64]], ptr @g, i64 0, i64 %.0f, i64 0)" 0 "$(($1 - 1))"
    printf '  ret i32 0\n}\n'
}

@test "a transaction writes to 512 lines; one more overflows it, three times, and then the stores are done outside" {
    stores 512 >module.ll
    told "turn 0 10000" "aborts 0 0 0 0 | stop end 0 | src 0*514"
    stores 513 >module.ll
    told "turn 0 10000" "aborts 0 0 3 0 | stop end 0 | src 0*515"
}

@test "an example with threads gives out the same under each of its schedules" {
    local schedule count=0
    for schedule in "$tests"/../examples/tally.*.sched; do
        echo "$schedule"
        answer run "$tests/../examples/tally.ll" "$schedule"
        [ "$status" -eq 0 ]
        cmp written "${schedule%.sched}.expected"
        grep -E '^(out|put|stop) ' written >given
        cmp given <(printf 'out 9\nout 6\nstop end 0\n')
        count=$((count + 1))
    done
    [ "$count" -eq 3 ]
}

@test "run takes two files, neither one nor three" {
    answer run
    answered 2
    answer run "$tests/../examples/sum.ll"
    answered 2
    answer run "$tests/../examples/sum.ll" "$tests/../examples/sum.sched" more
    answered 2
}

@test "a schedule with an upset is refused only for the module, or for a line of its own that is unfit" {
    echo 'upset 0 0 m.a 1' >schedule
    printf 'define i32 @main() {\n  ret i64 0\n}\n' >module.ll
    answer run module.ll schedule
    answered 1 "refused module TypeMismatch main/0/0"
    answer run "$tests/../examples/counter.ll" schedule
    answered 0 "upset 1 missed" "aborts 0 0 0 0" "stop bound" "src"
    printf 'upset 0 0 m.a 1\nturn 64 1\n' >schedule
    answer run "$tests/../examples/counter.ll" schedule
    answered 1 "refused schedule 2"
}

# Four turns lead to the loop, and a round takes nine, which count as much work. At the head of the loop the transaction is cut once it has
# counted 1,000: first behind 111 rounds, and then behind each 112 more. 4,194,304 turns have 466,033 rounds.
greatest="aborts 0 0 0 0 | stop bound | src 0*$((1 + 3 * (111 + 112 * ((466033 - 111) / 112))))"

@test "the greatest schedule" {
    loop >module.ll
    told "turn 0 4194304" "$greatest"
}

@test "the greatest schedule in 64 MiB of memory" {
    loop >module.ll
    memory=$((64 * 1024))
    told "turn 0 4194304" "$greatest"
}

# Each of 63 threads counts for itself, while `main` waits for one of them.
counting() {
    cat <<'LL'
@t = global i64 0
declare i32 @pthread_create(ptr, ptr, ptr, ptr)
declare i32 @pthread_join(i64, ptr)
define ptr @work(ptr %x) {
entry:
  br label %l
l:
  %i = phi i64 [ 0, %entry ], [ %j, %l ]
  %j = add i64 %i, 1
  br label %l
}
define i32 @main() {
entry:
  br label %l
l:
  %i = phi i64 [ 1, %entry ], [ %j, %l ]
  %r = call i32 @pthread_create(ptr @t, ptr null, ptr @work, ptr null)
  %j = add i64 %i, 1
  %c = icmp ule i64 %j, 63
  br i1 %c, label %l, label %d
d:
  %n = call i32 @pthread_join(i64 1, ptr null)
  ret i32 0
}
LL
}

@test "the greatest schedule of 64 threads, turn by turn, in 200 MiB of memory" {
    counting >module.ll
    memory=$((200 * 1024))
    echo "turn 0 888" >schedule
    echo "round 64 65522" >>schedule
    answer run module.ll schedule
    [ "$status" -eq 0 ]
    [ "$(head -2 written)" = $'aborts 0 0 0 0\nstop bound' ]
    # `main` took 1 + 63 * 4 steps, and waits. A thread took five turns to its loop, where a round takes six, of which two are steps; its
    # transaction is cut behind 166 rounds, and then behind each 167 more, 64 times.
    [ "$(tail -1 written | tr ' ' '\n' | awk -F'*' '/[*]/ { sum[$1] += $2 } END { print sum[0], sum[1], sum[63] }')" = "253 $((1 + 2 * (166 + 167 * 64))) $((1 + 2 * (166 + 167 * 64)))" ]
}

@test "where memory is short the answer is status 5 with nothing written" {
    loop >module.ll
    echo "turn 0 2000" >schedule
    for mebibytes in 3 4 5 6 7 8 12 16 32; do
        echo "$mebibytes MiB"
        memory=$((mebibytes * 1024))
        answer run module.ll schedule
        [ "$status" -ne 0 ] || answered 0 "aborts 0 0 0 0" "stop bound" "src 0*334"
        [ "$status" -eq 0 ] || [ ! -s written ]
    done
}
