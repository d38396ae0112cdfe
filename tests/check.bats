#!/usr/bin/env bats
# Tests of `check F`: what is told of modules, as a user meets it.
#
# A file of check/ is a group of modules. Its first lines say what they are about; behind them each module has a line
# `== NAME`, its own lines, and a line `-- ANSWER` with the one line that `check` writes for it. Answers were worked out by
# hand, from the rules. Where a module just inside a rule isn't beside one just outside, the group has it elsewhere.
#
# The program is crates/haft/out/haft, or $HAFT.

load answers

seconds=20

# The most bytes that a file may have.
greatest_size=4194304

# told LINE: the last answer was this line, with the status that belongs to it.
told() {
    case $1 in
        accepted*) answered 0 "$1" ;;
        *) answered 1 "$1" ;;
    esac
}

# all_told GROUP checks each module of a group, and names those of which something else is told.
all_told() {
    local line name='' begun=0 count=0 failed=0
    while IFS= read -r line; do
        case $line in
            '== '*)
                name=${line#== }
                : >module.ll
                begun=$((begun + 1))
                ;;
            '-- '*)
                answer check module.ll
                if ! told "${line#-- }"; then
                    echo "  of: $name"
                    failed=$((failed + 1))
                fi
                count=$((count + 1))
                ;;
            *) printf '%s\n' "$line" >>module.ll ;;
        esac
    done <"$tests/check/$1.txt"
    echo "$failed of $count failed"
    [ "$count" -gt 0 ] && [ "$begun" -eq "$count" ] && [ "$failed" -eq 0 ]
}

# names COUNT writes a main with this many names: its entry's, a label's, and registers'.
names() {
    awk -v count="$1" 'BEGIN {
        print "define i32 @main() {\nfirst:\n  br label %last\nlast:"
        for (k = 3; k <= count; k++) printf "  %%r%d = add i1 0, 0\n", k
        print "  ret i32 0\n}"
    }'
}

# with_names COUNT writes a main and a function of as many names: a parameter's, its entry's, and labels'.
with_names() {
    awk -v count="$1" 'BEGIN {
        print "define i32 @main() {\n  ret i32 0\n}\ndefine void @f(i8 %a) {"
        for (k = 3; k <= count; k++) printf "  br label %%b%d\nb%d:\n", k, k
        print "  ret void\n}"
    }'
}

blanks() { head -c "$1" /dev/zero | tr '\0' ' '; }

needs_python3() { command -v python3 >/dev/null || skip "python3, which makes the modules, is not installed"; }

# shape NAME writes a great module of this shape.
shape() { python3 "$tests/../bench/check_shapes.py" "$1"; }

# all_shapes checks one great module of each shape. What is told of them follows by arithmetic.
all_shapes() {
    local row count
    while read -r name row; do
        echo "$name"
        shape "$name" >module.ll
        answer check module.ll
        told "accepted $row"
    done <<'ROWS'
blocks 1 16000 48000
switch 1 18 19
globals 1 1 2
init 1 1 1
structs 1 1 1
registers 1 1 65001
ROWS
    echo functions
    shape functions >module.ll
    answer check module.ll
    count=$(grep -c "^define dso_local i64" module.ll)
    told "accepted $((count + 1)) $((3 * count + 1)) $((19 * count + 2))"
}

@test "names are defined once, and known" {
    all_told names
}

@test "globals, types and parameters keep their limits" {
    all_told limits
}

@test "blocks end in one terminator, and nothing leads to an entry" {
    all_told blocks
}

@test "calls are of functions, with their types" {
    all_told calls
}

@test "registers, conversions, indices and initialisers have fitting types" {
    all_told types
}

@test "phis name their predecessors, and paths assign before they use" {
    all_told flow
}

@test "places are written by their rule, and the first kind and place is told" {
    all_told places
}

@test "a text that can't be read is refused at its line and word" {
    all_told texts
}

@test "a function has 65,536 names, and no more" {
    names 65536 >module.ll
    answer check module.ll
    # two branches and returns, and the registers beside two labels
    told "accepted 1 2 65536"
    names 65537 >module.ll
    answer check module.ll
    told "refused module Limit.Registers @main"
}

@test "parameters and labels are names that count" {
    with_names 65536 >module.ll
    answer check module.ll
    # the entry's branch leads to the first of 65,534 labels
    told "accepted 2 65536 65536"
    with_names 65537 >module.ll
    answer check module.ll
    told "refused module Limit.Registers @f"
}

@test "a text without bytes has no main" {
    : >module.ll
    answer check module.ll
    told "refused module NoMain -"
}

@test "each beginning of a module is refused, up to its last brace" {
    local size
    size=$(stat -c %s "$tests/../examples/sum.ll")
    for ((k = 0; k < size - 1; k++)); do
        head -c "$k" "$tests/../examples/sum.ll" >module.ll
        answer check module.ll
        if [ "$status" -ne 1 ] || ! grep -q "^refused " written || [ "$(wc -l <written)" -ne 1 ]; then
            echo "$k bytes: status $status, $(head -c 200 written)"
            return 1
        fi
    done
    for ((k = size - 1; k <= size; k++)); do
        head -c "$k" "$tests/../examples/sum.ll" >module.ll
        answer check module.ll
        told "accepted 1 1 3"
    done
}

@test "a beginning that ends with a line is refused for its text or for want of a main" {
    head -n 1 "$tests/../examples/sum.ll" >module.ll
    answer check module.ll
    told "refused module NoMain -"
    head -n 3 "$tests/../examples/sum.ll" >module.ll
    answer check module.ll
    told "refused text 4 end"
}

@test "one file is checked, neither none nor two" {
    answer check
    answered 2
    answer check "$tests/../examples/sum.ll" "$tests/../examples/sum.sched"
    answered 2
}

@test "a file that isn't there ends with status 3, and nothing is written" {
    answer check missing.ll
    answered 3
}

@test "a file of more than 4 MiB is refused, and one of 4 MiB is read" {
    head -c $((greatest_size + 1)) /dev/zero >module.ll
    answer check module.ll
    answered 1 "refused long first"
    blanks $greatest_size >module.ll
    answer check module.ll
    told "refused module NoMain -"
}

@test "a full device ends an answer with status 4" {
    status=0
    "$program" check "$tests/../examples/sum.ll" >/dev/full || status=$?
    [ "$status" -eq 4 ]
    : >module.ll
    status=0
    "$program" check module.ll >/dev/full || status=$?
    [ "$status" -eq 4 ]
}

@test "great modules are accepted, each within 20 seconds" {
    needs_python3
    all_shapes
}

# Memory takes no more than address space does; of this, 64 MiB are for the program itself.
@test "great modules are accepted in 100 bytes of memory for each byte of the greatest input" {
    needs_python3
    memory=$((100 * greatest_size / 1024 + 64 * 1024))
    all_shapes
}

@test "what is wrong at the end of a great module is told" {
    needs_python3
    shape registers | sed 's/^  ret i32/  ret i64/' >module.ll
    answer check module.ll
    told "refused module TypeMismatch main/0/65000"

    shape blocks >whole.ll
    sed 's/%p15999 = phi i32 \[ %s15998,/%p15999 = phi i32 [ %s15999,/' whole.ll >module.ll
    answer check module.ll
    told "refused module UseBeforeDef main/b15999/0 %s15999"
    sed 's/%p15999 = phi i32 \[ %s15998, %b15998 \]/%p15999 = phi i32 [ %s15998, %b15997 ]/' whole.ll >module.ll
    answer check module.ll
    told "refused module PhiMismatch main/b15999/0"

    shape globals >whole.ll
    { cat whole.ll; echo "@cell.28999 = global i64 0"; } >module.ll
    answer check module.ll
    told "refused module DuplicateName @cell.28999 @cell.28999"
}

@test "where memory is short the answer is status 5 with nothing written, and never a part of a line" {
    names 65536 >module.ll
    blanks $((greatest_size - $(stat -c %s module.ll))) >>module.ll
    # the text alone has 4 MiB, and the program with its library 3
    memory=$((8 * 1024))
    answer check module.ll
    answered 5
    for mebibytes in 12 16 24 32 48 64 96 128 192; do
        echo "$mebibytes MiB"
        memory=$((mebibytes * 1024))
        answer check module.ll
        [ "$status" -eq 0 ] || answered 5
        [ "$status" -eq 5 ] || told "accepted 1 2 65536"
    done
}
