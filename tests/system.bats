#!/usr/bin/env bats
# System tests: the built program on files, words and devices, as a user meets it.
#
# cases.txt has calls with their answers. Inputs too large to keep, and devices, are made here; the answers to these follow by arithmetic.
#
# The program is crates/haft/out/haft, or $HAFT.

load answers

seconds=20
sum=$BATS_TEST_DIRNAME/../examples/sum.ll

# The most bytes that a file may have.
greatest_size=4194304

size_of() { stat -c %s "$1"; }

# sums COUNT writes a text of COUNT sums, each of the one before it and 1, then an output of the last.
# Its return's code has leading zeros, so that it has the greatest size that a file may have.
sums() {
    awk -v count="$1" -v size="$greatest_size" 'BEGIN {
        text = "declare void @haft_out(i64)\ndefine i32 @main() {\n  %a000001 = add i64 0, 1\n"
        printf "%s", text; written = length(text)
        for (k = 2; k <= count; k++) {
            line = sprintf("  %%a%06d = add i64 %%a%06d, 1\n", k, k - 1)
            printf "%s", line; written += length(line)
        }
        text = sprintf("  call void @haft_out(i64 %%a%06d)\n  ret i32 ", count)
        printf "%s%0*d\n}\n", text, size - written - length(text) - 3, 9
    }'
}

# short_sums COUNT writes a text of COUNT sums in short lines.
short_sums() {
    awk -v count="$1" 'BEGIN {
        digits = "0123456789"; letters = "ABCDEFGHIJKLMNOPQRSTUVWXYZabcdefghijklmnopqrstuvwxyz"; all = letters digits
        print "define i32@main(){"
        for (k = 0; k < count; k++) {
            name = substr(letters, int(k / 238328) + 1, 1) substr(all, int(k / 3844) % 62 + 1, 1) \
                substr(all, int(k / 62) % 62 + 1, 1) substr(all, k % 62 + 1, 1)
            print "%" name "=add i1 0,0"
        }
        print "ret i32 0\n}"
    }'
}

# constants COUNT writes a text of COUNT outputs of 1, in short lines.
constants() {
    printf 'declare void @haft_out(i64)\ndefine i32 @main() {\n'
    yes 'call void@haft_out(i64 1)' | head -n "$1"
    printf 'ret i32 0\n}\n'
}

# Texts of many short parts that aren't accepted.
many_functions() { seq -f 'define i8@f%.0f(){
}' 186000; }

many_labels() {
    echo 'define i32@main(){'
    seq -f 'b%.0f:' 475000
    echo '}'
}

many_returns() {
    echo 'define i32@main(){'
    yes 'ret i8 0' | head -n 466000
    echo '}'
}

many_bits() {
    printf '@a=global[838001 x i1]['
    yes 'i1 0,' | head -n 838000 | tr -d '\n'
    echo 'i1 0]'
}

# words_of LINE: the words that the line of a case names, in $words.
words_of() {
    read -ra words <<<"$1"
    words=("${words[@]/#\'\'/}")
}

# end_case counts the case that has been read, and runs it.
end_case() {
    [ -n "$name" ] || return 0
    count=$((count + 1))
    answer "${words[@]}"
    answered_file "$wanted_status" wanted && return
    echo "  of: $name"
    failed=$((failed + 1))
}

# all_cases runs each call of cases.txt, and names those that have another answer.
all_cases() {
    local line name='' words=() file='' wanted_status='' count=0 failed=0
    while IFS= read -r line; do
        case $line in
            '== '*) end_case && name=${line#== } && rm -f first second ;;
            words*) words_of "${line#words}" ;;
            'first sum' | 'second sum') cp "$sum" "${line% sum}" ;;
            first | second) file=$line && : >"$file" ;;
            'status '*) wanted_status=${line#status } file=wanted && : >"$file" ;;
            '|'*) printf '%b\n' "${line#|}" >>"$file" ;;
        esac
    done <"$tests/cases.txt"
    end_case
    echo "$failed of $count failed"
    [ "$count" -gt 0 ] && [ "$failed" -eq 0 ]
}

@test "each call of cases.txt has its answer" {
    all_cases
}

@test "each example that runs hardened prints what stands beside it" {
    local report name examples=$tests/../examples
    for report in "$examples"/*.expected; do
        name=$(basename "$report" .expected)
        [ "${name%.src}" = "$name" ] || continue
        echo "$name"
        answer run "$examples/${name%%.*}.ll" "$examples/$name.sched"
        answered_file 0 "$report"
    done
}

@test "a first file of more than 4 MiB is refused before the second is read" {
    head -c $((greatest_size + 1)) /dev/zero >first
    answer run first missing
    answered 1 "refused long first"
}

@test "a second file of more than 4 MiB is refused before the text of the first is looked at" {
    echo "no module" >first
    head -c $((greatest_size + 1)) /dev/zero >second
    answer run first second
    answered 1 "refused long second"
}

@test "an endless first file is refused" {
    answer run /dev/zero missing
    answered 1 "refused long first"
}

@test "a first file of exactly 4 MiB is read, and refused for its text" {
    head -c $greatest_size /dev/zero >first
    echo "turn 0 1" >second
    answer run first second
    answered 1 "refused text 1 byte 1"
}

@test "a second file of exactly 4 MiB is read, and refused for its text" {
    head -c $greatest_size /dev/zero >second
    answer run "$sum" second
    answered 1 "refused schedule 1"
}

@test "a text of 4 MiB with 65,000 sums runs to its end within 20 seconds" {
    sums 65000 >first
    [ "$(size_of first)" -eq $greatest_size ]
    # two turns that begin a transaction, two for each sum, five for the output (a tick, a check, the end of the transaction, the call, the
    # begin of another), and three for the return (a tick, the return, the exit)
    echo "turn 0 $((2 + 2 * 65000 + 5 + 3))" >second
    answer run first second
    answered 0 "out 65000" "aborts 0 0 0 0" "stop end 9" "src 0*65003"
}

@test "one turn fewer than a text of 4 MiB needs stops before its exit" {
    sums 65000 >first
    echo "turn 0 $((2 + 2 * 65000 + 5 + 2))" >second
    answer run first second
    # the return's transaction is still open
    answered 0 "out 65000" "aborts 0 0 0 0" "stop bound" "src 0*65001"
}

@test "a text of 4 MiB with a fault in its last line is refused within 20 seconds" {
    sums 65000 >whole
    head -c $((greatest_size - 2)) whole >first
    echo "turn 0 1" >second
    answer run first second
    # two lines before the sums, two behind them, and the one that is missing
    answered 1 "refused text $((2 + 65000 + 2 + 1)) end"
}

@test "a text of nearly 4 MiB with 161,000 outputs writes them all within 20 seconds" {
    constants 161000 >first
    [ "$(size_of first)" -le $greatest_size ]
    # an output of a constant takes no check
    echo "turn 0 $((2 + 4 * 161000 + 3))" >second
    answer run first second
    { yes "out 1" | head -n 161000; printf 'aborts 0 0 0 0\nstop end 0\nsrc 0*161002\n'; } >wanted_report
    answered_file 0 wanted_report
}

@test "4,194,304 turns over a text of 4 MiB end within 20 seconds" {
    sums 65000 >first
    echo "turn 0 4194304" >second
    answer run first second
    answered 0 "out 65000" "aborts 0 0 0 0" "stop end 9" "src 0*65003"
}

@test "a schedule of 4 MiB with 466,033 lines runs within 20 seconds" {
    # 466,032 lines of 9 bytes, and leading zeros in a last one of 16
    { yes "turn 0 1" | head -n 466032; echo "turn 0 00000001"; } >second
    [ "$(size_of second)" -eq $greatest_size ]
    constants 100000 >first
    answer run first second
    { yes "out 1" | head -n 100000; printf 'aborts 0 0 0 0\nstop end 0\nsrc 0*100002\n'; } >wanted_report
    answered_file 0 wanted_report
}

@test "a function with as many names as it may have runs to its end within 20 seconds" {
    # its entry has a name too
    short_sums 65535 >first
    echo "turn 0 $((2 + 2 * 65535 + 3))" >second
    answer run first second
    answered 0 "aborts 0 0 0 0" "stop end 0" "src 0*65537"

    short_sums 65536 >first
    answer run first second
    answered 1 "refused module Limit.Registers @main"
}

# Memory takes no more than address space does; of this, 64 MiB are for the program itself.
@test "texts of 4 MiB run in 160 bytes of memory for each byte of input" {
    memory=$((160 * greatest_size / 1024 + 64 * 1024))
    echo "turn 0 4194304" >second

    sums 65000 >first
    answer run first second
    answered 0 "out 65000" "aborts 0 0 0 0" "stop end 9" "src 0*65003"

    short_sums 65535 >first
    answer run first second
    answered 0 "aborts 0 0 0 0" "stop end 0" "src 0*65537"

    constants 161000 >first
    answer run first second
    { yes "out 1" | head -n 161000; printf 'aborts 0 0 0 0\nstop end 0\nsrc 0*161002\n'; } >wanted_report
    answered_file 0 wanted_report
}

@test "texts of 4 MiB that aren't accepted are refused in 100 bytes for each byte of input" {
    memory=$((100 * greatest_size / 1024 + 64 * 1024))
    echo "turn 0 1" >second
    local parts
    while read -r parts line; do
        echo "$parts"
        "many_$parts" >first
        [ "$(size_of first)" -gt $((greatest_size - 60000)) ]
        [ "$(size_of first)" -le $greatest_size ]
        answer run first second
        answered 1 "$line"
    done <<'END'
functions refused module BadTerminator f1/0
labels refused module Limit.Registers @main
returns refused module BadTerminator main/0
bits refused module NoMain -
END
}

@test "where memory is short the answer is status 5 with nothing written, and never a part of the report" {
    sums 65000 >first
    echo "turn 0 4194304" >second
    # the text alone has 4 MiB, and the program with its library 3
    memory=$((8 * 1024))
    answer run first second
    answered 5
    for mebibytes in 12 16 24 32 48 64 96 128 192; do
        echo "$mebibytes MiB"
        memory=$((mebibytes * 1024))
        answer run first second
        [ "$status" -eq 0 ] || answered 5
        [ "$status" -eq 5 ] || answered 0 "out 65000" "aborts 0 0 0 0" "stop end 9" "src 0*65003"
    done
}

@test "a full device ends a report with status 4" {
    echo "turn 0 40" >second
    status=0
    "$program" run "$sum" second >/dev/full || status=$?
    [ "$status" -eq 4 ]
}

@test "a full device ends a refusal with status 4" {
    echo "turn 64 5" >second
    status=0
    "$program" run "$sum" second >/dev/full || status=$?
    [ "$status" -eq 4 ]
}

@test "a full device changes no status where nothing is written" {
    status=0
    "$program" >/dev/full || status=$?
    [ "$status" -eq 2 ]
    status=0
    "$program" run "$sum" missing >/dev/full || status=$?
    [ "$status" -eq 3 ]
}

@test "a folder in place of a file ends with status 3, and nothing is written" {
    mkdir folder
    echo "turn 0 40" >second
    answer run folder second
    answered 3
    answer run "$sum" folder
    answered 3
}

@test "a file that this user may not read ends with status 3, and nothing is written" {
    echo "turn 0 40" >second
    chmod 000 second
    [ ! -r second ] || skip "this user may read every file"
    answer run "$sum" second
    answered 3
}

@test "a name below a file ends with status 3, and nothing is written" {
    echo "turn 0 40" >second
    answer run "$sum" second/second
    answered 3
}

@test "a pipe that gives its text in two parts is read to its end" {
    answer run <(head -c 50 "$sum"; sleep 0.2; tail -c +51 "$sum") <(printf 'turn 0 '; sleep 0.2; echo 40)
    answered 0 "out 5" "aborts 0 0 0 0" "stop end 0" "src 0*4"
}
