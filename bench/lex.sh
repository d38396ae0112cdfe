#!/usr/bin/env bash
# How long it takes to cut lines into tokens, beside a copy of the same bytes one by one and `wc -w`.
#
# Makes a line of 4 MiB and a file of 4 MiB of ordinary lines, and prints for each the least of five times of each
# program, and the ratios. The times are whole runs, with the start of the program and the reading of the file.
# The program is proved and built first where it is missing (`rt` on the PATH).
set -eu
top=$(dirname "$(readlink -f "${BASH_SOURCE[0]}")")/..
program=$top/crates/lex_bench/out/lex_bench
work=$(mktemp -d)
trap 'rm -rf "$work"' EXIT

limit=4194304

# repeated SIZE TEXT writes the text again and again, at most SIZE bytes and no part of it.
repeated() {
    TEXT=$2 awk -v size="$1" 'BEGIN {
        text = ENVIRON["TEXT"]
        for (n = 0; n + length(text) <= size; n += length(text)) printf "%s", text
    }'
}

# least COMMAND.. prints the least time of five runs, in microseconds.
least() {
    local best='' begun took
    for _ in 1 2 3 4 5; do
        begun=$(date +%s%N)
        "$@" >/dev/null
        took=$((($(date +%s%N) - begun) / 1000))
        [ -n "$best" ] && [ "$best" -le "$took" ] || best=$took
    done
    echo "$best"
}

ratio() {
    awk -v a="$1" -v b="$2" 'BEGIN { printf "%.1f", a / b }'
}

# compare NAME FILE prints a row.
compare() {
    local tokens lex copy words
    tokens=$("$program" "$2")
    lex=$(least "$program" "$2")
    copy=$(least "$program" "$2" copy)
    words=$(least wc -w "$2")
    echo "$1: $(wc -c <"$2") bytes, $tokens tokens; tokens $lex us, copy $copy us, wc -w $words us; tokens to copy $(ratio "$lex" "$copy"), tokens to wc -w $(ratio "$lex" "$words")"
}

if [ ! -x "$program" ]; then
    echo "lex.sh: proving and building the program" >&2
    (cd "$top/crates/lex_bench" && rt run -- data/sample.ll) </dev/null >/dev/null
fi

printf '  %%sum.1 = add nsw i64 %%left, -12 ; a sum\n  store atomic i64 %%sum.1, ptr @total seq_cst, align 8\n  br i1 %%5, label %%then, label %%else\n  call void @haft_out(i64 %%sum.1), !dbg !17\n' >"$work/piece"
repeated $limit "$(cat "$work/piece")
" >"$work/lines"
repeated $limit '%sum.1 = add nsw i64 %left, -12 ' >"$work/line"
repeated $limit ' ' >"$work/blanks"
{ printf c; printf '"'; repeated $((limit - 4)) '\5Ax\\'; printf '"'; } >"$work/string"

compare "ordinary lines" "$work/lines"
compare "one line" "$work/line"
compare "one line of blanks" "$work/blanks"
compare "one string" "$work/string"
