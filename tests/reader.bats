#!/usr/bin/env bats
# Tests of what is read of a text: lines of modules (lines.txt), whole modules (texts.txt) and schedules (schedules.txt).
#
# The program is crates/haft/out/haft, or $HAFT.

load answers

seconds=60

# stretched LINE: the line, where `~64[ptr ~` stands for `[ptr ` 64 times.
stretched() {
    local line=$1 times
    while [[ $line =~ ^([^~]*)~([0-9]+)([^~]*)~(.*)$ ]]; do
        printf -v times "%${BASH_REMATCH[2]}s"
        line=${BASH_REMATCH[1]}${times// /"${BASH_REMATCH[3]}"}${BASH_REMATCH[4]}
    done
    printf '%s' "$line"
}

# put LINE writes a module with this line at $place, and sets $number to its number.
put() {
    case $place in
        outside) number=1 && printf '%b\n' "$1" ;;
        cases) number=3 && printf 'define void @f(i8 %%x) {\n  switch i8 %%x, label %%a [\n%b\n' "$1" ;;
        *) number=2 && printf 'define void @f() {\n%b\n}\n' "$1" ;;
    esac >module.ll
}

# is_read: the last answer refused no text.
is_read() { [ "$status" -le 1 ] && ! grep -q "^refused text" written; }

# read_as LINE: the line is read where it has no `^`; else it is refused at what stands between its two `^`.
read_as() {
    local line prefix rest word
    line=$(stretched "$1")
    put "${line//^/}"
    answer check module.ll
    case $line in
        *^*^*)
            prefix=${line%%^*} rest=${line#*^}
            word=${rest%%^*}
            [ "$place" != cases ] || word="byte $(($(printf '%b' "$prefix" | wc -c) + 1))"
            answered 1 "refused text $number ${word:-end}"
            ;;
        *) is_read ;;
    esac
}

# each_word_as LINE: the line is read; cut off before a word it ends too early or the function does, and before no word a `*` fits.
each_word_as() {
    local words k
    read_as "$1" || return
    read -ra words <<<"$1"
    for ((k = 0; k <= ${#words[@]}; k++)); do
        read_as "${words[*]:0:k} ^*^ ${words[*]:k}" || return
        printf 'define void @f() {\n%s' "${words[*]:0:k}" >module.ll
        answer check module.ll
        [ "$status" -eq 1 ] && grep -qx "refused text [0-9]* end" written || return
    done
}

# all_read SECTION: each line of lines.txt below sections of this name is read, or refused where it says.
all_read() {
    local line place='' count=0 failed=0 check=read_as
    [ "$1" != forms ] || check=each_word_as
    while IFS= read -r line; do
        case $line in
            '== '*) place=${line#== } && place=${place%%:*} && continue ;;
            '') continue ;;
        esac
        [ "$place" = "$1" ] || continue
        if ! "$check" "$line"; then
            echo "  of: $line"
            failed=$((failed + 1))
        fi
        count=$((count + 1))
    done <"$tests/lines.txt"
    echo "$failed of $count failed"
    [ "$count" -gt 0 ] && [ "$failed" -eq 0 ]
}

@test "lines of each form are read, and each token of them must stand where it does" {
    all_read forms
}

@test "lines inside functions are refused at their first unfit token" {
    all_read inside
}

@test "lines outside functions are refused at their first unfit token" {
    all_read outside
}

@test "lines are refused at the first byte at which no token begins" {
    all_read cases
}

# all_as CHECK FILE: each text of a table, which stands in a line after what becomes of it and a `|`, passes the check. It is in the file `text`.
all_as() {
    local row count=0 failed=0
    while IFS= read -r row; do
        printf '%b' "${row#*|}" >text
        if ! "$1" "${row%%|*}"; then
            echo "  of: $row"
            failed=$((failed + 1))
        fi
        count=$((count + 1))
    done < <(grep '|' "$tests/$2")
    echo "$failed of $count failed"
    [ "$count" -gt 0 ] && [ "$failed" -eq 0 ]
}

# text_is WANTED: the text is read, or refused so.
text_is() {
    answer check text
    if [ "$1" = read ]; then is_read; else answered 1 "refused text $1"; fi
}

# schedule_is WANTED: the schedule fits, or this is its first unfit line.
schedule_is() {
    answer run module.ll text
    case $1 in
        fits) [ "$status" -eq 0 ] ;;
        *) answered 1 "refused schedule $1" ;;
    esac
}

return_only() { printf 'define i32 @main() {\n  ret i32 0\n}\n'; }

@test "texts are read, or refused at their first line that fits no form" {
    all_as text_is texts.txt
}

@test "a sum that is cut off is refused where it ends, or at the word that is cut" {
    local length
    while read -r length wanted; do
        head -c "$length" "$tests/../examples/sum.ll" >text
        text_is "$wanted"
    done <<'ROWS'
9 1 v
51 4 end
59 3 end
69 4 end
ROWS
}

@test "schedules fit, or are refused at their first unfit line" {
    return_only >module.ll
    all_as schedule_is schedules.txt
}

@test "a number of 9,000 digits is read" {
    return_only >module.ll
    { printf 'turn 1 '; head -c 9000 /dev/zero | tr '\0' 0; } >text
    schedule_is fits
    { printf 'turn 1 '; head -c 9000 /dev/zero | tr '\0' 9; } >text
    schedule_is 1
}
