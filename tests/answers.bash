# What the tests share: running the program, and comparing what it writes. A test may stand in any folder: what the program writes, and
# what is wanted, are kept in the test's own.
# The program is crates/haft/out/haft, or $HAFT.

setup() {
    tests=$BATS_TEST_DIRNAME
    program=$(realpath -e "${HAFT:-$tests/../crates/haft/out/haft}")
    cd "$BATS_TEST_TMPDIR"
}

# answer WORD.. runs the program, and keeps what it writes and its status. The program has $seconds seconds, and as many KiB of
# address space as $memory says, if it is set.
answer() {
    status=0
    (
        [ -z "${memory:-}" ] || ulimit -v "$memory"
        exec timeout "$seconds" "$program" "$@"
    ) >"$BATS_TEST_TMPDIR/written" 2>"$BATS_TEST_TMPDIR/complaint" || status=$?
}

# answered_file STATUS FILE: the last answer had this status and wrote exactly this file, and nothing on standard error.
answered_file() {
    local written=$BATS_TEST_TMPDIR/written
    if [ "$status" -ne "$1" ] || ! cmp -s "$written" "$2" || [ -s "$BATS_TEST_TMPDIR/complaint" ]; then
        echo "status $status: $(head -c 300 "$written" | tr '\n' '|')"
        echo "wanted $1: $(head -c 300 "$2" | tr '\n' '|')"
        return 1
    fi
}

# answered STATUS LINE..: the same, for these lines.
answered() {
    local wanted=$1
    shift
    if [ "$#" -gt 0 ]; then printf '%s\n' "$@"; fi >"$BATS_TEST_TMPDIR/wanted"
    answered_file "$wanted" "$BATS_TEST_TMPDIR/wanted"
}

# lines_of TEXT: its lines, where ` | ` stands between two.
lines_of() { sed 's/ | /\n/g' <<<"$1"; }

# told SCHEDULE REPORT: $command gives this report of module.ll under this schedule.
told() {
    lines_of "$1" >schedule
    lines_of "$2" >report
    answer "$command" module.ll schedule
    answered_file 0 report
}

# A loop that no schedule ends: one step, and then three a round, the sum, the comparison and the branch.
loop() {
    cat <<'LL'
define i32 @main() {
entry:
  br label %l
l:
  %i = phi i64 [ 0, %entry ], [ %j, %l ]
  %j = add i64 %i, 1
  %c = icmp ult i64 %j, 100000000
  br i1 %c, label %l, label %d
d:
  ret i32 0
}
LL
}

# asked LINE: the schedule and the report of a line that asks for $command, in $ask.
asked() {
    case $1 in
        '-- run '*) ask=${1#-- run } && [ "$command" = run ] ;;
        '-- '*) ask=${1#-- } && [ "$command" = src ] ;;
        *) return 1 ;;
    esac
}

# all_told GROUP [FILE] runs each module of a group, which may stand in another file, and names those of which $command reports something else.
#
# A group is a file of programs/. Its first lines say what it is about; behind them each module has a line `== NAME`, its own lines,
# and lines that ask for reports: `-- SCHEDULE => REPORT` for `src`, `-- run SCHEDULE => REPORT` for `run`, where ` | ` stands between
# two lines of a schedule or of a report. Reports follow from the rules: they were worked out by hand, and those of `run` also by a second
# program that was written from the rules. None was taken from the program that is tested.
all_told() {
    local line name='' count=0 failed=0 ask
    while IFS= read -r line; do
        case $line in
            '== '*)
                name=${line#== }
                : >module.ll
                ;;
            '-- '*)
                asked "$line" || continue
                if ! told "${ask%% => *}" "${ask#* => }"; then
                    echo "  of: $name"
                    failed=$((failed + 1))
                fi
                count=$((count + 1))
                ;;
            *) printf '%s\n' "$line" >>module.ll ;;
        esac
    done <"${2:-$tests/programs/$1.txt}"
    echo "$failed of $count failed"
    [ "$count" -gt 0 ] && [ "$failed" -eq 0 ]
}

# all_operators does the same for the programs of operators.py.
all_operators() {
    command -v python3 >/dev/null || skip "python3, which makes the programs, is not installed"
    python3 "$tests/operators.py" >operators
    all_told operators operators
}
