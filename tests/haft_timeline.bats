#!/usr/bin/env bats
# Tests of tools/haft-timeline: what is drawn of a report. Positions follow from the picture's sizes: 800 columns from x = 120 on, lanes of 26.
#
# The program is crates/haft/out/haft, or $HAFT. Where there is no Python 3, these tests are skipped.

bats_require_minimum_version 1.5.0
load answers

seconds=20

setup() {
    tests=$BATS_TEST_DIRNAME
    timeline=$tests/../tools/haft-timeline
    command -v python3 >/dev/null || skip "python3 is not installed"
    program=$(realpath -e "${HAFT:-$tests/../crates/haft/out/haft}")
    cd "$BATS_TEST_TMPDIR"
}

# drawn LINE..: the picture of a report of these lines.
drawn() {
    printf '%s\n' "$@" | "$timeline" - >picture.svg
    well_formed picture.svg
}

well_formed() { python3 -c 'import sys, xml.dom.minidom; xml.dom.minidom.parse(sys.argv[1])' "$1"; }

# has PART..: the picture has each part.
has() {
    local part
    for part; do
        grep -qF -- "$part" picture.svg || { echo "no $part in:"; cat picture.svg; return 1; }
    done
}

@test "each run of turns is a box in its thread's lane" {
    drawn "out 5" "aborts 1 2 3 4" "stop end 7" "src 0*2 1*1 0*1"
    has '4 turns of the source' 'thread 0, main' 'thread 1'
    # half of the turns, then a quarter below, then the last quarter
    has '<rect x="120" y="59" width="400" height="18"' '<rect x="520" y="85" width="200" height="18"' '<rect x="720" y="59" width="200" height="18"'
    has 'stop end 7' 'explicit 1 conflict 2 overflow 3 other 4' 'outputs 5<'
}

@test "where a column stands for several turns, its height is the thread's part" {
    # 1600 turns in 800 columns: two a column, one of each thread
    drawn "stop bound" "src$(printf ' 0*1 1*1%.0s' $(seq 800))"
    has '<rect x="120" y="68" width="800" height="9"' '<rect x="120" y="94" width="800" height="9"'
    has 'stop bound' 'outputs none'
}

@test "a stop of a thread is marked in its lane, and a race in two" {
    drawn "aborts 0 0 0 3" "stop trap 2 main/0/2" "src 0*1 1*3"
    has 'thread 2' 'stop trap 2 main/0/2' 'cy="121"'
    drawn "stop race 8 1 2" "src 0*1 1*1 2*1"
    [ "$(grep -c '<circle' picture.svg)" -eq 2 ]
    drawn "stop undefined 0 0 divide" "src"
    [ "$(grep -c '<circle' picture.svg)" -eq 1 ]
}

@test "bytes one after another are one text" {
    drawn "put 60" "put 10" "put 34" "out 1" "put 65" "aborts 0 0 0 0" "stop end 0" "src 0*9"
    has 'outputs &quot;&lt;\0A\22&quot; 1 &quot;A&quot;'
}

@test "reports of the examples are drawn" {
    local examples=$tests/../examples
    answer run "$examples/sum.ll" "$examples/sum.sched"
    "$timeline" written >picture.svg
    well_formed picture.svg
    has 'stop end 0' 'aborts' 'outputs 5'
    echo "round 4 40" >schedule
    answer src "$examples/tally.ll" schedule
    "$timeline" written >picture.svg
    well_formed picture.svg
    has 'thread 3' 'stop end 0' 'outputs 9 6'
    answer src "$examples/race.ll" "$examples/race.sched"
    "$timeline" --width 500 written >picture.svg
    well_formed picture.svg
    has 'width="500"' 'stop race 8 1 2'
}

@test "what is no report is refused with its line, and nothing is drawn" {
    local fault
    printf 'out 5\nstop end 0\nno report\n' >whole
    run -1 --separate-stderr "$timeline" whole
    [ "$stderr" = "haft-timeline: line 3 is no line of a report: no report" ] && [ -z "$output" ]
    echo "src 0*x" >whole
    run -1 --separate-stderr "$timeline" whole
    [ "$stderr" = "haft-timeline: line 1 has a run of turns that is no T*N: 0*x" ]
    echo "out 5" >whole
    run -1 --separate-stderr "$timeline" whole
    [ "$stderr" = "haft-timeline: there is no stop line, so this is no whole report" ]
    run -1 "$timeline" missing
}
