#!/usr/bin/env bats
# Tests of the launcher `haft`, in a tree of its own with a stand-in for `rt`, so that nothing is proved or built here.
# The stand-in notes its words. For `all check` it writes the file $SAID, as `rt` does while crates are proved. For `run` it makes a
# program that prints `new` and its words. With $NOT_PROVED it fails at either.

setup() {
    top=$(realpath "$BATS_TEST_TMPDIR")/checkout
    program=$top/crates/haft/out/haft
    mkdir -p "$top"/crates/{haft,lower}/src "$top"/crates/lower/proofs/function "$top"/crates/haft/out "$BATS_TEST_TMPDIR/bin"
    cp "$BATS_TEST_DIRNAME/../haft" "$top/haft"
    printf '%s\n' '# one line a crate' 'lower: std_thing' 'haft: lower middle' 'middle: lower' 'of_tests: haft lower' >"$top/crates.txt"
    touch -d '1 hour ago' "$top/crates.txt" "$top"/crates/{haft,lower}/src/main.rt
    find "$top/crates" -exec touch -d '1 hour ago' {} +

    cat >"$BATS_TEST_TMPDIR/bin/rt" <<'END'
#!/bin/sh
echo "$PWD $*" >>"$CALLS"
[ "$1" != all ] || cat "$SAID"
[ -z "${NOT_PROVED:-}" ] || exit 1
[ "$1" != all ] || exit 0
echo "rt: proving" >&2
echo "from the program"
printf '#!/bin/sh\necho new "$@"\nexit 5\n' >out/haft
chmod +x out/haft
END
    chmod +x "$BATS_TEST_TMPDIR/bin/rt"
    export CALLS=$BATS_TEST_TMPDIR/calls SAID=$BATS_TEST_TMPDIR/said
    touch "$CALLS"
    say_proved
    without_rt=$BATS_TEST_TMPDIR/tools
    with_rt=$BATS_TEST_TMPDIR/bin:$without_rt
    mkdir "$without_rt"
    for tool in bash sh env cat chmod date dirname find mkdir nproc readlink sleep tee touch; do
        ln -s "$(command -v "$tool")" "$without_rt/$tool"
    done
}

# What `rt` writes of three crates, the first of which was proved before.
say_proved() {
    cat >"$SAID" <<'END'
rt: chose 2 at a time
== lower
== middle
so far: 3 of 9 functions checked
fn middle::f: proved
logic=proved functions=9
by-macro: none
== haft
fn haft::main: proved
logic=proved functions=1
== summary
lower: ok
middle: ok
haft: ok
3 of 3 crates ok
END
}

# A program that was built after its last edit.
build_old() {
    printf '#!/bin/sh\necho old "$PWD" "$@"\nexit 3\n' >"$program"
    chmod +x "$program"
    touch -d '30 minutes ago' "$program"
}

# launch PATH WORD.. runs the launcher under this PATH, and keeps what it writes and its status.
launch() {
    local path=$1
    shift
    status=0
    PATH=$path "$top/haft" "$@" >"$BATS_TEST_TMPDIR/written" 2>"$BATS_TEST_TMPDIR/complaint" || status=$?
}

wrote() { [ "$(<"$BATS_TEST_TMPDIR/written")" = "$1" ]; }

@test "a current program starts without rt, with the caller's words, folder and status" {
    build_old
    mkdir "$BATS_TEST_TMPDIR/elsewhere"
    cd "$BATS_TEST_TMPDIR/elsewhere"
    launch "$without_rt" run "a b" "" c
    [ "$status" -eq 3 ]
    wrote "old $BATS_TEST_TMPDIR/elsewhere run a b  c"
    [ ! -s "$BATS_TEST_TMPDIR/complaint" ]
}

@test "the launcher works through a link" {
    build_old
    ln -s "$top/haft" "$BATS_TEST_TMPDIR/bin/linked"
    PATH=$without_rt "$BATS_TEST_TMPDIR/bin/linked" >"$BATS_TEST_TMPDIR/written" || status=$?
    [ "$status" -eq 3 ]
}

@test "a missing program is built first, which standard error tells, and later calls start at once" {
    launch "$with_rt" run first second
    [ "$status" -eq 5 ]
    wrote "new run first second"
    grep -q "proving and building" "$BATS_TEST_TMPDIR/complaint"
    [ "$(tail -1 "$CALLS")" = "$top/crates/haft run -- run $top/examples/sum.ll $top/examples/sum.sched" ]

    launch "$with_rt" again
    wrote "new again"
    [ ! -s "$BATS_TEST_TMPDIR/complaint" ]
    [ "$(wc -l <"$CALLS")" -eq 2 ]
}

@test "the crates that the program needs are proved side by side, no more at once than processors and memory allow" {
    launch "$with_rt" run first second
    [[ $(head -1 "$CALLS") =~ ^"$top/crates/haft all check --jobs "([1-9][0-9]*)$ ]]
    [ "${BASH_REMATCH[1]}" -le "$(nproc)" ]
    [ "${BASH_REMATCH[1]}" -eq 1 ] || [ $((3000000 * BASH_REMATCH[1])) -le "$(awk '/^MemTotal:/ { print $2 }' /proc/meminfo)" ]
}

@test "a line is written as each crate is proved, and what the prover says is kept in a file" {
    launch "$with_rt" run first second
    [ "$(grep -c . "$BATS_TEST_TMPDIR/complaint")" -eq 5 ]
    [ "$(tail -3 "$BATS_TEST_TMPDIR/complaint")" = $'haft: proved 1 of 3: lower\nhaft: proved 2 of 3: middle\nhaft: proved 3 of 3: haft' ]
    grep -q "kept in $top/crates/haft/out/proofs.log" "$BATS_TEST_TMPDIR/complaint"
    grep -q "so far: 3 of 9" "$top/crates/haft/out/proofs.log"
    grep -q "rt: proving" "$top/crates/haft/out/proofs.log"
}

@test "a crate that is not proved is named, and the file with what the prover says of it" {
    sed -i '/^logic=proved functions=9/d; s/^fn middle::f: proved/fn middle::f: not proved/; /^== haft/,/^logic=proved/d' "$SAID"
    export NOT_PROVED=1
    launch "$with_rt" run first second
    [ "$status" -eq 126 ]
    grep -q "^haft: proved 1 of 3: lower$" "$BATS_TEST_TMPDIR/complaint"
    grep -q "^haft: middle was not proved; see the line '== middle' in $top/crates/haft/out/proofs.log$" "$BATS_TEST_TMPDIR/complaint"
    ! grep -q "proved .* of 3: haft" "$BATS_TEST_TMPDIR/complaint"
    [ "$(wc -l <"$CALLS")" -eq 1 ]
}

@test "an edit of a source, a specification, a proof or crates.txt is built first" {
    mkdir "$top/crates/lower/specs"
    for edited in crates.txt crates/haft/src/main.rt crates/lower/src/main.rt crates/lower/specs/Lib.antt \
        crates/lower/proofs/function/Proof.antt; do
        echo "$edited"
        build_old
        touch "$top/$edited"
        launch "$with_rt"
        wrote "new"
    done
}

@test "a source that is gone is built without" {
    build_old
    rm "$top/crates/lower/src/main.rt"
    launch "$with_rt"
    wrote "new"
}

@test "files that are no sources build nothing" {
    build_old
    mkdir -p "$top/crates/lower/out" "$top/crates/lower/must-fail"
    touch "$top/crates/lower/out/kept" "$top/crates/lower/must-fail/wrong.edit" "$top/crates/lower/README.md"
    launch "$with_rt"
    [ "$status" -eq 3 ]
    [ ! -s "$CALLS" ]
}

@test "an edit while the build ran is built at the next call" {
    sed -i '2i sleep 0.1; touch ../lower/src/main.rt' "$BATS_TEST_TMPDIR/bin/rt"
    launch "$with_rt"
    launch "$with_rt"
    [ "$(wc -l <"$CALLS")" -eq 4 ]
}

@test "sources that are not proved end with status 126, and no older program is run" {
    build_old
    touch "$top/crates/lower/src/main.rt"
    export NOT_PROVED=1
    launch "$with_rt"
    [ "$status" -eq 126 ]
    [ ! -s "$BATS_TEST_TMPDIR/written" ]
    launch "$with_rt"
    [ "$status" -eq 126 ]
}

@test "without rt an edited program ends with status 127, which standard error tells" {
    build_old
    touch "$top/crates.txt"
    launch "$without_rt"
    [ "$status" -eq 127 ]
    [ ! -s "$BATS_TEST_TMPDIR/written" ]
    grep -q "rt, which proves and builds it, is not on the PATH" "$BATS_TEST_TMPDIR/complaint"
}
