#!/usr/bin/env bash
# How many steps of the source `haft src` does in a second, and how much memory a run takes, beside LLVM's interpreter where that is
# installed (`lli --force-interpreter`, which without `--jit-kind=mcjit` would be the compiler).
#
# Runs three modules that each take nearly 4,194,304 steps with one thread: a loop of sums, one with memory, one with calls; and a loop in
# each of 64 threads, which take their turns one after another (loop_shapes.py). Prints the least of five whole runs. The program is
# crates/haft/out/haft, or $HAFT; it is proved and built first where it is missing (`rt` on the PATH). Needs python3.
set -eu
here=$(dirname "$(readlink -f "${BASH_SOURCE[0]}")")
top=$here/..
program=${HAFT:-$top/crates/haft/out/haft}

if [ ! -x "$program" ]; then
    "$top/haft" check "$top/examples/sum.ll" </dev/null >/dev/null
fi

PYTHONDONTWRITEBYTECODE=1 PYTHONPATH=$here exec python3 - "$program" <<'PY'
import os, sys, tempfile

from loop_shapes import SHAPES
from measure import interpreter, least

program = sys.argv[1]


with tempfile.TemporaryDirectory() as work:
    module, schedule = os.path.join(work, "module.ll"), os.path.join(work, "schedule")
    print("| run | steps | time | million steps a second | memory | `lli`, million steps a second | ratio |")
    print("|---|---|---|---|---|---|---|")
    for name, (text, steps, turns) in SHAPES.items():
        with open(module, "w") as file:
            file.write(text)
        with open(schedule, "w") as file:
            file.write(turns)
        took, memory = least([program, "src", module, schedule])
        rate = steps / took / 1e6
        beside, ratio = "", ""
        llvm = interpreter(module) if "one thread" in name else None
        if llvm:
            other = steps / least(llvm)[0] / 1e6
            beside, ratio = f"{other:.1f}", f"{rate / other:.2f}"
        print(f"| {name} | {steps:,} | {took * 1000:.0f} ms | {rate:.1f} | {memory >> 20} MiB | {beside} | {ratio} |")
PY
