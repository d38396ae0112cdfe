#!/usr/bin/env bash
# How long a step of the source takes in a hardened run, and how much memory a run takes, beside the source alone: `haft run` and
# `haft src` on the same modules (loop_shapes.py) under the same schedules of 4,194,304 turns.
#
# A hardened run takes several turns for a step of the source, so that its turns stand for fewer steps: each time is that of the whole
# run, reading, checking and hardening included, the least of five, divided by the steps that the report tells. The program is
# crates/haft/out/haft, or $HAFT; it is proved and built first where it is missing (`rt` on the PATH). Needs python3.
set -eu
here=$(dirname "$(readlink -f "${BASH_SOURCE[0]}")")
top=$here/..
program=${HAFT:-$top/crates/haft/out/haft}

if [ ! -x "$program" ]; then
    "$top/haft" check "$top/examples/sum.ll" </dev/null >/dev/null
fi

PYTHONDONTWRITEBYTECODE=1 PYTHONPATH=$here exec python3 - "$program" <<'PY'
import os, sys, tempfile

from loop_shapes import SHAPES
from measure import least

program = sys.argv[1]


def steps_of(report):
    """How many steps of the source a report tells. It is read piece by piece: the memory of the next run counts from this process's."""
    steps, rest = 0, b""
    with open(report, "rb") as file:
        while piece := file.read(1 << 16):
            *runs, rest = (rest + piece).split(b" ")
            steps += sum(int(run.partition(b"*")[2]) for run in runs if b"*" in run)
    return steps + int(rest.partition(b"*")[2] or 0)


with tempfile.TemporaryDirectory() as work:
    module, schedule, report = (os.path.join(work, name) for name in ("module.ll", "schedule", "report"))
    print("| module | command | time | memory | steps | a step | `run` to `src` |")
    print("|---|---|---|---|---|---|---|")
    for name, (text, _, turns) in SHAPES.items():
        with open(module, "w") as file:
            file.write(text)
        with open(schedule, "w") as file:
            file.write(turns)
        before = None
        for command in ("src", "run"):
            took, memory = least([program, command, module, schedule], report)
            steps = steps_of(report)
            each = took / steps * 1e9
            ratio = f"{each / before:.2f}" if before else ""
            print(f"| {name} | {command} | {took * 1000:.0f} ms | {memory >> 20} MiB | {steps:,} | {each:.0f} ns | {ratio} |")
            before = each
PY
