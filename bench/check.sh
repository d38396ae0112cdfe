#!/usr/bin/env bash
# How long `haft check` takes on the modules that ask most of it, and how much memory, beside `llvm-as` where that is
# installed.
#
# Makes each shape of check_shapes.py at half and at whole size, and prints for each the least of five times and the most
# memory of whole runs, and how the time grew from half to whole. Shapes written behind the script's name are taken alone.
# The program is crates/haft/out/haft, or $HAFT; it is proved and built first where it is missing (`rt` on the PATH). Needs
# python3, which makes the files and measures.
set -eu
here=$(dirname "$(readlink -f "${BASH_SOURCE[0]}")")
top=$here/..
program=${HAFT:-$top/crates/haft/out/haft}

if [ ! -x "$program" ]; then
    "$top/haft" check "$top/examples/sum.ll" </dev/null >/dev/null
fi

PYTHONDONTWRITEBYTECODE=1 PYTHONPATH=$here exec python3 - "$program" "$@" <<'PY'
import os, sys, tempfile

from check_shapes import SHAPES
from measure import assembler, milliseconds, printed

program, chosen = sys.argv[1], sys.argv[2:] or list(SHAPES)


with tempfile.TemporaryDirectory() as work:
    llvm = assembler(work)
    print("| shape | bytes | answer | time | grew | memory a byte of text | `llvm-as` | ratio |")
    print("|---|---|---|---|---|---|---|---|")
    for shape in chosen:
        half = None
        for scale in (0.5, 1):
            path = os.path.join(work, "module.ll")
            with open(path, "w") as file:
                file.writelines(SHAPES[shape](scale))
            size = os.path.getsize(path)
            answer = printed([program, "check", path])
            took, memory = milliseconds([program, "check", path])
            grew = "" if half is None else f"{took / half:.1f}"
            half = took
            beside, ratio = "", ""
            if llvm is not None:
                time_of_llvm, _ = milliseconds([*llvm, path])
                beside, ratio = f"{time_of_llvm:.0f} ms", f"{took / time_of_llvm:.2f}"
            print(f"| {shape} | {size:,} | {answer} | {took:.0f} ms | {grew} | {memory / size:.0f} bytes | {beside} | {ratio} |")
    if llvm is None:
        print("llvm-as is not installed, or reads no `ptr`: no ratios")
PY
