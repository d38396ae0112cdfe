#!/usr/bin/env bash
# How long the passes take, and how much memory: a text is read and checked, or hardened too.
#
# Makes modules of ordinary functions of 1, 2 and 4 MiB (check_shapes.py), and prints for each the least of five times of whole runs, what
# hardening takes beside reading and checking, and its most memory beyond that of reading alone; and beside `opt -S`, which reads,
# checks and prints the module, where LLVM is installed. The program is proved and built first where it is missing (`rt` on the PATH), or
# is $LEX_BENCH. Needs python3, which makes the files and measures.
set -eu
here=$(dirname "$(readlink -f "${BASH_SOURCE[0]}")")
program=${LEX_BENCH:-$here/../crates/lex_bench/out/lex_bench}

if [ ! -x "$program" ]; then
    echo "harden.sh: proving and building the program" >&2
    (cd "$here/../crates/lex_bench" && rt run -- data/sample.ll) </dev/null >/dev/null
fi

PYTHONDONTWRITEBYTECODE=1 PYTHONPATH=$here exec python3 - "$program" <<'PY'
import os, sys, tempfile

from check_shapes import SHAPES
from measure import milliseconds, optimizer, printed

program = sys.argv[1]


def counted(path, word):
    count = printed([program, path, word])
    if count == "no count":
        sys.exit("harden.sh: the module isn't hardened")
    return int(count)


with tempfile.TemporaryDirectory() as work:
    llvm, version = optimizer(work)
    beside = "" if llvm is None else f" `opt -S` {version} | ratio |"
    print("| bytes | hardened instructions | read and checked | and hardened | hardened to checked | memory a byte of text beyond reading |" + beside)
    print("|---|---|---|---|---|---|" + ("" if llvm is None else "---|---|"))
    for scale in (0.25, 0.5, 1):
        path = os.path.join(work, "module.ll")
        with open(path, "w") as file:
            file.writelines(SHAPES["functions"](scale))
        size = os.path.getsize(path)
        count = counted(path, "harden")
        _, read = milliseconds([program, path, "module"])
        checked, _ = milliseconds([program, path, "check"])
        hardened, most = milliseconds([program, path, "harden"])
        row = f"| {size:,} | {count:,} | {checked:.0f} ms | {hardened:.0f} ms | {hardened / checked:.2f} | {(most - read) / size:.0f} bytes |"
        if llvm is not None:
            took, _ = milliseconds([*llvm, path])
            row += f" {took:.0f} ms | {hardened / took:.2f} |"
        print(row)
    if llvm is None:
        print("opt is not installed, or reads no `ptr`: no ratios")
PY
