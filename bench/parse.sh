#!/usr/bin/env bash
# How long it takes to read a module, and how much memory, beside `llvm-as` where that is installed.
#
# Makes modules of 1, 2 and 4 MiB: many small functions (20,000 in 4 MiB), and one function of many names (60,000 in
# 4 MiB), and prints for each the least of five times and the most memory of whole runs. The program is proved and
# built first where it is missing (`rt` on the PATH). Needs python3, which makes the files and measures.
set -eu
top=$(dirname "$(readlink -f "${BASH_SOURCE[0]}")")/..
program=$top/crates/lex_bench/out/lex_bench

if [ ! -x "$program" ]; then
    echo "parse.sh: proving and building the program" >&2
    (cd "$top/crates/lex_bench" && rt run -- data/sample.ll) </dev/null >/dev/null
fi

PYTHONDONTWRITEBYTECODE=1 PYTHONPATH=$top/bench exec python3 - "$program" <<'PY'
import os, sys, tempfile

from measure import assembler, milliseconds, printed

program = sys.argv[1]
mebibyte = 1 << 20


def many_functions(size):
    """Functions as a compiler writes them, 20,000 in 4 MiB."""
    out, count, length = [], 0, 0
    while True:
        text = (
            f"define dso_local i32 @function_{count}(i32 noundef %0) #0 {{\n"
            "  %2 = alloca i32, align 4\n"
            "  store i32 %0, ptr %2, align 4\n"
            "  %3 = load i32, ptr %2, align 4\n"
            "  %4 = add nsw i32 %3, 1 ; a sum\n"
            "  ret i32 %4\n}\n\n"
        )
        if length + len(text) > size:
            return "".join(out)
        out.append(text)
        length += len(text)
        count += 1


def one_function(size):
    """One function with a name for each line, 60,000 in 4 MiB."""
    out = ["define void @one(i64 %name) {\n"]
    length, count = len(out[0]) + 16, 0
    while True:
        before = "%name" if count == 0 else f"%a.register.{count - 1:06}"
        text = f"  %a.register.{count:06} = add nsw i64 {before}, 12345678901\n"
        if length + len(text) > size:
            break
        out.append(text)
        length += len(text)
        count += 1
    out.append("  ret void\n}\n")
    return "".join(out)


with tempfile.TemporaryDirectory() as work:
    llvm = assembler(work)
    for name, make in (("many functions", many_functions), ("one function", one_function)):
        for size in (1, 2, 4):
            path = os.path.join(work, "module.ll")
            text = make(size * mebibyte)
            with open(path, "w") as file:
                file.write(text)
            counted = printed([program, path, "module"])
            took, memory = milliseconds([program, path, "module"])
            line = (
                f"{name}, {len(text)} bytes, {counted} instructions: {took:.0f} ms, "
                f"{memory / len(text):.0f} bytes of memory a byte of text"
            )
            if llvm is not None:
                beside, _ = milliseconds([*llvm, path])
                line += f"; llvm-as {beside:.0f} ms, ratio {took / beside:.2f}"
            print(line)
    if llvm is None:
        print("llvm-as is not installed: no ratios")
PY
