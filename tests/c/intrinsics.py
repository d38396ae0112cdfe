#!/usr/bin/env python3
"""Writes a module that calls LLVM's intrinsics on numbers, and the same module as haft-cc lowers it: intrinsics.py INTRINSICS.ll LOWERED.ll

Both put each result out, so both must put out the same natively. Arguments are the ends of a type's range, what lies beside them, and some
numbers that are drawn, the same ones each time.
"""

from __future__ import annotations

import random
import sys
from pathlib import Path

sys.path.insert(0, str(Path(__file__).resolve().parents[2] / "tools"))

from haftcc import intrinsics  # noqa: E402
from haftcc.ir import Complaints  # noqa: E402
from haftcc.lower import Lowering  # noqa: E402
from haftcc.read import read_module  # noqa: E402
from haftcc.write import module_text  # noqa: E402

ROUNDS = 14
LAST_ARGUMENT = {"abs": ", i1 false", "ctlz": ", i1 false", "cttz": ", i1 false"}


class Calls:
    """A module of calls, of which each result is put out."""

    def __init__(self) -> None:
        self.declares = {"declare void @haft_out(i64)"}
        self.lines: list[str] = []
        self.count = 0

    def name(self) -> str:
        self.count += 1
        return f"%r{self.count}"

    def put_out(self, width: int, value: str) -> None:
        if width < 64:
            wide = self.name()
            self.lines.append(f"  {wide} = zext i{width} {value} to i64")
            value = wide
        self.lines.append(f"  call void @haft_out(i64 {value})")

    def plain(self, key: str, width: int, count: int) -> None:
        t, last = f"i{width}", LAST_ARGUMENT.get(key, "")
        self.declares.add(f"declare {t} @llvm.{key}.{t}({', '.join([t] * count)}{', i1' if last else ''})")
        result = self.name()
        self.lines.append(f"  {result} = call {t} @llvm.{key}.{t}({numbers(width, count)}{last})")
        self.put_out(width, result)

    def with_overflow(self, key: str, width: int) -> None:
        t = f"i{width}"
        pair, whole = self.name(), f"{{ {t}, i1 }}"
        self.declares.add(f"declare {whole} @llvm.{key}.with.overflow.{t}({t}, {t})")
        self.lines.append(f"  {pair} = call {whole} @llvm.{key}.with.overflow.{t}({numbers(width, 2)})")
        for part, part_width in enumerate((width, 1)):
            value = self.name()
            self.lines.append(f"  {value} = extractvalue {whole} {pair}, {part}")
            self.put_out(part_width, value)

    def text(self) -> str:
        main = ["define i32 @main() {", *self.lines, "  ret i32 0", "}"]
        return "\n".join(['target triple = "x86_64-pc-linux-gnu"', *sorted(self.declares), *main]) + "\n"


def numbers(width: int, count: int) -> str:
    """Arguments of a call."""
    ends = [0, 1, 2, width - 1, -1, -2, 2 ** (width - 1) - 1, -(2 ** (width - 1))]
    drawn = [random.getrandbits(width) - 2 ** (width - 1) for _ in ends]
    return ", ".join(f"i{width} {random.choice(ends + drawn)}" for _ in range(count))


def all_calls() -> Calls:
    calls = Calls()
    for width in (8, 16, 32, 64):
        for _ in range(ROUNDS):
            for key, (count, _) in intrinsics.PLAIN.items():
                if (key, width) != ("bswap", 8):
                    calls.plain(key, width, count)
            for key in intrinsics.WITH_OVERFLOW:
                calls.with_overflow(key, width)
    return calls


def main() -> int:
    random.seed(2026)
    text = all_calls().text()
    complaints = Complaints()
    module = read_module(text, complaints)
    Lowering(module, True, complaints).run()
    for line in complaints.lines():
        print(line, file=sys.stderr)
    Path(sys.argv[1]).write_text(text)
    Path(sys.argv[2]).write_text(module_text(module, "intrinsics"))
    return 1 if complaints.found else 0


if __name__ == "__main__":
    sys.exit(main())
