#!/usr/bin/env python3
"""How many of the C programs here haft accepts after tools/haft-cc, at each level of clang, and why the others aren't accepted.

    tests/c/report.py                     all levels; a line for each program that isn't accepted
    tests/c/report.py --levels 1 --run    one level, and each accepted program is run three times: the C program natively, its module
                                          natively, and its module by `haft run`; outputs and codes must be equal

It ends with status 1 where a program that isn't named out_.. isn't accepted, one that is named so is, or runs differ.
"""

from __future__ import annotations

import argparse
import os
import subprocess
import sys
import tempfile
from concurrent.futures import ThreadPoolExecutor
from dataclasses import dataclass
from pathlib import Path

HERE = Path(__file__).resolve().parent
TOP = HERE.parent.parent
HAFT_CC = TOP / "tools" / "haft-cc"
LIBRARY = TOP / "tools" / "haftcc"
SCHEDULE = "round 10 20000\nturn 0 500000\n"


@dataclass
class Tools:
    haft: str
    clang: str
    room: Path

    def said(self, *words: str | Path) -> subprocess.CompletedProcess:
        return subprocess.run([str(word) for word in words], capture_output=True, text=True, timeout=120)

    def module(self, file: Path, level: int) -> tuple[Path, str]:
        """The module of a program, and why there is none or it isn't accepted."""
        module = self.room / f"{file.stem}.{level}.ll"
        made = self.said(HAFT_CC, "--clang", self.clang, f"-O{level}", file, "-o", module)
        if made.returncode != 0:
            return module, made.stderr.strip().split("\n")[0].removeprefix(str(HERE) + "/")
        checked = self.said(self.haft, "check", module)
        return module, "" if checked.returncode == 0 else checked.stdout.strip()

    def native(self, source: Path) -> tuple[str, int]:
        """What a program puts out natively, and its code."""
        program = source.with_suffix(".exe") if source.suffix == ".ll" else self.room / f"{source.stem}.exe"
        pointers = ["-mllvm", "-opaque-pointers"] if source.suffix == ".ll" and " 14." in self.said(self.clang, "--version").stdout else []
        built = self.said(self.clang, "-w", f"-I{LIBRARY / 'include'}", *pointers, source, LIBRARY / "native.c", "-lpthread", "-o", program)
        if built.returncode != 0:
            return built.stderr, -1
        ran = self.said(program)
        return ran.stdout, ran.returncode

    def hardened(self, module: Path) -> tuple[str, int]:
        """The same of `haft run`."""
        lines = self.said(self.haft, "run", module, self.room / "schedule").stdout.splitlines()
        outputs = "".join(f"{line}\n" for line in lines if line.startswith(("out ", "put ")))
        stops = [line.split() for line in lines if line.startswith("stop ")]
        return outputs, int(stops[0][2]) % 256 if stops and stops[0][1] == "end" else -1

    def differs(self, file: Path, module: Path) -> str:
        """Which run of a program differs from its native one."""
        wanted = self.native(file)
        if self.native(module) != wanted:
            return "its module runs otherwise natively"
        return "" if self.hardened(module) == wanted else "its module runs otherwise by haft run"


def judged(tools: Tools, file: Path, level: int, run: bool) -> tuple[str, str]:
    """Why a program isn't accepted, and what differs in its runs."""
    module, why = tools.module(file, level)
    return why, tools.differs(file, module) if run and not why else ""


def report(tools: Tools, files: list[Path], level: int, run: bool) -> bool:
    with ThreadPoolExecutor(os.cpu_count()) as pool:
        found = list(pool.map(lambda file: judged(tools, file, level, run), files))
    accepted = sum(not why for why, _ in found)
    print(f"-O{level}: {accepted} of {len(files)} accepted" + (", and run alike" if run and not any(diff for _, diff in found) else ""))
    for file, (why, difference) in zip(files, found):
        if why or difference:
            print(f"  {file.stem}: {why or difference}")
    return all(bool(why) == file.stem.startswith("out_") and not difference for file, (why, difference) in zip(files, found))


def main() -> int:
    asked = argparse.ArgumentParser(description=__doc__, formatter_class=argparse.RawDescriptionHelpFormatter)
    asked.add_argument("--levels", default="0,1,2")
    asked.add_argument("--run", action="store_true")
    asked.add_argument("--haft", default=os.environ.get("HAFT", str(TOP / "crates/haft/out/haft")))
    asked.add_argument("--clang", default="clang")
    asked.add_argument("files", nargs="*", type=Path, default=sorted(HERE.glob("*.c")))
    given = asked.parse_args()
    with tempfile.TemporaryDirectory() as room:
        tools = Tools(given.haft, given.clang, Path(room))
        (tools.room / "schedule").write_text(SCHEDULE)
        fine = [report(tools, given.files, int(level), given.run) for level in given.levels.split(",")]
    return 0 if all(fine) else 1


if __name__ == "__main__":
    sys.exit(main())
