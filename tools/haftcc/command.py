"""The command: finds clang, has it compile each file, and makes one module of what comes out."""

from __future__ import annotations

import argparse
import re
import shutil
import subprocess
import sys
from dataclasses import dataclass
from pathlib import Path
from typing import Optional

from .calls import EXTERNALS
from .ir import Complaints, Module
from .link import add, add_needed, names_used
from .lower import Lowering
from .read import read_module
from .write import module_text

HERE = Path(__file__).resolve().parent
VERSIONS = range(14, 20)

# What keeps clang's text near the subset, and close to the source.
FRONT_END = [
    "-S", "-emit-llvm", "-g", "-fno-discard-value-names", "-fno-pic", "-fno-stack-protector", "-fno-strict-aliasing", "-U_FORTIFY_SOURCE",
    "-D__NO_CTYPE", "-D__NO_INLINE__", "-I", str(HERE / "include"),
]
PASSES = [
    "-S", "-emit-llvm", "-fno-discard-value-names", "-fno-pic", "-fno-vectorize", "-fno-slp-vectorize", "-fno-unroll-loops",
    "-mllvm", "-replexitval=never",
]


class Failed(Exception):
    """Why there is no module, as standard error has it."""


@dataclass
class Clang:
    path: str
    version: int

    def run(self, words: list[str], text: Optional[str] = None) -> str:
        done = subprocess.run([self.path, *words, "-o", "-"], input=text, capture_output=True, text=True)
        if done.returncode != 0:
            raise Failed(done.stderr.rstrip() or f"{self.path} ended with status {done.returncode}")
        sys.stderr.write(done.stderr)
        return done.stdout

    def compile(self, file: str, level: int, flags: list[str]) -> str:
        """The text of one file. LLVM's passes run over the text apart, so that they can be asked to move no loads."""
        front = [*FRONT_END, f"-O{level}", *flags]
        if level == 0:
            return self.run([*front, file])
        text = self.run([*front, "-Xclang", "-disable-llvm-passes", file])
        # For clang the last word on vectors counts, and each -O is one.
        return self.run([f"-O{level}", *PASSES, "-x", "ir", "-"], unmoved(text))


def unmoved(text: str) -> str:
    """The text with an attribute on each function under which no pass does a load earlier than the source: two threads could race there."""
    return re.sub(r"^attributes (#\d+) = \{", r"attributes \1 = { sanitize_thread", text, flags=re.MULTILINE)


def version_of(path: str) -> Optional[int]:
    try:
        said = subprocess.run([path, "--version"], capture_output=True, text=True).stdout
    except OSError:
        return None
    found = re.search(r"clang version (\d+)", said)
    return int(found.group(1)) if found else None


def find_clang(given: Optional[str]) -> Clang:
    """The clang that was given, or the first on the path that has a version that is known to do."""
    names = [given] if given else ["clang", *(f"clang-{version}" for version in reversed(VERSIONS))]
    for name in names:
        path = shutil.which(name)
        version = version_of(path) if path else None
        if path and version and version in VERSIONS:
            return Clang(path, version)
    asked = given or "clang"
    raise Failed(f"haft-cc: {asked} isn't here in a version from {VERSIONS[0]} to {VERSIONS[-1]}")


def unknown_names(module: Module) -> set[str]:
    return {name for name in names_used(module) if name not in module.functions and name not in module.globals and name not in EXTERNALS}


def translate(clang: Clang, files: list[str], level: int, flags: list[str]) -> str:
    complaints = Complaints()
    whole = Module()
    for file in files:
        add(whole, read_module(clang.compile(file, level, flags), complaints), complaints)
    if unknown_names(whole) & library_names():
        text = clang.compile(str(HERE / "library.c"), level, ["-ffreestanding", "-fno-builtin"])
        add_needed(whole, read_module(text, complaints))
    Lowering(whole, level > 0, complaints).run()
    if complaints.found:
        raise Failed("\n".join(complaints.lines()))
    return module_text(whole, f"haft-cc -O{level}, clang {clang.version}: " + " ".join(Path(file).name for file in files))


def library_names() -> set[str]:
    """The functions that come with haft-cc."""
    return set(re.findall(r"^\w[\w *]*?\b(\w+)\([^;]*\{", (HERE / "library.c").read_text(), flags=re.MULTILINE))


def parser() -> argparse.ArgumentParser:
    made = argparse.ArgumentParser(prog="haft-cc", description="Compiles C into the subset of LLVM's text that haft reads.")
    made.add_argument("files", nargs="+", metavar="FILE.c")
    made.add_argument("--clang", help="the clang to call, version 14 to 19 (else it is looked for on the path)")
    made.add_argument("-O", dest="level", type=int, choices=(0, 1, 2), default=1, help="how far clang goes (1)")
    made.add_argument("-o", dest="out", metavar="FILE.ll", help="where the module goes (standard output)")
    for flag in ("-I", "-D", "-U", "-include"):
        made.add_argument(flag, dest=flag.strip("-"), action="append", default=[], metavar="WORD", help="as clang's")
    made.add_argument("-std", dest="std", help="as clang's")
    made.add_argument("-w", dest="quiet", action="store_true", help="without clang's warnings")
    return made


def main(words: list[str]) -> int:
    given = parser().parse_args(words)
    flags = [word for flag in ("I", "D", "U", "include") for value in getattr(given, flag) for word in (f"-{flag}", value)]
    flags += [f"-std={given.std}"] if given.std else []
    flags += ["-w"] if given.quiet else []
    try:
        text = translate(find_clang(given.clang), given.files, given.level, flags)
    except Failed as failed:
        print(failed, file=sys.stderr)
        return 1
    if given.out:
        Path(given.out).write_text(text)
    else:
        sys.stdout.write(text)
    return 0
