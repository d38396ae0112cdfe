#!/usr/bin/env bash
# Lists the definitions that the promise of `haft` rests on: the files in specs/ that its contract names
# (crates/haft_cli/src/top.rt), and those that these files import, and so on. What only says how the code works
# (specs/code/) is left out, and so are the toolchain's own definitions and the types of the code.
#
#   docs/base.sh          those files, a line for each crate: its name, and its files without `.antt`
#   docs/base.sh rest     the files in specs/ that the promise doesn't rest on, in the same form
set -eu
exec python3 - "$(dirname "$(dirname "$(readlink -f "${BASH_SOURCE[0]}")")")" "${1:-base}" <<'PYTHON'
import pathlib
import re
import sys

crates = pathlib.Path(sys.argv[1]) / "crates"
IMPORT = re.compile(r"^\s*(?:ghost )?use Rattle\.(\w+)\.specs\.([\w.]+)", re.M)


def files(source):
    """The files that a source imports: the longest part of each path that is a file."""
    for crate, path in IMPORT.findall(source):
        parts = [part for part in path.split(".") if part]
        if parts[0] in ("declared", "code"):
            continue
        for count in range(len(parts), 0, -1):
            file = (crates / crate / "specs").joinpath(*parts[:count]).with_suffix(".antt")
            if file.is_file():
                yield file
                break


def base():
    found, waiting = set(), list(files((crates / "haft_cli/src/top.rt").read_text()))
    while waiting:
        file = waiting.pop()
        if file not in found:
            found.add(file)
            waiting += files(file.read_text())
    return found


def rest(found):
    every = {f for f in crates.glob("*/specs/**/*.antt") if f.stem != "Lib" and "code" not in f.relative_to(crates).parts}
    return every - found


def order():
    """The crates as crates.txt has them."""
    lines = (crates.parent / "crates.txt").read_text().splitlines()
    return [line.split(":")[0] for line in lines if ":" in line and not line.startswith("#")]


shown = base() if sys.argv[2] == "base" else rest(base())
for crate in order():
    specs = crates / crate / "specs"
    names = sorted(str(f.relative_to(specs).with_suffix("")) for f in shown if specs in f.parents)
    if names:
        print(f"{crate}: {' '.join(names)}")
PYTHON
