"""Names: those that are numbers, or that LLVM would quote, get others, since instructions came and went."""

from __future__ import annotations

import re
from typing import Iterable

from .ir import Fresh, Function, Local, Module, Operand, Value, map_operands, map_value
from .link import rename, unused

PLAIN = re.compile(r"[-a-zA-Z$._][-a-zA-Z$._0-9]*\Z")


def rename_tops(module: Module, taken: Iterable[str]) -> None:
    """Renames functions and variables that LLVM would quote, and those that have a name that is `taken`."""
    known = set(module.functions) | set(module.globals) | set(taken)
    names: dict[str, str] = {}
    for name in [*module.functions, *module.globals]:
        if name in taken or not PLAIN.match(name):
            names[name] = unused(re.sub(r"[^-a-zA-Z$._0-9]", "_", name), known)
            known.add(names[name])
    types = {name: unused(re.sub(r"[^-a-zA-Z$._0-9]", "_", name), set(module.types)) for name in module.types if not PLAIN.match(name)}
    if names or types:
        rename(module, types, names)


def rename_locals(function: Function) -> None:
    fresh = Fresh({name for name in function.names() if PLAIN.match(name)})
    names: dict[str, str] = {}

    def renamed(name: str, letter: str) -> str:
        if PLAIN.match(name):
            return name
        if name not in names:
            names[name] = fresh.name(letter + re.sub(r"[^-a-zA-Z$._0-9]", "_", name))
        return names[name]

    def value_of(value: Value) -> Value:
        return Local(renamed(value.name, "t")) if isinstance(value, Local) else value

    entry = function.blocks[0].label
    for block in function.blocks:
        if block.label == entry and entry.isdigit():
            names[entry] = fresh.name("entry")
        block.label = renamed(block.label, "b")
    for param in function.params:
        param.name = renamed(param.name, "p")
    for inst in function.insts():
        inst.labels = [renamed(label, "b") for label in inst.labels]
        inst.dst = renamed(inst.dst, "t") if inst.dst else ""
    map_operands(function, lambda operand: Operand(operand.ty, map_value(operand.value, value_of)))
