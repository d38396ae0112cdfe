"""Writes a module as haft reads it, and as LLVM's own reader does."""

from __future__ import annotations

from .calls import EXTERNALS
from .ir import At, Bytes, Expr, Function, Global, Inst, Local, Module, Null, Num, Operand, Parts, Value, Zero
from .link import uses_of
from .types import I1, Array, Type, text_of


def number(ty: Type, value: int) -> str:
    if ty == I1:
        return "true" if value & 1 else "false"
    return str(value)


def escaped(data: bytes) -> str:
    return "".join(chr(byte) if 0x20 <= byte <= 0x7E and byte not in (0x22, 0x5C) else f"\\{byte:02X}" for byte in data)


def value_text(ty: Type, value: Value) -> str:
    match value:
        case Local(name):
            return f"%{name}"
        case At(name):
            return f"@{name}"
        case Num(n):
            return number(ty, n)
        case Null():
            return "null"
        case Zero():
            return "zeroinitializer"
        case Bytes(data):
            return f'c"{escaped(data)}"'
        case Parts(items):
            open_, close = ("[", "]") if isinstance(ty, Array) else ("{", "}")
            return f"{open_} " + ", ".join(operand_text(item) for item in items) + f" {close}"
        case Expr("getelementptr", base, args):
            return f"getelementptr ({text_of(base)}, " + ", ".join(operand_text(arg) for arg in args) + ")"
    raise AssertionError(f"no text for {value}")


def operand_text(operand: Operand) -> str:
    return f"{text_of(operand.ty)} {value_text(operand.ty, operand.value)}"


class Writer:
    """Writes instructions, each by a method that is named after its word."""

    def inst(self, inst: Inst) -> str:
        body = getattr(self, f"write_{inst.op}", self.operator)(inst)
        return f"%{inst.dst} = {body}" if inst.dst else body

    def values(self, inst: Inst) -> list[str]:
        return [value_text(arg.ty, arg.value) for arg in inst.args]

    def operator(self, inst: Inst) -> str:
        """A binary operator, or a cast."""
        first = operand_text(inst.args[0])
        words = " ".join([inst.op, *inst.words])
        if len(inst.args) == 1:
            return f"{words} {first} to {text_of(inst.ty)}"
        return f"{words} {first}, {self.values(inst)[1]}"

    def listed(self, inst: Inst) -> str:
        return ", ".join(operand_text(arg) for arg in inst.args)

    def write_icmp(self, inst: Inst) -> str:
        return f"icmp {inst.words[0]} {operand_text(inst.args[0])}, {self.values(inst)[1]}"

    def write_select(self, inst: Inst) -> str:
        return f"select {self.listed(inst)}"

    def write_getelementptr(self, inst: Inst) -> str:
        return f"getelementptr {text_of(inst.ty)}, {self.listed(inst)}"

    def aligned(self, inst: Inst, text: str) -> str:
        return f"{text}, align {inst.align}" if inst.align else text

    def write_alloca(self, inst: Inst) -> str:
        return self.aligned(inst, f"alloca {text_of(inst.ty)}")

    def write_load(self, inst: Inst) -> str:
        atomic, orders = ("load atomic", " " + " ".join(inst.words[1:])) if inst.words else ("load", "")
        return self.aligned(inst, f"{atomic} {text_of(inst.ty)}, {operand_text(inst.args[0])}{orders}")

    def write_store(self, inst: Inst) -> str:
        atomic, orders = ("store atomic", " " + " ".join(inst.words[1:])) if inst.words else ("store", "")
        return self.aligned(inst, f"{atomic} {self.listed(inst)}{orders}")

    def write_atomicrmw(self, inst: Inst) -> str:
        return self.aligned(inst, f"atomicrmw {inst.words[0]} {self.listed(inst)} {' '.join(inst.words[1:])}")

    def write_cmpxchg(self, inst: Inst) -> str:
        weak = [word for word in inst.words if word == "weak"]
        orders = [word for word in inst.words if word != "weak"]
        return self.aligned(inst, " ".join(["cmpxchg", *weak, self.listed(inst), *orders]))

    def write_fence(self, inst: Inst) -> str:
        return f"fence {inst.words[0]}"

    def write_extractvalue(self, inst: Inst) -> str:
        return f"extractvalue {self.listed(inst)}, {inst.numbers[0]}"

    def write_call(self, inst: Inst) -> str:
        assert isinstance(inst.callee, At)
        return f"call {text_of(inst.ty)} @{inst.callee.name}({self.listed(inst)})"

    def write_phi(self, inst: Inst) -> str:
        arms = ", ".join(f"[ {value}, %{label} ]" for value, label in zip(self.values(inst), inst.labels))
        return f"phi {text_of(inst.ty)} {arms}"

    def write_br(self, inst: Inst) -> str:
        targets = ", ".join(f"label %{label}" for label in inst.labels)
        return f"br {self.listed(inst)}, {targets}" if inst.args else f"br {targets}"

    def write_switch(self, inst: Inst) -> str:
        ty = inst.args[0].ty
        cases = " ".join(f"{text_of(ty)} {number(ty, case)}, label %{label}" for case, label in zip(inst.numbers, inst.labels[1:]))
        return f"switch {self.listed(inst)}, label %{inst.labels[0]} [ {cases} ]"

    def write_ret(self, inst: Inst) -> str:
        return f"ret {self.listed(inst)}" if inst.args else "ret void"

    def write_unreachable(self, inst: Inst) -> str:
        return "unreachable"


def global_text(item: Global) -> str:
    internal = "internal " if item.internal else ""
    aligned = f", align {item.align}" if item.align else ""
    assert item.init is not None
    return f"@{item.name} = {internal}global {text_of(item.ty)} {value_text(item.ty, item.init)}{aligned}"


def function_text(function: Function) -> list[str]:
    params = ", ".join(f"{text_of(param.ty)} %{param.name}" for param in function.params)
    internal = "internal " if function.internal else ""
    lines = [f"define {internal}{text_of(function.ret)} @{function.name}({params}) {{"]
    writer = Writer()
    for block in function.blocks:
        lines.append(f"{block.label}:")
        lines += [f"  {writer.inst(inst)}" for inst in block.insts]
    return [*lines, "}"]


def used_types(module: Module, lines: list[str]) -> list[str]:
    """The named structs that the lines name, and those in them."""
    todo = [name for name in module.types if any(f"%{name}" in line for line in lines)]
    found: list[str] = []
    while todo:
        name = todo.pop(0)
        if name not in found:
            found.append(name)
            text = text_of(module.types[name])
            todo += [other for other in module.types if f"%{other}" in text]
    return [f"%{name} = type {text_of(module.types[name])}" for name in sorted(found, key=list(module.types).index)]


def module_text(module: Module, title: str) -> str:
    used: set[str] = set().union(*(uses_of(function) for function in module.functions.values()))
    declares = [
        f"declare {text_of(ret)} @{name}(" + ", ".join(text_of(param) for param in params) + ")"
        for name, (ret, params) in EXTERNALS.items()
        if name in used and name not in module.functions
    ]
    globals_ = [global_text(item) for item in module.globals.values()]
    functions = [line for function in module.functions.values() for line in function_text(function)]
    types = used_types(module, globals_ + functions)
    return "\n".join([f"; {title}", *module.target, *types, *globals_, *declares, *functions]) + "\n"
