"""Values that are whole structs or arrays become their parts, each a value of its own.

A function that gives a struct back stores it where the caller says, and a struct that is passed as a copy is copied by the function that is
called. What a `cmpxchg` gives stays a pair.
"""

from __future__ import annotations

from .helpers import Helpers
from .ir import Fresh, Function, Inst, Local, Num, Operand, Param, Parts, Refused, Undef, Value, Zero, pointer, zero_of
from .types import I32, PTR, VOID, Layout, Type

RESULT = "result"


def low_bit(number: int) -> int:
    return number & -number


class Aggregates:
    """The pass over one function."""

    def __init__(self, function: Function, layout: Layout, helpers: Helpers) -> None:
        self.function = function
        self.layout = layout
        self.helpers = helpers
        self.fresh = Fresh(function.names())
        self.names: dict[tuple[str, int], str] = {}
        self.same: dict[str, Value] = {}
        self.pairs = self.plain_pairs()
        self.entry: list[Inst] = []
        self.result = ""

    def run(self) -> dict[str, Value]:
        """Changes the function, and gives the names that stand for other values now."""
        self.copies()
        if self.layout.is_aggregate(self.function.ret):
            self.result = self.fresh.name(RESULT)
            self.function.params.insert(0, Param(PTR, self.result))
        for block in self.function.blocks:
            block.insts = [made for inst in block.insts for made in self.placed(inst)]
        if self.result:
            self.function.ret = VOID
        if self.function.blocks:
            first = self.function.blocks[0]
            first.insts = self.entry + first.insts
        return self.same

    def plain_pairs(self) -> set[str]:
        """The results of `cmpxchg` that nothing but an `extractvalue` takes: they stay as they are."""
        pairs = {inst.dst for inst in self.function.insts() if inst.op == "cmpxchg"}
        for inst in self.function.insts():
            if inst.op != "extractvalue":
                pairs -= {arg.value.name for arg in inst.args if isinstance(arg.value, Local)}
        return pairs

    def copies(self) -> None:
        """Parameters that are passed as copies: the function makes its own."""
        for param in self.function.params:
            if param.copied is None:
                continue
            inner, param.name = param.name, self.fresh.name(f"{param.name}.given" if not param.name.isdigit() else f"given{param.name}")
            align = self.layout.align(param.copied)
            self.entry.append(Inst("alloca", inner, param.copied, align=align, place=self.function.place))
            size = self.layout.size(param.copied)
            self.entry.append(self.helpers.block("memcpy", Local(inner), Operand(PTR, Local(param.name)), Num(size), align))
            param.copied = None

    def placed(self, inst: Inst) -> list[Inst]:
        made = self.change(inst)
        for item in made:
            item.place = item.place or inst.place
        return made

    def change(self, inst: Inst) -> list[Inst]:
        whole = self.layout.is_aggregate
        match inst.op:
            case "extractvalue":
                return self.extract(inst)
            case "cmpxchg" if inst.dst and inst.dst not in self.pairs:
                taken = [Inst("extractvalue", self.part(inst.dst, k), ty, [Operand(inst.ty, Local(inst.dst))], numbers=[k])
                         for k, (_, ty) in enumerate(self.layout.leaves(inst.ty))]
                return [inst, *taken]
            case "insertvalue":
                return self.insert(inst)
            case "phi" | "select" if whole(inst.ty):
                return self.each_part(inst)
            case "freeze" if whole(inst.ty):
                self.rename(inst.dst, self.parts(inst.args[0]))
                return []
            case "load" if whole(inst.ty):
                return self.load(inst.dst, inst.ty, inst.args[0].value, inst.align)
            case "store" if whole(inst.args[0].ty):
                return self.store(inst.args[0], inst.args[1].value, inst.align)
            case "call":
                if any(whole(arg.ty) for arg in inst.args):
                    raise Refused("a struct as an argument in registers", "pass its address")
                return self.call(inst) if whole(inst.ty) else [inst]
            case "ret" if inst.args and whole(inst.args[0].ty):
                return [*self.store(inst.args[0], Local(self.result), self.layout.align(inst.args[0].ty)), Inst("ret")]
        return [inst]

    def part(self, name: str, k: int) -> str:
        """The name of a value's part."""
        if (name, k) not in self.names:
            self.names[name, k] = self.fresh.name(f"{name}.{k}" if not name.isdigit() else f"part{name}.{k}")
        return self.names[name, k]

    def rename(self, name: str, values: list[Value]) -> None:
        for k, value in enumerate(values):
            self.same[self.part(name, k)] = value

    def parts(self, operand: Operand) -> list[Value]:
        leaves = list(self.layout.leaves(operand.ty))
        match operand.value:
            case Local(name):
                return [Local(self.part(name, k)) for k in range(len(leaves))]
            case Undef() | Zero():
                return [zero_of(ty) for _, ty in leaves]
            case Parts(items):
                return [value for item in items for value in (self.parts(item) if self.layout.is_aggregate(item.ty) else [item.value])]
            case _:
                raise Refused("a constant of a whole struct", "set its parts one by one")

    def below(self, ty: Type, numbers: list[int]) -> list[int]:
        """Which parts lie below these indices."""
        return [k for k, (path, _) in enumerate(self.layout.leaves(ty)) if list(path[: len(numbers)]) == numbers]

    def extract(self, inst: Inst) -> list[Inst]:
        whole = inst.args[0]
        if isinstance(whole.value, Local) and whole.value.name in self.pairs:
            leaves = list(self.layout.leaves(whole.ty))
            inst.ty = leaves[inst.numbers[0]][1]
            return [inst]
        parts, chosen = self.parts(whole), self.below(whole.ty, inst.numbers)
        path, _ = list(self.layout.leaves(whole.ty))[chosen[0]]
        if list(path) == inst.numbers:
            self.same[inst.dst] = parts[chosen[0]]
        else:
            self.rename(inst.dst, [parts[k] for k in chosen])
        return []

    def insert(self, inst: Inst) -> list[Inst]:
        parts, part = self.parts(inst.args[0]), inst.args[1]
        new = self.parts(part) if self.layout.is_aggregate(part.ty) else [part.value]
        for k, value in zip(self.below(inst.ty, inst.numbers), new):
            parts[k] = value
        self.rename(inst.dst, parts)
        return []

    def each_part(self, inst: Inst) -> list[Inst]:
        """A phi or a `select` for each part."""
        split = [self.parts(arg) if arg.ty == inst.ty else None for arg in inst.args]
        made = []
        for k, (_, ty) in enumerate(self.layout.leaves(inst.ty)):
            args = [Operand(ty, parts[k]) if parts else arg for arg, parts in zip(inst.args, split)]
            made.append(Inst(inst.op, self.part(inst.dst, k), ty, args, labels=list(inst.labels)))
        return made

    def address(self, ty: Type, at: Value, path: tuple[int, ...]) -> tuple[Inst, Value, int]:
        """The instruction that finds a part, its result, and the part's offset."""
        name = self.fresh.name("part")
        indices = [Operand(I32, Num(k)) for k in (0, *path)]
        return Inst("getelementptr", name, ty, [pointer(at), *indices]), Local(name), self.layout.offset(ty, [0, *path])

    def load(self, name: str, ty: Type, at: Value, align: int) -> list[Inst]:
        made = []
        for k, (path, leaf) in enumerate(self.layout.leaves(ty)):
            find, where, offset = self.address(ty, at, path)
            made += [find, Inst("load", self.part(name, k), leaf, [pointer(where)], align=low_bit(align | offset))]
        return made

    def store(self, whole: Operand, at: Value, align: int) -> list[Inst]:
        made, parts = [], self.parts(whole)
        for k, (path, leaf) in enumerate(self.layout.leaves(whole.ty)):
            find, where, offset = self.address(whole.ty, at, path)
            made += [find, Inst("store", args=[Operand(leaf, parts[k]), pointer(where)], align=low_bit(align | offset))]
        return made

    def call(self, inst: Inst) -> list[Inst]:
        overflow = self.helpers.with_overflow(inst)
        if overflow is not None:
            first, second = overflow
            first.dst, second.dst = self.part(inst.dst, 0), self.part(inst.dst, 1)
            return [first, second]
        room = self.fresh.name("room")
        align = self.layout.align(inst.ty)
        self.entry.append(Inst("alloca", room, inst.ty, align=align, place=inst.place))
        args = [pointer(Local(room)), *inst.args]
        call = Inst("call", "", VOID, args, callee=inst.callee, aligns=[0, *inst.aligns])
        return [call, *(self.load(inst.dst, inst.ty, Local(room), align) if inst.dst else [])]
