"""Packed structs, which the subset doesn't have. Where each part of each lies at its alignment anyway, and each struct that holds one keeps
its parts where they are, the word goes. Else a packed struct becomes as many bytes as it has, and an address in it is found by counting bytes.

Parts of other widths than 8, 16, 32 and 64 bits take the room of the next wider integer, which is theirs anyway.
"""

from __future__ import annotations

from typing import Callable, Iterable, Iterator

from .ir import (
    Bytes, Complaints, Expr, Fresh, Function, Global, Inst, Local, Module, Null, Num, Operand, Parts, Refused, Undef, Value, Zero,
    map_operands, map_value,
)
from .link import retyped
from .types import I64, I8, Array, Int, Layout, Ptr, Struct, Type
from .widths import wider


def types_in(operands: Iterable[Operand]) -> Iterator[Type]:
    """What the constant addresses in operands count."""
    for operand in operands:
        if isinstance(operand.value, Expr):
            yield operand.value.ty
            yield from types_in(operand.value.args)


class Packed:
    """The pass over a module."""

    def __init__(self, module: Module) -> None:
        self.module = module
        self.layout = Layout(dict(module.types))
        self.all_opaque = False
        self.all_opaque = not self.keeps_offsets()

    def keeps_offsets(self) -> bool:
        """Whether each struct of the module has its parts where they were, once the plain types are put in place."""
        after = Layout({name: self.plain(ty) for name, ty in self.layout.names.items()})
        return all(
            after.offsets(plain) == self.layout.offsets(struct) and after.size(plain) == self.layout.size(struct)
            for struct in set(self.structs())
            if not self.is_opaque(struct)
            for plain in [self.plain(struct)]
        )

    def structs(self) -> Iterator[Struct]:
        """Every struct that the module writes, those in others too."""
        todo = [*self.layout.names.values(), *(item.ty for item in self.module.globals.values())]
        for function in self.module.functions.values():
            for inst in function.insts():
                todo += [inst.ty, *(arg.ty for arg in inst.args), *types_in(inst.args)]
        while todo:
            ty = todo.pop()
            if isinstance(ty, Struct):
                yield ty
                todo += ty.parts
            elif isinstance(ty, Array):
                todo.append(ty.elem)

    def is_opaque(self, ty: Type) -> bool:
        """Whether a type is a packed struct with a part that isn't at its alignment, or that would be longer without the word."""
        body = self.layout.body(ty)
        if not isinstance(body, Struct) or not body.packed:
            return False
        made = self.layout.unpacked(body)
        return self.all_opaque or made is None or self.layout.size(made) != self.layout.size(body)

    def plain(self, ty: Type) -> Type:
        match ty:
            case Array(count, elem):
                return Array(count, wider(self.plain(elem)))
            case Struct() if self.is_opaque(ty):
                return Struct((Array(self.layout.size(ty), I8),))
            case Struct(parts):
                return Struct(tuple(wider(self.plain(part)) for part in parts))
            case _:
                return ty

    def holds_opaque(self, ty: Type) -> bool:
        match self.layout.body(ty):
            case Array(_, elem):
                return self.holds_opaque(elem)
            case Struct(parts) as body:
                return self.is_opaque(body) or any(self.holds_opaque(part) for part in parts)
            case _:
                return False

    def run(self, each: Callable[[Function, Callable[[Inst], list[Inst]]], None], complaints: Complaints) -> None:
        """Changes the module; `each` changes the instructions of a function."""
        for item in self.module.globals.values():
            try:
                self.global_(item)
            except Refused as refused:
                complaints.add(item.place, refused)
        for function in self.module.functions.values():
            fresh = Fresh(function.names())
            each(function, lambda inst: self.address(inst, fresh))
            map_operands(function, self.operand)
            for inst in function.insts():
                inst.ty = self.plain(inst.ty)
        for name, ty in self.layout.names.items():
            self.module.types[name] = self.plain(ty)

    def operand(self, operand: Operand) -> Operand:
        value = map_value(operand.value, lambda part: retyped(self.folded(part), self.plain))
        return Operand(self.plain(operand.ty), value)

    def steps(self, base: Type, indices: list[Operand]) -> tuple[bool, int, list[tuple[Operand, int]]]:
        """What indices lead to: whether they go into an opaque struct, the bytes of the constant ones, and of the others what one counts."""
        opaque, total = False, 0
        open_: list[tuple[Operand, int]] = []
        ty = base
        for k, index in enumerate(indices):
            body = self.layout.body(ty)
            if k > 0 and isinstance(body, Struct):
                assert isinstance(index.value, Num)
                opaque = opaque or self.is_opaque(ty)
                total += self.layout.offsets(ty)[0][index.value.value]
                ty = body.parts[index.value.value]
                continue
            if k > 0:
                assert isinstance(body, Array)
                ty = body.elem
            size = self.layout.size(ty)
            if isinstance(index.value, Num):
                total += index.value.value * size
            else:
                open_.append((index, size))
        return opaque, total, open_

    def address(self, inst: Inst, fresh: Fresh) -> list[Inst]:
        """A `getelementptr` into an opaque struct counts bytes."""
        if inst.op != "getelementptr":
            return [inst]
        opaque, total, open_ = self.steps(inst.ty, inst.args[1:])
        if not opaque:
            return [inst]
        made: list[Inst] = []
        at = Operand(I64, Num(total))
        for index, size in open_:
            at = self.moved(at, index, size, made, fresh)
        return [*made, Inst("getelementptr", inst.dst, I8, [inst.args[0], at])]

    @staticmethod
    def moved(at: Operand, index: Operand, size: int, made: list[Inst], fresh: Fresh) -> Operand:
        """The offset after a step by an index that is known only at run time."""
        if index.ty != I64:
            made.append(Inst("sext", fresh.name("index"), I64, [index]))
            index = Operand(I64, Local(made[-1].dst))
        made.append(Inst("mul", fresh.name("step"), I64, [index, Operand(I64, Num(size))]))
        made.append(Inst("add", fresh.name("offset"), I64, [at, Operand(I64, Local(made[-1].dst))]))
        return Operand(I64, Local(made[-1].dst))

    def folded(self, value: Value) -> Value:
        """A constant address into an opaque struct, by bytes."""
        match value:
            case Expr("getelementptr", base, (at, *indices)):
                opaque, total, open_ = self.steps(base, list(indices))
                if opaque and not open_:
                    return Expr("getelementptr", I8, (at, Operand(I64, Num(total))))
        return value

    def global_(self, item: Global) -> None:
        if item.init is not None and self.holds_opaque(item.ty):
            item.ty, item.init = self.flat(item)
        elif item.init is not None:
            item.init = self.operand(Operand(item.ty, item.init)).value
            item.ty = self.plain(item.ty)

    def flat(self, item: Global) -> tuple[Type, Value]:
        """An initialiser as bytes, with the pointers among them."""
        parts: list[Operand] = []
        assert item.init is not None
        for offset, leaf, value in self.leaves(item.ty, item.init, 0):
            self.pad(parts, offset)
            if isinstance(leaf, Ptr) and value != Null():
                if offset % 8:
                    raise Refused(f"{item.name}, whose initialiser has an address that isn't at a multiple of 8", "set it at the begin of main")
                parts.append(self.operand(Operand(leaf, value)))
            else:
                parts += [Operand(I8, Num(byte)) for byte in self.bytes_of(leaf, value)]
        self.pad(parts, self.layout.size(item.ty))
        return Struct(tuple(part.ty for part in parts)), Parts(tuple(parts))

    @staticmethod
    def pad(parts: list[Operand], offset: int) -> None:
        end = sum(8 if isinstance(part.ty, Ptr) else 1 for part in parts)
        parts += [Operand(I8, Num(0))] * (offset - end)

    def bytes_of(self, leaf: Type, value: Value) -> bytes:
        if not isinstance(leaf, (Int, Ptr)) or not isinstance(value, (Num, Null, Zero, Undef)):
            raise Refused("a part of a packed struct that is no integer", "leave the attribute out")
        number = value.value % 2**leaf.bits if isinstance(leaf, Int) and isinstance(value, Num) else 0
        return number.to_bytes(self.layout.size(leaf), "little")

    def leaves(self, ty: Type, value: Value, offset: int) -> Iterator[tuple[int, Type, Value]]:
        """The parts of an initialiser that are no aggregates, with their offsets."""
        body = self.layout.body(ty)
        match body, value:
            case Array(_, elem), Bytes(data):
                for k, byte in enumerate(data):
                    yield offset + k, elem, Num(byte)
            case (Array() | Struct()), (Zero() | Undef()):
                return
            case Array(_, elem), Parts(items):
                for k, item in enumerate(items):
                    yield from self.leaves(elem, item.value, offset + k * self.layout.size(elem))
            case Struct(), Parts(items):
                for at, item in zip(self.layout.offsets(body)[0], items):
                    yield from self.leaves(item.ty, item.value, offset + at)
            case _, _:
                yield offset, ty, Null() if isinstance(ty, Ptr) and isinstance(value, (Zero, Undef)) else value
