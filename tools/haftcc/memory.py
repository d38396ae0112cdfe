"""Loads, stores and variables: truth values as bytes, and accesses that aren't known to lie at a multiple of their size by smaller ones."""

from __future__ import annotations

from .helpers import Helpers
from .ir import Function, Fresh, Global, Inst, Local, Operand, Refused
from .types import I1, I64, I8, PTR, Int, Layout, Ptr, Type

GREATEST_ALIGN = 16


def check_align(align: int) -> None:
    if align > GREATEST_ALIGN:
        raise Refused(f"a variable at a multiple of {align}", "align it to 16 at most, and keep others away with an array of bytes around it")


class Memory:
    """The pass over one function."""

    def __init__(self, function: Function, layout: Layout, helpers: Helpers) -> None:
        self.layout = layout
        self.helpers = helpers
        self.fresh = Fresh(function.names())

    def change(self, inst: Inst) -> list[Inst]:
        match inst.op:
            case "alloca":
                check_align(inst.align)
                return [inst]
            case "load" if inst.ty == I1:
                byte = self.fresh.name("byte")
                loaded = Inst("load", byte, I8, inst.args, inst.words, align=inst.align)
                return [loaded, Inst("trunc", inst.dst, I1, [Operand(I8, Local(byte))])]
            case "store" if inst.args[0].ty == I1:
                byte = self.fresh.name("byte")
                widened = Inst("zext", byte, I8, [inst.args[0]])
                return [widened, Inst("store", args=[Operand(I8, Local(byte)), inst.args[1]], words=inst.words, align=inst.align)]
            case "load" if self.is_loose(inst, inst.ty):
                return self.load(inst)
            case "store" if self.is_loose(inst, inst.args[0].ty):
                return self.store(inst)
        return [inst]

    def is_loose(self, inst: Inst, ty: Type) -> bool:
        """Whether an access may lie at another place than a multiple of its size."""
        return isinstance(ty, (Int, Ptr)) and 0 < inst.align < self.layout.size(ty) and "atomic" not in inst.words

    def load(self, inst: Inst) -> list[Inst]:
        size = self.layout.size(inst.ty)
        call = self.helpers.load(size, inst.align, inst.args[0], 8 * size)
        if isinstance(inst.ty, Int):
            call.dst = inst.dst
            return [call]
        call.dst = self.fresh.name("word")
        return [call, Inst("inttoptr", inst.dst, PTR, [Operand(I64, Local(call.dst))])]

    def store(self, inst: Inst) -> list[Inst]:
        value, at = inst.args
        size = self.layout.size(value.ty)
        if isinstance(value.ty, Int):
            return [self.helpers.store(size, inst.align, at, value.value, 8 * size)]
        word = self.fresh.name("word")
        return [Inst("ptrtoint", word, I64, [value]), self.helpers.store(size, inst.align, at, Local(word), 64)]


def lower_global(item: Global) -> None:
    """A variable whose type or place haft has no form of."""
    if item.ty == I1:
        item.ty = I8
    if item.thread_local:
        raise Refused(f"{item.name}, which each thread has its own of", "keep it in a struct that the thread gets as its argument")
    if item.init is None:
        raise Refused(f"{item.name}, which is defined in none of the files", "define it")
    check_align(item.align)
