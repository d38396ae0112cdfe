"""Functions in the subset that lowered instructions call. Each is added to the module when it is first asked for."""

from __future__ import annotations

from typing import Optional

from . import intrinsics
from .ir import At, Complaints, Inst, Local, Module, Num, Operand, Value, pointer
from .read import read_module, refused_type
from .types import I1, I64, I8, VOID, WIDTHS, Int, Type, text_of

PREFIX = "haft."


class Helpers:
    def __init__(self, module: Module) -> None:
        self.module = module

    def function(self, name: str, text: str) -> At:
        """The function of this name, read from its text where it isn't there yet."""
        full = PREFIX + name
        if full not in self.module.functions:
            made = read_module(text.replace("@NAME", "@" + full), Complaints())
            self.module.functions[full] = made.functions[full]
        return At(full)

    def call(self, name: str, text: str, ty: Type, args: list[Operand]) -> Inst:
        return Inst("call", "", ty, args, callee=self.function(name, text), aligns=[0] * len(args))

    def block(self, kind: str, target: Value, source: Operand, size: Value, align: int) -> Inst:
        """A call that copies, moves or fills a block of memory, in the widest accesses that are known to be valid."""
        unit = min(max(align, 1), 8)
        while unit > 1 and not (isinstance(size, Num) and size.value % unit == 0):
            unit //= 2
        name = f"{kind.removesuffix('.inline')}.{unit}"
        args = [pointer(target), source, Operand(I64, size)]
        return self.call(name, intrinsics.block_text(kind, unit), VOID, args)

    def load(self, size: int, unit: int, at: Operand, width: int) -> Inst:
        text = intrinsics.load_text(size, unit, width)
        return self.call(f"load.{size}.{unit}", text, Int(width), [at])

    def store(self, size: int, unit: int, at: Operand, value: Value, width: int) -> Inst:
        text = intrinsics.store_text(size, unit, width)
        return self.call(f"store.{size}.{unit}", text, VOID, [at, Operand(Int(width), value)])

    def plain(self, inst: Inst, key: str) -> Inst:
        """The call that stands for an intrinsic on numbers of one type."""
        width = self.width(inst.args[0].ty)
        count, text = intrinsics.PLAIN[key]
        made = self.call(f"{key}.i{width}", text(width), inst.ty, inst.args[:count])
        made.dst = inst.dst
        return made

    def compared(self, inst: Inst, key: str, name: str) -> list[Inst]:
        """The comparison of three results, in the type that the call asks for."""
        width, wanted = self.width(inst.args[0].ty), self.width(inst.ty)
        made = self.call(f"{key}.i{width}", intrinsics.COMPARED[key](width), I8, inst.args)
        made.dst = inst.dst if wanted == 8 else name
        if wanted == 8:
            return [made]
        return [made, Inst("sext", inst.dst, inst.ty, [Operand(I8, Local(name))])]

    def with_overflow(self, inst: Inst) -> Optional[tuple[Inst, Inst]]:
        """The two parts of an operation that says whether it went past its range."""
        name = inst.callee.name if isinstance(inst.callee, At) else ""
        if not name.startswith("llvm.") or ".with.overflow." not in name:
            return None
        key = name.split(".")[1]
        op, text = intrinsics.WITH_OVERFLOW[key]
        width = self.width(inst.args[0].ty)
        second = self.call(f"{key}.overflows.i{width}", text(width), I1, list(inst.args))
        return Inst(op, "", inst.args[0].ty, list(inst.args)), second

    @staticmethod
    def width(ty: Type) -> int:
        if not isinstance(ty, Int) or ty.bits not in WIDTHS:
            raise refused_type(text_of(ty))
        return ty.bits
