"""Operators: copies go, and where clang has moved instructions, what may come to no value gets a fixed one.

LLVM lets an operator that goes past its range come to `poison` as long as nothing depends on it, and so its passes do operators earlier than
the source does. haft calls such a run undefined at once. So after LLVM's passes the flags `nuw`, `nsw` and `exact` are taken out, and the
bits of a shift's amount are cut to those that count. Without passes each operator stands where the source has it, and keeps its flags.
"""

from __future__ import annotations

from .ir import Fresh, Function, Inst, Local, Num, Operand, Value
from .types import Int, Ptr, bits_of

SHIFTS = ("shl", "lshr", "ashr")


class Operators:
    """The pass over one function. `moved` says whether LLVM's passes were at work."""

    def __init__(self, function: Function, moved: bool) -> None:
        self.fresh = Fresh(function.names())
        self.moved = moved
        self.same: dict[str, Value] = {}

    def change(self, inst: Inst) -> list[Inst]:
        if inst.op == "freeze" or self.is_copy(inst):
            self.same[inst.dst] = inst.args[0].value
            return []
        if not self.moved:
            return [inst]
        if inst.op in SHIFTS and isinstance(inst.ty, Int) and not isinstance(inst.args[1].value, Num):
            return self.shift(inst)
        inst.words = [word for word in inst.words if word not in ("nuw", "nsw", "exact")]
        return [inst]

    @staticmethod
    def is_copy(inst: Inst) -> bool:
        return inst.op == "bitcast" and (inst.ty == inst.args[0].ty or isinstance(inst.ty, Ptr) and isinstance(inst.args[0].ty, Ptr))

    def shift(self, inst: Inst) -> list[Inst]:
        amount = inst.args[1]
        name = self.fresh.name("amount")
        cut = Inst("and", name, amount.ty, [amount, Operand(amount.ty, Num(bits_of(inst.ty) - 1))])
        inst.args[1] = Operand(amount.ty, Local(name))
        inst.words = []
        return [cut, inst]
