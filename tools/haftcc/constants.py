"""Constants: what clang leaves open gets a fixed value, and expressions that no form of the subset holds become instructions."""

from __future__ import annotations

from .ir import (
    At, Block, Expr, Fresh, Function, Inst, Local, Null, Num, Operand, Parts, Refused, Strange, Undef, Value, Zero, pointer, zero_of,
)
from .read import FLOAT_ADVICE
from .types import I64, I8, Int, Layout, Ptr, Type


def is_direct(value: Value) -> bool:
    """Whether a value stands in the text as it is: an address in a global, by constant indices."""
    match value:
        case Expr("getelementptr", _, (Operand(_, At(_)), *indices)):
            return all(isinstance(index.value, Num) for index in indices)
        case Expr():
            return False
        case _:
            return True


def settled(ty: Type, value: Value) -> Value:
    """A value without casts between kinds of pointers, and without what is left open."""
    match value:
        case Undef():
            return zero_of(ty)
        case Zero() if isinstance(ty, (Int, Ptr)):
            return zero_of(ty)
        case Strange(word):
            if word.startswith("the "):
                raise Refused(word, "write a switch")
            raise Refused(f"a constant that is no integer ({word})", FLOAT_ADVICE)
        case Parts(items):
            return Parts(tuple(Operand(item.ty, settled(item.ty, item.value)) for item in items))
        case Expr("bitcast", _, (arg,)) if isinstance(arg.ty, Ptr):
            return settled(arg.ty, arg.value)
        case Expr("inttoptr", _, (Operand(_, Num(0)),)):
            return Null()
        case Expr(op, to, args, words):
            return Expr(op, to, tuple(Operand(arg.ty, settled(arg.ty, arg.value)) for arg in args), words)
        case _:
            return value


class Constants:
    """The pass over one function."""

    def __init__(self, function: Function) -> None:
        self.function = function
        self.fresh = Fresh(function.names())

    def change(self, inst: Inst) -> list[Inst]:
        """The instruction with settled values, after those that work out its expressions. A phi's are worked out elsewhere."""
        inst.args = [Operand(arg.ty, settled(arg.ty, arg.value)) for arg in inst.args]
        if inst.op == "phi":
            return [inst]
        before: list[Inst] = []
        inst.args = [self.worked_out(arg, before) for arg in inst.args]
        return [*before, inst]

    def worked_out(self, operand: Operand, before: list[Inst]) -> Operand:
        value = operand.value
        if is_direct(value):
            return operand
        assert isinstance(value, Expr)
        args = [self.worked_out(arg, before) for arg in value.args]
        name = self.fresh.name("constant")
        before.append(Inst(value.op, name, value.ty, args, list(value.words)))
        return Operand(operand.ty, Local(name))

    def phis(self) -> None:
        """Works out the expressions of phis at the ends of the blocks that they come from."""
        blocks = {block.label: block for block in self.function.blocks}
        for block in self.function.blocks:
            for inst in block.insts:
                if inst.op == "phi":
                    self.phi(inst, blocks)

    def phi(self, inst: Inst, blocks: dict[str, Block]) -> None:
        made: dict[str, Operand] = {}
        for k, (arg, label) in enumerate(zip(inst.args, inst.labels)):
            if is_direct(arg.value):
                continue
            if label not in made:
                before: list[Inst] = []
                made[label] = self.worked_out(arg, before)
                for item in before:
                    item.place = inst.place
                blocks[label].insts[-1:-1] = before
            inst.args[k] = made[label]


class Initialisers:
    """Constants of globals: an expression must come to an address in a global."""

    def __init__(self, layout: Layout) -> None:
        self.layout = layout

    def fold(self, value: Value) -> Value:
        match value:
            case Parts(items):
                return Parts(tuple(Operand(item.ty, self.fold(item.value)) for item in items))
            case Expr() if not is_direct(value):
                return self.address(value)
            case _:
                return value

    def address(self, value: Expr) -> Value:
        offset = 0
        at: Value = value
        while isinstance(at, Expr):
            indices = [index.value.value for index in at.args[1:] if isinstance(index.value, Num)]
            if at.op != "getelementptr" or len(indices) + 1 < len(at.args):
                raise Refused(f"an initialiser that is no number and no address ({at.op})", "set the variable at the begin of main")
            offset += self.layout.offset(at.ty, indices)
            at = at.args[0].value
        return Expr("getelementptr", I8, (pointer(at), Operand(I64, Num(offset))))
