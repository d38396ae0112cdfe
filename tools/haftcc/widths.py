"""Integers of other widths than 8, 16, 32 and 64 bits, as clang makes of bit-fields: each lives in the next wider one, with zeros above."""

from __future__ import annotations

from .helpers import Helpers
from .ir import At, Expr, Fresh, Function, Inst, Local, Num, Operand, Refused, Value
from .types import WIDTHS, Int, Type, bits_of

EXACT = ("and", "or", "xor", "lshr", "udiv", "urem")
SIGNED = ("ashr", "sdiv", "srem")
UNSIGNED = ("llvm.umin.", "llvm.umax.", "llvm.ctpop.", "llvm.expect.")


def is_odd(ty: Type) -> bool:
    return isinstance(ty, Int) and ty.bits not in WIDTHS and ty.bits < 64


def wider(ty: Type) -> Type:
    """The type in which a value of this type lives."""
    return Int(min(width for width in WIDTHS if width > bits_of(ty))) if is_odd(ty) else ty


def cleaned(operand: Operand) -> Operand:
    """An operand in the type in which it lives."""
    value = operand.value
    if not is_odd(operand.ty):
        return operand
    if isinstance(value, Num):
        value = Num(value.value % 2**bits_of(operand.ty))
    elif isinstance(value, Expr):
        raise Refused(f"a constant expression of {operand.ty.bits} bits", "use an integer of 8, 16, 32 or 64 bits")
    return Operand(wider(operand.ty), value)


class Widths:
    """The pass over one function."""

    def __init__(self, function: Function, helpers: Helpers) -> None:
        self.function = function
        self.helpers = helpers
        self.fresh = Fresh(function.names())
        self.same: dict[str, Value] = {}

    def signature(self) -> None:
        self.function.ret = wider(self.function.ret)
        for param in self.function.params:
            param.ty = wider(param.ty)

    def change(self, inst: Inst) -> list[Inst]:
        if not (is_odd(inst.ty) or any(is_odd(arg.ty) for arg in inst.args)):
            return [inst]
        match inst.op:
            case "load":
                return self.load(inst)
            case "store":
                return self.store(inst)
            case "zext" | "sext" | "trunc":
                return self.cast(inst)
            case "icmp":
                return self.compare(inst)
            case "call" if isinstance(inst.callee, At) and inst.callee.name.startswith("llvm.") and not inst.callee.name.startswith(UNSIGNED):
                raise Refused(f"{inst.callee.name}", "use an integer of 8, 16, 32 or 64 bits")
            case "ptrtoint" | "inttoptr" | "atomicrmw" | "cmpxchg":
                raise Refused(f"{inst.op} on an integer of another width", "use an integer of 8, 16, 32 or 64 bits")
            case "switch":
                inst.numbers = [number % 2**bits_of(inst.args[0].ty) for number in inst.numbers]
            case op if op in EXACT or op in SIGNED or op in ("add", "sub", "mul", "shl"):
                return self.operator(inst)
        inst.args = [cleaned(arg) for arg in inst.args]
        inst.ty = wider(inst.ty)
        return [inst]

    def masked(self, made: list[Inst], dst: str, bits: int) -> list[Inst]:
        """The instructions, of which the last gives the result with other bits above, and then the result alone."""
        last = made[-1]
        last.dst = self.fresh.name("wide")
        mask = Operand(last.ty, Num(2**bits - 1))
        return [*made, Inst("and", dst, last.ty, [Operand(last.ty, Local(last.dst)), mask])]

    def signed(self, operand: Operand, made: list[Inst]) -> Operand:
        """The operand with its sign in the bits above."""
        if not is_odd(operand.ty):
            return operand
        ty = wider(operand.ty)
        shift = Operand(ty, Num(bits_of(ty) - bits_of(operand.ty)))
        up, down = self.fresh.name("up"), self.fresh.name("signed")
        made.append(Inst("shl", up, ty, [cleaned(operand), shift]))
        made.append(Inst("ashr", down, ty, [Operand(ty, Local(up)), shift]))
        return Operand(ty, Local(down))

    def operator(self, inst: Inst) -> list[Inst]:
        bits = bits_of(inst.ty)
        made: list[Inst] = []
        if inst.op in SIGNED:
            first = self.signed(inst.args[0], made)
            second = cleaned(inst.args[1]) if inst.op == "ashr" else self.signed(inst.args[1], made)
            args = [first, second]
        else:
            args = [cleaned(arg) for arg in inst.args]
        made.append(Inst(inst.op, inst.dst, wider(inst.ty), args))
        return made if inst.op in EXACT else self.masked(made, inst.dst, bits)

    def compare(self, inst: Inst) -> list[Inst]:
        made: list[Inst] = []
        is_signed = inst.words[0].startswith("s")
        inst.args = [self.signed(arg, made) if is_signed else cleaned(arg) for arg in inst.args]
        return [*made, inst]

    def cast(self, inst: Inst) -> list[Inst]:
        made: list[Inst] = []
        arg, to = inst.args[0], wider(inst.ty)
        arg = self.signed(arg, made) if inst.op == "sext" else cleaned(arg)
        if arg.ty != to:
            made.append(Inst(inst.op if bits_of(to) > bits_of(arg.ty) else "trunc", inst.dst, to, [arg]))
        if is_odd(inst.ty) and inst.op != "zext":
            if arg.ty == to:
                mask = Operand(to, Num(2**bits_of(inst.ty) - 1))
                return [*made, Inst("and", inst.dst, to, [arg, mask])]
            return self.masked(made, inst.dst, bits_of(inst.ty))
        if arg.ty == to:
            self.same[inst.dst] = arg.value
        return made

    def load(self, inst: Inst) -> list[Inst]:
        bits = bits_of(inst.ty)
        if bits % 8 or "atomic" in inst.words:
            raise Refused(f"a load of {bits} bits", "use an integer of 8, 16, 32 or 64 bits")
        call = self.helpers.load(bits // 8, 1, inst.args[0], bits_of(wider(inst.ty)))
        call.dst = inst.dst
        return [call]

    def store(self, inst: Inst) -> list[Inst]:
        bits = bits_of(inst.args[0].ty)
        if bits % 8 or "atomic" in inst.words:
            raise Refused(f"a store of {bits} bits", "use an integer of 8, 16, 32 or 64 bits")
        value = cleaned(inst.args[0])
        return [self.helpers.store(bits // 8, 1, inst.args[1], value.value, bits_of(value.ty))]
