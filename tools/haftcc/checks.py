"""What no pass has lowered: each is refused with its place."""

from __future__ import annotations

from typing import Any, Callable, Optional

from .ir import At, Complaints, Expr, Function, Global, Inst, Module, Parts, Place, Refused, Strange, Value, names_in
from .read import FLOAT_ADVICE, refused_type
from .types import WIDTHS, Array, Func, Int, Layout, Named, Outside, Struct, Type

WIDTHS_ADVICE = "use an integer of 8, 16, 32 or 64 bits"
WIDE_ADVICE = "use halves of 64 bits, and at most 64 bits of bit-fields side by side"


class Checks:
    def __init__(self, module: Module, complaints: Complaints) -> None:
        self.module = module
        self.complaints = complaints
        self.layout = Layout(module.types)

    def type(self, ty: Type) -> None:
        """Refuses a type that the subset has no form of."""
        match ty:
            case Int(bits) if bits not in WIDTHS:
                raise Refused(f"an integer of {bits} bits", WIDTHS_ADVICE if bits < 64 else WIDE_ADVICE)
            case Array(_, elem):
                self.type(elem)
            case Struct(parts, packed):
                if packed:
                    raise Refused("a packed struct", "leave the attribute out, or use an array of bytes")
                for part in parts:
                    self.type(part)
            case Named(name):
                self.type(self.layout.names.get(name, Outside("opaque")))
            case Func():
                raise Refused("a function's type", "call functions by their names")
            case Outside(word):
                raise refused_type(word)

    def value(self, value: Value) -> None:
        match value:
            case Strange(word):
                raise Refused(f"a constant that is no integer ({word})", FLOAT_ADVICE)
            case Parts(items) | Expr(_, _, items):
                for item in items:
                    self.type(item.ty)
                    self.value(item.value)
        for name in names_in(value):
            if name in self.module.functions or name in self.module.declares:
                raise Refused(f"the address of the function {name}", "write a switch over a number that calls each function by its name")
            if name not in self.module.globals:
                raise Refused(f"{name}, which is defined in none of the files", "define it")

    def inst(self, inst: Inst) -> None:
        if inst.op in ("extractvalue", "cmpxchg"):
            self.type(inst.args[-1].ty)
        else:
            self.type(inst.ty)
        for k, arg in enumerate(inst.args):
            self.type(arg.ty)
            is_thread = inst.op == "call" and inst.callee == At("pthread_create") and k == 2
            if not is_thread:
                self.value(arg.value)
        if inst.op in ("bitcast", "addrspacecast", "insertvalue"):
            raise Refused(f"the instruction {inst.op}", "write it with integers and their shifts")

    def noting(self, place: Optional[Place], work: Callable[[Any], None], item: Any) -> bool:
        """Does one check, and notes what it refuses."""
        try:
            work(item)
            return True
        except Refused as refused:
            self.complaints.add(place, refused)
            return False

    def function(self, function: Function) -> None:
        if not all([self.noting(function.place, self.type, ty) for ty in (function.ret, *(param.ty for param in function.params))]):
            return
        for inst in function.insts():
            self.noting(inst.place or function.place, self.inst, inst)

    def global_(self, item: Global) -> None:
        if self.noting(item.place, self.type, item.ty) and item.init is not None:
            self.noting(item.place, self.value, item.init)

    def run(self) -> None:
        main = self.module.functions.get("main")
        if main is None:
            self.complaints.add(None, Refused("there is no main", "write int main(void)"))
        elif main.params:
            self.complaints.add(main.place, Refused("main with parameters", "write int main(void), and take numbers from haft_arg(place)"))
        for item in self.module.globals.values():
            self.global_(item)
        for function in self.module.functions.values():
            self.function(function)
