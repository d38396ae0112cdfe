"""The passes in their order."""

from __future__ import annotations

from typing import Callable, Optional

from .aggregates import Aggregates
from .calls import EXTERNALS, Calls
from .checks import Checks
from .constants import Constants, Initialisers, settled
from .helpers import Helpers
from .ir import Complaints, Function, Global, Inst, Local, Module, Operand, Place, Refused, Value, map_operands, map_value
from .link import keep_reached
from .memory import Memory, lower_global
from .names import rename_locals, rename_tops
from .operators import Operators
from .packed import Packed
from .types import Layout
from .widths import Widths


class Lowering:
    """Makes of a module what the subset has a form of. `moved` says whether LLVM's passes were at work."""

    def __init__(self, module: Module, moved: bool, complaints: Complaints) -> None:
        self.module = module
        self.moved = moved
        self.complaints = complaints
        self.helpers = Helpers(module)

    def run(self) -> None:
        keep_reached(self.module)
        rename_tops(self.module, EXTERNALS)
        self.layout = Layout(self.module.types)
        Packed(self.module).run(self.each, self.complaints)
        for item in self.module.globals.values():
            self.noting(item.place, lambda: self.global_(item))
        before = list(self.module.functions.values())
        for function in before:
            self.noting(function.place, lambda: self.values(function, Aggregates(function, self.layout, self.helpers).run()))
        widths = [Widths(function, self.helpers) for function in before]
        for pass_ in widths:
            pass_.signature()
        for function, pass_ in zip(before, widths):
            self.each(function, pass_.change)
            self.values(function, pass_.same)
            self.function(function)
        if not self.complaints.found:
            keep_reached(self.module)
        for function in self.module.functions.values():
            if function.blocks:
                rename_locals(function)
        Checks(self.module, self.complaints).run()

    def noting(self, place: Optional[Place], work: Callable[[], None]) -> None:
        """Does the work, and notes what it refuses."""
        try:
            work()
        except Refused as refused:
            self.complaints.add(place, refused)

    def global_(self, item: Global) -> None:
        if item.init is not None:
            item.init = Initialisers(self.layout).fold(settled(item.ty, item.init))
        lower_global(item)

    def values(self, function: Function, same: dict[str, Value]) -> None:
        """Puts the values in place of the names that stand for them."""
        if not same:
            return

        def value_of(value: Value) -> Value:
            while isinstance(value, Local) and value.name in same:
                value = same[value.name]
            return value

        map_operands(function, lambda operand: Operand(operand.ty, map_value(operand.value, value_of)))
        for inst in function.insts():
            if isinstance(inst.callee, Local):
                inst.callee = value_of(inst.callee)

    def function(self, function: Function) -> None:
        calls = Calls(self.module, function, self.helpers)
        self.each(function, calls.change)
        self.values(function, calls.same)
        self.each(function, Memory(function, self.layout, self.helpers).change)
        constants = Constants(function)
        self.each(function, constants.change)
        constants.phis()
        operators = Operators(function, self.moved)
        self.each(function, operators.change)
        self.values(function, operators.same)

    def each(self, function: Function, change: Callable[[Inst], list[Inst]]) -> None:
        """Changes each instruction. One that is refused goes, so that the next pass says nothing more of it."""
        for block in function.blocks:
            insts: list[Inst] = []
            for inst in block.insts:
                try:
                    made = change(inst)
                except Refused as refused:
                    self.complaints.add(inst.place or function.place, refused)
                    made = []
                for item in made:
                    item.place = item.place or inst.place
                insts += made
            block.insts = insts
