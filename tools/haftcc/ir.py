"""A module of LLVM's text as values: what the reader makes, the passes change, and the writer prints."""

from __future__ import annotations

from dataclasses import dataclass, field
from typing import Callable, Iterator, Optional, Union

from .types import PTR, VOID, Int, Ptr, Type


@dataclass(frozen=True)
class Place:
    """A line of the C source."""

    file: str
    line: int


class Refused(Exception):
    """Something that has no form in the subset: what it is, and what to write instead."""

    def __init__(self, what: str, instead: str) -> None:
        super().__init__(what)
        self.what = what
        self.instead = instead


@dataclass(frozen=True)
class Local:
    name: str


@dataclass(frozen=True)
class At:
    name: str


@dataclass(frozen=True)
class Num:
    value: int


@dataclass(frozen=True)
class Null:
    pass


@dataclass(frozen=True)
class Zero:
    """`zeroinitializer`."""


@dataclass(frozen=True)
class Undef:
    """`undef` and `poison`."""


@dataclass(frozen=True)
class Bytes:
    data: bytes


@dataclass(frozen=True)
class Operand:
    ty: Type
    value: "Value"


@dataclass(frozen=True)
class Parts:
    items: tuple[Operand, ...]


@dataclass(frozen=True)
class Expr:
    """A constant expression. `ty` is what a cast gives, and what a `getelementptr` counts; `words` holds a comparison's predicate."""

    op: str
    ty: Type
    args: tuple[Operand, ...]
    words: tuple[str, ...] = ()


@dataclass(frozen=True)
class Strange:
    """A constant that the subset has no form of, such as a floating-point number."""

    word: str


Value = Union[Local, At, Num, Null, Zero, Undef, Bytes, Parts, Expr, Strange]


@dataclass
class Inst:
    """One instruction. `ty` is its result's type, and for `alloca` and `getelementptr` the type that is counted."""

    op: str
    dst: str = ""
    """The name of its result, or none."""
    ty: Type = VOID
    args: list[Operand] = field(default_factory=list)
    words: list[str] = field(default_factory=list)
    labels: list[str] = field(default_factory=list)
    numbers: list[int] = field(default_factory=list)
    align: int = 0
    callee: Optional[Value] = None
    aligns: list[int] = field(default_factory=list)
    place: Optional[Place] = None


@dataclass
class Param:
    ty: Type
    name: str
    copied: Optional[Type] = None
    """What a `byval` pointer points to: the function works on a copy of its own."""


@dataclass
class Block:
    label: str
    insts: list[Inst] = field(default_factory=list)


@dataclass
class Function:
    name: str
    ret: Type
    params: list[Param]
    variadic: bool = False
    internal: bool = False
    blocks: list[Block] = field(default_factory=list)
    place: Optional[Place] = None

    def insts(self) -> Iterator[Inst]:
        for block in self.blocks:
            yield from block.insts

    def names(self) -> set[str]:
        """Every `%` name that the function defines."""
        return (
            {param.name for param in self.params}
            | {block.label for block in self.blocks}
            | {inst.dst for inst in self.insts() if inst.dst}
        )


@dataclass
class Global:
    name: str
    ty: Type
    init: Optional[Value]
    internal: bool = False
    align: int = 0
    thread_local: bool = False
    place: Optional[Place] = None


@dataclass
class Declare:
    name: str
    ret: Type
    params: tuple[Type, ...]
    variadic: bool


@dataclass
class Module:
    types: dict[str, Type] = field(default_factory=dict)
    globals: dict[str, Global] = field(default_factory=dict)
    declares: dict[str, Declare] = field(default_factory=dict)
    functions: dict[str, Function] = field(default_factory=dict)
    target: list[str] = field(default_factory=list)


@dataclass
class Complaints:
    """What was refused, each with its place where that is known."""

    found: list[tuple[Optional[Place], Refused]] = field(default_factory=list)

    def add(self, place: Optional[Place], refused: Refused) -> None:
        self.found.append((place, refused))

    def lines(self) -> list[str]:
        """One line for each, in the order of places, without repeats."""
        texts = []
        for place, refused in sorted(self.found, key=lambda item: (item[0].file, item[0].line) if item[0] else ("", 0)):
            where = f"{place.file}:{place.line}: " if place else ""
            texts.append(f"{where}{refused.what}; {refused.instead}")
        return list(dict.fromkeys(texts))


class Fresh:
    """Names that a function doesn't have yet."""

    def __init__(self, taken: set[str]) -> None:
        self.taken = set(taken)

    def name(self, wish: str) -> str:
        name, count = wish, 0
        while name in self.taken:
            count += 1
            name = f"{wish}.{count}"
        self.taken.add(name)
        return name


def zero_of(ty: Type) -> Value:
    """The fixed value that stands where clang leaves one open."""
    match ty:
        case Int():
            return Num(0)
        case Ptr():
            return Null()
        case _:
            return Zero()


def map_value(value: Value, change: Callable[[Value], Value]) -> Value:
    """The value with each part changed, the innermost first."""
    match value:
        case Parts(items):
            value = Parts(tuple(Operand(item.ty, map_value(item.value, change)) for item in items))
        case Expr(op, ty, args, words):
            value = Expr(op, ty, tuple(Operand(arg.ty, map_value(arg.value, change)) for arg in args), words)
    return change(value)


def map_operands(function: Function, change: Callable[[Operand], Operand]) -> None:
    for inst in function.insts():
        inst.args = [change(arg) for arg in inst.args]


def names_in(value: Optional[Value]) -> Iterator[str]:
    """Every `@` name in a value."""
    match value:
        case At(name):
            yield name
        case Parts(items) | Expr(_, _, items):
            for item in items:
                yield from names_in(item.value)


def pointer(value: Value) -> Operand:
    return Operand(PTR, value)
