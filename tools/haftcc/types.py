"""Types of LLVM's text, and how values of them lie in memory on x86-64."""

from __future__ import annotations

from dataclasses import dataclass
from typing import Iterator, Union


@dataclass(frozen=True)
class Int:
    bits: int


@dataclass(frozen=True)
class Ptr:
    """A pointer, of whatever older clangs say that it points to."""


@dataclass(frozen=True)
class Void:
    """No value: what a function without a result gives."""


@dataclass(frozen=True)
class Array:
    count: int
    elem: "Type"


@dataclass(frozen=True)
class Struct:
    parts: tuple["Type", ...]
    packed: bool = False


@dataclass(frozen=True)
class Named:
    """A struct that the text names, with its name without `%`."""

    name: str


@dataclass(frozen=True)
class Func:
    ret: "Type"
    params: tuple["Type", ...]
    variadic: bool


@dataclass(frozen=True)
class Outside:
    """A type that the subset has no form of. `word` is what LLVM calls it; a vector has its parts' type in front of that."""

    word: str


Type = Union[Int, Ptr, Void, Array, Struct, Named, Func, Outside]

PTR, VOID = Ptr(), Void()
I1, I8, I32, I64 = Int(1), Int(8), Int(32), Int(64)
WIDTHS = (1, 8, 16, 32, 64)


def bits_of(ty: Type) -> int:
    """How many bits an integer has."""
    assert isinstance(ty, Int)
    return ty.bits


def round_up(offset: int, align: int) -> int:
    return -(-offset // align) * align


def text_of(ty: Type) -> str:
    """The type as haft and LLVM read it."""
    match ty:
        case Int(bits):
            return f"i{bits}"
        case Ptr():
            return "ptr"
        case Void():
            return "void"
        case Array(count, elem):
            return f"[{count} x {text_of(elem)}]"
        case Struct(parts, packed):
            inner = "{ " + ", ".join(text_of(part) for part in parts) + " }" if parts else "{}"
            return f"<{inner}>" if packed else inner
        case Named(name):
            return f"%{name}"
        case Func(ret, params, variadic):
            return f"{text_of(ret)} (" + ", ".join([text_of(p) for p in params] + ["..."] * variadic) + ")"
        case Outside(word):
            return word


class Layout:
    """Sizes, alignments and offsets, where the named structs are known."""

    def __init__(self, names: dict[str, Type]) -> None:
        self.names = names

    def body(self, ty: Type) -> Type:
        """The type itself, with its name looked up."""
        return self.names[ty.name] if isinstance(ty, Named) else ty

    def align(self, ty: Type) -> int:
        match self.body(ty):
            case Int(bits):
                return min(8, round_up_to_power(bits))
            case Array(_, elem):
                return self.align(elem)
            case Struct(parts, packed):
                return 1 if packed else max((self.align(part) for part in parts), default=1)
            case _:
                return 8

    def size(self, ty: Type) -> int:
        match self.body(ty):
            case Int(bits):
                return round_up(-(-bits // 8), self.align(ty))
            case Array(count, elem):
                return count * self.size(elem)
            case Struct():
                offsets, end = self.offsets(ty)
                return round_up(end, self.align(ty))
            case _:
                return 8

    def offsets(self, ty: Type) -> tuple[list[int], int]:
        """Where a struct's parts begin, and where the last one ends."""
        struct = self.body(ty)
        assert isinstance(struct, Struct)
        offsets, end = [], 0
        for part in struct.parts:
            at = end if struct.packed else round_up(end, self.align(part))
            offsets.append(at)
            end = at + self.size(part)
        return offsets, end

    def offset(self, base: Type, indices: list[int]) -> int:
        """The offset in bytes that constant indices of a `getelementptr` lead to."""
        total, ty = indices[0] * self.size(base), base
        for index in indices[1:]:
            match self.body(ty):
                case Array(_, elem):
                    total, ty = total + index * self.size(elem), elem
                case Struct(parts):
                    total, ty = total + self.offsets(ty)[0][index], parts[index]
        return total

    def is_aggregate(self, ty: Type) -> bool:
        return isinstance(self.body(ty), (Array, Struct))

    def leaves(self, ty: Type, path: tuple[int, ...] = ()) -> Iterator[tuple[tuple[int, ...], Type]]:
        """The parts of a type that are no aggregates, each with the indices that lead to it."""
        match self.body(ty):
            case Array(count, elem):
                for k in range(count):
                    yield from self.leaves(elem, path + (k,))
            case Struct(parts):
                for k, part in enumerate(parts):
                    yield from self.leaves(part, path + (k,))
            case _:
                yield path, ty

    def unpacked(self, ty: Type) -> Type | None:
        """A packed struct without its word, where each part lies at its alignment anyway; else None."""
        body = self.body(ty)
        assert isinstance(body, Struct)
        plain = Struct(body.parts)
        return plain if self.offsets(plain) == self.offsets(ty) else None


def round_up_to_power(bits: int) -> int:
    """Bytes of the least power of two that holds so many bits."""
    size = 1
    while size * 8 < bits:
        size *= 2
    return size
