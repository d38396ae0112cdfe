"""What clang writes as intrinsics, as functions in the subset: for each one its text.

A function is named after the intrinsic and its type, as `@haft.smax.i32`. Where LLVM leaves a result open (the absolute value of the
least number, the bits of 0 counted up to the first 1), the function gives a fixed one.
"""

from __future__ import annotations

from typing import Callable, Optional


def simple(width: int, params: str, lines: list[str], result: str, ret: Optional[int] = None) -> str:
    """A function of one block: `{t}` in its lines is its type."""
    t = f"i{width}"
    heads = ", ".join(f"{t} %{name}" for name in params.split())
    body = "".join(f"  {line.format(t=t, w=width, top=width - 1)}\n" for line in lines)
    return f"define internal i{ret or width} @NAME({heads}) {{\nentry:\n{body}  ret i{ret or width} %{result}\n}}\n"


def chosen(predicate: str) -> Callable[[int], str]:
    """The first argument where the comparison holds, else the second."""
    return lambda w: simple(w, "a b", [f"%c = icmp {predicate} {{t}} %a, %b", "%r = select i1 %c, {t} %a, {t} %b"], "r")


def absolute(w: int) -> str:
    return simple(w, "a", ["%n = sub {t} 0, %a", "%c = icmp slt {t} %a, 0", "%r = select i1 %c, {t} %n, {t} %a"], "r")


# Whether a sum or a difference of signed numbers goes past their range: the signs say it.
SUM_PAST = ["%s = add {t} %a, %b", "%x = xor {t} %s, %a", "%y = xor {t} %s, %b", "%z = and {t} %x, %y", "%o = icmp slt {t} %z, 0"]
DIFFERENCE_PAST = ["%s = sub {t} %a, %b", "%x = xor {t} %a, %b", "%y = xor {t} %a, %s", "%z = and {t} %x, %y", "%o = icmp slt {t} %z, 0"]


def signed_saturated(past: list[str]) -> Callable[[int], str]:
    def text(w: int) -> str:
        most = 2 ** (w - 1) - 1
        end = ["%h = ashr {t} %a, {top}", f"%m = xor {{t}} %h, {most}", "%r = select i1 %o, {t} %m, {t} %s"]
        return simple(w, "a b", past + end, "r")

    return text


def past(lines: list[str]) -> Callable[[int], str]:
    return lambda w: simple(w, "a b", lines, "o", ret=1)


def product_past(w: int) -> str:
    return simple(w, "a b", [
        "%z = icmp eq {t} %a, 0", "%d = select i1 %z, {t} 1, {t} %a", "%p = mul {t} %a, %b", "%q = udiv {t} %p, %d",
        "%e = icmp ne {t} %q, %b", "%n = icmp ne {t} %a, 0", "%o = and i1 %n, %e",
    ], "o", ret=1)


def signed_product_past(w: int) -> str:
    return simple(w, "a b", [
        "%z = icmp eq {t} %a, 0", "%m = icmp eq {t} %a, -1", "%k = or i1 %z, %m", "%d = select i1 %k, {t} 1, {t} %a",
        "%p = mul {t} %a, %b", "%q = sdiv {t} %p, %d", "%e = icmp ne {t} %q, %b", "%j = xor i1 %k, true", "%u = and i1 %j, %e",
        f"%l = icmp eq {{t}} %b, {-(2 ** (w - 1))}", "%v = and i1 %m, %l", "%o = or i1 %u, %v",
    ], "o", ret=1)


def funnel_left(w: int) -> str:
    return simple(w, "a b s", [
        "%n = and {t} %s, {top}", "%h = shl {t} %a, %n", "%k = xor {t} %n, {top}", "%f = lshr {t} %b, 1", "%l = lshr {t} %f, %k",
        "%r = or {t} %h, %l",
    ], "r")


def funnel_right(w: int) -> str:
    return simple(w, "a b s", [
        "%n = and {t} %s, {top}", "%l = lshr {t} %b, %n", "%k = xor {t} %n, {top}", "%f = shl {t} %a, 1", "%h = shl {t} %f, %k",
        "%r = or {t} %h, %l",
    ], "r")


def byte_swap(w: int) -> str:
    lines, last = [], ""
    for k in range(0, w, 8):
        lines += [f"%b{k} = lshr {{t}} %a, {k}", f"%m{k} = and {{t}} %b{k}, 255", f"%h{k} = shl {{t}} %m{k}, {w - 8 - k}"]
        if last:
            lines.append(f"%r{k} = or {{t}} {last}, %h{k}")
        last = f"%r{k}" if k else "%h0"
    return simple(w, "a", lines, last[1:])


def mask(width: int, run: int) -> int:
    """Runs of so many ones and so many zeros, from the lowest bit on."""
    return sum(((1 << run) - 1) << at for at in range(0, width, 2 * run))


def bit_reverse(w: int) -> str:
    lines, value, run = [], "%a", 1
    while run < w:
        m = mask(w, run)
        lines += [
            f"%d{run} = lshr {{t}} {value}, {run}", f"%e{run} = and {{t}} %d{run}, {m}",
            f"%f{run} = and {{t}} {value}, {m}", f"%g{run} = shl {{t}} %f{run}, {run}", f"%r{run} = or {{t}} %e{run}, %g{run}",
        ]
        value, run = f"%r{run}", 2 * run
    return simple(w, "a", lines, value[1:])


def ones_of(w: int, value: str) -> tuple[list[str], str]:
    """Lines that count the ones of a value, in groups of 2, 4, 8 .. bits."""
    lines, run = [], 1
    while run < w:
        m = mask(w, run)
        lines += [
            f"%c{run} = and {{t}} {value}, {m}", f"%d{run} = lshr {{t}} {value}, {run}", f"%e{run} = and {{t}} %d{run}, {m}",
            f"%n{run} = add {{t}} %c{run}, %e{run}",
        ]
        value, run = f"%n{run}", 2 * run
    return lines, value


def ones(w: int) -> str:
    lines, value = ones_of(w, "%a")
    return simple(w, "a", lines, value[1:])


def leading_zeros(w: int) -> str:
    lines, value, run = [], "%a", 1
    while run < w:
        lines += [f"%s{run} = lshr {{t}} {value}, {run}", f"%o{run} = or {{t}} {value}, %s{run}"]
        value, run = f"%o{run}", 2 * run
    count, result = ones_of(w, "%i")
    return simple(w, "a", [*lines, f"%i = xor {{t}} {value}, -1", *count], result[1:])


def trailing_zeros(w: int) -> str:
    count, result = ones_of(w, "%i")
    return simple(w, "a", ["%p = sub {t} %a, 1", "%f = xor {t} %a, -1", "%i = and {t} %p, %f", *count], result[1:])


def compared(less: str, greater: str) -> Callable[[int], str]:
    """-1, 0 or 1, as an `i8`, which the call's own type is cut or widened from."""
    return lambda w: simple(w, "a b", [
        f"%l = icmp {less} {{t}} %a, %b", f"%g = icmp {greater} {{t}} %a, %b", "%x = zext i1 %g to i8", "%y = zext i1 %l to i8",
        "%r = sub i8 %x, %y",
    ], "r", ret=8)


# Each with the number of its arguments that are values of its type. What comes after these is a constant that changes nothing here.
PLAIN: dict[str, tuple[int, Callable[[int], str]]] = {
    "smax": (2, chosen("sgt")),
    "smin": (2, chosen("slt")),
    "umax": (2, chosen("ugt")),
    "umin": (2, chosen("ult")),
    "abs": (1, absolute),
    "uadd.sat": (2, lambda w: simple(w, "a b", ["%s = add {t} %a, %b", "%o = icmp ult {t} %s, %a", "%r = select i1 %o, {t} -1, {t} %s"], "r")),
    "usub.sat": (2, lambda w: simple(w, "a b", ["%s = sub {t} %a, %b", "%o = icmp ult {t} %a, %b", "%r = select i1 %o, {t} 0, {t} %s"], "r")),
    "sadd.sat": (2, signed_saturated(SUM_PAST)),
    "ssub.sat": (2, signed_saturated(DIFFERENCE_PAST)),
    "fshl": (3, funnel_left),
    "fshr": (3, funnel_right),
    "bswap": (1, byte_swap),
    "bitreverse": (1, bit_reverse),
    "ctpop": (1, ones),
    "ctlz": (1, leading_zeros),
    "cttz": (1, trailing_zeros),
}
COMPARED = {"ucmp": compared("ult", "ugt"), "scmp": compared("slt", "sgt")}

# The second part of the result: whether the first part is not the whole sum, difference or product. With the operator of the first.
WITH_OVERFLOW: dict[str, tuple[str, Callable[[int], str]]] = {
    "uadd": ("add", past(["%s = add {t} %a, %b", "%o = icmp ult {t} %s, %a"])),
    "sadd": ("add", past(SUM_PAST)),
    "usub": ("sub", past(["%o = icmp ult {t} %a, %b"])),
    "ssub": ("sub", past(DIFFERENCE_PAST)),
    "umul": ("mul", product_past),
    "smul": ("mul", signed_product_past),
}

COPY = """define internal void @NAME(ptr %d, ptr %s, i64 %n) {{
entry:
  br label %head
head:
  %i = phi i64 [ 0, %entry ], [ %j, %body ]
  %c = icmp ult i64 %i, %n
  br i1 %c, label %body, label %done
body:
  %p = getelementptr i8, ptr %s, i64 %i
  %q = getelementptr i8, ptr %d, i64 %i
  %v = load {t}, ptr %p, align {unit}
  store {t} %v, ptr %q, align {unit}
  %j = add i64 %i, {unit}
  br label %head
done:
  ret void
}}
"""

MOVE = """define internal void @NAME(ptr %d, ptr %s, i64 %n) {{
entry:
  %x = ptrtoint ptr %d to i64
  %y = ptrtoint ptr %s to i64
  %u = icmp ule i64 %x, %y
  br i1 %u, label %up, label %down
up:
  %i = phi i64 [ 0, %entry ], [ %j, %step ]
  %c = icmp ult i64 %i, %n
  br i1 %c, label %step, label %done
step:
  %p = getelementptr i8, ptr %s, i64 %i
  %q = getelementptr i8, ptr %d, i64 %i
  %v = load {t}, ptr %p, align {unit}
  store {t} %v, ptr %q, align {unit}
  %j = add i64 %i, {unit}
  br label %up
down:
  %k = phi i64 [ %n, %entry ], [ %l, %back ]
  %e = icmp ne i64 %k, 0
  br i1 %e, label %back, label %done
back:
  %l = sub i64 %k, {unit}
  %f = getelementptr i8, ptr %s, i64 %l
  %g = getelementptr i8, ptr %d, i64 %l
  %w = load {t}, ptr %f, align {unit}
  store {t} %w, ptr %g, align {unit}
  br label %down
done:
  ret void
}}
"""

FILL = """define internal void @NAME(ptr %d, i8 %b, i64 %n) {{
entry:
{spread}  br label %head
head:
  %i = phi i64 [ 0, %entry ], [ %j, %body ]
  %c = icmp ult i64 %i, %n
  br i1 %c, label %body, label %done
body:
  %q = getelementptr i8, ptr %d, i64 %i
  store {t} {value}, ptr %q, align {unit}
  %j = add i64 %i, {unit}
  br label %head
done:
  ret void
}}
"""

BLOCKS = {"memcpy": COPY, "memcpy.inline": COPY, "memmove": MOVE, "memset": FILL, "memset.inline": FILL}


def block_text(kind: str, unit: int) -> str:
    """A function over a block of memory, in accesses of `unit` bytes."""
    t = f"i{8 * unit}"
    ones_each = int("01" * unit, 16)
    spread = f"  %z = zext i8 %b to {t}\n  %v = mul {t} %z, {ones_each}\n" if unit > 1 else ""
    return BLOCKS[kind].format(t=t, unit=unit, spread=spread, value="%v" if unit > 1 else "%b")


def load_text(size: int, unit: int, width: int) -> str:
    """A load of `size` bytes, into so many bits, from an address that is only known to be a multiple of `unit`."""
    t, u = f"i{width}", f"i{8 * unit}"
    lines, whole = [], "0"
    for at in range(0, size, unit):
        lines += [
            f"%p{at} = getelementptr i8, ptr %p, i64 {at}", f"%b{at} = load {u}, ptr %p{at}, align {unit}",
            f"%z{at} = zext {u} %b{at} to {t}", f"%h{at} = shl {t} %z{at}, {8 * at}", f"%r{at} = or {t} {whole}, %h{at}",
        ]
        whole = f"%r{at}"
    return f"define internal {t} @NAME(ptr %p) {{\nentry:\n" + "".join(f"  {line}\n" for line in lines) + f"  ret {t} {whole}\n}}\n"


def store_text(size: int, unit: int, width: int) -> str:
    """A store of the low `size` bytes of so many bits to an address that is only known to be a multiple of `unit`."""
    t, u = f"i{width}", f"i{8 * unit}"
    lines = []
    for at in range(0, size, unit):
        lines += [
            f"%p{at} = getelementptr i8, ptr %p, i64 {at}", f"%h{at} = lshr {t} %v, {8 * at}", f"%b{at} = trunc {t} %h{at} to {u}",
            f"store {u} %b{at}, ptr %p{at}, align {unit}",
        ]
    return f"define internal void @NAME(ptr %p, {t} %v) {{\nentry:\n" + "".join(f"  {line}\n" for line in lines) + "  ret void\n}\n"
