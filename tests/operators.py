"""Programs of operators with their reports, worked out from the LLVM Language Reference.

Each function below says what the reference says of an instruction, in Python's unbounded integers. Nothing
here reads the crates or their definitions. `python3 tests/operators.py` writes a group of programs, in the form
that programs/ has: the results of an operator at a width are the outputs of one program, and each operation
without a result is a program of its own, whose first step is undefined.
"""

WIDTHS = [1, 8, 16, 32, 64]
DIVIDE, POISON = "D", "P"


def signed(w, a):
    return a - 2**w if a >> (w - 1) else a


def least(w):
    return 2 ** (w - 1)


def words(w):
    """0, 1, the greatest signed word, the least signed word, the greatest word."""
    return sorted({0, 1, least(w) - 1, least(w), 2**w - 1})


def amounts(w):
    """Shifts by nothing, by 1, and by one less than the width, the width, and one more."""
    return [0, 1, w - 1, w, w + 1] if w > 1 else [0, 1]


def quotient(x, y):
    """'The value produced is the signed integer quotient of the two operands rounded towards zero.'"""
    q = abs(x) // abs(y)
    return q if (x < 0) == (y < 0) else -q


def overflows_signed(w, z):
    return not -least(w) <= z < least(w)


def binary(op, w, a, b, nuw=False, nsw=False, exact=False):
    sa, sb = signed(w, a), signed(w, b)
    if op in ("Add", "Sub", "Mul"):
        apply = {"Add": lambda x, y: x + y, "Sub": lambda x, y: x - y, "Mul": lambda x, y: x * y}[op]
        if nuw and not 0 <= apply(a, b) < 2**w or nsw and overflows_signed(w, apply(sa, sb)):
            return POISON
        return apply(a, b) % 2**w
    if op in ("Udiv", "Urem"):
        if b == 0:
            return DIVIDE
        # 'poison if %op1 is not a multiple of %op2 (as such, "((a udiv exact b) mul b) == a")'
        if op == "Udiv" and exact and a // b * b != a:
            return POISON
        return a // b if op == "Udiv" else a % b
    if op in ("Sdiv", "Srem"):
        # 'Division by zero is undefined behavior', and so is overflow, as of the least value by -1
        if sb == 0 or overflows_signed(w, quotient(sa, sb)):
            return DIVIDE
        if op == "Sdiv" and exact and quotient(sa, sb) * sb != sa:
            return POISON
        return (quotient(sa, sb) if op == "Sdiv" else sa - sb * quotient(sa, sb)) % 2**w
    if op in ("Shl", "Lshr", "Ashr"):
        # 'If op2 is (statically or dynamically) equal to or larger than the number of bits in op1, .. poison'
        if b >= w:
            return POISON
        if op == "Shl":
            shifted = (a << b) % 2**w
            # 'nuw: if it shifts out any non-zero bits', 'nsw: any bits that disagree with the resultant sign bit'
            if nuw and shifted >> b != a or nsw and signed(w, shifted) >> b != sa:
                return POISON
            return shifted
        # 'exact: if any of the bits shifted out are non-zero'
        if exact and a & ((1 << b) - 1):
            return POISON
        return a >> b if op == "Lshr" else (sa >> b) % 2**w
    return {"And": a & b, "Or": a | b, "Xor": a ^ b}[op]


OPERATORS = ["Add", "Sub", "Mul", "Udiv", "Sdiv", "Urem", "Srem", "Shl", "Lshr", "Ashr", "And", "Or", "Xor"]


def second_words(op, w):
    return amounts(w) if op in ("Shl", "Lshr", "Ashr") else words(w)


PREDICATES = {
    "Eq": lambda a, b, x, y: a == b,
    "Ne": lambda a, b, x, y: a != b,
    "Ugt": lambda a, b, x, y: a > b,
    "Uge": lambda a, b, x, y: a >= b,
    "Ult": lambda a, b, x, y: a < b,
    "Ule": lambda a, b, x, y: a <= b,
    "Sgt": lambda a, b, x, y: x > y,
    "Sge": lambda a, b, x, y: x >= y,
    "Slt": lambda a, b, x, y: x < y,
    "Sle": lambda a, b, x, y: x <= y,
}


def cast(op, start, to, a):
    return signed(start, a) % 2**to if op == "Sext" else a % 2**to


def casts():
    for start in WIDTHS:
        for to in WIDTHS:
            for op, fits in [
                ("Zext", start < to),
                ("Sext", start < to),
                ("Trunc", to < start),
                ("Ptrtoint", start == 64),
                ("Inttoptr", to == 64),
            ]:
                if fits:
                    yield op, start, to


UPDATES = {
    "Xchg": lambda w, p, v: v,
    "Add": lambda w, p, v: p + v,
    "Sub": lambda w, p, v: p - v,
    "And": lambda w, p, v: p & v,
    "Or": lambda w, p, v: p | v,
    "Xor": lambda w, p, v: p ^ v,
    "Nand": lambda w, p, v: ~(p & v),
    "Max": lambda w, p, v: p if signed(w, p) > signed(w, v) else v,
    "Min": lambda w, p, v: p if signed(w, p) < signed(w, v) else v,
    "Umax": lambda w, p, v: p if p > v else v,
    "Umin": lambda w, p, v: p if p < v else v,
}


def flagged():
    """Operands just inside and just outside of each flag's promise, by width."""
    for w in WIDTHS[1:]:
        half, most = least(w), 2**w - 1
        yield "Add", "nuw", w, [(most, 0), (most, 1), (half, half - 1), (half, half)]
        yield "Add", "nsw", w, [(half - 1, 0), (half - 1, 1), (half + 1, most), (half, most), (most, 1)]
        yield "Sub", "nuw", w, [(1, 1), (1, 2), (0, 1), (most, most)]
        yield "Sub", "nsw", w, [(half + 1, 1), (half, 1), (most, half), (0, half), (0, 1)]
        root = 2 ** (w // 2)
        yield "Mul", "nuw", w, [(root - 1, root + 1), (root, root), (most, 1), (half, 2)]
        yield "Mul", "nsw", w, [(half // 2, most - 1), (half // 2, 2), (half, most), (half, 1), (root, root // 2)]
        yield "Shl", "nuw", w, [(1, w - 1), (2, w - 1), (half - 1, 1), (half, 1), (1, w)]
        yield "Shl", "nsw", w, [(1, w - 2), (1, w - 1), (most, w - 1), (most - 1, w - 1), (half // 2 + half, 1), (half, 1)]
        for op in ("Udiv", "Sdiv"):
            yield op, "exact", w, [(6, 3), (7, 3), (most - 3, 2), (most, 2), (half, most), (7, 0)]
        for op in ("Lshr", "Ashr"):
            yield op, "exact", w, [(half, w - 1), (half + half // 2, w - 1), (12, 2), (14, 2), (most, 1), (0, w)]
    for op, flags in [("Add", "nuw"), ("Add", "nsw"), ("Sub", "nuw"), ("Sub", "nsw"), ("Mul", "nuw"), ("Mul", "nsw")]:
        yield op, flags, 1, [(0, 1), (1, 1)]
    for op in ("Udiv", "Sdiv"):
        yield op, "exact", 1, [(1, 1), (0, 1), (1, 0)]
    for op, flags in [("Shl", "nuw"), ("Shl", "nsw"), ("Lshr", "exact"), ("Ashr", "exact")]:
        yield op, flags, 1, [(1, 0), (1, 1)]


HEAD = ["declare void @haft_out(i64)"]
UNDEFINED = {DIVIDE: "divide", POISON: "poison"}


def program(name, lines, asked):
    """A program of these lines in `main`, and what `src` and `run` report of it."""
    print("== " + name)
    print("\n".join(HEAD + ["@g = global i64 0", "define i32 @main() {"] + ["  " + line for line in lines] + ["  ret i32 0", "}"]))
    for ask, report in asked:
        print(f"-- {ask} => {' | '.join(report)}")
    print()


def outputs(name, operations):
    """A program that puts out results: each operation is its lines, which define the name given, and its width and result."""
    lines, outs = [], []
    for k, (code, w, result) in enumerate(operations):
        lines += [line.replace("#", str(k)) for line in code]
        if w < 64:
            lines.append(f"%wide{k} = zext i{w} %r{k} to i64")
        lines.append(f"call void @haft_out(i64 %{'wide' if w < 64 else 'r'}{k})")
        outs.append(f"out {result}")
    # `ret` and the exit are two steps
    steps = f"src 0*{len(lines) + 2}"
    source = outs + ["stop end 0", steps]
    hardened = outs + ["aborts 0 0 0 0", "stop end 0", steps]
    program(name, lines, [("turn 0 9999", source), ("run turn 0 9999", hardened)])


def no_result(op, flag, w, a, b):
    """A program whose first step is undefined. The hardened program drops flags, and traps where that doesn't define it."""
    cause = binary(op, w, a, b, **{flag: True} if flag else {})
    line = f"%r = {op.lower()} {flag + ' ' if flag else ''}i{w} {a}, {b}"
    traps = binary(op, w, a, b) in UNDEFINED
    hardened = ["aborts 0 0 0 3", "stop trap 0 main/0/2", "src"] if traps else ["aborts 0 0 0 0", "stop end 0", "src 0*3"]
    asked = [("turn 0 9", ["stop undefined 0 0 " + UNDEFINED[cause], "src"]), ("run turn 0 9", hardened)]
    program(line, [line], asked)


def operators():
    for op in OPERATORS:
        for w in WIDTHS:
            pairs = [(a, b, binary(op, w, a, b)) for a in words(w) for b in second_words(op, w)]
            code = f"{op.lower()} i{w}"
            outputs(code, [([f"%r# = {code} {a}, {b}"], w, r) for a, b, r in pairs if r not in UNDEFINED])
            for a, b, r in pairs:
                if r in UNDEFINED:
                    no_result(op, "", w, a, b)


def flags():
    for op, flag, w, pairs in flagged():
        results = [(a, b, binary(op, w, a, b, **{flag: True})) for a, b in pairs]
        code = f"{op.lower()} {flag} i{w}"
        outputs(code, [([f"%r# = {code} {a}, {b}"], w, r) for a, b, r in results if r not in UNDEFINED])
        for a, b, r in results:
            if r in UNDEFINED:
                no_result(op, flag, w, a, b)


def predicates():
    for pred, holds in PREDICATES.items():
        for w in WIDTHS:
            code = f"icmp {pred.lower()} i{w}"
            pairs = [(a, b, int(holds(a, b, signed(w, a), signed(w, b)))) for a in words(w) for b in words(w)]
            outputs(code, [([f"%r# = {code} {a}, {b}"], 1, r) for a, b, r in pairs])


def conversion(op, start, to, a):
    """The lines of a cast; where it goes from or to an address, the other way is a cast as well."""
    if op == "Ptrtoint":
        return [f"%p# = inttoptr i64 {a} to ptr", f"%r# = ptrtoint ptr %p# to i{to}"]
    if op == "Inttoptr":
        return [f"%p# = inttoptr i{start} {a} to ptr", "%r# = ptrtoint ptr %p# to i64"]
    return [f"%r# = {op.lower()} i{start} {a} to i{to}"]


def conversions():
    for op, start, to in casts():
        results = [(conversion(op, start, to, a), to, cast(op, start, to, a)) for a in words(start)]
        outputs(f"{op.lower()} i{start} to i{to}", results)


def update(op, w, p, v):
    """The lines of an atomic operation on a word in memory, and of a load of what it left."""
    return [f"store i{w} {p}, ptr @g", f"%o# = atomicrmw {op.lower()} ptr @g, i{w} {v} seq_cst", f"%r# = load i{w}, ptr @g"]


def updates():
    # a word in memory has 8 bits at least
    for op, new in UPDATES.items():
        for w in WIDTHS[1:]:
            results = [(update(op, w, p, v), w, new(w, p, v) % 2**w) for p in words(w) for v in words(w)]
            outputs(f"atomicrmw {op.lower()} i{w}", results)


print("The operators of the LLVM Language Reference.")
print()
operators()
flags()
predicates()
conversions()
updates()
