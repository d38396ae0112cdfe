"""Reads the text that clang writes into a module. What the subset has no form of is noted with its place, and reading goes on."""

from __future__ import annotations

import re
from typing import Optional

from .ir import (
    At, Block, Bytes, Complaints, Declare, Expr, Function, Global, Inst, Local, Module, Null, Num, Operand, Param, Parts,
    Place, Refused, Strange, Undef, Value, Zero,
)
from .places import Places
from .tokens import Cursor, Token, plain_name, tokens_of
from .types import I1, PTR, VOID, Array, Func, Int, Named, Outside, Struct, Type

FLOATS = ("half", "bfloat", "float", "double", "x86_fp80", "fp128", "ppc_fp128")
OTHER_TYPES = ("opaque", "metadata", "token", "label", "x86_mmx", "x86_amx")
CASTS = ("trunc", "zext", "sext", "ptrtoint", "inttoptr", "bitcast", "addrspacecast")
BINARY = ("add", "sub", "mul", "udiv", "sdiv", "urem", "srem", "shl", "lshr", "ashr", "and", "or", "xor")
KEPT_FLAGS = ("nuw", "nsw", "exact")
DROPPED_FLAGS = ("inbounds", "nusw", "nneg", "disjoint", "samesign", "volatile", "inrange")
ORDERS = ("unordered", "monotonic", "acquire", "release", "acq_rel", "seq_cst")
RMW = ("xchg", "add", "sub", "and", "nand", "or", "xor", "max", "min", "umax", "umin")

FLOAT_ADVICE = "write it with integers (a fixed number of decimals or of bits)"
OUT_OF_SUBSET = {
    "va_arg": ("a function with a variable number of arguments", "give the arguments as an array"),
    "indirectbr": ("a computed goto", "write a switch"),
    "callbr": ("inline assembly with jumps", "write it in C"),
    "invoke": ("an exception", "return a code"),
    "landingpad": ("an exception", "return a code"),
    "resume": ("an exception", "return a code"),
}
STRIPPED = re.compile(r"(?:,\s*![\w.]+ !(?:\d+|\{[^}]*\}))+\s*$")
LABEL = re.compile(r'^([-a-zA-Z$._0-9]+|"[^"]*"):')
DROPPED_CALLS = ("llvm.dbg.", "llvm.lifetime.", "llvm.assume", "llvm.experimental.noalias.scope.decl", "llvm.prefetch",
                 "llvm.donothing", "llvm.sideeffect", "llvm.invariant.end", "llvm.annotation", "llvm.var.annotation")


def refused_type(word: str) -> Refused:
    """Why a type stays out, and what to write instead."""
    if word in FLOATS:
        return Refused(f"a floating-point type ({word})", FLOAT_ADVICE)
    if word.startswith("<"):
        return Refused(f"a vector ({word})", "write it with arrays of integers, part by part")
    return Refused(f"the type {word}", "use an integer of 8, 16, 32 or 64 bits")


class Types:
    """Reads types and values."""

    @staticmethod
    def starts(token: Token) -> bool:
        text = token.text
        return (
            token.kind == "local" or text in ("void", "ptr", "[", "{", "<") or text in FLOATS or text in OTHER_TYPES
            or re.fullmatch(r"i\d+", text) is not None
        )

    def type(self, c: Cursor) -> Type:
        ty: Type = self.first(c)
        while True:
            if c.sees("*"):
                c.next()
                ty = PTR
            elif c.sees("addrspace"):
                raise Refused("an address space", "leave the attribute out")
            elif c.sees("("):
                ty = self.function(c, ty)
            else:
                return ty

    def first(self, c: Cursor) -> Type:
        token = c.next()
        if token.kind == "local":
            return Named(plain_name(token.text))
        match token.text:
            case "void":
                return VOID
            case "ptr":
                return PTR
            case "[":
                count = int(c.next().text)
                c.want("x")
                elem = self.type(c)
                c.want("]")
                return Array(count, elem)
            case "{":
                return Struct(self.parts(c, "}"))
            case "<":
                return self.packed_or_vector(c)
            case text if re.fullmatch(r"i\d+", text):
                return Int(int(text[1:]))
            case text if text in FLOATS or text in OTHER_TYPES:
                return Outside(text)
            case text:
                raise ValueError(f"no type begins with `{text}`")

    def packed_or_vector(self, c: Cursor) -> Type:
        if c.take("{"):
            parts = self.parts(c, "}")
            c.want(">")
            return Struct(parts, packed=True)
        words = []
        while not c.sees(">"):
            words.append(c.next().text)
        c.want(">")
        return Outside("<" + " ".join(words) + ">")

    def parts(self, c: Cursor, close: str) -> tuple[Type, ...]:
        parts: list[Type] = []
        while not c.take(close):
            c.take(",")
            if not c.sees(close):
                parts.append(self.type(c))
        return tuple(parts)

    def function(self, c: Cursor, ret: Type) -> Type:
        c.want("(")
        params: list[Type] = []
        variadic = False
        while not c.take(")"):
            if c.take("..."):
                variadic = True
            elif not c.take(","):
                params.append(self.type(c))
        return Func(ret, tuple(params), variadic)

    def operand(self, c: Cursor) -> Operand:
        ty = self.type(c)
        return Operand(ty, self.value(c, ty))

    def value(self, c: Cursor, ty: Type) -> Value:
        token = c.next()
        match token.kind:
            case "local":
                return Local(plain_name(token.text))
            case "at":
                return At(plain_name(token.text))
            case "number":
                return Num(int(token.text)) if isinstance(ty, Int) and re.fullmatch(r"-?\d+", token.text) else Strange(token.text)
            case "bytes":
                return Bytes(unescaped(token.text[2:-1]))
            case "punct":
                return self.aggregate(c, token.text)
            case _:
                return self.word(c, token.text)

    def aggregate(self, c: Cursor, open_: str) -> Value:
        if open_ == "<" and not c.sees("{"):
            while not c.take(">"):
                c.next()
            return Strange("a vector")
        packed = open_ == "<" and c.take("{")
        close = "]" if open_ == "[" else "}"
        items: list[Operand] = []
        while not c.take(close):
            if not c.take(","):
                items.append(self.operand(c))
        if packed:
            c.want(">")
        return Parts(tuple(items))

    def word(self, c: Cursor, word: str) -> Value:
        match word:
            case "true" | "false":
                return Num(int(word == "true"))
            case "null":
                return Null()
            case "zeroinitializer":
                return Zero()
            case "undef" | "poison":
                return Undef()
            case "getelementptr":
                return self.getelementptr(c)
            case "icmp":
                predicate = c.next().text
                return Expr(word, I1, self.arguments(c), (predicate,))
            case "select":
                args = self.arguments(c)
                return Expr(word, args[1].ty, args)
            case _ if word in CASTS:
                return self.cast(c, word)
            case _ if word in BINARY:
                flags(c)
                args = self.arguments(c)
                return Expr(word, args[0].ty, args)
            case "blockaddress":
                c.skip_brackets()
                return Strange("the address of a label")
            case _:
                if c.sees("("):
                    c.skip_brackets()
                return Strange(word)

    def getelementptr(self, c: Cursor) -> Value:
        while not c.sees("("):
            c.next()
            if c.sees("(") and c.tokens[c.at - 1].text == "inrange":
                c.skip_brackets()
        c.want("(")
        base = self.type(c)
        c.want(",")
        return Expr("getelementptr", base, self.arguments(c, opened=True))

    def arguments(self, c: Cursor, opened: bool = False) -> tuple[Operand, ...]:
        if not opened:
            c.want("(")
        items: list[Operand] = []
        while not c.take(")"):
            if not c.take(",", "inrange"):
                items.append(self.operand(c))
        return tuple(items)

    def cast(self, c: Cursor, word: str) -> Value:
        flags(c)
        c.want("(")
        arg = self.operand(c)
        c.want("to")
        to = self.type(c)
        c.want(")")
        if word == "bitcast" and arg.ty == to:
            return arg.value
        return Expr(word, to, (arg,))


def unescaped(text: str) -> bytes:
    out = bytearray()
    at = 0
    raw = text.encode("latin-1", "replace")
    while at < len(raw):
        if raw[at : at + 1] == b"\\" and raw[at + 1 : at + 2] == b"\\":
            out += b"\\"
            at += 2
        elif raw[at : at + 1] == b"\\":
            out.append(int(raw[at + 1 : at + 3], 16))
            at += 3
        else:
            out.append(raw[at])
            at += 1
    return bytes(out)


def flags(c: Cursor) -> list[str]:
    """Takes the flags of an operator, and gives those that the subset keeps."""
    kept = []
    while (flag := c.take(*KEPT_FLAGS, *DROPPED_FLAGS)) is not None:
        if flag in KEPT_FLAGS:
            kept.append(flag)
    return kept


class Words:
    """The words of linkage and attributes before a type, between a type and its value, or after a function's head."""

    def __init__(self, types: Types) -> None:
        self.types = types
        self.seen: set[str] = set()
        self.copied: Optional[Type] = None
        self.align = 0

    def skip(self, c: Cursor) -> "Words":
        """Passes over words up to a type, a value, a bracket or the end, and notes what they say."""
        while c.peek().kind in ("word", "string", "hash") and not Types.starts(c.peek()) and not self.is_value(c):
            word = c.next().text
            self.seen.add(word)
            if word == "align" and c.peek().kind == "number":
                self.align = int(c.next().text)
            elif word == "byval" and c.take("("):
                self.copied = self.types.type(c)
                c.want(")")
            elif word == "cc":
                c.next()
            elif c.sees("="):
                c.next()
                c.next()
            elif c.sees("("):
                c.skip_brackets()
        return self

    @staticmethod
    def is_value(c: Cursor) -> bool:
        word = c.peek().text
        return word in ("null", "true", "false", "undef", "poison", "zeroinitializer", "getelementptr", "icmp", "select",
                        "asm", "blockaddress", "global", "constant", "alias", "ifunc", *CASTS, *BINARY)


class InstReader:
    """Reads instructions, each from a cursor after its result and its first word."""

    def __init__(self, types: Types) -> None:
        self.t = types

    def read(self, c: Cursor, dst: str) -> Inst:
        word = c.next().text
        if word in ("tail", "musttail", "notail"):
            word = c.next().text
        if word in OUT_OF_SUBSET:
            raise Refused(*OUT_OF_SUBSET[word])
        if word in ("extractelement", "insertelement", "shufflevector"):
            raise refused_type("<..>")
        if word in BINARY:
            return self.binary(c, dst, word)
        if word in CASTS:
            return self.cast(c, dst, word)
        read = getattr(self, f"read_{word}", None)
        if read is None:
            if word.startswith("f") or word in ("sitofp", "uitofp"):
                raise Refused(f"floating-point arithmetic ({word})", FLOAT_ADVICE)
            raise Refused(f"the instruction {word}", "write it otherwise")
        return read(c, dst)

    def binary(self, c: Cursor, dst: str, word: str) -> Inst:
        kept = flags(c)
        left = self.t.operand(c)
        c.want(",")
        right = Operand(left.ty, self.t.value(c, left.ty))
        return Inst(word, dst, left.ty, [left, right], kept)

    def cast(self, c: Cursor, dst: str, word: str) -> Inst:
        flags(c)
        arg = self.t.operand(c)
        c.want("to")
        return Inst(word, dst, self.t.type(c), [arg])

    def read_icmp(self, c: Cursor, dst: str) -> Inst:
        flags(c)
        predicate = c.next().text
        left = self.t.operand(c)
        c.want(",")
        return Inst("icmp", dst, I1, [left, Operand(left.ty, self.t.value(c, left.ty))], [predicate])

    def read_select(self, c: Cursor, dst: str) -> Inst:
        args = [self.t.operand(c)]
        for _ in range(2):
            c.want(",")
            args.append(self.t.operand(c))
        return Inst("select", dst, args[1].ty, args)

    def read_freeze(self, c: Cursor, dst: str) -> Inst:
        arg = self.t.operand(c)
        return Inst("freeze", dst, arg.ty, [arg])

    def read_getelementptr(self, c: Cursor, dst: str) -> Inst:
        flags(c)
        base = self.t.type(c)
        args = []
        while c.take(","):
            c.take("inrange")
            args.append(self.t.operand(c))
        return Inst("getelementptr", dst, base, args)

    def read_alloca(self, c: Cursor, dst: str) -> Inst:
        c.take("inalloca")
        inst = Inst("alloca", dst, self.t.type(c))
        while c.take(","):
            if c.take("align"):
                inst.align = int(c.next().text)
            elif c.sees("addrspace"):
                raise Refused("an address space", "leave the attribute out")
            else:
                count = self.t.operand(c)
                if count.value != Num(1):
                    raise Refused("an array of variable length", "give it a constant length, or take it from malloc")
        return inst

    def access(self, c: Cursor, inst: Inst) -> Inst:
        """The end of a line that accesses memory: its orders, and its alignment."""
        while c.peek().kind == "word":
            if c.sees("syncscope"):
                raise Refused("an access in a scope of its own", "leave the scope out")
            inst.words.append(c.next().text)
        if c.take(","):
            c.want("align")
            inst.align = int(c.next().text)
        return inst

    def read_load(self, c: Cursor, dst: str) -> Inst:
        words = ["atomic"] if c.take("atomic") else []
        flags(c)
        ty = self.t.type(c)
        c.want(",")
        return self.access(c, Inst("load", dst, ty, [self.t.operand(c)], words))

    def read_store(self, c: Cursor, dst: str) -> Inst:
        words = ["atomic"] if c.take("atomic") else []
        flags(c)
        value = self.t.operand(c)
        c.want(",")
        return self.access(c, Inst("store", "", VOID, [value, self.t.operand(c)], words))

    def read_atomicrmw(self, c: Cursor, dst: str) -> Inst:
        flags(c)
        word = c.next().text
        if word not in RMW:
            raise Refused(f"the atomic operation {word}", "write it as a loop over a compare-and-exchange")
        target = self.t.operand(c)
        c.want(",")
        value = self.t.operand(c)
        return self.access(c, Inst("atomicrmw", dst, value.ty, [target, value], [word]))

    def read_cmpxchg(self, c: Cursor, dst: str) -> Inst:
        words = ["weak"] if c.take("weak") else []
        flags(c)
        args = [self.t.operand(c)]
        for _ in range(2):
            c.want(",")
            args.append(self.t.operand(c))
        return self.access(c, Inst("cmpxchg", dst, Struct((args[1].ty, I1)), args, words))

    def read_fence(self, c: Cursor, dst: str) -> Inst:
        if c.take("syncscope"):
            c.skip_brackets()
            return Inst("nothing")
        return Inst("fence", words=[c.next().text])

    def read_extractvalue(self, c: Cursor, dst: str) -> Inst:
        inst = Inst("extractvalue", dst, VOID, [self.t.operand(c)])
        while c.take(","):
            inst.numbers.append(int(c.next().text))
        return inst

    def read_insertvalue(self, c: Cursor, dst: str) -> Inst:
        whole = self.t.operand(c)
        c.want(",")
        inst = Inst("insertvalue", dst, whole.ty, [whole, self.t.operand(c)])
        while c.take(","):
            inst.numbers.append(int(c.next().text))
        return inst

    def read_call(self, c: Cursor, dst: str) -> Inst:
        Words(self.t).skip(c)
        ty = self.t.type(c)
        if c.sees("asm"):
            return self.assembly(c, ty)
        callee = uncast(self.t.value(c, PTR))
        inst = Inst("call", dst, ty.ret if isinstance(ty, Func) else ty, callee=callee)
        c.want("(")
        while not c.take(")"):
            if c.take(","):
                continue
            arg_type = self.t.type(c)
            if arg_type == Outside("metadata"):
                c.at = len(c.tokens)
                inst.words.append("metadata")
                break
            words = Words(self.t).skip(c)
            inst.args.append(Operand(arg_type, self.t.value(c, arg_type)))
            inst.aligns.append(words.align)
        return inst

    def assembly(self, c: Cursor, ty: Type) -> Inst:
        """Assembly of no instructions, which keeps a compiler from moving accesses over it, does nothing here. Other assembly is refused."""
        texts = [token.text for token in c.tokens[c.at :] if token.kind == "string"]
        if ty != VOID or texts[0].strip('" \t\\0A;') or c.tokens[-1].text not in ("()", ")") and c.tokens[-1].kind != "hash":
            raise Refused("inline assembly", "write it in C, or with the functions of stdatomic.h")
        return Inst("nothing")

    def read_phi(self, c: Cursor, dst: str) -> Inst:
        flags(c)
        inst = Inst("phi", dst, self.t.type(c))
        while c.take("[", ","):
            if c.sees("["):
                continue
            inst.args.append(Operand(inst.ty, self.t.value(c, inst.ty)))
            c.want(",")
            inst.labels.append(plain_name(c.next().text))
            c.want("]")
        return inst

    def label(self, c: Cursor) -> str:
        c.want("label")
        return plain_name(c.next().text)

    def read_br(self, c: Cursor, dst: str) -> Inst:
        if c.sees("label"):
            return Inst("br", labels=[self.label(c)])
        inst = Inst("br", args=[self.t.operand(c)])
        for _ in range(2):
            c.want(",")
            inst.labels.append(self.label(c))
        return inst

    def read_switch(self, c: Cursor, dst: str) -> Inst:
        inst = Inst("switch", args=[self.t.operand(c)])
        c.want(",")
        inst.labels.append(self.label(c))
        c.want("[")
        while not c.take("]"):
            case = self.t.operand(c)
            assert isinstance(case.value, Num)
            inst.numbers.append(case.value.value)
            c.want(",")
            inst.labels.append(self.label(c))
        return inst

    def read_ret(self, c: Cursor, dst: str) -> Inst:
        if c.take("void"):
            return Inst("ret")
        return Inst("ret", args=[self.t.operand(c)])

    def read_unreachable(self, c: Cursor, dst: str) -> Inst:
        return Inst("unreachable")


def uncast(value: Value) -> Value:
    """A name without the casts between kinds of pointers around it."""
    while isinstance(value, Expr) and value.op == "bitcast":
        value = value.args[0].value
    return value


class ModuleReader:
    """Reads a whole text."""

    def __init__(self, text: str, complaints: Complaints) -> None:
        self.lines = text.split("\n")
        self.complaints = complaints
        self.places = Places(self.lines)
        self.types = Types()
        self.insts = InstReader(self.types)
        self.module = Module()

    def read(self) -> Module:
        at = 0
        while at < len(self.lines):
            line = self.lines[at]
            at += 1
            if line.startswith("define"):
                end = at
                while self.lines[end] != "}":
                    end += 1
                self.function(line, self.lines[at:end])
                at = end + 1
            elif line.startswith(("%", "@", "declare", "module asm")):
                self.noting(self.places.of_line(line), lambda: self.top(line))
            elif line.startswith("target"):
                self.module.target.append(line)
        return self.module

    def noting(self, place: Optional[Place], work) -> None:
        """Does the work, and notes what it refuses."""
        try:
            work()
        except Refused as refused:
            self.complaints.add(place, refused)

    def top(self, line: str) -> None:
        if line.startswith("module asm"):
            raise Refused("assembly at the top level", "write it in C")
        c = Cursor(tokens_of(STRIPPED.sub("", line)))
        name = plain_name(c.peek().text)
        if c.take("declare"):
            self.declare(c)
            return
        c.next()
        c.want("=")
        if c.take("type"):
            self.module.types[name] = self.types.type(c)
        else:
            self.global_(c, name, self.places.of_line(line))

    def declare(self, c: Cursor) -> None:
        while c.peek().kind == "meta":
            c.next()
        Words(self.types).skip(c)
        ret = self.types.first(c)
        while c.take("*"):
            ret = PTR
        Words(self.types).skip(c)
        name = plain_name(c.next().text)
        if name.startswith("llvm."):
            return
        params, variadic = self.params(c)
        self.module.declares[name] = Declare(name, ret, tuple(param.ty for param in params), variadic)

    def global_(self, c: Cursor, name: str, place: Optional[Place]) -> None:
        words = Words(self.types).skip(c)
        if name in ("llvm.used", "llvm.compiler.used"):
            return
        if name in ("llvm.global_ctors", "llvm.global_dtors"):
            raise Refused("a function that runs before or after main", "call it from main")
        if c.take("alias", "ifunc"):
            raise Refused(f"{name} as another name of a function or variable", "write one name")
        c.next()
        ty = self.types.type(c)
        external = "external" in words.seen or "extern_weak" in words.seen
        made = Global(name, ty, None if external else self.types.value(c, ty), place=place)
        made.internal = bool(words.seen & {"internal", "private"})
        made.thread_local = "thread_local" in words.seen
        while c.take(","):
            if c.take("align"):
                made.align = int(c.next().text)
            else:
                Words(self.types).skip(c)
        self.module.globals[name] = made

    def params(self, c: Cursor) -> tuple[list[Param], bool]:
        c.want("(")
        params: list[Param] = []
        unnamed, variadic = 0, False
        while not c.take(")"):
            if c.take("..."):
                variadic = True
            elif not c.take(","):
                ty = self.types.type(c)
                words = Words(self.types).skip(c)
                name = plain_name(c.next().text) if c.peek().kind == "local" else str(unnamed)
                unnamed += name.isdigit()
                params.append(Param(ty, name, words.copied))
        return params, variadic

    def function(self, head: str, body: list[str]) -> None:
        c = Cursor(tokens_of(head))
        c.want("define")
        words = Words(self.types).skip(c)
        ret = self.types.first(c)
        while c.take("*"):
            ret = PTR
        name = plain_name(c.next().text)
        params, variadic = self.params(c)
        function = Function(name, ret, params, variadic, bool(words.seen & {"internal", "private"}), place=self.places.of_line(head))
        entry = str(sum(param.name.isdigit() for param in params))
        for line in joined(body):
            self.body_line(function, line, entry)
        self.module.functions[name] = function

    def body_line(self, function: Function, line: str, entry: str) -> None:
        label = LABEL.match(line)
        if label:
            function.blocks.append(Block(label.group(1).strip('"')))
            return
        bare = line.strip()
        if not bare or bare.startswith((";", "#dbg_")):
            return
        if not function.blocks:
            function.blocks.append(Block(entry))
        place = self.places.of_line(line) or function.place
        self.noting(place, lambda: self.instruction(function.blocks[-1], line, place))

    def instruction(self, block: Block, line: str, place: Optional[Place]) -> None:
        c = Cursor(tokens_of(STRIPPED.sub("", line)))
        dst = ""
        if c.peek().kind == "local" and c.peek(1).text == "=":
            dst = plain_name(c.next().text)
            c.next()
        try:
            inst = self.insts.read(c, dst)
        except ValueError as error:
            raise Refused(f"a line of clang's text that haft-cc can't read ({error}): {line.strip()[:100]}", "report it") from error
        inst.place = place
        callee = inst.callee.name if isinstance(inst.callee, At) else ""
        if inst.op != "nothing" and not callee.startswith(DROPPED_CALLS):
            block.insts.append(inst)


def joined(body: list[str]) -> list[str]:
    """Lines, with each `switch` on one line."""
    lines: list[str] = []
    for line in body:
        if lines and lines[-1].lstrip().startswith("switch ") and "]" not in lines[-1]:
            lines[-1] += " " + line.strip()
        else:
            lines.append(line)
    return lines


def read_module(text: str, complaints: Complaints) -> Module:
    return ModuleReader(text, complaints).read()
