"""Calls: those of intrinsics become calls of functions in the subset, and those that haft has no callee for are refused."""

from __future__ import annotations

from . import intrinsics
from .helpers import Helpers
from .ir import At, Fresh, Function, Inst, Module, Null, Num, Refused, Value
from .types import I32, I64, PTR, VOID, Int, Type

# What haft itself answers, with results and parameters.
EXTERNALS: dict[str, tuple[Type, tuple[Type, ...]]] = {
    "pthread_create": (I32, (PTR, PTR, PTR, PTR)),
    "pthread_join": (I32, (I64, PTR)),
    "pthread_mutex_lock": (I32, (PTR,)),
    "pthread_mutex_unlock": (I32, (PTR,)),
    "putchar": (I32, (I32,)),
    "exit": (VOID, (I32,)),
    "malloc": (PTR, (I64,)),
    "free": (VOID, (PTR,)),
    "haft_out": (VOID, (I64,)),
    "haft_arg": (I64, (I64,)),
}

ADVICE = {
    "printf": "write haft_out(number) for a number and putchar or puts for text",
    "fprintf": "write haft_out(number) for a number and putchar or puts for text",
    "sprintf": "write the digits into the array yourself",
    "snprintf": "write the digits into the array yourself",
    "scanf": "take the numbers from haft_arg(place)",
    "getchar": "take the numbers from haft_arg(place)",
    "fgets": "take the numbers from haft_arg(place), and texts from an array in the program",
    "getenv": "take the numbers from haft_arg(place)",
    "putc": "write putchar",
    "fputc": "write putchar",
    "fputs": "write puts",
    "realloc": "take a new block from malloc and copy what is kept",
    "qsort": "write the sort, with its comparison as a function of its own",
    "bsearch": "write the search, with its comparison as a function of its own",
    "rand": "write a generator of your own, with a seed from haft_arg(place)",
    "srand": "write a generator of your own, with a seed from haft_arg(place)",
    "abort": "write exit(code)",
    "__assert_fail": "write if (!condition) exit(code)",
    "pthread_mutex_trylock": "lock, or keep a word of your own with the functions of stdatomic.h",
    "pthread_exit": "return from the thread's function",
    "pthread_self": "give each thread its number as its argument",
    "pthread_once": "call the function before the threads are made",
    "pthread_detach": "join the thread",
    "pthread_cancel": "set a word of your own that the thread looks at",
    "setjmp": "return a code",
    "_setjmp": "return a code",
    "longjmp": "return a code",
    "time": "there is no clock; take the number from haft_arg(place)",
    "clock": "there is no clock; take the number from haft_arg(place)",
    "sleep": "there is no clock; the schedule says who is next",
    "usleep": "there is no clock; the schedule says who is next",
    "__ctype_b_loc": "compare characters with '0', '9', 'a', 'z' ..",
    "__ctype_tolower_loc": "compare characters with 'A' and 'Z' and add 'a' - 'A'",
    "__ctype_toupper_loc": "compare characters with 'a' and 'z' and subtract 'a' - 'A'",
    "tolower": "compare characters with 'A' and 'Z' and add 'a' - 'A'",
    "toupper": "compare characters with 'a' and 'z' and subtract 'a' - 'A'",
    "__errno_location": "return a code",
}

# Of the library: what it makes has no attributes.
WITHOUT_ATTRIBUTES = ("pthread_mutex_init", "pthread_cond_init", "pthread_barrier_init")

INTRINSICS_OUT = {
    "llvm.va_start": ("a function with a variable number of arguments", "give the arguments as an array"),
    "llvm.va_end": ("a function with a variable number of arguments", "give the arguments as an array"),
    "llvm.va_copy": ("a function with a variable number of arguments", "give the arguments as an array"),
    "llvm.stacksave": ("an array of variable length", "give it a constant length, or take it from malloc"),
    "llvm.stackrestore": ("an array of variable length", "give it a constant length, or take it from malloc"),
    "llvm.trap": ("a trap", "write exit(code)"),
    "llvm.debugtrap": ("a trap", "write exit(code)"),
    "llvm.threadlocal.address": ("a variable that each thread has its own of", "keep it in a struct that the thread gets as its argument"),
}


class Calls:
    """The pass over one function."""

    def __init__(self, module: Module, function: Function, helpers: Helpers) -> None:
        self.module = module
        self.helpers = helpers
        self.fresh = Fresh(function.names())
        self.same: dict[str, Value] = {}

    def change(self, inst: Inst) -> list[Inst]:
        if inst.op != "call":
            return [inst]
        if not isinstance(inst.callee, At):
            raise Refused("a call by pointer", "write a switch over a number that calls each function by its name")
        name = inst.callee.name
        if name.startswith("llvm."):
            return self.intrinsic(inst, name)
        if name in self.module.functions:
            return [self.defined(inst, name)]
        if name in EXTERNALS:
            return [self.external(inst, name)]
        raise self.unknown(name)

    def unknown(self, name: str) -> Refused:
        declare = self.module.declares.get(name)
        if declare is not None and declare.variadic and declare.params:
            return Refused(f"a call of {name}, which takes any number of arguments", ADVICE.get(name, "write a function with a fixed number"))
        return Refused(f"a call of {name}, which is defined in none of the files", ADVICE.get(name, "write the function in C"))

    def defined(self, inst: Inst, name: str) -> Inst:
        callee = self.module.functions[name]
        given = [arg.ty for arg in inst.args]
        if callee.variadic:
            raise Refused(f"a call of {name}, which takes any number of arguments", "write a function with a fixed number")
        if name in WITHOUT_ATTRIBUTES and inst.args[1].value != Null():
            raise Refused(f"a call of {name} with attributes", "write NULL for the attributes")
        if given != [param.ty for param in callee.params] or inst.ty != callee.ret:
            raise Refused(f"a call of {name} with other types than its definition has", "declare it with its parameters before the call")
        return inst

    def external(self, inst: Inst, name: str) -> Inst:
        ret, params = EXTERNALS[name]
        if inst.ty != ret or tuple(arg.ty for arg in inst.args) != params:
            raise Refused(f"a call of {name} with other types than it has", "include its header")
        if name == "pthread_create":
            if inst.args[1].value != Null():
                raise Refused("a thread with attributes", "write NULL for the attributes")
            if not isinstance(inst.args[2].value, At) or inst.args[2].value.name not in self.module.functions:
                raise Refused("a thread whose function is given by a pointer", "write the function's name")
        if name == "pthread_join" and inst.args[1].value != Null():
            raise Refused("a thread's result", "write NULL, and let the thread store its result where its argument points")
        return inst

    def intrinsic(self, inst: Inst, name: str) -> list[Inst]:
        for prefix, refused in INTRINSICS_OUT.items():
            if name.startswith(prefix):
                raise Refused(*refused)
        if name.startswith(("llvm.expect", "llvm.ssa.copy")):
            return self.is_value(inst, inst.args[0].value)
        if name.startswith("llvm.is.constant"):
            return self.is_value(inst, Num(0))
        if name.startswith("llvm.objectsize"):
            return self.is_value(inst, Num(0 if inst.args[1].value == Num(1) else -1))
        for kind in ("memcpy", "memmove", "memset"):
            if name.startswith(f"llvm.{kind}."):
                return [self.block(inst, kind)]
        for key in intrinsics.PLAIN:
            if name.startswith(f"llvm.{key}."):
                return [self.helpers.plain(inst, key)]
        for key in intrinsics.COMPARED:
            if name.startswith(f"llvm.{key}."):
                return self.helpers.compared(inst, key, self.fresh.name("sign"))
        raise Refused(f"the intrinsic {name}", "write it out in C")

    def is_value(self, inst: Inst, value: Value) -> list[Inst]:
        if inst.dst:
            self.same[inst.dst] = value
        return []

    def block(self, inst: Inst, kind: str) -> Inst:
        target, source, size = inst.args[:3]
        known = inst.aligns[0] if kind == "memset" else min(inst.aligns[0], inst.aligns[1])
        width = size.ty.bits if isinstance(size.ty, Int) else 64
        if width != 64 and not isinstance(size.value, Num):
            raise Refused(f"a block whose size has {width} bits", "write the loop out in C")
        return self.helpers.block(kind, target.value, source, size.value, known)
