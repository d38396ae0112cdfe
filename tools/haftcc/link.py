"""Puts modules together: the user's files, and of what comes with haft-cc what these need."""

from __future__ import annotations

from typing import Callable

from .ir import At, Complaints, Expr, Function, Global, Module, Operand, Parts, Refused, Value, map_operands, map_value, names_in
from .types import Array, Func, Named, Struct, Type


def map_type(ty: Type, names: dict[str, str]) -> Type:
    """The type with its named structs renamed."""
    match ty:
        case Named(name):
            return Named(names.get(name, name))
        case Array(count, elem):
            return Array(count, map_type(elem, names))
        case Struct(parts, packed):
            return Struct(tuple(map_type(part, names) for part in parts), packed)
        case Func(ret, params, variadic):
            return Func(map_type(ret, names), tuple(map_type(param, names) for param in params), variadic)
        case _:
            return ty


def operand_mapper(type_of: Callable[[Type], Type], value_of: Callable[[Value], Value]) -> Callable[[Operand], Operand]:
    """Changes an operand's types and values, those inside of it too."""

    def change(operand: Operand) -> Operand:
        value = map_value(operand.value, lambda part: value_of(retyped(part, type_of)))
        return Operand(type_of(operand.ty), value)

    return change


def retyped(value: Value, type_of: Callable[[Type], Type]) -> Value:
    """A value whose parts have other types, each as `type_of` says."""
    match value:
        case Parts(items):
            return Parts(tuple(Operand(type_of(item.ty), item.value) for item in items))
        case Expr(op, ty, args, words):
            return Expr(op, type_of(ty), tuple(Operand(type_of(arg.ty), arg.value) for arg in args), words)
        case _:
            return value


def rename(module: Module, types: dict[str, str], names: dict[str, str]) -> None:
    """Gives types and `@` names of a module other names."""

    def value_of(value: Value) -> Value:
        return At(names.get(value.name, value.name)) if isinstance(value, At) else value

    def type_of(ty: Type) -> Type:
        return map_type(ty, types)

    change = operand_mapper(type_of, value_of)
    module.types = {types.get(name, name): type_of(ty) for name, ty in module.types.items()}
    for item in items_of(module):
        item.name = names.get(item.name, item.name)
    module.globals = {item.name: item for item in module.globals.values()}
    module.functions = {item.name: item for item in module.functions.values()}
    for item in module.globals.values():
        if item.init is not None:
            item.init = change(Operand(item.ty, item.init)).value
        item.ty = type_of(item.ty)
    for function in module.functions.values():
        map_operands(function, change)
        function.ret = type_of(function.ret)
        for param in function.params:
            param.ty = type_of(param.ty)
            param.copied = type_of(param.copied) if param.copied else None
        for inst in function.insts():
            inst.ty = type_of(inst.ty)
            inst.callee = value_of(inst.callee) if inst.callee else None


def unused(wish: str, taken: set[str]) -> str:
    count = 1
    while f"{wish}.{count}" in taken:
        count += 1
    return f"{wish}.{count}"


def add(whole: Module, module: Module, complaints: Complaints) -> None:
    """Adds a module. Types and internal names that are taken get others."""
    types = {
        name: unused(name, set(whole.types) | set(module.types))
        for name, ty in module.types.items()
        if name in whole.types and whole.types[name] != ty
    }
    taken = set(whole.globals) | set(whole.functions)
    here = set(module.globals) | set(module.functions)
    own = [item.name for item in items_of(module) if item.internal]
    own += [item.name for item in items_of(whole) if item.internal and item.name in here]
    rename(module, types, {name: unused(name, taken | here) for name in own if name in taken})
    whole.types.update(module.types)
    whole.target = whole.target or module.target
    whole.declares.update(module.declares)
    for item in module.globals.values():
        add_global(whole, item, complaints)
    for function in module.functions.values():
        if function.name in whole.functions:
            complaints.add(function.place, Refused(f"{function.name} is defined twice", "name one of them otherwise"))
        whole.functions[function.name] = function


def add_global(whole: Module, item: Global, complaints: Complaints) -> None:
    known = whole.globals.get(item.name)
    if known is None or known.init is None:
        whole.globals[item.name] = item
    elif item.init is not None:
        complaints.add(item.place, Refused(f"{item.name} is defined twice", "declare it `extern` in all files but one"))


def uses_of(item: Function | Global) -> set[str]:
    """The `@` names that a function or a global names."""
    if isinstance(item, Global):
        return set(names_in(item.init))
    found: set[str] = set()
    for inst in item.insts():
        found.update(names_in(inst.callee))
        for arg in inst.args:
            found.update(names_in(arg.value))
    return found


def items_of(module: Module) -> list[Function | Global]:
    return [*module.globals.values(), *module.functions.values()]


def names_used(module: Module) -> set[str]:
    """The `@` names that any of its functions and globals names."""
    return set().union(*(uses_of(item) for item in items_of(module)))


def add_needed(whole: Module, library: Module) -> None:
    """Adds those functions of the library that are named and nowhere defined, with what they name."""
    todo = names_used(whole)
    while todo:
        name = todo.pop()
        if name in whole.functions or name not in library.functions:
            continue
        function = library.functions[name]
        function.internal = True
        whole.functions[name] = function
        todo |= uses_of(function)
    whole.types.update({name: ty for name, ty in library.types.items() if name not in whole.types})


def keep_reached(whole: Module) -> None:
    """Drops the functions and globals that `main` doesn't reach."""
    reached: set[str] = set()
    todo = {"main"}
    while todo:
        name = todo.pop()
        if name in reached:
            continue
        reached.add(name)
        item = whole.functions.get(name) or whole.globals.get(name)
        if item is not None:
            todo |= uses_of(item)
    whole.functions = {name: item for name, item in whole.functions.items() if name in reached}
    whole.globals = {name: item for name, item in whole.globals.items() if name in reached}
