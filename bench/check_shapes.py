#!/usr/bin/env python3
"""Modules of the shapes that ask most of a checker: `check_shapes.py SHAPE [SCALE]` writes one to standard output.

Each is accepted, also by `llvm-as`, and has at most 4,194,304 bytes. SCALE is above 0 and at most 1, which it is where none is
written; the counts below are multiplied by it.

  blocks     a function of 16,000 blocks with two edges and a phi each, and 48,000 names
  switch     a switch with 150,000 cases
  globals    29,000 globals, each with the addresses of others in its initialiser
  init       a global with an initialiser of 186,000 parts
  structs    the same, where each part has a type and a part of its own
  registers  a block of 65,000 registers
  functions  functions as a compiler writes them, up to 4 MiB
"""

import sys

GREATEST_SIZE = 4_194_304


def scaled(count, scale):
    return max(4, round(count * scale))


def blocks(scale):
    """Block k leads to the next and back to block k / 2, so all of them are loops that overlap. It uses what block k / 2
    assigned, which each path to it passes."""
    count = scaled(16_000, scale)
    last = count - 1
    yield "define i32 @main() {\nb0:\n  %p0 = add i32 0, 1\n  %s0 = add i32 %p0, 2\n  br i1 true, label %b1, label %b1\n"
    for k in range(1, count):
        before = [k - 1] if k > 1 else [0, 0]
        before += [j for j in (2 * k, 2 * k + 1) if 1 < j < last]
        if k == 1:
            before.append(1)
        arms = ", ".join(f"[ %s{j}, %b{j} ]" for j in before)
        yield f"b{k}:\n  %p{k} = phi i32 {arms}\n  %s{k} = add i32 %p{k}, %s{k // 2}\n"
        if k < last:
            yield f"  br i1 true, label %b{k + 1}, label %b{max(1, k // 2)}\n"
    yield f"  ret i32 %s{last}\n}}\n"


def switch(scale):
    """The cases lead to 16 blocks in turn."""
    labels = "abcdefghijklmnop"
    yield "define i32 @main() {\n  %v = add i32 0, 7\n  switch i32 %v, label %z [\n"
    for k in range(scaled(150_000, scale)):
        yield f"i32 {k}, label %{labels[k % 16]}\n"
    yield "  ]\n"
    for label in labels:
        yield f"{label}:\n  br label %z\n"
    yield "z:\n  ret i32 0\n}\n"


def globals_(scale):
    """Each of 24 bytes, so one stands at each second multiple of 16."""
    count = scaled(29_000, scale)
    cell = "{ ptr, ptr, i64 }"
    for k in range(count):
        before, behind = f"@cell.{max(0, k - 1):05}", f"@cell.{count - 1 - k:05}"
        yield f"@cell.{k:05} = global {cell} {{ ptr getelementptr ({cell}, ptr {before}, i64 0, i32 2), ptr {behind}, i64 {k} }}\n"
    yield f"define i32 @main() {{\n  store i64 1, ptr @cell.{count - 1:05}\n  ret i32 0\n}}\n"


def init(scale):
    count = scaled(186_000, scale)
    yield f"@g = global [{count} x i32] ["
    yield ", ".join(f"i32 {1_000_000_000 + 7 * k}" for k in range(count))
    yield "]\ndefine i32 @main() {\n  ret i32 0\n}\n"


def structs(scale):
    """Parts with a type and a part of their own."""
    count = scaled(186_000, scale)
    yield f"@g = global [{count} x {{ i8 }}] ["
    yield ", ".join(f"{{ i8 }} {{ i8 {k % 256} }}" for k in range(count))
    yield "]\ndefine i32 @main() {\n  ret i32 0\n}\n"


def registers(scale):
    """Each uses the one before it, and one half as far from the block's begin."""
    count = scaled(65_000, scale)
    yield "define i32 @main() {\n  %r0 = add i32 0, 1\n"
    for k in range(1, count):
        yield f"  %r{k} = add i32 %r{k - 1}, %r{k // 2}\n"
    yield f"  ret i32 %r{count - 1}\n}}\n"


def function(k):
    """The sum of a part of an array of structs, by a loop, and a call of the function before."""
    before = f"call i64 @sum.{max(0, k - 1)}(ptr noundef %cells, i32 noundef %less)"
    return f"""\
define dso_local i64 @sum.{k}(ptr noundef %cells, i32 noundef %count) #0 {{
entry:
  %total = alloca i64, align 8
  store i64 {k}, ptr %total, align 8
  %some = icmp sgt i32 %count, 0
  br i1 %some, label %loop, label %done

loop:                                             ; preds = %loop, %entry
  %i = phi i32 [ 0, %entry ], [ %next, %loop ]
  %wide = sext i32 %i to i64
  %cell = getelementptr inbounds %struct.cell, ptr %cells, i64 %wide, i32 1
  %value = load i64, ptr %cell, align 8
  %old = load i64, ptr %total, align 8
  %new = add nsw i64 %old, %value
  store i64 %new, ptr %total, align 8
  %next = add nsw i32 %i, 1
  %more = icmp slt i32 %next, %count
  br i1 %more, label %loop, label %done

done:                                             ; preds = %loop, %entry
  %less = sub nsw i32 %count, 1
  %rest = {before}
  %own = load i64, ptr %total, align 8
  %result = add nsw i64 %own, %rest
  ret i64 %result
}}

"""


def functions(scale):
    first = "%struct.cell = type { i32, i64 }\n@cells = dso_local global [64 x %struct.cell] zeroinitializer, align 16\n\n"
    end = "define dso_local i32 @main() #0 {{\n  %sum = call i64 @sum.{}(ptr noundef @cells, i32 noundef 64)\n  ret i32 0\n}}\n"
    yield first
    room = round(GREATEST_SIZE * scale) - len(first) - len(end) - 10
    count = 0
    while count == 0 or len(function(count)) <= room:
        yield function(count)
        room -= len(function(count))
        count += 1
    yield end.format(count - 1)


SHAPES = {
    "blocks": blocks,
    "switch": switch,
    "globals": globals_,
    "init": init,
    "structs": structs,
    "registers": registers,
    "functions": functions,
}


def main(words):
    if len(words) not in (1, 2) or words[0] not in SHAPES:
        sys.exit(__doc__)
    scale = float(words[1]) if len(words) == 2 else 1.0
    if not 0 < scale <= 1:
        sys.exit(__doc__)
    text = "".join(SHAPES[words[0]](scale))
    if len(text) > GREATEST_SIZE:
        sys.exit(f"check_shapes.py: {words[0]} has {len(text)} bytes")
    sys.stdout.write(text)


if __name__ == "__main__":
    main(sys.argv[1:])
