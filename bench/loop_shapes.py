"""Modules that run for long, for src.sh and run.sh: loops of one thread, and a loop in each of 64.

`SHAPES` has for each its text, how many steps its source takes in all, and a schedule of 4,194,304 turns.
"""
STEPS = 4_194_304

LOOP = """define i32 @main() {{
entry:
  br label %l
l:
  %i = phi i64 [ 0, %entry ], [ %j, %l ]
{body}  %j = add i64 %i, 1
  %c = icmp ult i64 %j, {rounds}
  br i1 %c, label %l, label %d
d:
  ret i32 0
}}
"""

SUMS = "  %a = mul i64 %i, 3\n  %b = xor i64 %a, %i\n  %e = lshr i64 %b, 2\n"
MEMORY = "  %v = load i64, ptr @g\n  %w = add i64 %v, %i\n  store i64 %w, ptr @g\n"
CALLS = "  %v = call i64 @twice(i64 %i)\n"


def loop(body, steps, before=""):
    """A main whose rounds take so many steps each, and how many steps it takes in all."""
    rounds = (STEPS - 16) // steps
    return before + LOOP.format(body=body, rounds=rounds), rounds * steps + 3


THREADS = """@t = global i64 0
declare i32 @pthread_create(ptr, ptr, ptr, ptr)
define ptr @work(ptr %x) {
entry:
  br label %l
l:
  %i = phi i64 [ 0, %entry ], [ %j, %l ]
  %a = mul i64 %i, 3
  %b = xor i64 %a, %i
  %j = add i64 %i, 1
  br label %l
}
define i32 @main() {
entry:
  br label %l
l:
  %i = phi i64 [ 1, %entry ], [ %j, %l ]
  %c = call i32 @pthread_create(ptr @t, ptr null, ptr @work, ptr null)
  %j = add i64 %i, 1
  br label %l
}
"""

SHAPES = {
    "sums, one thread": (*loop(SUMS, 6), f"turn 0 {STEPS}\n"),
    "memory, one thread": (*loop(MEMORY, 6, "@g = global i64 0\n"), f"turn 0 {STEPS}\n"),
    "calls, one thread": (
        *loop(CALLS, 6, "define i64 @twice(i64 %x) {\n  %y = add i64 %x, %x\n  ret i64 %y\n}\n"),
        f"turn 0 {STEPS}\n",
    ),
    "sums, 64 threads": (THREADS, STEPS, f"round 64 {STEPS // 64}\n"),
}
