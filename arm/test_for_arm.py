#!/usr/bin/env -S python3 -B
"""Sees for_arm change a module that it knows just where it must, and refuse those whose shape it does not know."""
from for_arm import LINES, Changed, for_arm

MODULE = "\n".join(LINES) + """
define internal void @"c::call"(ptr noundef %a0, ptr noundef %a1) #0 {
  call void @llvm.memmove.p0.p0.i64(ptr %a0, ptr %r0, i64 24, i1 false)
  ret void
}
define noundef ptr @lexer_dfa_long(ptr noundef %a0, ptr noundef %a1, i64 noundef %a2) #0 {
  call void @"c::call"(ptr %a0, ptr %r0)
  ret ptr %a0
}
define noundef i32 @lexer_dfa_short(i8 noundef %a0) #0 {
  ret i32 1
}
attributes #0 = { nounwind "probe-stack"="inline-asm" "target-cpu"="x86-64" }
"""

# What is replaced, by what, and what the refusal must name.
WRONG = [
    ("x86_64-unknown-linux-gnu", "x86_64-unknown-freebsd", "target triple"),
    ("S128", "S64", "target datalayout"),
    ('"target-cpu"="x86-64"', '"target-cpu"="x86-64-v3"', "x86-64 is left"),
    ("define noundef ptr @", "define ptr @", "answers in another way"),
    ("define noundef ptr @", "define noundef double @", "answers in another way"),
    ("ret ptr %a0", "ret ptr %r0", "answers in another way"),
    ("(ptr noundef %a0, ptr noundef %a1, i64", "(i64 noundef %a0, ptr noundef %a1, i64", "answers in another way"),
    ("i8 noundef", "ptr noundef byval([24 x i8])", "another shape"),
    ("i8 noundef", "{ i64, i64 }", "another shape"),
    ("ret i32 1", "%r0 = call ptr @lexer_dfa_long(ptr %a0, ptr %a1, i64 %a2)", "is called inside"),
    ('call void @"c::call"(ptr %a0, ', 'call void @"c::call"(ptr %r0, ', "cannot be told"),
    ("i64 24", "i64 16", "cannot be told"),
    ("@lexer_dfa_short(i8 noundef %a0) #0 {\n  ret i32 1\n}\n", "@lexer_dfa_short(i8 noundef %a0) #0 { ret i32 1 }\n", "not every"),
]

changed = for_arm(MODULE)
assert "define void @lexer_dfa_long(ptr noundef sret([24 x i8]) %a0, ptr noundef %a1, i64 noundef %a2) #0 {" in changed
assert changed.count("ret void") == 2 and "define noundef i32 @lexer_dfa_short(i8 noundef %a0) #0 {" in changed
for old, new, why in WRONG:
    assert old in MODULE, old
    try:
        for_arm(MODULE.replace(old, new))
    except Changed as said:
        assert why in str(said), (new, said)
    else:
        raise AssertionError(f"not refused: {new}")
print(f"arm: {len(WRONG)} modules of another shape are refused")
