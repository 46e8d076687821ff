#!/usr/bin/env python3
"""for_arm.py FILE: changes what is x86-64's own in the LLVM module of an archive, written out as text.

The module is of no one processor, but for two things:

- The target stands in two lines, and the processor in an attribute.
- An answer of more than 16 bytes is written to an address that the caller gives. On x86-64 that is the first argument, and the
  result again; on Arm it has a register of its own, x8, and there is no result. The attribute `sret` tells LLVM so:

      define noundef ptr @lexer_dfa_class(ptr noundef %a0, ptr noundef %a1, i64 noundef %a2) #0 { .. ret ptr %a0 }
      define void @lexer_dfa_class(ptr noundef sret([24 x i8]) %a0, ptr noundef %a1, i64 noundef %a2) #0 { .. ret void }

Shorter answers come back in the first two registers on both, and so do addresses and numbers go in. An exported function of any
other shape, or anything else that names x86, is an error: no archive is better than one that answers wrongly.
"""
import re
import sys

LINES = {
    'target datalayout = "e-m:e-p270:32:32-p271:32:32-p272:64:64-i64:64-i128:128-f80:128-n8:16:32:64-S128"':
        'target datalayout = "e-m:e-p270:32:32-p271:32:32-p272:64:64-i8:8:32-i16:16:32-i64:64-i128:128-n32:64-S128-Fn32"',
    'target triple = "x86_64-unknown-linux-gnu"': 'target triple = "aarch64-unknown-linux-gnu"',
}
PROCESSOR = ' "target-cpu"="x86-64"'

EXPORTED = re.compile(r"(?ms)^define (?!internal )(?P<head>[^\n]*) \{\n(?P<body>.*?)^\}\n")
HEAD = re.compile(r"(?P<answer>[^@]*) @(?P<name>\w+)\((?P<parameters>[^()]*)\)(?P<rest> #\d+)")
NUMBER = r"(?:i8|i16|i32|i64)"
PARAMETER = re.compile(rf"(?:ptr|{NUMBER}) noundef(?: zeroext| signext)? %a\d+")
IN_REGISTERS = re.compile(rf"(?:noundef )?(?:zeroext )?(?:{NUMBER}|\{{ {NUMBER}, {NUMBER} \}}|void)")


class Changed(Exception):
    """The module has not the shape that is known."""


def bytes_written(module, name, body):
    """How long the answer is of an exported function that only passes its address on: by the last write of the function that it calls."""
    called = re.findall(r'^  call void (@"[^"]+")\(ptr %a0[,)]', body, re.M)
    if len(called) == 1:
        inner = re.search(rf"(?ms)^define internal void {re.escape(called[0])}\(.*?^\}}", module)
        sizes = set(re.findall(r"@llvm\.memmove\.p0\.p0\.i64\(ptr %a0, ptr %\w+, i64 (\d+),", inner.group(0))) if inner else set()
        if len(sizes) == 1 and int(*sizes) > 16:
            return sizes.pop()
    raise Changed(f"how long the answer of {name} is cannot be told")


def for_arm(module):
    for line, other in LINES.items():
        if module.count(line + "\n") != 1:
            raise Changed(f"the module has not the line: {line}")

    def exported(function):
        head = HEAD.fullmatch(function["head"])
        if not head or not all(PARAMETER.fullmatch(one) for one in head["parameters"].split(", ")):
            raise Changed(f"an exported function of another shape: {function['head']}")
        name, body = head["name"], function["body"]
        if f"@{name}(" in module.replace(function[0], ""):
            raise Changed(f"the exported function {name} is called inside")
        if IN_REGISTERS.fullmatch(head["answer"]):
            return function[0]
        if head["answer"] != "noundef ptr" or not head["parameters"].startswith("ptr noundef %a0") or re.findall(r"^  ret .*", body, re.M) != ["  ret ptr %a0"]:
            raise Changed(f"an exported function that answers in another way: {function['head']}")
        size = bytes_written(module, name, body)
        parameters = head["parameters"].replace("ptr noundef %a0", f"ptr noundef sret([{size} x i8]) %a0", 1)
        body = body.replace("  ret ptr %a0\n", "  ret void\n")
        return f"define void @{name}({parameters}){head['rest']} {{\n{body}}}\n"

    changed, functions = EXPORTED.subn(exported, module)
    if functions != len(re.findall(r"(?m)^define (?!internal )", module)) or functions == 0:
        raise Changed("not every exported function was found")
    for line, other in LINES.items():
        changed = changed.replace(line, other)
    changed = changed.replace(PROCESSOR, "")
    if re.search(r"x86|byval|asm ", changed.replace('"probe-stack"="inline-asm"', "")):
        raise Changed("something of x86-64 is left in the module")
    return changed


if __name__ == "__main__":
    try:
        with open(sys.argv[1]) as file:
            text = for_arm(file.read())
    except Changed as why:
        sys.exit(f"arm/for_arm.py: the toolchain has changed, and no archive for Arm is made: {why}")
    with open(sys.argv[1], "w") as file:
        file.write(text)
