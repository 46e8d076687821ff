#!/usr/bin/env python3
"""Brings this repository's own definitions and lemmas to the spelling of names: words in snake case, types and modules in camel case, and a
dash only between two names, as in `before-take`, which is a law of `before` at `take`. Run once, at the top, after the port's own script:

    port_names.py          renames in crates/ and in the pages, and writes tools/port_names.tsv (old name, new name)
    port_names.py --list   prints the names and changes nothing

A name is one that stands in specs/ or proofs/ before a ':', outside the proofs of single functions (proofs/F/Proof.antt), whose names the
check gives. Names of constants keep their capitals. Code, comments without backticks, strings and exported names are left alone."""

import collections
import glob
import re
import sys

WORD = r"[^\s(){}\[\].,;:«»`\"\\|]+"
DECLARED = re.compile(r"^(\s*)((?:(?:abbrev|unfoldable|pub|ruleset|data|record)\s+)*)(" + WORD + r")\s*(?:\([^)]*\)\s*|\{[^}]*\}\s*)*:(?!=)")
IMPORTED = re.compile(r"\buse\s+[^{;]*\{([^}]*)\}")


def texts():
    return sorted(glob.glob("crates/*/specs/**/*.antt", recursive=True) + glob.glob("crates/*/proofs/**/*.antt", recursive=True))


def snake(part):
    if not re.match(r"[a-z]", part):
        return part
    return re.sub(r"([A-Z])", lambda m: "_" + m.group(1).lower(), part)


def names():
    """What each own name becomes."""
    own, known, defined = set(), set(), set()
    for path in texts():
        text = open(path).read()
        for m in IMPORTED.finditer(text):
            if re.match(r"use (Rattle\.std|lib|mathlib|native|Prim)\.", m.group(0)):
                known.update(name.strip().split(" as ")[0] for name in m.group(1).split(","))
        for line in text.split("\n"):
            m = DECLARED.match(line)
            if not m or line.lstrip().startswith("--"):
                continue
            name = m.group(3)
            if re.search(r"abbrev|unfoldable|record|data", m.group(2)) and not m.group(1):
                defined.add(name)
            if not path.endswith("/Proof.antt"):
                own.add(name)
    # definitions and words of the language: what a dash may stand between
    words = {n for n in known | defined if "-" not in n}
    new = {}
    for name in own:
        if re.match(r"[A-Z-]+$", name) or not re.match(r"\+?[A-Za-z]", name):
            continue
        parts = name.split("-")
        out, left = snake(parts[0]), parts[0]
        for i, part in enumerate(parts[1:], 1):
            rest = "-".join(parts[i:])
            named = left in words and (part in words or rest in words)
            out += ("-" if named else "_") + snake(part)
            left = part if named else left + "_" + part
        if out != name:
            new[name] = out
    # a lemma that would have a definition's name
    taken = {new.get(n, n) for n in defined}
    for name in own - defined:
        if new.get(name, name) in taken:
            new[name] = new.get(name, name) + "_lem"
    return own, new


def fall_together(own, new):
    after = collections.defaultdict(set)
    for name in own:
        after[new.get(name, name)].add(name)
    return {k: v for k, v in after.items() if len(v) > 1}


def renamer(new):
    by_length = sorted(new, key=len, reverse=True)
    pattern = re.compile(r"(?<![\w'\-+])(" + "|".join(map(re.escape, by_length)) + r")(?![\w'\-])")
    return lambda text: pattern.sub(lambda m: new[m.group(1)], text)


def in_antt(text, rename):
    """Code, and names between backticks in comments."""
    out = []
    for line in text.split("\n"):
        code, dash, said = line.partition("-- ") if not line.lstrip().startswith("--") else ("", "", line)
        out.append(rename(code) + dash + re.sub(r"`[^`]*`", lambda m: rename(m.group(0)), said))
    return "\n".join(out)


def in_code(text, rename):
    """What is imported for clauses, clauses, and names between backticks in comments."""
    out, depth = [], 0
    for line in text.split("\n"):
        if line.startswith("ghost use"):
            line = rename(line)
        elif re.match(r"\s*//", line):
            line = re.sub(r"`[^`]*`", lambda m: rename(m.group(0)), line)
        elif depth or re.match(r"\s*(requires|ensures|ghost)\b", line):
            depth += line.count("{") - line.count("}")
            line = rename(line)
        out.append(line)
    return "\n".join(out)


def main():
    own, new = names()
    clash = fall_together(own, new)
    for k, v in sorted(clash.items()):
        print("fall together:", k, sorted(v))
    if "--list" in sys.argv:
        for k in sorted(new):
            print(k, new[k])
        return
    if clash:
        sys.exit("port_names: nothing was changed")
    rename = renamer(new)
    ghost = [p for p in glob.glob("crates/*/src/**/*.rt", recursive=True)]
    pages = ["README.md"] + glob.glob("docs/*.md") + glob.glob("docs/requests/*.md")
    for path in texts():
        change(path, lambda t: in_antt(t, rename))
    for path in ghost:
        change(path, lambda t: in_code(t, rename))
    for path in pages:
        change(path, lambda t: re.sub(r"`[^`\n]*`", lambda m: rename(m.group(0)), t))
    with open("tools/port_names.tsv", "w") as f:
        for k in sorted(new):
            f.write(k + "\t" + new[k] + "\n")


def change(path, to):
    text = open(path).read()
    now = to(text)
    if now != text:
        open(path, "w").write(now)


main()
