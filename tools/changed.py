#!/usr/bin/env python3
"""Prints the last part of docs/DESIGN-PASS.md: what changed since the commit in its first line, old and new one under the other.

    changed.py

It reads functions and definitions by contracts.py of the toolchain (/opt/rattle/port), types and theorems by the patterns below: a theorem is a
`pub` law of proofs/ that README.md or docs/ (docs/PORT.md and this page aside) name, then or now.
"""
import glob
import io
import os
import re
import subprocess
import sys
import tarfile
import tempfile

sys.path.insert(0, "/opt/rattle/port")
import contracts  # noqa: E402

TOP = os.path.join(os.path.dirname(os.path.abspath(__file__)), "..")


def squeeze(text):
    return re.sub(r"\s+", " ", text).strip()


def public(root):
    """The public functions of a tree by crate, type and name: signature and clauses. Methods of traits' impls are not among them."""
    found = {}
    for (crate, path, place, name), many in contracts.read(root)[1].items():
        text = open(os.path.join(root, "crates", crate, path)).read()
        if not re.search(r'(?m)^\s*pub (extern "C" )?fn %s\b' % re.escape(name), text):
            continue
        for f in many:
            if f["pub"]:
                found[crate, place, name] = (squeeze(f["sign"]), [(c[0], squeeze(c[2])) for c in f["requires"] + f["ensures"]])
    return found


def types(root):
    found = {}
    for path in glob.glob(os.path.join(root, "crates/*/src/*.rt")):
        crate = os.path.relpath(path, os.path.join(root, "crates")).split(os.sep)[0]
        text = re.sub(r"(?m)^\s*//.*$", "", open(path).read())
        for m in re.finditer(r"(?m)^pub (?:struct|enum|trait) (\w+)[^{;]*(?:\{.*?^\}|;)", text, re.S):
            found[crate, m.group(1)] = squeeze(m.group(0))
    return found


def named(root):
    """Every name of two words or more that README.md and docs/ of a tree say."""
    pages = [p for p in glob.glob(os.path.join(root, "docs/*.md")) + [os.path.join(root, "README.md")] if os.path.basename(p) not in ("PORT.md", "DESIGN-PASS.md")]
    said = " ".join(code for p in pages for line in open(p) for code in re.findall(r"`([^`]+)`", line))
    return {name for name in re.findall(r"[\w'-]+", said) if re.search(r"[_-]", name)}


def theorems(root, names):
    found = {}
    for path in glob.glob(os.path.join(root, "crates/*/proofs/*.antt")):
        crate = os.path.relpath(path, os.path.join(root, "crates")).split(os.sep)[0]
        lines = [re.sub(r"\s*--.*", "", line) for line in open(path).read().split("\n")]
        for i, line in enumerate(lines):
            m = re.match(r"( *)pub ([^\s:(){}=]+)\s*:", line)
            if not m or m.group(2) not in names:
                continue
            text, j = [line], i + 1
            while j < len(lines) and len(lines[j]) - len(lines[j].lstrip()) > len(m.group(1)) and lines[j].strip():
                text.append(lines[j])
                j += 1
            found[crate, m.group(2)] = squeeze(" ".join(text))
    return found


def definitions(root):
    return {k: squeeze(" / ".join(v)) for k, v in contracts.read(root)[3].items()}


def spell(function):
    signature, clauses = function
    return signature + "".join(f" {kind} {{ {text} }}" for kind, text in clauses)


def beside(title, old, new, show=str):
    changed = sorted(k for k in old if k in new and old[k] != new[k])
    gone, fresh = sorted(set(old) - set(new)), sorted(set(new) - set(old))
    print(f"### {title}: {len(changed)} changed, {sum(old[k] == new.get(k) for k in old)} the same\n")
    for k in changed:
        print(f"- {k[0]} `{'::'.join(x for x in k[1:] if x)}`\n  - old: `{show(old[k])}`\n  - new: `{show(new[k])}`")
    for what, keys, source in (("Gone", gone, old), ("New", fresh, new)):
        if keys:
            print(f"\n{what}:\n")
            for k in keys:
                print(f"- {k[0]} `{'::'.join(x for x in k[1:] if x)}`: `{show(source[k])}`")
    print()


def main():
    began = open(os.path.join(TOP, "docs/DESIGN-PASS.md")).readline().strip()
    tar = subprocess.run(["git", "archive", began], cwd=TOP, capture_output=True, check=True).stdout
    with tempfile.TemporaryDirectory() as old:
        tarfile.open(fileobj=io.BytesIO(tar)).extractall(old, filter="data")
        names = named(old) | named(TOP)
        beside("Public functions, their clauses with them", public(old), public(TOP), spell)
        beside("Public types", types(old), types(TOP))
        beside("Definitions of specs/", definitions(old), definitions(TOP))
        beside("Theorems that README or docs/ name", theorems(old, names), theorems(TOP, names))


main()
