#!/usr/bin/env python3
"""Turns the proofs of single functions of a crate, proofs/F/Proof.antt in the older form (a list of answers by position), to
Invariants.antt and Answers.antt, by goals' names.

    port_proofs.py NAME [FUNCTION..]     the crates below NAME must be proved

The names come from `rt check --generated FOLDER --old-names`. An answer that only said `search rules` goes: the check tries that itself."""

import glob
import json
import os
import re
import shutil
import subprocess
import sys
import tempfile

OPEN, SHUT = "({[", ")}]"


def split_top(text):
    """The arguments of an application, by brackets and spaces."""
    out, depth, start = [], 0, None
    for i, ch in enumerate(text):
        if depth == 0 and ch.isspace():
            if start is not None:
                out.append(text[start:i])
                start = None
            continue
        if start is None:
            start = i
        if ch in OPEN:
            depth += 1
        elif ch in SHUT:
            depth -= 1
    if start is not None:
        out.append(text[start:])
    return out


def strip_parens(text):
    text = text.strip()
    while text.startswith("("):
        depth = 0
        for i, ch in enumerate(text):
            depth += ch in OPEN
            depth -= ch in SHUT
            if depth == 0:
                break
        if i != len(text) - 1:
            break
        # a tuple keeps its brackets
        inner, d, comma = text[1:-1], 0, False
        for ch in inner:
            d += ch in OPEN
            d -= ch in SHUT
            comma |= ch == "," and d == 0
        if comma:
            break
        text = inner.strip()
    return text


def blocks(text):
    """The items of a file: comment and code together, by lines that begin at the margin with a signature."""
    items, now = [], []
    for line in text.split("\n"):
        if line and not line[0].isspace() and now and any(l.strip() for l in now):
            # a definition's clause goes with its signature
            first = next(l for l in now if l.strip())
            name = re.match(r"(?:(?:abbrev|unfoldable|pub)\s+)*([^\s:]+)\s*:", next((l for l in now if not l.startswith("--") and l.strip()), ""))
            if line.startswith("--") or line.startswith("use ") or not name or not (line.split()[0] == name.group(1) or line.startswith("unfolding")):
                if not (all(l.startswith("--") or not l.strip() for l in now) and not line.startswith("use ") and not line.startswith("--")):
                    items.append("\n".join(now).rstrip())
                    now = []
        now.append(line)
    if any(l.strip() for l in now):
        items.append("\n".join(now).rstrip())
    return [i for i in items if i.strip()]


def body_of(item, name):
    """Binders and body of a definition with one clause."""
    m = re.search(r"^" + re.escape(name) + r"\b((?:\s+[^\s=]+)*)\s*=", item, re.M)
    if not m:
        return None
    return m.group(1).split(), item[m.end():].strip("\n").strip()


def used(body, uses, extra):
    """The lines of `use` that the body needs."""
    out = []
    for line in uses:
        m = re.match(r"use (.*)\.\{(.*)\}$", line, re.S)
        if m:
            names = [n.strip() for n in m.group(2).split(",")]
            kept = []
            for n in names:
                shown = n.split(" as ")[-1]
                if "◌" in shown:
                    mark = shown.replace("◌", "").strip() or shown
                    if mark in body:
                        kept.append(n)
                elif re.search(r"(?<![\w'-])" + re.escape(shown) + r"(?![\w'-])", body):
                    kept.append(n)
            if kept:
                out.append("use %s.{%s}" % (m.group(1), ", ".join(kept)))
        else:
            m = re.match(r"use (\S+)(?: as (\S+))?$", line)
            alias = m and (m.group(2) or m.group(1).split(".")[-1])
            if alias and re.search(r"(?<![\w'-])" + re.escape(alias) + r"(?![\w'-])", body):
                out.append(line)
    return out + extra


def clause_names():
    """The names of each function's clauses, by its path."""
    out = {}
    for path in glob.glob("crates/*/src/**/*.rt", recursive=True):
        parts = path.split("/")
        crate, inner = parts[1], "/".join(parts[3:])[:-3]
        module = [] if inner in ("lib", "main") else inner.split("/")
        fn, holder = None, ""
        for line in open(path):
            m = re.match(r"(?:impl(?:<[^>]*>)? (\w+))", line)
            if m:
                holder = m.group(1)
            if line.startswith("}"):
                holder = ""
            m = re.match(r"(\s*)(?:pub(?:\([a-z]+\))? )?(?:extern \"C\" )?fn (\w+)", line)
            if m:
                fn = "::".join([crate] + module + ([holder] if m.group(1) and holder else []) + [m.group(2)])
                out[fn] = {"requires": [], "ensures": []}
            m = re.match(r"\s*(requires|ensures) (\w*)\s*\{", line)
            if m and fn:
                out[fn][m.group(1)].append(m.group(2))
    return out


def by_clause(path, names):
    """A nested pair's part, .1.1.0, as the clause of that name."""
    parts, k = path.strip(".").split(".") if path.strip(".") else [], 0
    if len(names) < 2:
        return path
    while k < len(names) - 1:
        if not parts or parts[0] not in "01":
            return path
        one = parts.pop(0)
        if one == "0":
            break
        k += 1
    return "." + ".".join([names[k]] + parts)


def commas(text):
    out, depth, now = [], 0, ""
    for ch in text:
        depth += ch in OPEN
        depth -= ch in SHUT
        if ch == "," and depth == 0:
            out.append(now.strip())
            now = ""
        else:
            now += ch
    return out + [now.strip()] if now.strip() else out


def parts_of(text, n):
    """The n parts of a nested pair."""
    text = strip_parens(text)
    if n == 1:
        return [text]
    if not text.startswith("("):
        return None
    parts = commas(text[1:-1])
    if len(parts) == n:
        return parts
    if len(parts) == 2:
        rest = parts_of(parts[1], n - 1)
        if rest:
            return [parts[0]] + rest
        rest = parts_of(parts[0], n - 1)
        if rest:
            return rest + [parts[1]]
    return None


def as_record(need, text, fun):
    """An answer to what a call requires, by the names of the callee's clauses."""
    m = re.match(r"(.*)-requires", need)
    if not m:
        return text
    step = m.group(1)
    best = ""
    for callee in fun.params:
        name = callee.split("::")[-1]
        if (step == name or step.startswith(name + "-")) and len(name) > len(best.split("::")[-1]):
            best = callee
    names = fun.clauses.get(best, {"requires": []})["requires"]
    if len(names) < 2:
        return text
    lead, body = "", text
    m = re.match(r"((?:let .*?\bin\s+)+)(\(.*\))$", text, re.S)
    if m:
        lead, body = m.group(1), m.group(2)
    parts = parts_of(body, len(names))
    if not parts:
        return text
    return lead + "record { " + "; ".join("%s = %s" % (n, p) for n, p in zip(names, parts)) + " }"


class Fun:
    def __init__(self, entry, clauses=None, path=""):
        self.callees = {}
        self.params = entry.get("params") or {}
        self.clauses = clauses or {}
        self.own = self.clauses.get(path, {"requires": [], "ensures": []})
        self.needs = entry.get("needs") or []
        self.loops = entry.get("loops") or []
        self.changed = entry.get("changed") or []
        self.steps = {}
        self.clash = set()
        for place in entry.get("places") or []:
            for part in place:
                if isinstance(part, list) and len(part) == 2 and all(isinstance(p, str) for p in part) and part[0]:
                    self.step(part[0], part[1])
                    if len(place) > 3 and isinstance(place[3], str):
                        self.callees[part[1]] = place[3]

    def step(self, old, new):
        for key in {old, old.replace("_", "-")}:
            if self.steps.get(key, new) != new:
                self.clash.add(key)
            self.steps[key] = new


def flat(x):
    return x


def rename_steps(text, fun, said):
    text = re.sub(r"(\.before)+(?=[.\s),;\]}]|$)", "", text)
    def one(m):
        name = m.group(2)
        if name in fun.steps:
            if name in fun.clash:
                said.append("step %s has more than one new name" % name)
            return m.group(1) + fun.steps[name]
        return m.group(0)
    # a step is a field of c, or of a place that was bound by a let to a chain from c
    places = {"c"}
    for m in re.finditer(r"\blet (\S+) = (\w[\w'-]*) in\b", text):
        if m.group(2) in places:
            places.add(m.group(1))
    # such a place is c
    for name in sorted(places - {"c"}, key=len, reverse=True):
        text = re.sub(r"\s*\blet " + re.escape(name) + r" = \w[\w'-]* in\b", "", text)
        text = re.sub(r"(?<![\w'.-])" + re.escape(name) + r"(?=\.)", "c", text)
    text = re.sub(r"((?<![\w'.-])c\.)([\w'-]+)", one, text)
    for m in list(re.finditer(r"\s*\blet (\w+) = c\.requires in\b", text)):
        text = text.replace(m.group(0), "")
        text = re.sub(r"(?<![\w'.-])" + m.group(1) + r"(?=[.\s)])", "c.requires", text)
    text = re.sub(r"(?<![\w'.-])c\.requires((?:\.[01])+)(?![\w])", lambda m: "c.requires" + by_clause(m.group(1), fun.own["requires"]), text)
    def clause(m):
        callee = fun.clauses.get(fun.callees.get(m.group(1), ""), {"ensures": []})
        return "c." + m.group(1) + ".ensures" + by_clause(m.group(2), callee["ensures"])
    return re.sub(r"(?<![\w'.-])c\.([\w'-]+)\.ensures((?:\.[01])+)(?![\w])", clause, text)


def convert(crate, path, fun, module, said):
    text = open(path).read()
    items = blocks(text)
    uses = [i for i in items if i.startswith("use ")]
    uses = [l for i in uses for l in i.split("\n") if l.startswith("use ")]
    uses = [u for u in uses if ".Statement." not in u and not re.search(r"\.Tie\b", u)]
    head = []
    for line in text.split("\n"):
        if line.startswith("--"):
            head.append(line)
        else:
            break
    defs, final = [], None
    for i in items:
        lines = [l for l in i.split("\n") if l and not l.startswith("--")]
        if not lines or i.startswith("use ") or lines[0].startswith("use "):
            continue
        m = re.match(r"(?:(?:abbrev|unfoldable|pub|ruleset)\s+)*([^\s:]+)", lines[0])
        if re.match(r"pub \S+[-_]spec\b", lines[0]):
            final = "\n".join(lines)
        else:
            defs.append((m.group(1), "\n".join(lines)))
    m = final and re.search(r"tie\.spec\b(.*)$", final, re.S)
    if not m:
        said.append("no tie.spec")
        return False
    opened_names = re.search(r"^unfolding (.*)$", final, re.M)
    opened_names = opened_names.group(0) if opened_names else ""
    args_text = m.group(1).strip()
    # the bracket that was opened before tie.spec
    opened = final[:m.start()].count("(") - final[:m.start()].count(")")
    while opened > 0 and args_text.endswith(")"):
        args_text = args_text[:-1].rstrip()
        opened -= 1
    args = split_top(args_text)
    by_name = dict(defs)
    loops = fun.loops
    inv, used_names = [], set()
    rest = list(args)
    for k, loop in enumerate(loops):
        new = loop[0][1]
        inv_name, mu_name = rest.pop(0), rest.pop(0)
        for kind, name in (("invariant", inv_name), ("decreases", mu_name)):
            if name not in by_name:
                said.append("%s: %s is not a name" % (kind, name[:40]))
                return False
            used_names.add(name)
            binders, body = body_of(by_name[name], name)
            for b in binders:
                plain = b.rstrip("₀")
                to = ("l.initial." if b.endswith("₀") else "l.") + plain.replace("-", "_")
                if b == "_":
                    continue
                body = re.sub(r"(?<![\w'.₀-])" + re.escape(b) + r"(?![\w'₀-])", to, body)
            inv.append((kind, new, body))
    if len(rest) != len(fun.needs):
        said.append("%d answers, %d goals" % (len(rest), len(fun.needs)))
    answers = []
    if len(rest) == len(fun.needs):
        pairs = list(zip(rest, fun.needs))
    else:
        # by the ruleset that most answers name
        kinds = [re.sub(r"^λ c( κs)?\. ", "", strip_parens(r)) for r in rest]
        common = [k for k in kinds if re.match(r"search \w[\w'-]*$", k) and k != "search rules"]
        most = max(set(common), key=common.count) if common else "search rules"
        pairs = [("(λ c. %s)" % most, n) for n in fun.needs]
        for r in rest:
            if r in by_name:
                m2 = re.search(r"tie\.(?:Need|goal)-(\S+)", by_name[r]) or re.search(r"tie\.goal\.(\S+)", by_name[r])
                if m2:
                    for q, n in enumerate(pairs):
                        if m2.group(1).replace("_", "-") in (n[1][0].replace("_", "-"), n[1][1].replace("_", "-")):
                            pairs[q] = (r, n[1])
        odd = [k for k in kinds if not re.match(r"search \w[\w'-]*$", k) and k not in by_name]
        if odd:
            said.append("left out: " + " | ".join(odd)[:300])
    for expr, need in pairs:
        new = need[1]
        e = strip_parens(expr)
        if e in by_name and by_name[e].find("tie.") >= 0:
            used_names.add(e)
            own_names = re.search(r"^unfolding (.*)$", by_name[e], re.M)
            own_names = own_names.group(0) if own_names else opened_names
            answers.append((new, as_record(new, rename_steps(body_of(by_name[e], e)[1], fun, said), fun), own_names))
            continue
        else:
            m = re.match(r"λ c(?: κs)?\.\s*", e)
            if m:
                e = e[m.end():].strip()
            elif re.match(r"λ _( _)?\.\s*", e):
                e = re.sub(r"^λ _( _)?\.\s*", "", e)
            else:
                e = "(%s) c" % e if " " in e else "%s c" % e
        if e in ("search rules", "search needs") and not opened_names:
            continue
        answers.append((new, as_record(new, rename_steps(e, fun, said), fun), opened_names))
    helpers = [d for n, d in defs if n not in used_names]
    folder = os.path.dirname(path)
    own = "Rattle.%s.proofs.%s" % (crate, module)
    fn = module
    if inv:
        code = "\n\n".join(
            "abbrev pub %s-%s : goal.%s-%s\n%s-%s l = %s" % (k, n, k, n, k, n, b if "\n" not in b else "\n    " + b) for k, n, b in inv)
        body = code
        lines = head + used(body, uses, ["use %s.Given as goal" % own]) + ["", code, ""]
        open(os.path.join(folder, "Invariants.antt"), "w").write("\n".join(lines))
    if answers or helpers:
        code = "\n\n".join(helpers + ["pub %s : goal.%s\n%s%s c = %s" % (n, n, u + "\n" if u else "", n, e if "\n" not in e else "\n    " + e) for n, e, u in answers])
        lines = (head if not inv else []) + used(code, uses, ["use %s.Goals as goal" % own]) + ["", code, ""]
        open(os.path.join(folder, "Answers.antt"), "w").write("\n".join(lines))
    os.remove(path)
    return True


def main():
    crate, only = sys.argv[1], set(sys.argv[2:])
    folder = "crates/%s" % crate
    out = tempfile.mkdtemp()
    if os.environ.get("NAMES"):
        names = json.load(open(os.environ["NAMES"]))
    else:
        # without the proofs, which the check would read first
        run = subprocess.run(["rt", "check", "--generated", out, "--old-names"], cwd=folder, capture_output=True, text=True)
        if not os.path.exists(out + "/names.json"):
            print(run.stdout[-3000:], run.stderr[-2000:])
            sys.exit("port_proofs: no names for " + crate)
        names = json.load(open(out + "/names.json"))
    shutil.rmtree(out)
    clauses = clause_names()
    for path in sorted(glob.glob(folder + "/proofs/**/Proof.antt", recursive=True)):
        module = os.path.dirname(path)[len(folder + "/proofs/"):].replace("/", ".")
        if only and module not in only and module.split(".")[-1] not in only:
            continue
        if "tie.spec" not in open(path).read():
            print("by hand:", path)
            continue
        key = "Rattle-%s-proofs.%s.Lts" % (crate, module)
        if key not in names:
            print("no names:", path, [k for k in names if module.split(".")[-1] in k][:4])
            continue
        said = []
        try:
            done = convert(crate, path, Fun(names[key], clauses, crate + "::" + module.replace(".", "::")), module, said)
        except Exception as e:
            done = False
            said.append(repr(e))
        if said or not done:
            print("turned" if done else "NOT TURNED", path, "; ".join(said))


main()
