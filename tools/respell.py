#!/usr/bin/env python3
"""Respells the repository's own definitions and lemmas: words in snake case, types and relations in camel case.

usage: python3 tools/respell.py     at the top of the repository, once, after the toolchain's own porting script

A name is the repository's own where specs/ or a lemma file declares it. Names that the toolchain makes (goals, steps) keep
their dashes, and so do functions of src/, strings, inputs and outputs. Files are rewritten in place.
"""
import collections
import glob
import re

# Names that would otherwise fall together with a function of src/ in the same module.
APART = {"isHeader": "is_header_line", "isComment": "is_comment_line"}
DECLARED = re.compile(r"\s*(?:(?:abbrev|pub|record|data|unfoldable)\s+)*([A-Za-z][\w'-]*)\s*(?:[({].*?)?:\s")
MARKED = re.compile(r"\s*(?:(?:abbrev|pub|record|data|unfoldable)\s+)+([A-Za-z][\w'-]*)")
BOUND = re.compile(r"let\s+([A-Za-z][\w'-]*)\s*[:=]")
GOAL = re.compile(r":\s*goal\.")
TOKEN = re.compile(r"(?:([A-Za-z_]\w*)\.)?([A-Za-z_][\w'-]*)")
# What a file takes from the standard library: names, and a module under a short name.
TAKEN = re.compile(r"use (?:Rattle\.std|native|mathlib|lib|mir|Prim|borrow)\.[\w.]*\{([^}]*)\}")
SHORT = re.compile(r"use (?:Rattle\.std|native|mathlib|lib|mir|Prim|borrow)\.[\w.]* as (\w+)")


def files(ending):
    return sorted(p for p in glob.glob("crates/**/*" + ending, recursive=True) if "/out/" not in p)


def declared(text):
    for line in text.split("\n"):
        if line.lstrip().startswith("--") or GOAL.search(line):
            continue
        for form in (DECLARED, MARKED):
            m = form.match(line)
            if m:
                yield m.group(1)
        yield from BOUND.findall(line)


def respelled(name):
    if name in APART:
        return APART[name]
    if name[0].isupper():
        first, *rest = name.split("-")
        return first + "".join(r[0].upper() + r[1:] for r in rest)
    return re.sub(r"(?<=[a-z0-9])([A-Z])", lambda m: "_" + m.group(1).lower(), name).replace("-", "_")


def turn(text, own):
    taken = {n.split(" as ")[0].strip() for names in TAKEN.findall(text) for n in names.split(",")}
    short = set(SHORT.findall(text))

    def one(m):
        owner, name = m.groups()
        before = "" if owner is None else (respelled(owner) if owner in own else owner) + "."
        if name in own and name not in taken and owner not in short:
            return before + respelled(name)
        return before + name

    return TOKEN.sub(one, text)


def main():
    own = set()
    for p in files(".antt"):
        with open(p, encoding="utf-8") as f:
            own.update(declared(f.read()))
    together = collections.defaultdict(set)
    for name in own:
        together[respelled(name)].add(name)
    for names in together.values():
        if len(names) > 1:
            raise SystemExit("respell: these names would fall together: " + ", ".join(sorted(names)))
    turned = 0
    for p in files(".antt") + files(".rt") + files(".edit"):
        with open(p, encoding="utf-8") as f:
            text = f.read()
        new = turn(text, own)
        if new != text:
            turned += 1
            with open(p, "w", encoding="utf-8") as f:
                f.write(new)
    print(f"respell: {sum(respelled(n) != n for n in own)} names, {turned} files")


main()
