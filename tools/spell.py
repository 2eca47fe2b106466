#!/usr/bin/env python3
"""Spells the repository's own definitions and lemmas as today's Rattle does: words in snake case, types, facts and modules in camel case.

usage: tools/spell.py [--list]      at the top of a checkout that port.py has turned; with --list it writes nothing and prints old and new names

Renamed is each part (between dashes and dots) of a name that an .antt file of the repository declares, where the part begins small and has a
capital: mostUrgent becomes most_urgent. It is renamed wherever it stands in crates/ (.rt, .antt, .edit) and in the documents; strings, inputs and
outputs keep their text, since the words there are no such parts. A definition may have the name of the function whose contract cites it (they stand
in different modules); a lemma that would then have its definition's name gets _lem (LEMMAS). Two names that fall together stop the script.
"""

import os
import re
import sys

DECLARED = re.compile(r"^[ \t]*(?:(?:pub|abbrev|unfoldable|opaque|irreducible|instance|implicit|postulate|private|field|constructor|syntax|mutual|rewrite)\s+)*([^\s:(){}@;,\"]+(?:\s+[^\s:(){}@;,\"]+)*)\s*:(?=\s|$)", re.M)
PART = re.compile(r"[A-Za-z0-9_'\u2080-\u2089\u2115\u2124]+")
SMALL = re.compile(r"[a-z][a-z0-9_]*[A-Z]")
# lemmas that would have their definition's name, and so end in _lem
LEMMAS = ("call_line", "core_at", "in_place", "left_in", "no_line", "no_switch", "none_yet", "step_in", "taken_in")
# parts whose definition port.py has spelled anew, while lemmas of it still have the old part; and a field beside a lemma
KNOWN = ("and_then", "in_use", "move_of", "out_of")

# names that no line `name :` declares: with a level, in a record's head, a module's other name
MORE = ("byRefusal", "orEmpty", "threadCount", "optionTids", "optionCores", "optionTicks", "optionLeaves")


def files(top, endings):
    for folder in ("crates", "docs"):
        for at, dirs, names in os.walk(os.path.join(top, folder)):
            dirs[:] = sorted(d for d in dirs if d != "out" or at.count(os.sep) != top.count(os.sep) + 2)
            for n in sorted(names):
                if n.endswith(endings):
                    yield os.path.join(at, n)
    if "README.md" in os.listdir(top) and ".md" in endings:
        yield os.path.join(top, "README.md")


def snake(part):
    s = re.sub(r"([a-z0-9'])([A-Z])", r"\1_\2", part)
    s = re.sub(r"([A-Z])([A-Z][a-z])", r"\1_\2", s)
    return s.lower() if SMALL.match(part) else s


def declared(top):
    whole, found = set(), set()
    for p in files(top, (".antt",)):
        with open(p, encoding="utf-8") as f:
            t = f.read()
        t = re.sub(r"--.*", "", t)
        for m in DECLARED.finditer(t):
            if m.start() == m.start(1) or t[m.start()] not in " \t":
                whole.update(m.group(1).split())
            for name in m.group(1).split():
                found.update(x for x in re.split(r"[-.\u00b7]", name) if SMALL.match(x))
    return whole, found


def main():
    top = os.getcwd()
    lemmas, camel = declared(top)
    names = {d: snake(d) for d in (*camel, *MORE)}
    # what port.py has respelled where it is declared, but not everywhere
    for p in files(top, (".antt", ".rt", ".edit")):
        with open(p, encoding="utf-8") as f:
            names.update((x, snake(x)) for x in PART.findall(f.read()) if SMALL.match(x) and snake(x) in lemmas)
    imported = set()
    for p in files(top, (".antt", ".rt", ".edit")):
        with open(p, encoding="utf-8") as f:
            t = f.read()
        for m in re.finditer(r"use\s+((?:Rattle\.std|Prim|Core|Rattle\.bytes|Rattle\.io|Rattle\.libc)[\w.\u00b7']*)(?:\.\{([^}]*)\})?", t):
            imported.update(PART.findall(m.group(2) or ""))
    bad = 0
    for old, new in sorted(names.items()):
        if old in imported:
            print(f"spell: {old} is also a word of the library")
            bad += 1
        if old in camel and new in lemmas and new not in LEMMAS + KNOWN:
            print(f"spell: {old} -> {new}: a definition or a lemma has that name")
            bad += 1
    new_names = {x: x + "_lem" for x in LEMMAS}
    renamed = names | new_names
    new_names = {}
    for old, new in names.items():
        if new in new_names:
            print(f"spell: {old} and {new_names[new]} fall together in {new}")
            bad += 1
        new_names[new] = old
    if "--list" in sys.argv:
        for old, new in sorted(names.items()):
            print(old, new)
    if bad and "--list" not in sys.argv:
        return 1
    if "--list" in sys.argv:
        return 0
    changed = 0
    for p in files(top, (".antt", ".rt", ".edit", ".md")):
        with open(p, encoding="utf-8") as f:
            t = f.read()
        u = PART.sub(lambda m: renamed.get(m.group(0), m.group(0)), t)
        if u != t:
            with open(p, "w", encoding="utf-8") as f:
                f.write(u)
            changed += 1
    print(f"spell: {len(names)} names, {changed} files changed")
    return 0


sys.exit(main())
