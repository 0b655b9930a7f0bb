#!/usr/bin/env python3
"""Respells the names of definitions and lemmas in specs/ and proofs/: types, facts and modules in camel case, all else in snake case.

Run once, at the top of the repository, with everything committed. It renames what the files themselves declare (definitions, lemmas,
fields, modules, and names bound by let and λ) wherever such a name stands in a .rt or .antt file, and no name of the library or of a
generated module. Comments are turned too. It stops where two names would fall together.
"""

import os
import re
import subprocess
import sys

NAME = r"[A-Za-z_][\w']*(?:-[\w'*+≤<≡]+)+"
WORDS = r"(?:(?:abbrev|unfoldable|pub|mutual|ghost)\s+)*"
LEFT = r"(?<![\w'·-])"
RIGHT = r"(?![\w'-])"

# names that the rule alone would not spell well: of a tactic, of a type of the code, and with a capital inside
OTHERS = {
    "first_of": "first_below",
    "Open-call": "CallOnOpen",
    "eqZ": "eq_int",
    "eqZ-from": "eq_int_from",
    "eqZ-is": "eq_int_is",
    "sumZ-below": "sum_int_below",
    "sumZ-natural": "sum_int_natural",
}


def files():
    for folder, dirs, names in os.walk("crates"):
        dirs[:] = sorted(d for d in dirs if d != "out")
        for n in sorted(names):
            if n.endswith((".rt", ".antt")):
                yield os.path.join(folder, n)


def read(path):
    with open(path, encoding="utf-8") as f:
        return f.read()


def code(text):
    """The text without its comments."""
    return re.sub(r"(?m)(^|\s)(--|//) .*", "", text)


def spelled(name):
    if name in OTHERS:
        return OTHERS[name]
    if name[0].isupper():
        return "".join(p[:1].upper() + p[1:] for p in name.split("-"))
    return name.replace("-", "_")


def library(crates, texts):
    """The names that are imported from outside the repository."""
    found = set()
    for t in texts.values():
        for m in re.finditer(r"use ((?:[\w'+-]+\.)+)\{([^}]*)\}", code(t)):
            own = re.match(r"Rattle\.(\w+)\.", m.group(1))
            if not (own and own.group(1) in crates):
                found |= {n.strip().split(" as ")[0] for n in m.group(2).split(",")}
    return found


def declared(texts):
    """The names with a dash that the files declare or bind."""
    found = set()
    for t in texts.values():
        for line in code(t).split("\n"):
            m = re.match(r"^\s*" + WORDS + "(" + NAME + r")\s*:(?!:)\s*(.*)", line)
            if m and not m.group(2).startswith("goal."):
                found.add(m.group(1))
            m = re.match(r"^\s*" + WORDS + "(?:record|data|mod|module) (" + NAME + ")", line)
            if m:
                found.add(m.group(1))
            m = re.match(r"^\s+(" + NAME + r")(?: [\w{}=']+)* = ", line)
            if m:
                found.add(m.group(1))
            found |= set(re.findall(r"\blet (" + NAME + ")", line))
            for m in re.finditer(r"λ ([^.]*)\.|[({]((?:[\w'-]+ )+):", line):
                found |= set(re.findall(NAME, m.group(1) or m.group(2)))
    return found


def main():
    crates = set(os.listdir("crates"))
    texts = {p: read(p) for p in files()}
    goals = {m for p, t in texts.items() for m in re.findall(r"(?m)^(?:pub |abbrev pub )(" + NAME + r") : goal\.", t)}
    names = (declared(texts) | set(OTHERS)) - library(crates, texts) - goals
    new = {n: spelled(n) for n in names}
    where = {}
    for n, s in sorted(new.items()):
        if s in where:
            sys.exit(f"{where[s]} and {n} would both be {s}")
        where[s] = n
    any_name = re.compile(LEFT + "(" + "|".join(sorted(map(re.escape, new), key=len, reverse=True)) + ")" + RIGHT)
    for p, t in texts.items():
        turned = any_name.sub(lambda m: new[m.group(1)], t)
        if turned != t:
            with open(p, "w", encoding="utf-8") as f:
                f.write(turned)
        stem, end = os.path.splitext(os.path.basename(p))
        if stem in new and end == ".antt":
            subprocess.run(["git", "mv", p, os.path.join(os.path.dirname(p), new[stem] + end)], check=True)
    print(f"{len(new)} names respelled")


main()
