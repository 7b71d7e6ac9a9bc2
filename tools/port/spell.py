#!/usr/bin/env python3
"""Brings the repository's own names to today's spelling, after port.py and once.

usage: python3 tools/port/spell.py [--list]     at the top of the repository; --list prints old and new names, and writes nothing

Definitions, fields, constructors and lemmas are in snake case (`giveUpCost` is `give_up_cost`), types in upper camel case (`Turned-down` is
`TurnedDown`). A dash stays where it joins a definition's name or a type to what a lemma says of it (`rowValue-low` is `row_value-low`),
and else becomes `_` (`rows-ordered` is `rows_ordered`). A lemma that would have its definition's name gets `_lem`.
Names of src/, of the library and of what the check makes keep their spelling; so do strings, and comments but for names in them.
"""

import collections
import glob
import os
import re
import sys

OWN = {os.path.basename(c) for c in glob.glob("crates/*")}
PART = r"[A-Za-z0-9_ℕℤ₀-₉′'α-ωΑ-Ω≢≡≤∷]"
NAME = re.compile(rf"(?<![A-Za-z0-9_ℕℤ₀-₉′'α-ωΑ-Ω-])[A-Za-zα-ωΑ-Ω_]{PART}*(?:-{PART}+)*")
IMPORT = re.compile(r"\buse ([\w.·'-]+)\.\{([^}]*)\}")
CAMEL = re.compile(r"[a-z0-9₀-₉][A-Z]")


def read(path):
    with open(path, encoding="utf-8") as f:
        return f.read()


def own(path):
    p = path.split(".")
    return p[0] == "Rattle" and len(p) > 1 and p[1] in OWN


def snake(part):
    return re.sub(r"([a-z0-9₀-₉])([A-Z])", lambda m: m.group(1) + "_" + m.group(2).lower(), part)


def bare(text, mark):
    return re.sub(mark + r"[^\n]*", "", text)


lemmas = sorted(glob.glob("crates/*/specs/**/*.antt", recursive=True) + glob.glob("crates/*/proofs/*.antt"))
walks = sorted(p for p in glob.glob("crates/*/proofs/*/**/*.antt", recursive=True))
sources = sorted(glob.glob("crates/*/src/*.rt"))

library, tokens, declared = set(), collections.Counter(), set()
for p in lemmas + walks + sources:
    for m in IMPORT.finditer(read(p)):
        if not own(m.group(1)):
            library |= {n.strip().split(" as ")[0] for n in m.group(2).split(",")}
for p in lemmas:
    text = bare(read(p), "--")
    for m in NAME.finditer(text):
        tokens[m.group(0)] += 1
    declared |= set(re.findall(rf"(?m)^\s*(?:(?:abbrev|unfoldable|pub|record|data|module)\s+)*([A-Za-zα-ωΑ-Ω_]{PART}*(?:-{PART}+)*)\s*(?::|$)", text))

plain = {n for n in tokens if "-" not in n}
source = {m.group(0) for p in sources for m in re.finditer(r"\b[a-z_]\w*\b", bare(read(p), "//"))}


def spelled(n):
    if n in library or n.startswith(("Need-", "Inv-", "In-", "Then-", "Else-")):
        return n
    if n == "Walked-by":  # a variable
        return "walked_by"
    if n[0].isupper():
        parts = n.split("-")
        return n if parts[0] == "Gathered" else "".join(p[0].upper() + p[1:] for p in parts)
    if "-" not in n:
        return snake(n)
    parts = n.split("-")
    out = snake(parts[0])
    joined = bool(CAMEL.search(parts[0])) and parts[0] in plain
    for p in parts[1:]:
        out += ("-" if joined else "_") + snake(p)
        joined = bool(CAMEL.search(p)) and p in plain
    return out


new = {n: spelled(n) for n in tokens}
taken = collections.defaultdict(list)
for n in sorted(new):
    taken[new[n]].append(n)
for word, olds in taken.items():
    if len(olds) > 1:
        camel = [n for n in olds if CAMEL.search(n) and "-" not in n] or [n for n in olds if "-" not in n]
        if len(camel) != 1 or len(olds) > 3 or word + "_lem" in taken:
            print("falls together:", word, olds)
        for n in olds:
            if n not in camel and not (n == word and n in source):
                new[n] = word + "_lem"
new = {n: w for n, w in new.items() if n != w}

if "--list" in sys.argv:
    for n in sorted(new):
        print(n, new[n], "" if n in declared else "not declared at a margin")
    raise SystemExit(0)


def name(m):
    return new.get(m.group(0), m.group(0))


def antt(text, only=None):
    out = []
    for line in text.split("\n"):
        at = line.find("--")
        while at > 0 and line[at - 1] not in " \t":
            at = line.find("--", at + 2)
        code, said = (line, "") if at < 0 else (line[:at], line[at:])
        keep = [m.span() for m in re.finditer(r'"[^"]*"', code)]
        path = re.match(r"(\s*(?:pub )?use )([\w.·'-]+)(.*)", code)
        if path and not own(path.group(2)):
            out.append(line)
            continue

        def one(m):
            if any(a <= m.start() < b for a, b in keep):
                return m.group(0)
            return name(m) if only is None or m.group(0) in only else m.group(0)

        code = NAME.sub(one, code)
        # in a comment only what can be nothing but a name
        said = NAME.sub(lambda m: name(m) if CAMEL.search(m.group(0)) or "`" + m.group(0) + "`" in said else m.group(0), said)
        out.append(code + said)
    return "\n".join(out)


def rust(text):
    out = []
    for line in text.split("\n"):
        at = line.find("//")
        code, said = (line, "") if at < 0 else (line[:at], line[at:])
        path = re.match(r"(\s*ghost use )([\w.·'-]+)(.*)", code)
        if not (path and not own(path.group(2))):
            code = NAME.sub(name, code)
        said = NAME.sub(lambda m: name(m) if CAMEL.search(m.group(0)) or "`" + m.group(0) + "`" in said else m.group(0), said)
        out.append(code + said)
    return "\n".join(out)


def write(path, text):
    if text != read(path):
        with open(path, "w", encoding="utf-8") as f:
            f.write(text)


known = {n for n in new if n in declared}
for p in lemmas:
    write(p, antt(read(p)))
for p in walks:
    write(p, antt(read(p), known))
for p in sources:
    write(p, rust(read(p)))
