#!/usr/bin/env python3
"""Spells the repository's own definitions and lemmas as today's Rattle does: words in snake case, types in camel case.

usage: python3 tools/rename_definitions.py    at the top of a checkout, once, after the language's own port script

It goes by text. A name counts as the repository's own where an .antt file of specs/ or proofs/ defines it (but for the answers
to generated goals), or where an import or a ghost member of a .rt file gives it. Names that the check makes (of goals and steps),
the library's names, functions of src/, strings, inputs and outputs stay. Pages of docs/ that name definitions follow.
"""

import collections
import os
import re

WORD = r"[A-Za-zα-ωΑ-Ω_0-9'?≢≡]"
DASHED = r"[A-Za-zα-ωΑ-Ω_0-9'?]+(?:-" + WORD + r"+)+"
CAMEL = r"[a-z][a-z0-9]*[A-Z][A-Za-z0-9']*"
NAME = r"(?:" + DASHED + "|" + CAMEL + ")"
TOKEN = re.compile(r"(?<![A-Za-zα-ωΑ-Ω_0-9'?≢≡-])" + NAME + r"(?![A-Za-zα-ωΑ-Ω_0-9'?≢≡-])")
HEAD = r"((?:abbrev |pub |unfoldable |opaque |record |data |inductive )*)"
# Constructors that stand several to a line.
DATA = re.compile(r"(?m)^[ \t]+((?:[^\s(){}:]+ +)+[^\s(){}:]+)[ \t]*:(?!:)")
# Names whose spelling does not follow from the old one.
BY_HAND = {"in-getD": "in_get_or", "number_of_lem": "number_of"}


def files(ends):
    for folder, dirs, names in os.walk("crates"):
        dirs[:] = sorted(d for d in dirs if d != "out")
        for name in sorted(names):
            if name.endswith(ends):
                yield os.path.join(folder, name)


def text(path):
    with open(path, encoding="utf-8") as f:
        return f.read()


def bare(path, t):
    return re.sub(r"(?m)--(?=\s|$).*$", "", t) if path.endswith(".antt") else re.sub(r"//.*", "", t)


def defined():
    """The repository's own names, and those of them that are fields of records."""
    own, fields = set(), set()
    for p in files((".antt", ".rt")):
        t = bare(p, text(p))
        own.update(re.findall(r" as (" + NAME + ")", t))
        if p.endswith(".rt"):
            own.update(n for n in re.findall(r"ghost (" + NAME + r")\b", t))
            continue
        for m in re.finditer(r"(?m)^\s*" + HEAD + "(" + NAME + r")\s*(?:\([^)]*\)\s*|\{[^}]*\}\s*)*:(?!:)\s*(\S*)", t):
            if not m.group(3).startswith("goal."):
                own.add(m.group(2))
        for m in re.finditer(r"(?:let|where)\s+(" + NAME + r")\s*[:=]", t):
            own.add(m.group(1))
        for m in re.finditer(r"[({]((?:[^\s(){}:]+\s+)*(?:[^\s(){}:]+))\s*:(?!:)", t):
            own.update(w for w in m.group(1).split() if TOKEN.fullmatch(w))
        for m in re.finditer(r"λ\s*([^.→]*?)\.", t):
            own.update(w for w in m.group(1).split() if TOKEN.fullmatch(w))
        for m in DATA.finditer(t):
            own.update(w for w in m.group(1).split() if TOKEN.fullmatch(w))
        inside = None
        for line in t.splitlines():
            indent = len(line) - len(line.lstrip())
            if re.match(r"\s*(?:pub |abbrev )*record .*where", line):
                inside = indent
            elif inside is not None and line.strip():
                if indent <= inside:
                    inside = None
                    continue
                m = re.match(r"\s*(?:pub )?(" + NAME + r")\s*:", line)
                if m:
                    fields.add(m.group(1))
    return own, fields


def functions():
    return {n for p in files(".rt") for n in re.findall(r"\bfn (\w+)", text(p))}


def spelt(name):
    if name in BY_HAND:
        return BY_HAND[name]
    if name[0].isupper():
        return "".join(w[:1].upper() + w[1:] for w in name.split("-"))
    return re.sub(r"(?<=[a-z0-9])([A-Z])", lambda m: "_" + m.group(1).lower(), name.replace("-", "_"))


def main():
    own, fields = defined()
    of_code = functions()
    to = {n: spelt(n) for n in own} | {k: v for k, v in BY_HAND.items() if "_" in k}
    to = {n: s for n, s in to.items() if s != n}
    for p in files((".antt", ".rt")):
        together = collections.defaultdict(set)
        for n in set(TOKEN.findall(bare(p, text(p)))) & set(to):
            together[to[n]].add(n)
        for s, ns in sorted(together.items()):
            if len(ns) > 1:
                raise SystemExit(f"{p}: fall together: {s}: {sorted(ns)}")
    by_hand = re.compile(r"\bnumber_of_lem\b")

    def turn(t, keep):
        def one(m):
            n = m.group(0)
            if n not in to:
                return n
            if m.start() and m.string[m.start() - 1] == "." and n not in fields and keep(n, m):
                return n
            return to[n]

        return by_hand.sub("number_of", TOKEN.sub(one, t))

    # After a dot, the name of a function is the step of its call, which the check names.
    def step(n, m):
        before = re.search(r"([A-Za-z0-9_'-]+)\.$", m.string[: m.start()])
        return n.replace("-", "_") in of_code and not (before and (before.group(1)[0].isupper() or before.group(1) in modules))

    changed = 0
    for p in files((".antt", ".rt")):
        t = text(p)
        modules = set(re.findall(r" as (\w+)", t))
        if p.endswith(".rt"):
            parts = re.split(r'("(?:[^"\\]|\\.)*"|//.*)', t)
            new = "".join(s if i % 2 else turn(s, step) for i, s in enumerate(parts))
        else:
            new = turn(t, step)
        if new != t:
            changed += 1
            with open(p, "w", encoding="utf-8") as f:
                f.write(new)
    # Words of the programs' scripts stay as they are typed.
    typed = {"power-on", "open-short", "read-short", "give-up", "log-store"}
    pages = [os.path.join("docs", n) for n in ("CALLS.md", "CRASH-PROMISE.md", "DECISIONS.md", "PROMISES.md")]
    for p in pages:
        t = text(p)
        new = re.sub(r"`([^`\n]+)`", lambda m: "`" + (m.group(1) if m.group(1) in typed else turn(m.group(1), lambda n, m: False)) + "`", t)
        if new != t:
            changed += 1
            with open(p, "w", encoding="utf-8") as f:
                f.write(new)
    print(f"{len(to)} names, {changed} files")


main()
