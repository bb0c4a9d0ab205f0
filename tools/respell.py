#!/usr/bin/env python3
"""Brings the repository's own definitions and lemmas to the toolchain's spelling: words in snake case, facts and types in camel case.

usage: python3 tools/respell.py          at the top, once, right after the toolchain's port.py
       python3 tools/respell.py --list   prints what it would rename, and names that would fall together

It reads the names that specs/ and proofs/ declare (definitions, lemmas, records and their fields), and rewrites them as
whole names in .antt files, in the ghost text of .rt files and in the pages. Functions of src/ and the names of goals stay.
"""

import glob
import re
import sys

DECLARED = re.compile(r"^\s*(?:(?:abbrev |unfoldable |pub |ruleset )*([^\s(){}.,;:]+)(?= : )|(?:pub |record |data )+([^\s(){}.,;:]+) )")
TOKEN = re.compile(r"[^\s(){}\[\].,;:`\"/]+")


def respelled(name):
    if name[0].isupper():
        return "".join(p[:1].upper() + p[1:] for p in name.split("-"))
    name = re.sub(r"(?<=[a-z0-9])([A-Z])", lambda m: "_" + m.group(1).lower(), name)
    return name.replace("-", "_")


def sources():
    return sorted(glob.glob("crates/*/specs/**/*.antt", recursive=True) + glob.glob("crates/*/proofs/**/*.antt", recursive=True))


def code():
    return sorted(glob.glob("crates/*/src/**/*.rt", recursive=True))


def declared():
    names = set()
    for path in code():
        for line in open(path, encoding="utf-8"):
            if line.startswith("ghost use "):
                names.update(re.findall(r" as ([a-z][\w'-]*)", line))
    for path in sources():
        for line in open(path, encoding="utf-8"):
            m = DECLARED.match(line)
            name = m and (m.group(1) or m.group(2))
            if name and not re.search(r": goal\.", line) and re.match(r"[A-Za-z]", name):
                names.add(name)
            if re.match(r"use ", line):
                names.update(re.findall(r" as ([a-z][\w'-]*)", line))
    return names


def tokens(text):
    return set(TOKEN.findall(text))


def functions():
    """The names of src/'s functions: a lemma that would have one of them ends in _lem."""
    text = "".join(open(p, encoding="utf-8").read() for p in code())
    return set(re.findall(r"\bfn (\w+)", text))


def stated():
    """What specs/ declares, which keeps the plain name."""
    return {m.group(1) or m.group(2) for p in sources() if "/specs/" in p for line in open(p, encoding="utf-8") if (m := DECLARED.match(line))}


def main():
    pages = ["README.md"] + sorted(glob.glob("docs/*.md"))
    paths = sources() + code() + pages
    texts = {p: open(p, encoding="utf-8").read() for p in paths}
    names = declared()
    turn = {n: respelled(n) for n in names if respelled(n) != n}
    called, plain = functions(), stated()
    turn = {n: t + "_lem" if t in called and n not in plain else t for n, t in turn.items()}
    everything = set().union(*(tokens(t) for t in texts.values()))
    for n, to in sorted(turn.items()):
        clash = [o for o in turn if o != n and turn[o] == to]
        if clash or to in everything:
            where = [p for p in texts if to in tokens(texts[p])]
            print("together:", n, "->", to, clash, where[:6])
    if "--list" in sys.argv:
        print(len(turn), "names:", ", ".join(f"{n} -> {t}" for n, t in sorted(turn.items())))
        return
    for path, text in texts.items():
        # in Rust and in pages only names with a dash can be told from code and prose
        only = turn if path.endswith(".antt") else {n: t for n, t in turn.items() if "-" in n}
        new = TOKEN.sub(lambda m: only.get(m.group(0), m.group(0)), text)
        if new != text:
            open(path, "w", encoding="utf-8").write(new)


main()
