#!/usr/bin/env python3
"""Brings the repository's own names of antt to the kit's spelling, once.

usage: python3 tools/respell.py [--list]     at the top of the repository, after the kit's own script has run

Words are in snake case, without a dash, and types and modules in camel case. A lemma that would have the name of the definition that it is about gets '_lem'. With
--list it only prints each old name with its new one. It stops, with no file written, where two names would fall together.
"""

import os
import re
import sys

DELIMITED = re.compile(r"[^\s(){}.,;:\"`]+")
DECLARED = re.compile(
    r"^(\s*)(?:(?:abbrev|unfoldable|irreducible|opaque|ruleset|record|data|pub)\s+)*([^\s(){}.:,;=\"]+)\s*(?:[({][^:]*[)}]\s*)*:(?:\s|$)"
)
IMPORTED = re.compile(r"use\s+([\w.]+)\.\{([^}]*)\}")
FIELDS = {"format-chunk": "format_chunk"}  # a field may have the name of a definition of another crate
RESERVED = re.compile(r"^(use|let|in|where|module|open|import|file|old|new|--.*)$")


def files(suffixes):
    for folder, dirs, names in os.walk("crates"):
        dirs[:] = sorted(d for d in dirs if d != "out")
        for name in sorted(names):
            if name.endswith(suffixes):
                yield os.path.join(folder, name)


def read(path):
    with open(path, encoding="utf-8") as f:
        return f.read()


def declared():
    """Every name that an antt file of the repository declares at the margin or as a field, with the files of its declarations."""
    found = {}
    for path in files((".antt",)):
        for line in read(path).split("\n"):
            m = DECLARED.match(line)
            if m and len(m.group(1)) <= 4 and not line.lstrip().startswith("--") and not RESERVED.match(m.group(2)):
                found.setdefault(m.group(2), set()).add(path)
    return found


def snake(word):
    """A lower camel word in snake case; a word that begins with a capital is a type and stays."""
    if not re.match(r"^[a-z]", word):
        return word
    word = re.sub(r"([a-z0-9])([A-Z])(?![A-Z]|$)", lambda m: m.group(1) + "_" + m.group(2).lower(), word)
    return re.sub(r"([a-z0-9])Z$", r"\1_z", word)


def respelled():
    """Each name that changes, with its new spelling."""
    found = declared()
    new = {}
    for n in found:
        to = "_".join(snake(p) for p in n.split("-")).strip("_") if "-" in n.strip("-") else snake(n)
        if to != n:
            new[n] = to
    spelled = {}
    for n in found:
        spelled.setdefault(new.get(n, n), []).append(n)
    for to, old in spelled.items():
        # of two that fall together the definition keeps the name: in the older spelling it is the one in camel case
        if len(old) == 2:
            lemmas = [n for n in old if snake(n) == n]
            if len(lemmas) == 1:
                new[lemmas[0]] = to + "_lem"
    new.update(FIELDS)
    return found, new


def lent(text, own):
    """The names that a file takes from the kit: these stay there."""
    names = set()
    for module, listed in IMPORTED.findall(text):
        parts = module.split(".")
        if parts[0] != "Rattle" or parts[1] not in own:
            names |= set(re.findall(r"[^\s,]+", listed))
    return names


def main(argv):
    found, new = respelled()
    together = {}
    for n in found:
        if n not in FIELDS:
            together.setdefault(new.get(n, n), []).append(n)
    fallen = [ns for ns in together.values() if len(ns) > 1]
    if argv == ["--list"]:
        for n, to in sorted(new.items()):
            print(n, to)
        print("fall together:", fallen)
        return 0
    if fallen:
        print("respell: two names fall together:", fallen)
        return 1
    own = set(os.listdir("crates"))
    for path in files((".antt", ".rt", ".edit")):
        text = read(path)
        stay = lent(text, own)
        to = DELIMITED.sub(lambda m: m.group(0) if m.group(0) in stay else new.get(m.group(0), m.group(0)), text)
        if to != text:
            with open(path, "w", encoding="utf-8") as f:
                f.write(to)
    return 0


if __name__ == "__main__":
    raise SystemExit(main(sys.argv[1:]))
