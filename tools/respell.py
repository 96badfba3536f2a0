#!/usr/bin/env python3
"""Brings this repository's own definitions and lemmas to one spelling, once, after /opt/rattle/port/port.py.

usage: python3 tools/respell.py        at the top of the repository, on what port.py left

Facts, records and types go to upper camel case, all else to snake case: `Well-laid` is WellLaid, `last-net` is last_net.
`getD` in a name is `get_or`, as the library calls it now. Only names that a file of specs/ or proofs/ declares are
turned, each wherever it stands in .antt and .rt files; names of the library, and those that Rattle makes (goals,
steps), keep their dashes. Code of src/ has no such names, so it stays as it is.
"""

import glob
import os
import re
import sys

DECLARED = re.compile(r"^\s*((?:(?:unfoldable|abbrev|pub|record|data|axiom) )*)([^\s(){}\[\],;.«»\"]+)\s(.*)$")
TOKEN = re.compile(r"[^\s(){}\[\],;.«»\"`|⟦⟧⌜⌝:]+")
# names that Rattle gives: goals and steps
GIVEN = re.compile(r"\bgoal\.([^\s(){}\[\],;.]+)")
STEPS = re.compile(r"\buse [^\s{]+\.(?:Goals|Given|Lts)\.\{([^}]*)\}")
IMPORT = re.compile(r"\buse ([\w.+]+)\.\{([^}]*)\}")
OWN = ("circuits", "aiger", "layers", "netlists", "comparisons", "clauses", "checker", "samples", "piles")


def files():
    for pattern in ("crates/*/src/**/*.rt", "crates/*/specs/**/*.antt", "crates/*/proofs/**/*.antt"):
        yield from sorted(glob.glob(pattern, recursive=True))


def texts():
    return {p: open(p, encoding="utf-8").read() for p in files()}


def declared(text):
    """The names that a file declares, with those of record fields and local lemmas."""
    for line in text.split("\n"):
        m = DECLARED.match(line)
        if not m or m.group(2).startswith("--"):
            continue
        words, name, rest = m.groups()
        if not (words or re.search(r"(^|\s):(\s|$)", rest)):
            continue
        yield name


def library_names(text):
    for path, names in IMPORT.findall(text):
        parts = path.split(".")
        if not (parts[0] == "Rattle" and len(parts) > 1 and parts[1] in OWN):
            for n in names.split(","):
                yield from (w.strip() for w in n.split(" as "))


def given_names(text):
    yield from GIVEN.findall(text)
    for names in STEPS.findall(text):
        yield from (n.strip() for n in names.split(","))


def respelled(name):
    name = name.replace("getD", "get_or")
    if name[:1].isupper():
        return "".join(w[:1].upper() + w[1:] for w in name.split("-"))
    return name.replace("-", "_")


def main():
    all_texts = texts()
    theirs, ours, given = set(), set(), set()
    for path, text in all_texts.items():
        theirs |= set(library_names(text))
        given |= set(given_names(text))
        if path.endswith(".antt"):
            ours |= {n for n in declared(text) if "-" in n or "getD" in n}
    ours -= given
    both = ours & theirs
    if both:
        print("declared here and in the library, left as they are:", " ".join(sorted(both)))
    turns = {n: respelled(n) for n in ours - both}
    came_from = {}
    for old, new in turns.items():
        came_from.setdefault(new, []).append(old)
    words = {t for text in all_texts.values() for t in TOKEN.findall(text)}
    for new, olds in sorted(came_from.items()):
        if len(olds) > 1:
            sys.exit(f"these fall together at {new}: {olds}")
        if new in words:
            print(f"look: {olds[0]} becomes {new}, a word that stands in the files already")
    for path, text in all_texts.items():
        turned = TOKEN.sub(lambda m: turns.get(m.group(), m.group()), text)
        if turned != text:
            with open(path, "w", encoding="utf-8") as f:
                f.write(turned)
    print(f"{len(turns)} names turned")


if __name__ == "__main__":
    if not os.path.exists("crates.txt"):
        sys.exit("run this at the top of the repository")
    main()
