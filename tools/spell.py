#!/usr/bin/env python3
"""Respells the definitions and lemmas of this repository as today's Rattle spells its own: words in snake case.

usage: tools/spell.py [--list]     at the top, once, after port.py has run; --list prints each name and its new spelling

A name is a whole token of a .rt, .antt or .edit file below crates/. Types and modules, which begin with a capital, and
dashes, which join two names, stay. Names of Rust functions and fields are in snake case already, so they stay too: a
definition may have the name of the function whose answer it is.
"""

import glob
import re
import sys

TOKEN = re.compile(r"[^\s(){}\[\],;.:\u27e6\u27e7@\"`]+")
CAMEL = re.compile(r"(?:^|(?<=[-_]))[a-z][a-z0-9]*[A-Z]")
# a definition that would have the name of a field
OTHERWISE = {"rowsIn": "row_of_both"}
# a lemma that would have the name of its definition
LEMMAS = {
    "all_near": "crates/demands/",
    "by_first": "crates/apart/proofs/segments/boxes_overlap/",
    "last_line": "crates/desk/proofs/Chunks.antt",
    "split_good": "crates/table_truth/",
    "step_back": "crates/",
}


def snake(part):
    return re.sub(r"(?<=[a-z0-9])([A-Z]+)(?![a-z])|(?<=[a-z0-9])([A-Z])", lambda m: "_" + m.group(0).lower(), part)


def spelled(name):
    if name in OTHERWISE:
        return OTHERWISE[name]
    return re.sub(r"[^-]+", lambda m: snake(m.group(0)) if re.match(r"[a-z]", m.group(0)) else m.group(0), name)


def files():
    for kind in ("rt", "antt", "edit"):
        yield from sorted(f for f in glob.glob(f"crates/**/*.{kind}", recursive=True) if "/out/" not in f)


def main():
    texts = {}
    for path in files():
        with open(path, encoding="utf-8") as f:
            texts[path] = f.read()
    found = {n for t in texts.values() for n in TOKEN.findall(t)}
    names = {n: spelled(n) for n in found if CAMEL.search(n)}
    if "--list" in sys.argv:
        for n, to in sorted(names.items()):
            print(n, to)
        return

    def respelled(path, name):
        if path.startswith(LEMMAS.get(name, "-")) and path.endswith(".antt"):
            return name + "_lem"
        return names.get(name, name)

    for path, t in texts.items():
        new = TOKEN.sub(lambda m: respelled(path, m.group(0)), t)
        if new != t:
            with open(path, "w", encoding="utf-8") as f:
                f.write(new)
    print(f"{len(names)} names")


main()
