#!/usr/bin/env python3
"""Respells the definitions and lemmas of specs/ and proofs/ in snake case, once, over the whole repository.

usage: python3 tools/respell.py [FOLDER]      in the place of the repository, or of FOLDER

A name that a file of specs/ or proofs/ declares, and that has a hump or a dash, gets underscores; one that would
then fall together with another gets '_lem'. Names of types keep their humps, the names of goals are not ours, and
names of the library and words of the Rust code stay. Must-fail edits and pages are not touched.
"""
import collections
import glob
import os
import re
import sys

TOP = sys.argv[1] if len(sys.argv) > 1 else "."
WORD = r"[^\s:()\[\]{}.,;|λ]+"
DECLARED = re.compile(rf"^\s*(?:unfoldable |abbrev )?(?:pub )?({WORD}(?: {WORD})*) : (.*)$")
KEPT = {"pub", "abbrev", "unfoldable", "ruleset", "record", "data", "module", "_", "let", "in", "let", "λ"}
TOKEN = re.compile(r"(?<![\w'\-◌])([A-Za-z_][\w']*(?:[-·][\w'◌+*/^%≤<≡=]+)*)(?![\w'\-])")


def files(*ends):
    found = []
    for folder in ("specs", "proofs", "src"):
        for end in ends:
            found += glob.glob(f"{TOP}/crates/*/{folder}/**/*{end}", recursive=True)
    return sorted(found)


def read(path):
    with open(path, encoding="utf-8") as f:
        return f.read()


def snake(name):
    name = re.sub(r"(?<=[a-z0-9])(?=[A-Z])", "_", name)
    return name.replace("-", "_").lower()


def declared():
    """Each declared name, with the right sides of its declarations."""
    names = collections.defaultdict(list)
    for path in files(".antt"):
        for line in read(path).split("\n"):
            if line.lstrip().startswith(("let ", "--", "use ")):
                continue
            m = DECLARED.match(line)
            if m:
                for name in m.group(1).split(" "):
                    if name not in KEPT:
                        names[name].append(m.group(2))
    return names


def imported():
    """Each name that comes from the library."""
    names = set()
    for path in files(".antt", ".rt"):
        for m in re.finditer(r"use ((?:Rattle\.std|Rattle\.core|Rattle\.std_alloc|mathlib|Prim|lib|native|borrow|denote)\b[^{;\n]*)\{([^}]*)\}", read(path)):
            for item in m.group(2).split(","):
                names.add(item.strip().split(" as ")[0])
    return names


def mapping():
    names, library = declared(), imported()
    turned = {}
    for name, sides in sorted(names.items()):
        if not name[0].islower() or name in library:
            continue
        if all(side.startswith(("goal.", "Given.")) for side in sides):
            continue
        if any(side.startswith("goal.") for side in sides):
            print("kept, a goal too:", name)
            continue
        if snake(name) != name:
            turned[name] = snake(name)
    taken = set(names) | library
    for name in sorted(turned, key=lambda n: ("-" in n, n)):
        new = turned[name]
        if new in taken:
            new += "_lem"
        if new in taken:
            sys.exit(f"respell: {name} and another both become {new}")
        if new != turned[name]:
            print("falls together:", name, "->", new)
        turned[name] = new
        taken.add(new)
    return turned


def ghost_only(text, turn):
    """Turns what is not Rust: everything, since Rust here has no name with a hump after a small letter, or a dash."""
    return TOKEN.sub(lambda m: turn.get(m.group(1), m.group(1)), text)


def with_aliases(text, turn):
    """The table for one file: what it imports under another name has no name elsewhere."""
    here = dict(turn)
    for name in re.findall(r" as ([a-z]\w*(?:-\w+)+|[a-z]+[A-Z]\w*)[,}]", text):
        if name not in here:
            if re.search(rf"(?<![\w-]){snake(name)}(?![\w-])", text):
                print("kept, its spelling is another's in that file:", name)
            else:
                here[name] = snake(name)
    return here


def main():
    turn = mapping()
    for path in files(".antt", ".rt"):
        old = read(path)
        new = ghost_only(old, with_aliases(old, turn))
        if new != old:
            with open(path, "w", encoding="utf-8") as f:
                f.write(new)
    with open("/tmp/respelled.tsv", "w") as f:
        f.writelines(f"{a}\t{b}\n" for a, b in sorted(turn.items()))
    print(len(turn), "names respelled; see /tmp/respelled.tsv")


main()
