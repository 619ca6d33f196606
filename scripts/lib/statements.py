#!/usr/bin/env python3
"""Counts the lemmas whose statement stands word for word in more than one file.

    scripts/lib/statements.py          how many, and for each the crate in which it could stand once
    scripts/lib/statements.py --all    those of a function's own goals too

What names a function's own goals (`Over`, `After-..`, `In-..`), its machine code (`statement`) or
the type of its file (`the_row`) is another statement in each file, and left out. Where no crate
stands below all those of a statement, it has to stand twice, and says so.
"""
import collections
import glob
import os
import re
import sys

import project

if {"-h", "--help"} & set(sys.argv[1:2]):
    sys.exit(print(__doc__.strip()))

LEMMA = re.compile(r'^(?:pub )?([^\s(){}:,;"]+) : (.*)')
OWN = re.compile(r"\bOver\b|\b(?:After|In|In_\w+|Then|Else)-\w|goal\.|→ statement M$|\bthe_row\b")


def lemmas(path):
    """The lemmas of a file, as (name, statement)."""
    with open(path, encoding="utf-8") as text:
        lines = text.read().split("\n")
    for at, line in enumerate(lines):
        found = LEMMA.match(line)
        if found:
            rest = []
            for more in lines[at + 1 :]:
                if not more.startswith("    "):
                    break
                rest.append(more.strip())
            yield found[1], re.sub(r"\s+", " ", " ".join([found[2], *rest]))


def below():
    """Each crate with those that it stands on, itself among them."""
    stands = {}
    with open(os.path.join(project.TOP, "crates.txt"), encoding="utf-8") as lines:
        for line in lines:
            name, colon, on = line.split("#")[0].partition(":")
            if colon:
                stands[name.split()[0]] = on.split()
    reach = {}
    for name in stands:
        seen, todo = set(), [name]
        while todo:
            crate = todo.pop()
            if crate in stands and crate not in seen:
                seen.add(crate)
                todo += stands[crate]
        reach[name] = seen
    return reach


def main():
    places = collections.defaultdict(list)
    for path in sorted(
        glob.glob(os.path.join(project.TOP, "crates/*/proofs/**/*.antt"), recursive=True)
    ):
        for name, statement in lemmas(path):
            if len(statement) > 12 and ("--all" in sys.argv[1:] or not OWN.search(statement)):
                places[statement].append((name, os.path.relpath(path, project.TOP)))
    reach, many = below(), 0
    for statement, found in sorted(places.items(), key=lambda it: (-len(it[1]), it[0])):
        files = {path for _, path in found}
        if len(files) < 2:
            continue
        many += 1
        common = set.intersection(*(reach[path.split("/")[1]] for path in files))
        top = sorted(it for it in common if not any(it in reach[a] - {a} for a in common))
        print(f"{statement}\n    {', '.join(top) or 'no crate stands below all'}")
        for name, path in found:
            print(f"    {name}  {path}")
    print(f"{many} statements stand in more than one file")


if __name__ == "__main__":
    main()
