#!/usr/bin/env python3
"""Lays a program out as a crate in a repository of its own, over the crates that it stands on.

    scripts/lib/outside.py NAME FOLDER     in this folder; prints where the crate is
    scripts/lib/outside.py --built NAME FOLDER [WORD..]
                                           proves and builds the program there, runs it on these
                                           words, and prints where it is

scripts/programs/uses has the programs. The crates below come with what earlier checks left of them,
and stay where the folder has them; the files of the program are laid out each time.
"""
import os
import shutil
import subprocess
import sys

import project

PROGRAMS = os.path.join("scripts", "programs")
KEPT = ("src", "specs", "proofs", os.path.join("out", "rlib"), os.path.join("out", "incremental"))
ENDINGS = {".program": ".rt", ".proof": ".antt"}


def programs():
    """The programs, each with the crates that it stands on and the files of crates that it has."""
    found = {}
    for name, words in project.lines_of(os.path.join(PROGRAMS, "uses")):
        uses, _, files = words.partition("|")
        found[name] = uses.split(), files.split()
    return found


def files_of(name):
    """The files of a program: pairs of where one stands here, and in the program's crate."""
    for kind in "crate", "threads":
        alone = os.path.join("examples", kind, f"{name}.program")
        if os.path.exists(os.path.join(project.TOP, alone)):
            yield alone, os.path.join("src", "main.rt")
    base = os.path.join(project.TOP, PROGRAMS, name)
    for folder, _, names in sorted(os.walk(base)):
        for file in sorted(names):
            path = os.path.join(folder, file)
            inside, ending = os.path.splitext(os.path.relpath(path, base))
            yield os.path.relpath(path, project.TOP), inside + ENDINGS[ending]
    for file in programs()[name][1]:
        yield os.path.join("crates", file), file.partition("/")[2]


def lay_crates(folder, name):
    """Lays out the crates below a program, and what says what each of them stands on."""
    subprocess.run(["git", "init", "-q", folder], check=True)
    shutil.copy(os.path.join(project.TOP, "HANDLES"), folder)
    uses = programs()[name][0]
    lines = project.below(uses)
    for crate in lines:
        for part in KEPT:
            here = os.path.join(project.TOP, "crates", crate, part)
            if os.path.isdir(here):
                shutil.copytree(here, os.path.join(folder, "crates", crate, part))
    with open(os.path.join(folder, "crates.txt"), "w", encoding="utf-8") as listed:
        listed.writelines([*lines.values(), f"{name}: {' '.join(uses)}\n"])


def lay_files(name, crate):
    """Lays out the files of a program alone."""
    for part in "src", "proofs":
        shutil.rmtree(os.path.join(crate, part), ignore_errors=True)
    for here, there in files_of(name):
        path = os.path.join(crate, there)
        os.makedirs(os.path.dirname(path), exist_ok=True)
        shutil.copy(os.path.join(project.TOP, here), path)


def lay(name, folder):
    """Lays a program out in a folder, and answers where its crate is."""
    if not os.path.exists(os.path.join(folder, "crates.txt")):
        os.makedirs(folder, exist_ok=True)
        lay_crates(folder, name)
    crate = os.path.join(folder, "crates", name)
    lay_files(name, crate)
    return crate


def built(name, folder, *words):
    """Proves and builds a program in a folder, runs it on some words, and answers where it is."""
    crate = lay(name, folder)
    streams = {"stdin": subprocess.DEVNULL, "stdout": subprocess.PIPE, "stderr": subprocess.STDOUT}
    run = subprocess.run(["rt", "run", "--", *words], cwd=crate, text=True, check=False, **streams)
    if run.returncode:
        sys.exit(run.stdout[-4000:])
    return os.path.join(crate, "out", name)


def main(words):
    if words[:1] in (["-h"], ["--help"]):
        print(__doc__.strip())
        return 0
    builds = words[:1] == ["--built"]
    name, folder, *more = [*words[builds:], "", ""][: max(len(words) - builds, 2)]
    if name not in programs() or not folder or more and not builds:
        print(__doc__.strip(), file=sys.stderr)
        return 2
    folder = os.path.abspath(folder)
    print(built(name, folder, *more) if builds else lay(name, folder))
    return 0


if __name__ == "__main__":
    sys.exit(main(sys.argv[1:]))
