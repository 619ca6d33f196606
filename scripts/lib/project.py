"""The checkout in which a script stands: its crates, its programs, and the other scripts."""
import hashlib
import importlib.machinery
import importlib.util
import os
import re
import subprocess
import sys

TOP = os.path.dirname(os.path.dirname(os.path.dirname(os.path.realpath(__file__))))
# What Python would keep of the scripts that others load is no file of the repository.
sys.dont_write_bytecode = True


def text_of(path):
    """The text of a file of the checkout."""
    with open(os.path.join(TOP, path), encoding="utf-8") as it:
        return it.read()


def lines_of(path):
    """The lines `NAME: WORD ..` of a file like crates.txt, as pairs of a name and what stands
    behind it."""
    for line in text_of(path).splitlines():
        name, colon, others = line.partition("#")[0].partition(":")
        if colon:
            yield name.strip(), others.strip()


def crates():
    """The crates of crates.txt, lowest first, each with what its line names, crates of the kit too.

    Behind the name of a static library stands there what it is."""
    return {name.split()[0]: others.split() for name, others in lines_of("crates.txt")}


def below(names):
    """The lines in crates.txt of these crates and of all of ours that they stand on, by their
    names, lowest first."""
    stands_on, needed = crates(), set(names)
    for name in reversed(stands_on):
        if name in needed:
            needed.update(stands_on[name])
    lines = {name.split()[0]: f"{name}: {others}\n" for name, others in lines_of("crates.txt")}
    return {name: line for name, line in lines.items() if name in needed}


def built(program):
    """Where a program stands once it is built: proved, or with PHASE_UNPROVED in the environment
    the unproved build with checks that `./phase` keeps, where it has not been proved."""
    path = os.path.join(TOP, "crates", program, "out", program)
    if os.environ.get("PHASE_UNPROVED") and os.path.exists(f"{path}.unproved"):
        return f"{path}.unproved"
    return path


def sums(names):
    """The sum of all that the proof of each of these crates reads here, and of each that they stand
    on, by their names, lowest first: its files, its line in crates.txt, and the sums below it."""
    stands_on, found = crates(), {}
    for name, line in below(names).items():
        one, folder = hashlib.sha256(line.encode()), os.path.join(TOP, "crates", name)
        for part in ("src", "specs", "proofs"):
            for place, folders, files in os.walk(os.path.join(folder, part)):
                folders.sort()
                for file in sorted(files):
                    path = os.path.join(place, file)
                    with open(path, "rb") as it:
                        its = hashlib.sha256(it.read()).hexdigest()
                    one.update(f"{os.path.relpath(path, folder)} {its}\n".encode())
        one.update("".join(found.get(it, "") for it in stands_on[name]).encode())
        found[name] = one.hexdigest()
    return found


def proves(*words):
    """Has the program of a command, which these words are, proved and built where it is not; with
    PHASE_UNPROVED in the environment built alone."""
    quiet = {"stdin": subprocess.DEVNULL, "stdout": subprocess.DEVNULL}
    how = [] if os.environ.get("PHASE_UNPROVED") else ["--prove"]
    subprocess.run([os.path.join(TOP, "phase"), *how, *words], check=True, **quiet)


def module(path):
    """What stands in a file of Python, whatever its name."""
    loader = importlib.machinery.SourceFileLoader(re.sub(r"\W", "_", os.path.basename(path)), path)
    made = importlib.util.module_from_spec(importlib.util.spec_from_loader(loader.name, loader))
    loader.exec_module(made)
    return made


def script(name):
    """Another script, by its name in the folder of them, as a module."""
    return module(os.path.join(TOP, "scripts", name))
