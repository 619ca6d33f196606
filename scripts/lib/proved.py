"""The page PROVED of a release: what is proved, by what, and the sums of what is believed."""
import hashlib
import os
import subprocess

import archive
import licences
import project

TOP = project.TOP
# What is believed of the repository, and goes into the program, the libraries or what is around
# them.
BELIEVED = ("HANDLES", "bindings/c", "bindings/python", "bindings/rust", "scripts/bind",
            "scripts/lib/archive.py", "scripts/lib/deb.py", "scripts/lib/licences.py",
            "scripts/lib/newer", "scripts/lib/newer.c", "scripts/lib/static-library")
# What of the kit goes into a proof or into a program, beside its crates.
OF_KIT = ("KIT-ID", "bin", "c", "logic_built", "rattle", "toolchain")
# Where the gate leaves its last line, with the commit that it is of.
GATE = "out/gate"

PAGE = """\
phase {version}, of the commit {commit}{address}
proved and built with the kit {kit}
the files of the kit have the sum {kit_sum}
what is C, and the linking: {compiler}; {linker}
the wheel: {backend}
the gate of this commit: {gate}

Below stands each crate of which the program and the libraries are made, the lowest first. Each was
proved: all its functions meet their contracts. The sum behind its name is that of all that the
proof read of the repository: its sources, definitions and proofs, its line in crates.txt, and the
sums of the crates below it. docs/PROOFS.md says what the contracts promise.

What is believed, and not proved: the toolchain (the prover's kernel, its compiler, its statements
of the C library and of its own crates), the compiler and linker named above, the C library and the
system; that the program looks at the processor rightly, by which its code for any or that for newer
ones goes (scripts/lib/newer.c). Of libphase: how calls wait (bindings/c/phase_wait.c), and what the
headers, the crates and the files of Python do around the proved calls; these are tested. Behind the
crates stands each file of the repository that is believed, with its SHA-256, and each that makes an
archive.

phase.spdx.json lists the crates of the kit that the program and the libraries contain. The kit's
own come with no licence, and are NOASSERTION there.

To prove it again: in a clone of that commit, with that kit, that compiler and that linker,
`scripts/release FOLDER` makes an archive and a wheel, whose sums can be compared with those of
these. `scripts/release --sums` prints the sums below of any checkout, of which `rt ci` proves each
crate.

{sums}"""


def first_line(*words):
    return subprocess.check_output(words, text=True).split("\n")[0]


def files_below(top, names):
    """The files at or below these names in a folder, sorted."""
    for name in sorted(names):
        path = os.path.join(top, name)
        if os.path.isfile(path):
            yield name
        for at, folders, files in os.walk(path):
            folders.sort()
            for file in sorted(files):
                yield os.path.relpath(os.path.join(at, file), top)


def sum_of(path):
    return hashlib.sha256(archive.bytes_of(path)).hexdigest()


def kit_sum():
    """One sum of the kit's programs, sources and statements, and of the crates of it below ours."""
    one, kit = hashlib.sha256(), licences.kit()
    libraries = [f"rlibs/{name}.rlib" for name in licences.below(archive.MADE)]
    for name in files_below(kit, (*OF_KIT, *libraries)):
        one.update(f"{name} {sum_of(os.path.join(kit, name))}\n".encode())
    return one.hexdigest()


def gate():
    """The last line of the gate, where it ran here on this commit."""
    path = os.path.join(TOP, GATE)
    if os.path.exists(path):
        commit, _, line = project.text_of(GATE).partition(" ")
        if commit == archive.git("rev-parse", "HEAD"):
            return line.strip()
    return "it did not run where this was made"


def sums():
    """A line for each crate, lowest first, with the sum of what its proof reads; then one for each
    file that is believed."""
    for name, told in project.sums(archive.MADE).items():
        yield f"{name} {told}\n"
    for name in archive.git("ls-files", *BELIEVED).split("\n"):
        yield f"{name} {sum_of(os.path.join(TOP, name))}\n"


def page():
    """The page."""
    return PAGE.format(
        version=archive.version(),
        commit=archive.git("rev-parse", "HEAD"),
        address=f", from {archive.address()}" if archive.address() else "",
        kit=first_line("rt", "version"),
        kit_sum=kit_sum(),
        compiler=first_line("cc", "--version"),
        linker=first_line("ld", "--version"),
        backend=first_line(
            archive.BACKEND, "-c", "import setuptools, sys, wheel; print('Python',"
            " sys.version.split()[0], 'setuptools', setuptools.__version__, 'wheel',"
            " wheel.__version__)",
        ),
        gate=gate(),
        sums="".join(sums()),
    )
