"""A folder for each case of the built programs, what they end with there, and who tells of it."""
import os
import shutil
import subprocess
import time

import project

TOP = project.TOP
RUNS = project.script("check/program-cases")

READ_FAULT, WRITE_FAULT, WANT = (
    b"phase: read fault\n", b"phase: write fault\n", b"phase: out of memory\n",
)

# How many bytes a read or a write moves at most.
CHUNK = 65536

# The descriptor to which a preloaded library tells how many calls there were.
TOLD = 9


class Wrong(Exception):
    """What a run gave that it should not have."""


def wants(holds, *what):
    if not holds:
        raise Wrong(*what)


class Room:
    """The programs, the preloaded libraries, and a folder for the files of a case."""

    def __init__(self, work):
        self.work, self.runs, self.folders = work, 0, 0
        self.folder = work
        self.programs = os.path.join(work, "programs")
        os.mkdir(self.programs)
        for program in RUNS.PROGRAMS:
            built = project.built(program)
            if os.path.exists(built):
                shutil.copy(built, os.path.join(self.programs, program))
        self.refuses = self.compiled("cc", "lib/refuse-memory.c", "-O2", "-shared", "-fPIC", "-ldl")
        self.fails = self.compiled("cc", "check/failing-calls.c", "-O2", "-shared", "-fPIC", "-ldl")
        self.plain = self.compiled("g++", "lib/plain-replay.cpp", "-O2", "-std=c++20")

    def compiled(self, compiler, source, *flags):
        if shutil.which(compiler) is None:
            return None
        made = os.path.join(self.work, os.path.basename(source) + ".made")
        subprocess.run(
            [compiler, "-o", made, os.path.join(TOP, "scripts", source), *flags], check=True
        )
        return made

    def begin(self, files):
        """A folder of its own for a case, with these files."""
        self.folders += 1
        self.folder = os.path.join(self.work, str(self.folders))
        os.mkdir(self.folder)
        for name, text in files.items():
            self.put(name, text)

    def path(self, name):
        return os.path.join(self.folder, name)

    def put(self, name, text):
        with open(self.path(name), "wb") as file:
            file.write(text if isinstance(text, bytes) else text.encode())

    def commands(self, words):
        return RUNS.commands(self.programs, words)

    def run(self, command, script=b"", library=None, before=None, **more):
        """What a command ends with: its status, and both streams. `more` is for the preloaded
        library, or for the streams."""
        self.runs += 1
        streams = {
            name: more.pop(name)
            for name in ("stdin", "stdout", "stderr", "pass_fds")
            if name in more
        }
        settings = {name: str(value) for name, value in more.items()}
        if library:
            settings["LD_PRELOAD"] = library
        if "stdin" not in streams:
            streams["input"] = script
        streams = {"stdout": subprocess.PIPE, "stderr": subprocess.PIPE, **streams}
        try:
            environment = {**os.environ, **settings}
            done = subprocess.run(
                command, cwd=self.folder, timeout=60, env=environment, preexec_fn=before, **streams
            )
        except subprocess.TimeoutExpired:
            raise Wrong("it did not end in a minute") from None
        return done.returncode, done.stdout, done.stderr

    def counted(self, command, library, **more):
        """The same, and how many calls the library told of."""
        os.ftruncate(TOLD, 0)
        os.lseek(TOLD, 0, os.SEEK_SET)
        ended = self.run(command, library=library, pass_fds=(TOLD,), **more)
        told = os.pread(TOLD, 64, 0).split()
        wants(told, "the library tells nothing")
        return ended, int(told[0])


def tell_into(work):
    """Has the preloaded libraries tell into a file of this folder."""
    told = os.open(os.path.join(work, "told"), os.O_RDWR | os.O_CREAT)
    if told != TOLD:
        os.dup2(told, TOLD)


def went(cases, with_times):
    """How many of these cases agreed, and how many did not, which are told."""
    passed = failed = 0
    for name, case in cases:
        begun = time.monotonic()
        try:
            left_out = case()
            passed += 1
            if left_out:
                print(f"{name}: {left_out}")
        except Wrong as wrong:
            failed += 1
            print(f"{name}: {' '.join(str(part)[:300] for part in wrong.args)}", flush=True)
        if with_times:
            print(f"{time.monotonic() - begun:6.1f} s: {name}", flush=True)
    return passed, failed


def asked(cases, words):
    """The cases with one of these words in their names, or all where there is no word. Each has to
    be made before the next is asked for."""
    parts = [word for word in words if word != "--times"]
    return (it for it in cases if not parts or any(part in it[0] for part in parts))
