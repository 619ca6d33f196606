"""Goes through a release where there is nothing else: scripts/lib/try-release calls it in a root of
its own. It unpacks the archive, and types what a user would; the last line tells how many looks
agreed, and the status is 1 where one did not.
"""
import glob
import hashlib
import os
import pty
import re
import resource
import select
import shutil
import signal
import subprocess
import sys
import time

sys.path.insert(0, os.path.dirname(os.path.realpath(__file__)))
import licences
import project

HOME = os.environ["HOME"]
PREFIX = os.path.join(HOME, "phase")
SHARE = os.path.join(PREFIX, "share")
PAGES = os.path.join(SHARE, "doc/phase")
BINDINGS = os.path.join(PAGES, "docs/BINDINGS.md")
SHOWN = "1\n3\n5\n"
COMMANDS = ("replay", "check", "eval", "draw", "run", "stream")
# The examples of Python's modules.
EXAMPLES = """\
import doctest, importlib, sys
modules = map(importlib.import_module, ("phase", "phase.shared", "phase.stream"))
sys.exit(any([doctest.testmod(module).failed for module in modules]))
"""
# What a line of the pages names that the archive has not.
ELSEWHERE = ("scripts/", ".ci/", "--prove", "g++", "plain-replay", "bindings/lib")

# Where files of the repository stand here, by their folder of the bindings.
BELIEVED = {
    "c": ("include", "share/phase/c", "share/doc/phase/examples/bindings"),
    "rust": ("share/phase/rust",),
    "python": ("../wheel",),
}


class Wrong(Exception):
    """What is not as it should be."""


def wants(is_so, why):
    if not is_so:
        raise Wrong(why)


def said(command, folder=HOME, status=0, **settings):
    """What a command of the shell writes, which has to end with this status."""
    run = subprocess.run(
        ["bash", "-c", command], cwd=folder, env={**os.environ, **settings}, text=True, timeout=300,
        stdin=subprocess.DEVNULL, stdout=subprocess.PIPE, stderr=subprocess.STDOUT, check=False,
    )
    told = f"`{command}` ended with {run.returncode}: {run.stdout[-1500:]}"
    wants(run.returncode == status, told)
    return run.stdout


def shown(kind, number=1):
    """What the page of the bindings shows of a kind."""
    with open(BINDINGS, encoding="utf-8") as page:
        return re.findall(rf"^```{kind}\n(.*?)^```$", page.read(), re.M | re.S)[number - 1]


def put(name, text):
    path = os.path.join(HOME, name)
    os.makedirs(os.path.dirname(path), exist_ok=True)
    with open(path, "w", encoding="utf-8") as file:
        file.write(text)


# ---- the looks


def nothing_else():
    """Neither the toolchain nor the repository is there, and the user is not root."""
    for path in ("/opt/rattle", "/usr/local/bin/rt", "/work", "/root", "/tried/crates"):
        wants(not os.path.exists(path), f"there is {path}")
    wants(shutil.which("rt") is None, "rt is on the PATH")
    print(f"as user {os.getuid()}, in a root with {' '.join(sorted(os.listdir('/')))}")


def unpacked():
    """The archive is unpacked, small, and its sums agree."""
    [archive] = glob.glob("/tried/*.tar.gz")
    said(f"mkdir phase && tar -xzf {archive} -C phase --strip-components=1")
    said("sha256sum --strict --quiet -c SHA256SUMS", PREFIX)
    names = said("find . -type f ! -name SHA256SUMS", PREFIX).splitlines()
    with open(os.path.join(PREFIX, "SHA256SUMS"), encoding="utf-8") as sums:
        wants(len(sums.readlines()) == len(names), "there are files without a sum")
    print(f"{os.path.getsize(archive)} bytes, {len(names)} files")
    wants(os.path.getsize(archive) < 3_000_000, "that is too much")


def proved_tells():
    """PROVED has the sum of each file here that is believed, in C, in Rust and in Python."""
    with open(os.path.join(PREFIX, "PROVED"), encoding="utf-8") as page:
        told = re.findall(r"^bindings/(\w+)/(\S+) ([0-9a-f]{64})$", page.read(), re.M)
    [wheel] = glob.glob("/tried/*.whl")
    said(f"mkdir wheel && cd wheel && unzip -q {wheel}")
    looked_at = 0
    for language, name, its in told:
        for place in BELIEVED[language]:
            path = os.path.join(PREFIX, place, name)
            if os.path.isfile(path):
                with open(path, "rb") as file:
                    wants(hashlib.sha256(file.read()).hexdigest() == its, f"{path} has another sum")
                looked_at += 1
    print(f"{looked_at} files")
    wants(looked_at >= 20, "these are too few")


def links_lead():
    """Each link of a page leads to what is there."""
    looked_at = 0
    for page in glob.glob(f"{PAGES}/**/*.md", recursive=True):
        with open(page, encoding="utf-8") as file:
            text = re.sub(r"^```.*?^```$", "", file.read(), flags=re.M | re.S)
        for to in re.findall(r"\]\(([^()\s]+)\)", text):
            name, _, part = to.partition("#")
            if "://" in to:
                continue
            path = os.path.normpath(os.path.join(os.path.dirname(page), name)) if name else page
            wants(os.path.exists(path), f"{page} leads to {to}")
            if part and path.endswith(".md"):
                with open(path, encoding="utf-8") as file:
                    heads = re.findall(r"^#+ (.*)$", file.read(), re.M)
                wants(part in map(slug, heads), f"{page} leads to {to}")
            looked_at += 1
    print(f"{looked_at} links")
    wants(looked_at > 50, "these are too few")


def slug(head):
    """How a head is named in a link."""
    return re.sub(r"[^\w -]", "", head.lower()).replace(" ", "-")


def tells_whose():
    """Archive, crate and wheel have the licence of each work of others that they are made of."""
    crate = os.path.join(SHARE, "phase/rust/phase-sys")
    for folder in (PAGES, crate, os.path.join(HOME, "wheel/phase")):
        lacking = list(licences.lacks(folder))
        wants(not lacking, f"{folder} lacks {', '.join(lacking)}")


# What is loaded; the library for newer processors is the last.
NEWER = "lib/glibc-hwcaps/x86-64-v3/libphase.so.0"
BUILT = ("bin/phase", "lib/libphase.so.0", NEWER)


def links_little():
    """The program and the libraries ask for the C library alone."""
    for name in BUILT:
        asked = re.findall(r"^\s*(\S+)", said(f"ldd {name}", PREFIX), re.M)
        other = [it for it in asked if not re.match(r"linux-vdso|libc\.so|libm\.so|.*ld-linux", it)]
        wants(not other or asked == ["not"], f"{name} asks for {other}")
        lowest = re.findall(r"GLIBC_([\d.]+)", said(f"objdump -T {name}", PREFIX))
        print(f"{name}: {', '.join(asked)}; glibc", max(lowest, default="none",
              key=lambda it: tuple(map(int, it.split(".")))))


def alone():
    """In a root that had the C library and its loader alone the program answered a script."""
    with open("/tried/alone", encoding="utf-8") as written:
        got = written.read()
    with open(f"{PAGES}/examples/replay/members.stdout", encoding="utf-8") as wanted:
        wants(got == wanted.read(), f"it wrote {got[-500:]}")


def hardened():
    """The program and the libraries are stripped, and bind all names when they are loaded."""
    for name in BUILT:
        wants(".symtab" not in said(f"readelf -SW {name}", PREFIX), f"{name} is not stripped")
        dynamic = said(f"readelf -dW {name}", PREFIX)
        wants("(FLAGS)" not in dynamic or "NOW" in dynamic, f"{name} binds names late")
        wants("GNU_STACK" in said(f"readelf -lW {name}", PREFIX), f"{name} says nothing of stacks")


def package():
    """The package for Debian, where there is one, has what the archive has, and no error."""
    found = glob.glob("/tried/*.deb")
    if not found:
        return print("there is none")
    said(f"dpkg-deb -x {found[0]} deb")
    version = said("deb/usr/bin/phase --version")
    wants(version == said("phase --version"), version)
    for name in ("copyright", "changelog.gz", "phase.spdx.json", "PROVED"):
        wants(os.path.isfile(os.path.join(HOME, "deb/usr/share/doc/phase", name)), f"no {name}")
    if shutil.which("lintian"):
        print(said(f"lintian --fail-on error {found[0]}")[:2000])


def typed(pages, shell, page):
    """How many lines of a page were typed; what it shows is what came."""
    count = 0
    for number, paragraph, block in pages.blocks(page):
        lines, file = pages.commands(block), pages.FILE.search(paragraph)
        if file and not lines and not file[1].startswith("examples/"):
            shell.put(file[1], block)
        is_shown = any(out for _, out in lines)
        for line, out in lines:
            if any(it in line for it in ELSEWHERE):
                continue
            written, status = shell.type(line)
            same = written.rstrip("\n").split("\n") == (out or [""])
            wants(same if is_shown else status == 0, f"{number}: `{line}` wrote {written[-500:]}")
            count += 1
    return count


def readme():
    """What README shows is what comes, typed in the folder of the pages."""
    pages = project.script("pages")
    pages.TOP = PAGES
    wants(typed(pages, pages.Shell(PAGES), "README.md") > 3, "README has few lines to type")


def of_library():
    """What the pages of the library show is what comes, typed in the folder of the pages, with
    nothing set that they do not set."""
    pages = project.script("pages")
    pages.TOP = PAGES
    shell, count = pages.Shell(PAGES), 0
    for page in pages.OF_LIBRARY:
        count += typed(pages, shell, page)
    print(f"{count} lines")
    wants(count > 8, "these are too few")


def man():
    """The page of man says what the help says, each paragraph once, in 80 columns."""
    page = said("man phase | col -bx", MANPATH=os.path.join(SHARE, "man"), MANWIDTH="80")
    long = [it for it in page.splitlines() if len(it) > 80]
    wants(not long, f"past 80 columns: {long}")
    words = " ".join(page.split())
    for command in COMMANDS:
        for part in re.split(r"\n\n(?=\S)", said(f"phase help {command}").strip()):
            head, _, rest = part.partition("\n")
            listed = rest.split("\n") if head in ("Arguments:", "Options:") else ()
            for one in listed or [part.removeprefix("Usage: ")]:
                wants(" ".join(one.split()) in words, f"the page has not: {one}")
    parts = re.split(r"^(SYNOPSIS|OPTIONS|EXIT STATUS|EXAMPLES)$", page, flags=re.M)
    wants(len(parts) == 9, f"the page has {parts[1::2]}")
    told = re.split(r"\n\s*\n", "\n\n".join((parts[2], parts[6], parts[8])))
    twice = {it for it in told if told.count(it) > 1}
    wants(not twice, f"twice: {twice}")
    if shutil.which("mandoc"):
        said(f"mandoc -T lint -W warning {SHARE}/man/man1/phase.1")


def completed_by_bash(*typed):
    """What bash offers of the last of these words."""
    file = os.path.join(SHARE, "bash-completion/completions/phase")
    words = f"COMP_WORDS=(phase {' '.join(typed)}); COMP_CWORD={len(typed)}"
    last, before = typed[-1], ("phase", *typed)[-2]
    call = f"source {file}; {words}; _phase phase {last!r} {before}; echo ${{COMPREPLY[*]}}"
    return said(call).split()


def completed_by_fish(*typed):
    """What fish offers of the last of these words."""
    file = os.path.join(SHARE, "fish/vendor_completions.d/phase.fish")
    return said(f"fish -c 'source {file}; complete -C \"phase {' '.join(typed)}\"'").split()


def completed_by_zsh(*typed):
    """What zsh lists of the last of these words, at a terminal."""
    file = os.path.join(SHARE, "zsh/site-functions/_phase")
    begin = f"autoload -Uz compinit; compinit -u; source {file}; LISTMAX=0; PS1=rea''dy\n"
    process, terminal = pty.fork()
    if process == 0:
        os.chdir(HOME)
        os.execvpe("zsh", ["zsh", "-f", "-i"], {**os.environ, "TERM": "dumb", "COLUMNS": "200"})

    def told_at(text, until, times):
        """What it writes at a text, until this has come so many times."""
        os.write(terminal, text.encode())
        told, ends = "", time.monotonic() + 20
        while told.count(until) < times and time.monotonic() < ends:
            if select.select([terminal], [], [], 0.1)[0]:
                told += os.read(terminal, 65536).decode(errors="replace")
        return re.sub(r"\x1b\[[?\d;]*[A-Za-z]|\x07", "", told)

    try:
        told_at(begin, "ready", 1)
        # Behind what is listed the line is shown once more.
        line = f"phase {' '.join(typed)}"
        return told_at(f"{line}\x04", line, 2).split(line)[1].removesuffix("ready").split()
    finally:
        os.kill(process, signal.SIGKILL)
        os.waitpid(process, 0)
        os.close(terminal)


def completion():
    """What a shell completes are the commands, the words that their help has, and sinks."""
    with open(os.path.join(HOME, "of.graph"), "w", encoding="utf-8") as graph:
        graph.write("phaser x sum 4\nsource s s.csv -> x\nsink out x\n sink other x\n")
    shells = {"bash": completed_by_bash, "fish": completed_by_fish, "zsh": completed_by_zsh}
    for shell, completed in shells.items():
        if not shutil.which(shell):
            print(f"there is no {shell}")
            continue
        wants(completed("st") == ["stream"], f"{shell}: of commands")
        wants(set(completed("eval", "of.graph", "--sink", "o")) == {"out", "other"},
              f"{shell}: of sinks")
        for command in COMMANDS:
            words = completed(command, "--")
            told = said(f"phase {command} --help").partition("Example")[0]
            has = set(re.findall(r"--\w+", told)) - {"--version"}
            wants(set(words) == has, f"{shell}, {command}: {words}, and help has {sorted(has)}")


def in_c():
    """A program in C, by pkg-config, with either library, and one in C++."""
    put("sums.c", shown("c"))
    config = {"PKG_CONFIG_PATH": os.path.join(PREFIX, "lib/pkgconfig")}
    library = os.path.join(PREFIX, "lib")
    said("cc -Wall -Werror sums.c -o shared $(pkg-config --cflags --libs phase)", **config)
    wants(said("./shared", LD_LIBRARY_PATH=library) == SHOWN, "with libphase.so")
    archive = f"$(pkg-config --cflags phase) {library}/libphase.a"
    said(f"cc -Wall -Werror sums.c -o static {archive}", **config)
    wants(said("./static") == SHOWN, "with libphase.a")
    put("owner.cpp", '#include "phase.hpp"\n' + shown("c"))
    said("g++ -std=c++17 owner.cpp -o owner $(pkg-config --cflags --libs phase)", **config)
    wants(said("./owner", LD_LIBRARY_PATH=library) == SHOWN, "in C++")
    for name, given, wanted in (("fed", "2\\n4\\n6\\n", SHOWN), ("greatest", "", "phase 0: 9\n")):
        program = os.path.join(PAGES, f"examples/bindings/{name}.c")
        said(f"cc -Wall -Werror {program} -o {name} $(pkg-config --cflags --libs phase)", **config)
        wants(said(f"printf '{given}' | ./{name}", LD_LIBRARY_PATH=library) == wanted, program)
    steps = os.path.join(PAGES, "examples/threads/steps")
    said(f"cc {steps}.c -o steps -pthread $(pkg-config --cflags --libs phase)", **config)
    with open(f"{steps}.stdout", encoding="utf-8") as wanted:
        wants(said("./steps", LD_LIBRARY_PATH=library) == wanted.read(), "threads in C")


def of_processors():
    """The loader takes the library for a newer processor on one, and qemu the program on each."""
    library = os.path.join(PREFIX, "lib")
    told = said("./shared 2>&1", LD_LIBRARY_PATH=library, LD_DEBUG="libs")
    is_newer = "x86-64-v3 (supported" in said("/lib64/ld-linux-x86-64.so.2 --help")
    wants(is_newer == (f"init: {PREFIX}/{NEWER}" in told), "the loader took another library")
    for name in ("Nehalem", "Haswell") if shutil.which("qemu-x86_64") else ():
        run = f"qemu-x86_64 -cpu {name} {PREFIX}/bin/phase eval average.graph 2> /dev/null"
        got = said(run, f"{PAGES}/examples/graphs")
        wants(got == said("cat average.stdout", f"{PAGES}/examples/graphs"), name)


def in_rust():
    """A program over the crates: the library by its own folder, by pkg-config, or by a name."""
    crate = os.path.join(SHARE, "phase/rust/phase")
    put("page/Cargo.toml", '[package]\nname = "page"\nversion = "0.1.0"\nedition = "2024"\n')
    put("page/src/main.rs", shown("rust"))
    page, config = os.path.join(HOME, "page"), os.path.join(PREFIX, "lib/pkgconfig")
    said(f"cargo add --quiet --offline --path {crate}", page)
    library = os.path.join(PREFIX, "lib")
    for settings in ({}, {"PKG_CONFIG_PATH": config}, {"PHASE_LIB_DIR": library}):
        said("rm -rf target && cargo build --quiet --offline", page, **settings)
        wants("1, 3, 5" in said("target/debug/page", page), f"with {settings}")
    said("rm -rf target; cargo build --offline", page, 101, PHASE_LIB_DIR="/tmp")


def as_crates():
    """Both crates can be packed for a registry, with all licences, and their pages are made with no
    warning."""
    said(f"mkdir crates && cp -r {SHARE}/phase/rust/* crates")
    put("crates/Cargo.toml", '[workspace]\nmembers = ["phase", "phase-sys"]\nresolver = "2"\n')
    crates = os.path.join(HOME, "crates")
    said("cargo package --quiet --workspace --offline --no-verify --allow-dirty", crates)
    for crate in ("phase", "phase-sys"):
        names = said(f"tar -tzf target/package/{crate}-[0-9]*.crate", crates)
        for name in ("LICENSE-MIT", "LICENSE-APACHE", "README.md"):
            wants(f"/{name}\n" in names, f"{crate} has no {name}")
    wants("/phase.spdx.json\n" in names, f"{crate} has no phase.spdx.json")
    said("cargo doc --quiet --offline --no-deps", crates, RUSTDOCFLAGS="-D warnings")


def in_python():
    """The wheel in a new environment, with numpy and nothing else: its examples and the page's."""
    [wheel] = glob.glob("/tried/*.whl")
    said("/usr/bin/python3 -m venv --system-site-packages env")
    said(f"env/bin/pip install --no-index {wheel}")
    put("examples.py", EXAMPLES)
    said("env/bin/python examples.py")
    where = said("env/bin/python -c 'import phase; print(phase.__file__, phase.__version__)'")
    wants(where.startswith(os.path.join(HOME, "env/lib")), where)
    put("page.py", f'"""\n{shown("python")}"""\n')
    said(f"{HOME}/env/bin/python -m doctest {HOME}/page.py", PAGES)
    wants(os.path.exists(where.split()[0].replace("__init__.py", "py.typed")), "no py.typed")
    if shutil.which("twine"):
        said(f"twine check --strict {wheel}")
    print(os.path.basename(wheel))


def rows():
    """The rows of the programs' runs, by the program of the archive."""
    told = said("/tried/scripts/check/program-cases --of $(command -v phase)").splitlines()
    print(told[-1])


def begins_soon():
    """A start of the program takes less than 3 ms of processor."""
    command = [os.path.join(PREFIX, "bin/phase"), "--version"]
    before, started = resource.getrusage(resource.RUSAGE_CHILDREN), time.monotonic()
    for _ in range(100):
        subprocess.run(command, stdout=subprocess.DEVNULL, check=True)
    after = resource.getrusage(resource.RUSAGE_CHILDREN)
    took = 10 * (after.ru_utime + after.ru_stime - before.ru_utime - before.ru_stime)
    print(f"{took:.2f} ms of processor, {10 * (time.monotonic() - started):.2f} ms of the clock")
    wants(took < 3, "that is too much")


LOOKS = (
    nothing_else, unpacked, proved_tells, tells_whose, links_lead, links_little, alone, hardened,
    package, readme, of_library, man, completion, in_c, of_processors, in_rust, as_crates,
    in_python, rows, begins_soon,
)


def main():
    passed, failed = 0, 0
    for look in LOOKS:
        started = time.monotonic()
        try:
            look()
            passed += 1
            print(f"well, in {time.monotonic() - started:.0f} s: {look.__doc__}", flush=True)
        except (Wrong, subprocess.SubprocessError, OSError, IndexError) as why:
            failed += 1
            print(f"NOT SO: {look.__doc__} {why}", flush=True)
    print(f"release: {passed} looks agreed, {failed} did not")
    return 1 if failed else 0


if __name__ == "__main__":
    sys.exit(main())
