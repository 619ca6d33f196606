"""What a release has in it: the folder of the archive, the archive, and the wheel.

Whatever is made twice of the same files has the same bytes: names are sorted, times are that of the
commit, owners are nobody in particular.
"""
import gzip
import hashlib
import io
import os
import re
import shutil
import subprocess
import tarfile

import licences
import project

TOP = project.TOP
BACKEND = "/usr/bin/python3"
# Where a file stands in the archive, by where it stands here; of a folder all that git keeps.
FILES = {
    "bindings/lib/libphase.a": "lib/libphase.a",
    "bindings/lib/libphase.so.0": "lib/libphase.so.0",
    "bindings/lib/glibc-hwcaps/x86-64-v3/libphase.so.0":
        "lib/glibc-hwcaps/x86-64-v3/libphase.so.0",
    "bindings/c/phase.h": "include/phase.h",
    "bindings/c/phase.hpp": "include/phase.hpp",
    "bindings/c/phase_shared.h": "include/phase_shared.h",
    "bindings/c/phase_races.h": "include/phase_races.h",
    "bindings/c/phase_wait.c": "share/phase/c/phase_wait.c",
    "scripts/lib/completion.bash": "share/bash-completion/completions/phase",
    "scripts/lib/completion.fish": "share/fish/vendor_completions.d/phase.fish",
    "scripts/lib/completion.zsh": "share/zsh/site-functions/_phase",
    "bindings/c/eval.c": "share/doc/phase/examples/bindings/eval.c",
    "bindings/python/eval.py": "share/doc/phase/examples/bindings/eval.py",
    "bindings/rust/phase-sys": "share/phase/rust/phase-sys",
    "bindings/rust/phase": "share/phase/rust/phase",
    "LICENSE-MIT": "share/doc/phase/LICENSE-MIT",
    "LICENSE-APACHE": "share/doc/phase/LICENSE-APACHE",
    "README.md": "share/doc/phase/README.md",
    "CHANGELOG.md": "share/doc/phase/CHANGELOG.md",
    "CONTRIBUTING.md": "share/doc/phase/CONTRIBUTING.md",
    "docs": "share/doc/phase/docs",
    "scripts/bench/MEASURED.md": "share/doc/phase/docs/MEASURED.md",
    "examples": "share/doc/phase/examples",
}
# Names of other files, by where they stand.
LINKS = {
    "lib/libphase.so": "libphase.so.0",
    # So that what README shows can be typed in that folder.
    "share/doc/phase/phase": "../../../bin/phase",
}
# The library that stands with the crate, too.
PACKED = "share/phase/rust/phase-sys/lib/libphase.a"
# Where the program has its version.
HELP = "crates/phase_words/src/help.rt"
# The licences of ours, and the crates that have them, too.
LICENSES, CRATES = ("LICENSE-MIT", "LICENSE-APACHE"), ("phase", "phase-sys")
# What the program and the libraries are made of, and the folders that tell whose work they have.
MADE = ("phase", "phase_c", "phase_handle", "shared_handle", "stream_handle")
TELL_WHOSE = ("share/doc/phase", "share/phase/rust/phase-sys")


def git(*words):
    return subprocess.check_output(["git", "-C", TOP, *words], text=True).strip()


def version():
    """The version: that of the newest head of CHANGELOG.md."""
    return re.search(r"^## (\d+\.\d+\.\d+)", project.text_of("CHANGELOG.md"), re.M)[1]


def address():
    """Where the commit can be had, if the clone came from somewhere that others reach."""
    remotes = git("remote").split()
    found = git("remote", "get-url", "origin") if "origin" in remotes else ""
    return found if re.match("https?://", found) else ""


def other_versions():
    """The files that name another version."""
    for file in (
        "bindings/python/pyproject.toml",
        "bindings/rust/phase/Cargo.toml",
        "bindings/rust/phase-sys/Cargo.toml",
    ):
        if f'\nversion = "{version()}"\n' not in project.text_of(file):
            yield file
    if f'VERSION: &str = "{version()}";' not in project.text_of(HELP):
        yield HELP


def put(data, path, mode=0o644):
    os.makedirs(os.path.dirname(path), exist_ok=True)
    with open(path, "wb") as file:
        file.write(data)
    os.chmod(path, mode)


def bytes_of(path):
    with open(path, "rb") as file:
        return file.read()


def places():
    """Where each file of the repository stands in the archive, by its name here."""
    found = {}
    for here, there in FILES.items():
        is_file = os.path.isfile(os.path.join(TOP, here))
        for name in [here] if is_file else git("ls-files", here).split("\n"):
            # The tests of a crate want the repository.
            if "/tests/" not in name:
                found[name] = there + name[len(here) :]
    return found


def linked(text, name, found):
    """The text of a page, by its name here, as it stands in the archive: a link leads to where its
    file or folder stands there; of what is not there the words are left."""
    folders = {here: there for here, there in FILES.items() if here not in found}

    def link(match):
        words, to, part = match.groups()
        if "://" in to or not to:
            return match[0]
        here = os.path.normpath(os.path.join(os.path.dirname(name), to))
        there = {**found, **folders}.get(here)
        if there is None:
            return words
        to = os.path.relpath(there, os.path.dirname(found[name]))
        return f"[{words}]({to}{part or ''})"

    return re.sub(r"\[([^][]*)\]\(([^()#\s]*)(#[^()\s]*)?\)", link, text)


def lay_files(folder):
    """Puts what stands in files into the folder of the archive."""
    found = places()
    for name, there in found.items():
        data = bytes_of(os.path.join(TOP, name))
        if name.endswith(".md"):
            data = linked(data.decode(), name, found).encode()
        put(data, os.path.join(folder, there))
    for name in LICENSES:
        for crate in CRATES:
            to = os.path.join(folder, "share/phase/rust", crate, name)
            put(bytes_of(os.path.join(TOP, name)), to)
    os.makedirs(os.path.dirname(os.path.join(folder, PACKED)))
    os.link(os.path.join(folder, "lib/libphase.a"), os.path.join(folder, PACKED))
    for name, to in LINKS.items():
        os.symlink(to, os.path.join(folder, name))


def lay_made(folder, epoch):
    """Puts what is made of the program, of the version and of the kit into the folder of the
    archive."""
    for name, text in licences.gathered(MADE, version(), epoch).items():
        for place in TELL_WHOSE:
            put(text, os.path.join(folder, place, name))
    program = os.path.join(folder, "bin/phase")
    put(bytes_of(f'{project.built("phase")}.newer'), program, 0o755)
    subprocess.run(["strip", program], check=True)
    page = [os.path.join(TOP, "scripts/lib/man-page"), program, str(epoch)]
    put(subprocess.check_output(page), os.path.join(folder, "share/man/man1/phase.1"))
    words = project.text_of("scripts/lib/phase.pc").replace("VERSION", version())
    if address():
        words = words.replace("License:", f"URL: {address()}\nLicense:")
    put(words.encode(), os.path.join(folder, "lib/pkgconfig/phase.pc"))


def files_below(folder):
    """The names of all files below a folder, sorted."""
    found = []
    for at, _, names in os.walk(folder):
        found += [os.path.relpath(os.path.join(at, name), folder) for name in names]
    return sorted(found)


def sums_of(folder, names):
    """A line for each of these files, as `sha256sum` writes it."""
    for name in names:
        if not os.path.islink(os.path.join(folder, name)):
            yield f"{hashlib.sha256(bytes_of(os.path.join(folder, name))).hexdigest()}  {name}\n"


def pack(folder, archive, epoch):
    """Makes the archive of a folder, with one name for the files that are one."""
    whole, known = io.BytesIO(), {}
    root = os.path.basename(folder)
    with tarfile.open(fileobj=whole, mode="w", format=tarfile.USTAR_FORMAT) as tar:
        for name in files_below(folder):
            path = os.path.join(folder, name)
            entry = tarfile.TarInfo(f"{root}/{name}")
            entry.mtime, entry.uname, entry.gname = epoch, "root", "root"
            found = os.lstat(path)
            entry.mode = found.st_mode & 0o777
            if os.path.islink(path):
                entry.type, entry.linkname, entry.mode = tarfile.SYMTYPE, os.readlink(path), 0o777
            elif found.st_ino in known:
                entry.type, entry.linkname = tarfile.LNKTYPE, known[found.st_ino]
            else:
                known[found.st_ino], entry.size = entry.name, found.st_size
            tar.addfile(entry, io.BytesIO(bytes_of(path)) if entry.isreg() else None)
    with open(archive, "wb") as file:
        with gzip.GzipFile("", "wb", 9, file, mtime=0) as out:
            out.write(whole.getvalue())


def lowest_glibc(file):
    """The lowest version of glibc that has all that a file asks of it."""
    said = subprocess.check_output(["objdump", "-T", file], text=True)
    return max((tuple(map(int, it.split("."))) for it in re.findall(r"GLIBC_([\d.]+)", said)))


def make_wheel(folder, work, epoch):
    """Makes the wheel, of the files of Python and libphase.so, and answers its name."""
    library = os.path.join(TOP, "bindings/lib/libphase.so.0")
    newer = os.path.join(TOP, "bindings/lib/glibc-hwcaps/x86-64-v3/libphase.so.0")
    source = os.path.join(work, "wheel")
    for name in git("ls-files", "bindings/python").split("\n"):
        put(bytes_of(os.path.join(TOP, name)), os.path.join(source, name.split("/", 2)[2]))
    for name in LICENSES:
        put(bytes_of(os.path.join(TOP, name)), os.path.join(source, name))
    for name, text in licences.gathered(MADE, version(), epoch).items():
        put(text, os.path.join(source, "phase", name))
    put(bytes_of(library), os.path.join(source, "phase/libphase.so"), 0o755)
    put(bytes_of(newer), os.path.join(source, "phase/libphase-newer.so"), 0o755)
    platform = "manylinux_%d_%d_x86_64" % lowest_glibc(library)
    options = {"--build-option": [f"--plat-name={platform}"]}
    call = f"from setuptools import build_meta; build_meta.build_wheel('made', {options})"
    said = subprocess.run(
        [BACKEND, "-c", call], cwd=source, stdin=subprocess.DEVNULL, stdout=subprocess.PIPE,
        stderr=subprocess.STDOUT, text=True, check=False, umask=0o022,
        env={**os.environ, "SOURCE_DATE_EPOCH": str(epoch), "PYTHONDONTWRITEBYTECODE": "1"},
    )
    if said.returncode:
        raise OSError(f"no wheel was made:\n{said.stdout}")
    [name] = [it for it in os.listdir(os.path.join(source, "made")) if it.endswith(".whl")]
    shutil.copyfile(os.path.join(source, "made", name), os.path.join(folder, name))
    return name


def paths_inside(folder, paths):
    """The files in which one of these paths stands."""
    for name in files_below(folder):
        path = os.path.join(folder, name)
        if not os.path.islink(path) and any(it.encode() in bytes_of(path) for it in paths):
            yield name
