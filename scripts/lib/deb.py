"""The package of a release for Debian: what the archive has, where Debian has it."""
import gzip
import os
import shutil
import subprocess
import time

import archive

NAME = "phase"
MAINTAINER = "Reedhessian maintainers <maintainers@users.noreply.reedhessian.example>"
LIBRARIES = "usr/lib/x86_64-linux-gnu"
PAGES = f"usr/share/doc/{NAME}"
CONTROL = """\
Package: {name}
Version: {version}
Architecture: amd64
Maintainer: {maintainer}
Installed-Size: {size}
Depends: libc6 (>= {glibc})
Section: math
Priority: optional
Description: phasers, and graphs of whole-number filters over phasers
 The program phase replays scripts of calls on a phaser, and checks, draws,
 evaluates, runs and streams graphs of filters, exactly. The library libphase
 does so over arrays, and has phasers for one thread and between threads, for
 C, C++ and Rust.
"""
CHANGES = """\
{name} ({version}) unstable; urgency=medium

  * As CHANGELOG.md tells.

 -- {maintainer}  {day}
"""
COPYRIGHT = """\
Format: https://www.debian.org/doc/packaging-manuals/copyright-format/1.0/
Upstream-Name: {name}

Files: *
Copyright: 2026 the authors of Reedhessian
License: MIT or Apache-2.0
 LICENSE-MIT in this folder has the one, and
 /usr/share/common-licenses/Apache-2.0 the other.
Comment:
 The program and the library contain the work of others: phase.spdx.json lists
 it, and the folder licences has its licences.
"""


def lay(root, folder):
    """Puts what the archive has, in its folder, where a system of Debian has it."""
    for name in ("bin", "include", "share"):
        shutil.copytree(os.path.join(root, name), os.path.join(folder, "usr", name), symlinks=True)
    libraries = os.path.join(folder, LIBRARIES)
    shutil.copytree(os.path.join(root, "lib"), libraries, symlinks=True)
    shutil.copy(os.path.join(root, "PROVED"), os.path.join(folder, PAGES))
    # The library of the crate is that of the system.
    shutil.rmtree(os.path.dirname(os.path.join(folder, "usr", archive.PACKED)))
    config = os.path.join(libraries, "pkgconfig/phase.pc")
    words = archive.bytes_of(config).decode().replace("${pcfiledir}/../..", "/usr")
    words = words.replace("${prefix}/lib", f"/{LIBRARIES}")
    archive.put(words.encode(), config)


def packed(text):
    return gzip.compress(text, 9, mtime=0)


def make(root, folder, work, epoch):
    """Makes the package of the archive's folder, and answers its name."""
    tree, version = os.path.join(work, "deb"), archive.version()
    lay(root, tree)
    named = {"name": NAME, "version": version, "maintainer": MAINTAINER}
    day = time.strftime("%a, %d %b %Y %H:%M:%S +0000", time.gmtime(epoch))
    pages = os.path.join(tree, PAGES)
    archive.put(packed(CHANGES.format(day=day, **named).encode()), f"{pages}/changelog.gz")
    archive.put(COPYRIGHT.format(**named).encode(), f"{pages}/copyright")
    manual = os.path.join(tree, "usr/share/man/man1/phase.1")
    archive.put(packed(archive.bytes_of(manual)), f"{manual}.gz")
    os.remove(manual)
    names = archive.files_below(tree)
    size = sum(os.lstat(os.path.join(tree, name)).st_size for name in names)
    built = ("usr/bin/phase", f"{LIBRARIES}/libphase.so.0")
    lowest = max(archive.lowest_glibc(os.path.join(tree, it)) for it in built)
    control = CONTROL.format(size=size // 1024, glibc="%d.%d" % lowest, **named)
    for name, text in (
        ("control", control),
        ("shlibs", f"libphase 0 {NAME} (>= {version})\n"),
        ("triggers", "activate-noawait ldconfig\n"),
    ):
        archive.put(text.encode(), os.path.join(tree, "DEBIAN", name))
    for at, folders, _ in os.walk(tree):
        for name in folders:
            os.chmod(os.path.join(at, name), 0o755)
    made = f"{NAME}_{version}_amd64.deb"
    subprocess.run(
        ["dpkg-deb", "--root-owner-group", "--build", tree, os.path.join(folder, made)],
        check=True, stdout=subprocess.DEVNULL,
        env={**os.environ, "SOURCE_DATE_EPOCH": str(epoch)},
    )
    return made
