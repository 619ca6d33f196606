"""Whose work a release has in it beside ours, and under which licences: the crates of the kit that
the program and the libraries are made of."""
import hashlib
import json
import os
import re
import shutil
import time

import project

# The crates of the kit that are ports of others' work: of what, in which version, and under which
# licences, as their pages say.
PORTS = {
    "arrayvec": ("arrayvec", "0.7.8", "MIT OR Apache-2.0"),
    "circular_buffer": ("circular-buffer", "2.0.1", "BSD-3-Clause"),
    "clap": ("clap_builder", "4.6.7", "MIT OR Apache-2.0"),
    "crossbeam_utils": ("crossbeam-utils", "0.8.23", "MIT OR Apache-2.0"),
    "csv": ("csv", "1.4.0", "Unlicense OR MIT"),
    "fast_float": ("fast-float2", "0.2.4", "MIT OR Apache-2.0"),
    "indexmap": ("indexmap", "2.14.2", "Apache-2.0 OR MIT"),
    "itoa": ("itoa", "1.0.18", "MIT OR Apache-2.0"),
    "memchr": ("memchr", "2.8.3", "Unlicense OR MIT"),
    "ryu": ("ryu", "1.0.23", "Apache-2.0 OR BSL-1.0"),
    "serde": ("serde", "1.0.229", "MIT OR Apache-2.0"),
    "smallvec": ("smallvec", "1.16.4", "MIT OR Apache-2.0"),
    "strsim": ("strsim", "0.11.1", "MIT"),
    "thiserror": ("thiserror", "2.0.21", "MIT OR Apache-2.0"),
}
# The kit's own crates, which come with no licence of their own.
OF_KIT = {
    "atomic_table", "core", "io", "libc", "os", "std", "std_alloc", "std_collections", "std_heap",
    "std_io",
}
# Where they stand in an archive, and the page that lists them.
FOLDER, PAGE = "licences", "phase.spdx.json"


class Unknown(Exception):
    """A crate of the kit of which nobody wrote down whose it is, or a licence that is gone."""


def kit():
    """The folder of the kit."""
    return os.path.dirname(os.path.dirname(os.path.realpath(shutil.which("rattle"))))


def below(names):
    """The crates of the kit that these crates of ours stand on, sorted."""
    ours = project.crates()
    left = {it for name in project.below(names) for it in ours[name] if it not in ours}
    found = set()
    while left:
        name = left.pop()
        found.add(name)
        with open(os.path.join(kit(), "rlibs", f"{name}.rlib", "format"), encoding="utf-8") as it:
            left |= set(re.findall(r"^dep (\S+)", it.read(), re.M)) - found
    unknown = found - PORTS.keys() - OF_KIT
    if unknown:
        raise Unknown(f"whose work is {', '.join(sorted(unknown))}? {__file__} lists the others")
    return sorted(found)


def files_of(crate):
    """The licences that a crate of the kit comes with: their names, and what they say."""
    folder = os.path.join(kit(), "rattle", crate)
    for name in sorted(os.listdir(folder)):
        if name.startswith(("LICENSE", "COPYING", "NOTICE", "UNLICENSE")):
            with open(os.path.join(folder, name), "rb") as it:
                yield name, it.read()


def sum_of(crate):
    """One sum of the sources of a crate of the kit."""
    top, one = os.path.join(kit(), "rattle", crate), hashlib.sha256()
    for place, folders, files in os.walk(os.path.join(top, "src")):
        folders.sort()
        for name in sorted(files):
            path = os.path.join(place, name)
            with open(path, "rb") as it:
                its = hashlib.sha256(it.read()).hexdigest()
            one.update(f"{os.path.relpath(path, top)} {its}\n".encode())
    return one.hexdigest()


def package(crate, licences):
    """A crate of the kit, as SPDX tells of it."""
    name, version, licence = PORTS.get(crate, (crate, "NOASSERTION", "NOASSERTION"))
    return {
        "SPDXID": f"SPDXRef-{crate.replace('_', '-')}",
        "name": name,
        "versionInfo": version,
        "downloadLocation": "NOASSERTION",
        "filesAnalyzed": False,
        "licenseConcluded": "NOASSERTION",
        "licenseDeclared": licence,
        "copyrightText": "NOASSERTION",
        "comment": f"as the crate {crate} of the toolchain's kit has it; the checksum is of its "
        "sources there",
        "attributionTexts": [f"{FOLDER}/{crate}/{it}" for it in licences],
        "checksums": [{"algorithm": "SHA256", "checksumValue": sum_of(crate)}],
    }


def gathered(names, version, epoch):
    """What an archive has of licences: each file, by its name below the folder of its pages."""
    found, packages = {}, []
    for crate in below(names):
        licences = dict(files_of(crate))
        if crate in PORTS and not licences:
            raise Unknown(f"the kit has no licence of {crate}")
        found.update({f"{FOLDER}/{crate}/{name}": text for name, text in licences.items()})
        packages.append(package(crate, licences))
    own = {
        "SPDXID": "SPDXRef-phase", "name": "phase", "versionInfo": version,
        "downloadLocation": "NOASSERTION", "filesAnalyzed": False,
        "licenseConcluded": "MIT OR Apache-2.0", "licenseDeclared": "MIT OR Apache-2.0",
        "copyrightText": "NOASSERTION",
    }
    page = {
        "spdxVersion": "SPDX-2.3",
        "dataLicense": "CC0-1.0",
        "SPDXID": "SPDXRef-DOCUMENT",
        "name": f"phase-{version}",
        "documentNamespace": f"https://spdx.org/spdxdocs/phase-{version}-{epoch}",
        "creationInfo": {
            "created": time.strftime("%Y-%m-%dT%H:%M:%SZ", time.gmtime(epoch)),
            "creators": ["Tool: scripts/release"],
        },
        "packages": [own, *packages],
        "relationships": [
            {"spdxElementId": "SPDXRef-DOCUMENT", "relationshipType": "DESCRIBES",
             "relatedSpdxElement": "SPDXRef-phase"},
            *({"spdxElementId": "SPDXRef-phase", "relationshipType": "CONTAINS",
               "relatedSpdxElement": it["SPDXID"]} for it in packages),
        ],
    }
    found[PAGE] = (json.dumps(page, indent=1) + "\n").encode()
    return found


def lacks(folder):
    """What the pages of an archive, in this folder, lack of the licences that they have to have."""
    try:
        with open(os.path.join(folder, PAGE), encoding="utf-8") as it:
            packages = json.load(it)["packages"]
    except (OSError, ValueError, KeyError):
        yield PAGE
        return
    told = {it["name"]: it for it in packages}
    for crate, (name, version, licence) in PORTS.items():
        it = told.get(name, {})
        if (it.get("versionInfo"), it.get("licenseDeclared")) != (version, licence):
            yield f"{name} in {PAGE}"
            continue
        for file in it["attributionTexts"] or [f"{FOLDER}/{crate}"]:
            path = os.path.join(folder, file)
            if not os.path.isfile(path) or not os.path.getsize(path):
                yield file
