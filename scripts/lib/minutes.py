"""What the processor minutes of the gate go into, as it runs, and what was kept of that."""
import collections
import json
import os
import subprocess
import time

import project

TICKS = os.sysconf("SC_CLK_TCK")
KINDS = ("crates", "tests", "seeds", "wrong bodies", "libraries")
# The processor seconds that were seen last here, of each crate by kind.
KEPT = os.path.join(project.TOP, "out", "minutes")


def processes():
    """Each process with its parent, the time when it began, and its processor seconds."""
    found = {}
    for name in filter(str.isdigit, os.listdir("/proc")):
        try:
            with open(f"/proc/{name}/stat") as it:
                fields = it.read().rpartition(")")[2].split()
        except OSError:
            continue
        found[int(name)] = (int(fields[1]), fields[19], (int(fields[11]) + int(fields[12])) / TICKS)
    return found


def below(top, found):
    """The processes that stand below that one."""
    children = collections.defaultdict(list)
    for one, (parent, _, _) in found.items():
        children[parent].append(one)
    left, seen = [top], []
    while left:
        seen += children[left[-1]]
        left += children[left.pop()]
    return seen


def kind_of(one):
    """What a process is for, with its crate, or None if it proves none."""
    with open(f"/proc/{one}/cmdline") as it:
        words = it.read().split("\0")
    if "--crate-name" not in words:
        return None
    crate = words[words.index("--crate-name") + 1]
    over = words[words.index("--incremental") + 1] if "--incremental" in words else ""
    # A wrong body is tried in a copy of its crate.
    if "/rt-edit-" in os.readlink(f"/proc/{one}/cwd"):
        return ("seeds" if os.path.basename(over) == "seed" else "wrong bodies"), crate
    if "--test" in words:
        return "tests", crate
    return ("libraries" if "staticlib" in words and over else "crates"), crate


def watch(run):
    """The processor seconds of each kind and crate until that process has ended: each half second
    it is seen how far the processes below it are, so that a quarter of a second of each is lost."""
    kinds, seconds = {}, {}
    while run.poll() is None:
        found = processes()
        for one in below(run.pid, found):
            _, begun, used = found[one]
            if (one, begun) not in kinds:
                try:
                    kinds[one, begun] = kind_of(one)
                except OSError:
                    continue
            seconds[one, begun] = used
        time.sleep(0.5)
    sums = collections.Counter()
    for one, used in seconds.items():
        if kinds.get(one):
            sums[kinds[one]] += used
    return sums


def kept():
    """The processor seconds by crate and kind."""
    try:
        with open(KEPT, encoding="utf-8") as it:
            return json.load(it)
    except (OSError, ValueError):
        return {}


def keep(sums):
    """Keeps what was seen, of each crate in place of what was kept of the same kind."""
    rows = kept()
    for (kind, crate), seconds in sums.items():
        rows.setdefault(crate, {})[kind] = round(seconds, 1)
    os.makedirs(os.path.dirname(KEPT), exist_ok=True)
    with open(f"{KEPT}.new", "w", encoding="utf-8") as it:
        json.dump(rows, it, indent=1, sort_keys=True)
    os.replace(f"{KEPT}.new", KEPT)


def run(command, **how):
    """Runs a command, and gives its status, with what it was seen to take, which is kept."""
    with subprocess.Popen(command, **how) as it:
        sums = watch(it)
    keep(sums)
    return it.returncode, sums
