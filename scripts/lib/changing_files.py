"""Cases of files that change while the built programs read them, of devices, and of pipes with
names."""
import itertools
import os
import threading

from long_runs import (
    LONG_GRAPH, LONG_REPLIES, LONG_SAMPLES, LONG_SCRIPT, MANY, long_files, long_output,
)
from rooms import READ_FAULT, wants

def fed(room, name, chunks, before_end=None):
    """A thread that writes to a pipe with a name, and does something before its end."""

    def feed():
        with open(room.path(name), "wb", buffering=0) as pipe:
            for chunk in chunks:
                pipe.write(chunk)
            if before_end:
                before_end()

    os.mkfifo(room.path(name))
    made = threading.Thread(target=feed)
    made.start()
    return made


def goes_away(room):
    os.remove(room.path("s.csv"))


def becomes_a_folder(room):
    goes_away(room)
    os.mkdir(room.path("s.csv"))


NO_FILE = (5, "", "phase: read fault\n")

# How the samples 1 and 2 change, what comes of it, and what explains it.
CHANGES = [
    (goes_away, NO_FILE, "  s.csv: there is no such file\n"),
    (becomes_a_folder, NO_FILE, "  s.csv: it is a folder\n"),
    (lambda room: room.put("s.csv", "1\n2\n-"), (1, "", "phase: samples of s: record 3\n"), None),
    (lambda room: room.put("s.csv", ""), (0, "out 0\n", ""), ""),
    (lambda room: room.put("s.csv", "1\n2\n3\n4\n"), (0, "out 4\n1\n2\n3\n4\n", ""), ""),
]

ONE_SOURCE = "phaser X sum 2\nsource s s.csv -> X\nsink out X\n"


def changes_between(room):
    """The graph comes through a pipe with a name, and its samples change before it ends."""
    for verb in "check", "eval", "run":
        for change, wanted, explained in CHANGES:
            room.begin({"s.csv": "1\n2\n"})
            text = ONE_SOURCE.encode()
            feeder = fed(room, "g", [text[:9], text[9:]], lambda: change(room))
            [command] = room.commands(f"{verb} g" + ("" if explained is None else " --explain"))
            ended = room.run(command)
            feeder.join()
            status, output, faults = wanted
            if verb == "check" and status == 0:
                is_noted = explained is not None and output == "out 0\n"
                output = "ok phasers 1 tasks 2\n" + "  out: it takes no value\n" * is_noted
            wants(
                ended == (status, output.encode(), (faults + (explained or "")).encode()), verb,
                wanted, ended,
            )


def changes_of_the_second(room):
    """The first source's samples come through a pipe, and those of the second change before they
    end."""
    for verb in "eval", "run":
        text = "phaser X sum 2\nsource a a.csv -> X\nsource b b.csv -> X\nsink out X\n"
        room.begin({"g": text, "b.csv": "x\n"})
        feeder = fed(
            room, "a.csv", [b"1", b"\n2", b"\n"], lambda: room.put("b.csv", "10\n20\n30\n")
        )
        [command] = room.commands(f"{verb} g")
        ended = room.run(command)
        feeder.join()
        wants(ended == (0, b"out 3\n11\n22\n30\n", b""), verb, ended)


def changes_while_read(room):
    """Samples that lose all bytes while they are read are a beginning of themselves; what grows
    with each read is too long."""
    for verb in "eval", "run":
        room.begin(long_files())
        [command] = room.commands(f"{verb} g")
        counts = set()
        for at in itertools.count(1):
            room.put("s.csv", LONG_SAMPLES)
            ended, reads = room.counted(
                command, room.fails, CALL="read", HOW="shrinks", AT=at, CHANGED="s.csv"
            )
            status, output, faults = ended
            count = int(output.split()[1]) if output else -1
            wants(
                (status, faults) == (0, b"") and output == long_output(count), verb, at, status,
                count, faults,
            )
            counts.add(count)
            if at > reads:
                break
        wants({0, MANY} < counts, verb, counts)
    for grows, words in (
        ("g", "check g"), ("g", "draw g"), ("s.csv", "check g"), ("s.csv", "eval g"),
        ("s.csv", "run g"),
    ):
        room.begin({"g": ONE_SOURCE, "s.csv": "1\n2\n"})
        [command] = room.commands(words + ("" if "draw" in words else " --explain"))
        ended, _ = room.counted(command, room.fails, CALL="read", HOW="grows", AT=0, CHANGED=grows)
        limit = 1048576 if grows == "g" else 67108864
        tip = b"" if grows == "g" else b": `phase stream` has no such limit"
        more = b"  %s: it has more than %d bytes%s\n" % (grows.encode(), limit, tip)
        more = b"" if "draw" in words else more
        wants(ended == (5, b"", READ_FAULT + more), words, grows, ended)


def devices_as_files(room):
    """Devices in the place of files: no bytes, and zero bytes without an end."""
    for verb in "check", "eval", "run":
        room.begin(
            {
                "g": ONE_SOURCE.replace("s.csv", "/dev/null"),
                "h": ONE_SOURCE.replace("s.csv", "/dev/zero"),
            }
        )
        empty = (0, b"ok phasers 1 tasks 2\n" if verb == "check" else b"out 0\n", b"")
        for name, wanted in ("g", empty), ("h", (5, b"", READ_FAULT)):
            [command] = room.commands(f"{verb} {name}")
            ended = room.run(command)
            wants(ended == wanted, command, ended)
        [command] = room.commands(f"{verb} h --explain")
        status, output, faults = room.run(command)
        wants(
            (status, output) == (5, b"") and faults.startswith(READ_FAULT + b"  /dev/zero: "),
            command, status, faults,
        )
        [command] = room.commands(f"{verb} /dev/zero")
        ended = room.run(command)
        wants(ended == (5, b"", READ_FAULT), command, ended)
        [command] = room.commands(f"{verb} /dev/null")
        ended = room.run(command)
        wants(
            ended == (0, b"ok phasers 0 tasks 0\n" if verb == "check" else b"", b""), command, ended
        )


def pipes_with_names(room):
    """A script, a graph and samples through pipes with names, in pieces."""
    room.begin({})
    feeder = fed(
        room, "script", [LONG_SCRIPT[at : at + 9999] for at in range(0, len(LONG_SCRIPT), 9999)]
    )
    [_, command] = room.commands("replay")
    with open(room.path("script"), "rb") as stdin:
        ended = room.run(command, stdin=stdin)
    feeder.join()
    wants(ended == (0, b"".join(LONG_REPLIES), b""), "a script", ended[::2])
    for verb in "eval", "run":
        room.begin({})
        text = LONG_SAMPLES.encode()
        feeders = [
            fed(room, "g", [bytes([byte]) for byte in LONG_GRAPH.encode()]),
            fed(room, "s.csv", [text[at : at + 1001] for at in range(0, len(text), 1001)]),
        ]
        [command] = room.commands(f"{verb} g")
        ended = room.run(command)
        for feeder in feeders:
            feeder.join()
        wants(ended == (0, long_output(), b""), verb, ended[::2])
