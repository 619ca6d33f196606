"""The runs of scripts/check/cases: their words and files, and what was worked out of each by
hand."""
import collections
import itertools
import os
from pathlib import Path

import project

CASES = os.path.join(project.TOP, "scripts", "check", "cases")

# A run: its words and files, a script or None, what it ends with, which of its streams fail, and
# how many bytes of the script a read gets, where it does not get all. What is wanted of a stream is
# a text, some that stand in it, as `Has`, any of some, as `OneOf`, or the form of all of it, a
# regular expression, as `Like`.
Run = collections.namedtuple(
    "Run", "name words files script status output faults fails size", defaults=[(), None]
)
Has = collections.namedtuple("Has", "texts")
OneOf = collections.namedtuple("OneOf", "texts")
Like = collections.namedtuple("Like", "form")


def tables(name):
    """The tables of a file of scripts/check/cases, each with its name, a text from its lines with
    `in`, and its rows."""
    found = []
    with open(os.path.join(CASES, name), encoding="utf-8") as it:
        for text in it.read().splitlines():
            if text.startswith("= "):
                found.append((text[2:], [], []))
            elif text.startswith("in "):
                found[-1][1].append(text[3:])
            elif text and not text.startswith("#"):
                found[-1][2].append(tuple(text.rsplit(" | ", 1)))
    return [(name, "".join(around), rows) for name, around, rows in found]


def helps():
    """Each command of scripts/check/cases/help, with the whole text of its help."""
    with open(os.path.join(CASES, "help"), encoding="utf-8") as it:
        for part in it.read().split("\n= ")[1:]:
            command, text = part.rstrip("\n").split("\n", 1)
            yield command, text + "\n"


def unescaped(text):
    return text.encode().decode("unicode_escape")


def text_of(line):
    """What a line says behind its first character: a text with a line end, or without."""
    return unescaped(line[3:]) if line[1:2] == "-" else unescaped(line[2:]) + "\n"


def parts_of(file):
    """What stands behind each `= ` of a file."""
    with open(file, encoding="utf-8") as it:
        return it.read().split("\n= ")[1:]


# What the lines of a run say: other words with the same end, its files, what stands on standard
# input, the status, both streams, and those that cannot be written.
Said = collections.namedtuple("Said", "words files script status output faults fails")


def choices(words):
    """The words, with each of those that stand in braces in turn."""
    before, brace, behind = words.partition("{")
    if not brace:
        return [words]
    within, _, rest = behind.partition("}")
    return [before + one + rest for one in within.split(",")]


def runs_of(file):
    """The runs of a file in the form of scripts/check/cases/runs/values."""
    for part in parts_of(file):
        first, *runs = part.split("\n$")
        name, around = first.partition("\n")[::2]
        common = said_by(around).files
        for run in runs:
            words, behind = run.partition("\n")[::2]
            said = said_by(behind)
            for one in itertools.chain(*map(choices, [words, *said.words])):
                files = {**common, **said.files}
                yield Run(name, unescaped(one.strip()), files, *said[2:])


def stored_runs():
    """The runs of the files of scripts/check/cases/runs."""
    for file in sorted(os.listdir(os.path.join(CASES, "runs"))):
        yield from runs_of(os.path.join(CASES, "runs", file))


def openings():
    """The runs of scripts/check/cases/opened, of each of which the output stands for the names of
    files."""
    return runs_of(os.path.join(CASES, "opened"))


def said_by(text):
    """What these lines say."""
    words, files, script, status, fails, said = [], {}, None, 0, [], {">": "", "!": ""}
    for line in text.splitlines():
        mark, rest = line[:1], unescaped(line[3:])
        if line.startswith("@ "):
            name = unescaped(line[2:])
            files[name] = ""
        elif line.startswith("<@"):
            script = files[rest]
        elif line[1:2] == "~":
            said[mark] = Has([*(said[mark].texts if said[mark] else []), rest])
        elif mark == "&":
            words.append(line[1:])
        elif mark == "|":
            files[name] += text_of(line)
        elif mark == "<":
            script = (script or "") + text_of(line)
        elif mark == "?":
            status = int(line[2:])
        elif mark == "%":
            fails.append(line[2:])
        elif line:
            said[mark] += text_of(line)
    return Said(words, files, script, status, said[">"], said["!"], fails)


def marks():
    """The tables of the files of scripts/check/cases/marks, each with its name and its rows: a
    graph, its fault, the line at fault and the mark under it, and what was expected there."""
    found = []
    for path in sorted(Path(CASES, "marks").iterdir()):
        lines = iter(path.read_text(encoding="utf-8").split("\n"))
        for text in lines:
            if text.startswith("= "):
                found.append((text[2:], []))
            elif text and not text.startswith("#"):
                graph = ""
                while text.startswith("|"):
                    graph += text[3:] if text.startswith("|-") else text[2:] + "\n"
                    text = next(lines)
                row = graph, text, next(lines)[2:], next(lines)[2:], next(lines)
                found[-1][1].append(tuple(map(unescaped, row)))
    return found
