"""The tables of wrong bodies, crates/NAME/must-fail/rounds.md and the like."""
import os
import re


def bodies(path):
    """The wrong bodies of a table, none where there is no such file: each has a name, the words
    below it, and its lines `breaks: `, `file: `, `old: ` and `new: `."""
    if not os.path.exists(path):
        return
    with open(path, encoding="utf-8") as text:
        parts = re.split(r"^## ", text.read(), flags=re.M)[1:]
    for part in parts:
        name, _, rest = part.partition("\n")
        head, *blocks = rest.split("```\n")
        yield name.strip(), head.strip(), "".join(blocks[:1])
