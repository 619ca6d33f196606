"""replay.py FOLDER: the scripts of the folder by a phaser of phase.py, beside the replies that are
stored there.

A line that is none of the grammar is left out, and so is one that no call of phase.py has: a second
phaser, and a number for a child that is not the next.
"""
import collections
import glob
import os
import re
import sys

import phase

OPERATIONS = {
    "sum": phase.SUM,
    "product": phase.PRODUCT,
    "least": phase.LEAST,
    "greatest": phase.GREATEST,
    "any": phase.ANY,
}
MODES = {"sig": phase.SIG, "wait": phase.WAIT, "sigwait": phase.SIG_WAIT, "single": phase.SINGLE}
SINGLES = {"neg": phase.NEG, "abs": phase.ABS, "halve": phase.HALVE}


class Script:
    """What a script has left so far: its phaser, the sends that each task holds, and the greatest
    number of a task."""

    def __init__(self):
        self.phaser, self.held, self.greatest = None, collections.defaultdict(list), 0

    def reply(self, line):
        """The reply to a line, or None where it is left out."""
        word, *words = line.split()
        if (
            word == "make"
            and self.phaser
            or word in ("add", "now")
            and int(words[1]) != self.greatest + 1
        ):
            return None
        try:
            return getattr(self, word)(*words)
        except phase.PhaserError as why:
            return "no " + re.sub("(?<=.)([A-Z])", r"-\1", type(why).__name__).lower()

    def make(self, operation, bound, phases):
        self.phaser = phase.Phaser(OPERATIONS[operation], int(bound), int(phases))
        self.none = "toobig" if operation in ("sum", "product") else "empty"
        return "ok"

    def add(self, parent, child, mode):
        self.greatest = self.phaser.register(int(parent), MODES[mode])
        return "ok"

    def now(self, parent, child):
        self.greatest, first = self.phaser.register_now(int(parent))
        return f"ok {first}"

    def send(self, task, value):
        # Sends stay here until the task signals.
        if self.phaser.view(int(task)).mode == phase.WAIT:
            raise phase.NoSignal
        self.held[task].append(int(value))
        return "ok"

    def signal(self, task, single=None, *ends):
        single = phase.Clamp(*map(int, ends)) if ends else SINGLES.get(single)
        signalled = self.phaser.signal(int(task), self.held[task], single)
        self.held.pop(task)
        return f"ok {signalled}"

    def wait(self, task):
        got = self.phaser.wait(int(task))
        if got is None:
            return "ended"
        return f"{self.none} {got.phase}" if got.value is None else f"value {got.phase} {got.value}"

    def block(self, task, *values):
        if self.held[task]:
            return "no held"
        return f"ok {self.phaser.signal_block(int(task), [int(it) for it in values])}"

    def take(self, task, places):
        got = self.phaser.wait_block(int(task), int(places))
        if got is None:
            return "ended"
        words = [self.none if it == -(2**63) else str(it) for it in got.values.tolist()]
        return " ".join(["values", str(got.phase)] + words)

    def drop(self, task):
        self.phaser.drop(int(task))
        return "ok"


def main(folder):
    told, failed = 0, 0
    has_blocks = hasattr(phase._lib, "phase_phaser_signal_block")
    for stored in sorted(glob.glob(os.path.join(folder, "*.stdout"))):
        if stored.endswith("/blocks.stdout") and not has_blocks:
            print("replay.py: SKIPPED, since the library has none: blocks of phases")
            continue
        script = Script()
        with open(stored) as replies, open(stored[: -len(".stdout")]) as lines:
            for number, (line, wanted) in enumerate(
                zip(lines.read().splitlines(), replies.read().splitlines()), 1
            ):
                answer = None if wanted == "bad line" else script.reply(line)
                if answer not in (None, wanted):
                    print(f"{stored}: line {number}: {line}: {answer}, and not {wanted}")
                    failed += 1
                told += answer == wanted
    print(f"replay.py: {told} replies as stored, {failed} others")
    return failed != 0 or told == 0


sys.exit(main(sys.argv[1]))
