"""Graphs at random, how programs end on them, and what is wrong with how a run ended."""
import os
import random
import subprocess

import project
import simulation

MOST = 9223372036854775807


class Maker:
    """A graph at random: its lines, and the samples of its files."""

    def __init__(self, seed, with_children):
        self.random, self.phasers, self.tasks, self.files = random.Random(seed), [], [], {}
        self.singles, self.bounds = set(), []
        self.version = self.random.choice([1, 2, 3, 3]) if with_children else 1
        for _ in range(self.random.randint(1, 3)):
            self.sources(self.phaser())
        for _ in range(self.random.randint(0, 4)):
            self.random.choice([self.filter, self.filter, self.splitter, self.joiner, self.peers])()
            if self.version == 3 and self.random.random() < 0.5:
                self.random.choice([self.delay, self.decimator])()
        self.sinks()
        self.random.shuffle(self.tasks)
        if with_children:
            for _ in range(self.random.choice([0, 0, 1, 2, 3])):
                self.child()

    def phaser(self, single=""):
        roll = self.random
        operation = roll.choice(
            ["sum"] * 5 + ["least", "greatest", "product"] + ["any"] * (roll.random() < 0.3)
        )
        name = f"X{len(self.phasers)}"
        self.bounds.append(roll.choice([1, 1, 2, 2, 3, 4, 8, 64]))
        self.phasers.append(f"phaser {name} {operation} {self.bounds[-1]}{single}")
        if single:
            self.singles.add(len(self.phasers) - 1)
        return len(self.phasers) - 1

    def output(self, behind):
        """A phaser that stands behind these and has no single."""
        others = [p for p in range(max(behind) + 1, len(self.phasers)) if p not in self.singles]
        return (
            self.random.choice(others) if others and self.random.random() < 0.4 else self.phaser()
        )

    def input(self):
        return self.random.randrange(len(self.phasers))

    def task(self, kind, waits, signals, text):
        name = f"t{len(self.tasks)}"
        until = f" until {self.random.randint(0, 8)}" if self.random.random() < 0.12 else ""
        self.tasks.append(
            [kind, name, waits, signals, text, "", until + self.block(kind, waits + signals)]
        )

    def block(self, kind, phasers):
        """In a graph of text 2 or 3, the block of a task on these phasers."""
        if (
            self.version == 1
            or kind not in ("source", "fir", "delay", "sink")
            or self.random.random() < 0.4
        ):
            return ""
        return f" block={self.random.randint(1, min(self.bounds[p] for p in phasers))}"

    def taps(self):
        """What a filter does: in a text 3 most of them do more than weigh."""
        roll, more = self.random, self.version == 3 and self.random.random() < 0.8
        taps = [roll.randint(-3, 3) for _ in range(roll.randint(1, 4))]
        shift, age, plus, again, single = roll.choice([0, 0, 1, 2]), "", "", "", ""
        if more and roll.random() < 0.3:
            age = f"of {roll.choice([0, 1, 2, 7, 64])} "
        if more and roll.random() < 0.05:
            taps = [roll.randint(-3, 3) for _ in range(roll.choice([65, 100, 1024]))]
        if more and roll.random() < 0.5:
            plus = f" plus {roll.choice([1, 2, -3, 1 << shift >> 1])}"
        if more and roll.random() < 0.5:
            again = f" again {' '.join(map(str, self.again(shift)))}"
        if more and roll.random() < 0.4:
            low = roll.randint(-20, 5)
            singles = ["neg", "abs", "halve", f"clamp {low} {low + roll.randint(0, 25)}"]
            single = f" single {roll.choice(singles)}"
        return f"{age}shift {shift}{plus} taps {' '.join(map(str, taps))}{again}{single}"

    def again(self, shift):
        """Taps for what a filter put: by half of them it forgets, by the others it may grow."""
        roll = self.random
        if roll.random() < 0.5:
            most, again = (1 << shift) - 1, []
            for _ in range(roll.randint(1, 3)):
                again.append(roll.randint(-most, most))
                most -= abs(again[-1])
            return again
        return [roll.randint(-3, 3) for _ in range(roll.choice([1, 1, 2, 3, 64]))]

    def file(self):
        name = f"s{len(self.files)}.csv"
        values = [
            self.random.randint(-9, 9)
            for _ in range(self.random.choice([0, 1, 2, 3, 5, 8, 13, 21]))
        ]
        if values and self.random.random() < 0.05:
            values[self.random.randrange(len(values))] = self.random.choice([MOST, -MOST])
        self.files[name] = values
        return name

    def sources(self, phaser):
        for _ in range(self.random.choice([1, 1, 1, 2, 3])):
            self.task("source", [], [phaser], f"{self.file()} -> X{phaser}")

    def filter(self):
        x = self.input()
        y = self.output([x])
        self.task("fir", [x], [y], f"X{x} -> X{y} {self.taps()}")

    def steps(self):
        """The steps of a delay."""
        return self.random.choice([0, 1, 1, 2, 3, 7, 64, 65536])

    def delay(self):
        x = self.input()
        y = self.output([x])
        self.task("delay", [x], [y], f"X{x} -> X{y} of {self.steps()}")

    def decimator(self):
        x = self.input()
        y = self.output([x])
        every = self.random.choice([1, 2, 2, 3, 4, 64, 65536])
        self.task("decimate", [x], [y], f"X{x} -> X{y} every {every}")

    def splitter(self):
        x = self.input()
        ends = [self.output([x])]
        ends += [self.phaser() for _ in range(self.random.randint(1, 2))]
        self.task("split", [x], ends, f"X{x} -> {' '.join(f'X{y}' for y in ends)}")

    def joiner(self):
        begins = list({self.input() for _ in range(3)})
        if len(begins) < 2:
            return
        y = self.output(begins)
        self.task("join", begins, [y], f"{' '.join(f'X{x}' for x in begins)} -> X{y}")

    def peers(self):
        inputs = [self.input() for _ in range(self.random.choice([1, 2, 2, 3]))]
        single = self.random.choice(
            ["", "", " single neg", " single abs", " single halve", " single clamp -5 5"]
        )
        e = self.phaser(single)
        for x in inputs:
            y = self.output([e])
            self.task(
                "peer", [x, e], [e, y], f"X{x} <-> X{e} -> X{y} mul {self.random.randint(-2, 3)}"
            )

    def sinks(self):
        for p in range(len(self.phasers)):
            for _ in range(self.random.choice([0, 1, 1, 1, 2])):
                self.task("sink", [p], [], f"X{p}")

    def child(self):
        parents = [
            task
            for task in self.tasks
            if task[0] in ("source", "fir", "delay", "sink") and not task[5].endswith(" now")
        ]
        if not parents:
            return
        kind, parent, waits, signals, *_ = self.random.choice(parents)
        kinds = {"source": ["source"], "sink": ["sink"]}.get(kind, ["fir", "source", "sink"])
        kind = self.random.choice(kinds)
        if self.version == 3 and kind == "fir" and self.random.random() < 0.5:
            kind = "delay"
        text = {
            "source": lambda: f"{self.file()} -> X{signals[0]}",
            "delay": lambda: f"X{waits[0]} -> X{signals[0]} of {self.steps()}",
            "sink": lambda: f"X{waits[0]}",
        }
        text = text.get(kind, lambda: f"X{waits[0]} -> X{signals[0]} {self.taps()}")()
        self.task(kind, waits if kind != "source" else [], signals if kind != "sink" else [], text)
        now = " now" if self.version > 1 and kind == "sink" and self.random.random() < 0.6 else ""
        self.tasks[-1][5] = f" by {parent} at {self.random.randint(0, 6)}{now}"

    def text(self):
        lines = (
            [f"graph {self.version}"] * (self.version > 1)
            + self.phasers
            + [
                f"{kind} {name} {text}{by}{until}"
                for kind, name, _, _, text, by, until in self.tasks
            ]
        )
        return "\n".join(lines) + "\n"

    def write(self, folder):
        for name, values in {**self.files, "graph": None}.items():
            with open(os.path.join(folder, name), "w") as file:
                file.write(
                    self.text() if values is None else "".join(f"{value}\n" for value in values)
                )


def ended(folder, *words, **settings):
    """The status and both streams of the program of these words, in an environment with these
    settings; the status is None where it took too long."""
    has_threads = words[0] in ("run", "stream") or "--workers" in words
    own = [project.built("phase" if has_threads else "phase_cli"), *words]
    try:
        done = subprocess.run(
            own, cwd=folder, capture_output=True, timeout=60, stdin=subprocess.DEVNULL,
            env={**os.environ, **settings},
        )
    except subprocess.TimeoutExpired:
        return None, b"", b""
    return done.returncode, done.stdout, done.stderr


STALLED = (4, b"", b"phase: stalled\n")


def simulated(lines):
    return (
        STALLED
        if lines == ["stalled"]
        else (0, "".join(f"{line}\n" for line in lines).encode(), b"")
    )


def starts_told(text):
    """Where the sinks that join now began, as a run wrote it."""
    heads = [line.split() for line in text.decode().splitlines() if " from " in line]
    return {words[0]: int(words[2]) for words in heads}


def fault_of(run, whole, text, graph):
    """What is wrong with how a run ended, where `eval` ended with `whole`."""
    if run == STALLED:
        # A block that has to fit whole may stand still where single steps do not.
        may = whole[0] == 3 or " block=" in text or simulation.simulate(graph, True) == ["stalled"]
        return None if may else "a run stands still that need not"
    if run[0] != 0:
        return None if run == whole else "a run and eval tell different faults"
    if whole[0] != 0 and " now" not in text:
        return "a run ended that has no lists"
    starts, least = starts_told(run[1]), starts_told(whole[1])
    if any(start < least.get(name, start) for name, start in starts.items()):
        return "a sink began before it may"
    if simulated(simulation.simulate(graph, False, starts)) != run:
        return "the lines are not the lists at their starts"
    if " block=" not in text and simulation.simulate(graph, True) == ["stalled"]:
        return "a run ended that stands still"
    return None
