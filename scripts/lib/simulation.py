"""A graph that is run event by event, and the values of its sinks.

It composes no lists: it moves tasks event by event, as they would run. No range ends a run: which
values are out of it is told apart. It reads graphs that are right. Blocks are made step by step.
"""
import os
from functools import reduce

OPERATIONS = {
    "sum": sum,
    "product": lambda sends: reduce(lambda a, b: a * b, sends, 1),
    "least": min,
    "greatest": max,
    "any": lambda sends: sends[0],
}
ENDED = "ended"
MOST = 2 ** 63 - 1

# Why a source stands still whose samples have all gone, and may have others behind them.
HUNGRY = ("hungry", None)


def applied(single, value):
    """A value with a single applied, where there is one, by its words."""
    if single is None:
        return value
    if single[0] == "neg":
        return -value
    if single[0] == "abs":
        return abs(value)
    if single[0] == "halve":
        return value // 2
    return max(int(single[1]), min(int(single[2]), value))


class Phaser:
    def __init__(self, operation, bound, single):
        self.operation, self.bound, self.single = OPERATIONS[operation], bound, single
        self.signalled, self.waited, self.sends, self.top = {}, {}, {}, 0
        self.too_big = set()

    def has_room(self, task):
        if self.bound is None or not self.waited:
            return True
        return self.signalled[task] < min(self.waited.values()) + self.bound

    def signal(self, task, value):
        phase = self.signalled[task]
        self.sends.setdefault(phase, []).append(value)
        self.signalled[task] = phase + 1
        self.top = max(self.top, phase + 1)

    def wait(self, task):
        """Gives a value, or None where the phase is not complete, or ENDED."""
        phase = self.waited[task]
        done = min(self.signalled.values()) if self.signalled else self.top
        if phase >= done:
            return None if self.signalled else ENDED
        self.waited[task] = phase + 1
        value = self.operation(self.sends[phase])
        if abs(value) > MOST and max(map(abs, self.sends[phase])) <= MOST:
            self.too_big.add(phase)
        return applied(self.single, value)



class Task:
    def __init__(self, words, folder):
        self.kind, self.name = words[0], words[1]
        self.at, self.parent, self.until, self.start = 0, None, None, None
        self.is_open = False
        words = [word for word in words if not word.startswith("block=")]
        if "until" in words:
            self.until = int(words.pop(words.index("until") + 1))
            words.remove("until")
        if "by" in words:
            by = words.index("by")
            self.parent, self.at = words[by + 1], int(words[by + 3])
            self.joins_now = words[by + 4 :] == ["now"]
            del words[by:]
        rest, self.samples = words[2:], []
        if self.kind == "source":
            text = open(os.path.join(folder, rest.pop(0))).read()
            self.samples = [int(line) for line in text.split()]
        if "mul" in rest:
            self.mul = int(rest[rest.index("mul") + 1])
        self.shift, self.plus, self.delay, self.taps, self.every = 0, 0, 0, [1], 1
        self.again, self.single = [], None
        if self.kind == "fir":
            rest = self.read_filter(rest)
        if self.kind == "delay":
            self.delay = int(rest[-1])
        if self.kind == "decimate":
            self.every = int(rest[-1])
        ends = [word for word in rest if word not in ("->", "<->")]
        arrow = rest.index("->") if "->" in rest else len(rest)
        inputs = len([word for word in rest[:arrow] if word != "<->"])
        outputs = len(rest[arrow + 1 :])
        if self.kind in ("fir", "delay", "decimate", "peer"):
            outputs = 1
        self.inputs, self.outputs = ends[:inputs], ends[inputs : inputs + outputs]
        self.steps, self.values, self.window, self.puts = 0, [], [], []
        self.too_big, self.took_too_big = set(), False

    def read_filter(self, rest):
        """Reads what a filter does, and gives the words before that."""
        # A phaser may have the name of one of these words.
        ends, words = rest[:3], rest[3:]
        at = {word: words.index(word) for word in ("shift", "taps")}
        if words[0] == "of":
            self.delay = int(words[1])
        self.shift = int(words[at["shift"] + 1])
        if words[at["shift"] + 2] == "plus":
            self.plus = int(words[at["shift"] + 3])
        taps = words[at["taps"] + 1 :]
        if "single" in taps:
            taps, self.single = taps[: taps.index("single")], taps[taps.index("single") + 1 :]
        if "again" in taps:
            taps, again = taps[: taps.index("again")], taps[taps.index("again") + 1 :]
            self.again = [int(tap) for tap in again]
        self.taps = [int(tap) for tap in taps]
        return ends

    def registrations(self):
        waits, signals = list(self.inputs), list(self.outputs)
        if self.kind == "peer":
            signals.insert(0, self.inputs[1])
        return waits, signals

    def join(self, phasers, parent, starts):
        waits, signals = self.registrations()
        for name in waits:
            phasers[name].waited[self.name] = phasers[name].waited[parent.name] if parent else 0
        for name in signals:
            phasers[name].signalled[self.name] = (
                phasers[name].signalled[parent.name] if parent else 0
            )
        if parent and self.joins_now:
            self.start = starts.get(self.name, phasers[waits[0]].waited[self.name])
            phasers[waits[0]].waited[self.name] = self.start

    def leave(self, phasers):
        for name in self.inputs + self.outputs:
            phasers[name].waited.pop(self.name, None)
            phasers[name].signalled.pop(self.name, None)

    def run(self, graph):
        """Makes the events one by one, and yields behind each whether it could be made."""
        while True:
            for child in graph.tasks:
                if child.parent == self.name and child.at == self.steps:
                    graph.begin(child, self)
                    yield True
            if self.until == self.steps or (yield from self.step(graph.phasers)) == ENDED:
                break
            self.steps += 1
        self.leave(graph.phasers)
        yield True

    def take(self, phaser):
        while True:
            self.stuck = ("waits", phaser)
            value = phaser.wait(self.name)
            if value == ENDED:
                return ENDED
            yield value is not None
            if value is not None:
                self.took_too_big |= abs(value) > MOST
                return value

    def put(self, phaser, value):
        while not phaser.has_room(self.name):
            self.stuck = ("signals", phaser)
            yield False
        phaser.signal(self.name, value)
        yield True

    def step(self, phasers):
        if self.kind == "source":
            while self.steps == len(self.samples):
                if not self.is_open:
                    return ENDED
                self.stuck = HUNGRY
                yield False
            yield from self.put(phasers[self.outputs[0]], self.samples[self.steps])
            return None
        turn = self.steps % len(self.inputs) if self.kind == "join" else 0
        value = yield from self.take(phasers[self.inputs[turn]])
        if value == ENDED:
            return ENDED
        if self.kind == "sink":
            self.values.append(value)
            return None
        if self.kind in ("fir", "delay"):
            self.window.append(value)
            at = len(self.window) - 1 - self.delay
            total = sum(
                tap * self.window[at - back] for back, tap in enumerate(self.taps) if at >= back
            )
            total += sum(tap * put for tap, put in zip(self.again, reversed(self.puts)))
            value = applied(self.single, (total + self.plus) >> self.shift)
            self.puts.append(value)
        if self.kind == "peer":
            exchange = phasers[self.inputs[1]]
            yield from self.put(exchange, value)
            value = self.mul * value - (yield from self.take(exchange))
        if self.kind in ("fir", "peer") and abs(value) > MOST and not self.took_too_big:
            self.too_big.add(self.steps)
        if self.kind == "decimate" and self.steps % self.every != 0:
            return None
        turn = self.steps % len(self.outputs) if self.kind == "split" else 0
        yield from self.put(phasers[self.outputs[turn]], value)
        return None


class Graph:
    def __init__(self, file, with_bounds, starts):
        self.phasers, self.tasks, self.running, self.starts = {}, [], [], starts
        for line in open(file):
            words = line.split()
            if not words or words[0].startswith("#") or words[0] == "graph":
                continue
            if words[0] == "phaser":
                bound = int(words[3]) if with_bounds else None
                self.phasers[words[1]] = Phaser(words[2], bound, words[5:] or None)
            else:
                self.tasks.append(Task(words, os.path.dirname(file)))

    def begin(self, task, parent):
        task.join(self.phasers, parent, self.starts)
        self.running.append(task.run(self))

    def run(self):
        """Runs all tasks, and tells whether they came to their end."""
        for task in self.tasks:
            if task.parent is None:
                self.begin(task, None)
        return self.goes_on()

    def goes_on(self):
        """Moves the tasks while one can, and tells whether they came to their end."""
        while self.running:
            moved = [(run, next(run, ENDED)) for run in list(self.running)]
            self.running = [run for run in self.running if (run, ENDED) not in moved]
            if self.running and not any(made for _, made in moved):
                return False
        return True

    def is_live(self, task):
        return any(
            task.name in phaser.waited or task.name in phaser.signalled
            for phaser in self.phasers.values()
        )


def why(task, names, phaser, call):
    """Why a task that stands still cannot make its call."""
    if call == "waits":
        phase = phaser.waited[task]
        late = [other for other, done in phaser.signalled.items() if done <= phase]
        have = "have" if len(late) > 1 else "has"
        return (
            f"{task} waits for phase {phase} of {names[id(phaser)]}, which {' and '.join(late)} "
            f"{have} not signalled"
        )
    least = min(phaser.waited.values())
    slow = next(other for other, phase in phaser.waited.items() if phase == least)
    phase, name = phaser.signalled[task], names[id(phaser)]
    return (
        f"{task} may not signal phase {phase} of {name}: bound {phaser.bound}, and {slow} stands "
        f"at {least}"
    )


def stalls(file):
    """What `run --explain` tells of a graph that stands still by single steps: a line for each task
    that is left, in the order of the lines, and one for each phaser that a task may not signal."""
    graph = Graph(file, True, {})
    if graph.run():
        return None
    names = {id(phaser): name for name, phaser in graph.phasers.items()}
    # The members of a phaser stand in the order of the lines.
    order = {task.name: at for at, task in enumerate(graph.tasks)}
    for phaser in graph.phasers.values():
        for members in phaser.signalled, phaser.waited:
            sorted_members = sorted(members.items(), key=lambda member: order[member[0]])
            members.clear()
            members.update(sorted_members)
    live = [task for task in graph.tasks if graph.is_live(task)]
    lines = [why(task.name, names, task.stuck[1], task.stuck[0]) for task in live]
    full = list(dict.fromkeys(id(task.stuck[1]) for task in live if task.stuck[0] == "signals"))
    for phaser in full:
        waited = next(it for it in graph.phasers.values() if id(it) == phaser).waited
        come = ", ".join(f"{task} has come to phase {phase}" for task, phase in waited.items())
        lines.append(f"{names[phaser]}: {come}")
    return lines


def first_too_big(file):
    """The first step of each task and the first phase of each phaser whose value is out of range
    and comes of none that is, by their names, where a graph has no bounds."""
    graph = Graph(file, False, {})
    graph.run()
    makers = {**graph.phasers, **{task.name: task for task in graph.tasks}}
    return {name: min(it.too_big) for name, it in makers.items() if it.too_big}


def heading(sink):
    begins = "" if sink.start is None else f"from {sink.start} "
    return f"{sink.name} {begins}{len(sink.values)}"


def starts_told(output):
    """Where the sinks that join now began, by their names, as the output of a run tells."""
    with open(output) as it:
        heads = [line.split() for line in it if " from " in line]
    return {name: int(start) for name, _, start, _ in heads}


def simulate(file, with_bounds, starts={}):
    """The lines that a run of a graph has, where sinks that join now begin at these phases, by
    their names."""
    graph = Graph(file, with_bounds, starts)
    if not graph.run():
        return ["stalled"]
    sinks = [task for task in graph.tasks if task.kind == "sink"]
    return [line for task in sinks for line in [heading(task), *map(str, task.values)]]
