"""Streams through splitters, joiners and peers, beside a simulation: for scripts/check/streams."""
import simulation
from live import Live
from rooms import wants

# How many samples a graph gets whose splitters and joiners make up to 64 steps in a row; and the
# pieces in which a pipe brings them.
COUNTS, PIECES = (0, 1, 63, 64, 65, 130), (1, 1, 62, 1, 1, 64, 65)


def samples_of(count):
    return [n * 7919 % 2003 - 1001 for n in range(count)]


def lines_of(values):
    return "".join(f"{value}\n" for value in values)


class Model:
    """The graph `g` of a folder, moved event by event as its source `s` is fed; and one sink."""

    def __init__(self, room, sink):
        self.graph = simulation.Graph(room.path("g"), True, {})
        tasks = {task.name: task for task in self.graph.tasks}
        self.source, self.sink = tasks["s"], tasks[sink]
        self.source.samples, self.source.is_open = [], True
        self.graph.run()

    def fed(self, samples, is_open):
        """The values behind these samples, and how the stream ends there, or None where it waits
        for more."""
        self.source.samples += samples
        self.source.is_open = is_open
        self.graph.goes_on()
        values = lines_of(self.sink.values).encode()
        live = [task for task in self.graph.tasks if self.graph.is_live(task)]
        # A sink that a task adds begins late, and goes on to the end.
        if not live or self.sink.parent is None and self.sink not in live:
            return values, (0, values, b"")
        if self.source in live and self.source.stuck == simulation.HUNGRY:
            return values, None
        return values, (4, values, b"phase: stalled\n")


def is_dealt(room, graph, sink):
    """A graph of splitters, joiners and peers, on so many samples of a file, also where each read
    gives a byte, and on samples that come by pieces through a pipe: the values of a simulation."""
    words, zeros = f"stream g --sink {sink}", lines_of(40 * [0])
    for count in COUNTS:
        samples = samples_of(count)
        room.begin({"g": graph, "s.csv": lines_of(samples), "z.csv": zeros})
        _, end = Model(room, sink).fed(samples, False)
        [command] = room.commands(words)
        wants(room.run(command) == end, count, end)
        if room.fails:
            found = room.run(command, library=room.fails, CALL="read", HOW="byte", AT=0)
            wants(found == end, "by bytes", count, end, found)
    room.begin({"g": graph, "h": graph.replace("s.csv", "-"), "s.csv": "", "z.csv": zeros})
    model, samples, pieces = Model(room, sink), samples_of(sum(PIECES)), list(PIECES)
    _, end = model.fed([], True)
    with Live(room, f"stream h --sink {sink}") as live:
        while end is None and pieces:
            piece, samples = samples[: pieces[0]], samples[pieces.pop(0) :]
            values, end = model.fed(piece, True)
            found = live.given(lines_of(piece).encode())
            wants(found == values, "by pieces", pieces, values, found)
        goes_on = end is not None
        ended = live.ends(closes=not goes_on)
    if not goes_on:
        _, end = model.fed([], False)
    wants(ended == end, "by pieces", end, ended)
