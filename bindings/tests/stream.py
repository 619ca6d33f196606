"""What phase.Stream answers: the graphs of examples/graphs, fed by blocks of several lengths,
beside the outputs that are stored there; a moving sum beside numpy's; sources that are fed
unequally; each refusal; calls within calls; and threads.

stream.py FOLDER: the folder of the graphs.
"""
import copy
import pathlib
import pickle
import signal
import sys
import threading
import tracemalloc

import numpy

import phase
from phase import stream as phase_stream

PASS = "phaser x sum 4\nsource s s.csv -> x\nsink out x\n"
BOTH = "phaser x sum 4\nsource s s.csv -> x\nsource t t.csv -> x\nsink out x\n"
TWICE = (
    "phaser x sum 4\nphaser y sum 4\nsource s s.csv -> x\nfir f x -> y shift 0 taps 2\nsink o y\n"
)
# The filter f takes every second sample, and g each, so that f wants samples further ahead of g
# than the bounds allow.
STALLED = (
    "phaser x sum 1\nphaser a sum 1\nphaser b sum 1\nphaser y sum 1\nsource s s.csv -> x\n"
    "split d x -> a b\nfir f a -> y shift 0 taps 1\nfir g x -> y shift 0 taps 1\nsink out y\n"
)
WAITS = [
    "s may not signal phase 6 of x: bound 1, and g stands at 5",
    "d waits for phase 6 of x, which s has not signalled",
    "f waits for phase 3 of a, which d has not signalled",
    "g may not signal phase 4 of y: bound 1, and out stands at 3",
    "out waits for phase 3 of y, which f has not signalled",
    "x: d has come to phase 6, g has come to phase 5",
    "y: out has come to phase 3",
]
MOST = 2**63 - 1
ALL = 10**9

failed = 0


def look(name, is_right):
    global failed
    if not is_right:
        print(f"stream.py: {name}")
        failed += 1


def refused(kind, call, *args, **named):
    """The error by which the call is refused, where it is of this kind and of no other."""
    try:
        call(*args, **named)
    except Exception as why:
        return why if type(why) is kind else None
    return None


def lists(outputs):
    return {name: values.tolist() for name, values in outputs.items()}


class Example:
    """A graph: its text, the samples of each source, and what is stored of each sink, with its
    start where it joins now."""

    def __init__(self, path):
        self.text = path.read_text()
        lines = [line.split() for line in self.text.splitlines()]
        self.samples = {
            words[1]: numpy.loadtxt(path.parent / words[2], numpy.int64, ndmin=1)
            for words in lines
            if words[:1] == ["source"]
        }
        self.stored, self.starts = {}, {}
        for words in map(str.split, path.with_suffix(".stdout").read_text().splitlines()):
            if len(words) == 1:
                values.append(int(words[0]))
                continue
            values = self.stored[words[0]] = []
            if words[1] == "from":
                self.starts[words[0]] = int(words[2])

    def fed(self, length):
        """What comes out by blocks of this length, and the starts; each source ends with its last
        block."""
        with phase.Stream(self.text) as stream:
            outputs = []
            for at in range(0, max(map(len, self.samples.values())), length):
                blocks = {
                    name: it[at : at + length] for name, it in self.samples.items() if at < len(it)
                }
                outputs.append(stream.feed(blocks))
                ended = [name for name, it in self.samples.items() if at < len(it) <= at + length]
                if ended:
                    outputs.append(stream.finish(*ended))
            look("a stream is done", stream.done)
            return {
                name: [value for it in outputs for value in it[name].tolist()]
                for name in stream.names.sinks
            }, stream.starts

    def is_stored(self, found, starts):
        """Whether the sinks got what is stored. One that joined now got as many values of the sink
        that it is a child of, the first of its graph, from where it joined."""
        wanted = dict(self.stored)
        for name, start in starts.items():
            first = next(iter(self.stored.values()))
            wanted[name] = first[start : start + len(self.stored[name])]
        least = all(starts[name] >= it for name, it in self.starts.items())
        return found == wanted and set(starts) == set(self.starts) and least


def graphs(examples):
    for example in examples:
        for length in (1, 7, 64, 1000, ALL):
            look(f"blocks of {length} of {example.text}", example.is_stored(*example.fed(length)))


def moving_sums():
    """A sum of the last three samples, beside numpy's."""
    graph = (
        "phaser x sum 16\nphaser y sum 16\nsource s s.csv -> x\nfir f x -> y shift 0 taps 1 1 1\n"
        "sink out y\n"
    )
    samples = numpy.random.default_rng(5).integers(-(2**40), 2**40, 50_000)
    wanted = numpy.convolve(samples, [1, 1, 1])[: len(samples)]
    for length in (777, 5000, 50_000):
        stream, out = phase.Stream(graph), []
        for at in range(0, len(samples), length):
            block = samples[at : at + length].copy()
            out.append(stream.feed(block)["out"])
            look("a block is gone whole", len(out[-1]) == len(block))
            block[:] = 0
        look(f"a moving sum by {length}", numpy.array_equal(numpy.concatenate(out), wanted))
        look("nothing is behind it", len(stream.finish()["out"]) == 0 and stream.done)


def unequal():
    """Samples of one source that wait for those of another are kept, each in its place."""
    stream = phase.Stream(BOTH)
    block = numpy.arange(20_000)
    look("nothing comes out", lists(stream.feed(s=block)) == {"out": []})
    block[:] = 7
    look("nor of more", lists(stream.feed(s=numpy.arange(20_000, 20_100))) == {"out": []})
    look("as many as both have", lists(stream.feed(t=[100, 200, 300])) == {"out": [100, 201, 302]})
    out = stream.feed(t=numpy.full(30_000, 50_000))["out"]
    look("all of the first", numpy.array_equal(out, numpy.arange(50_003, 70_100)))
    look("and the second", lists(stream.feed(s=[5])) == {"out": [50_005]})
    look("the second ends behind its samples", len(stream.finish("t")["out"]) == 0)
    out = stream.feed(s=numpy.ones(10_000, numpy.int64))["out"].tolist()
    look("its samples are not lost", out == [50_001] * 9902 + [1] * 98)
    look("the first ends", len(stream.finish()["out"]) == 0 and stream.done)


def fewer():
    """A sink that gets every second sample is never full."""
    halves = "phaser a sum 4\nphaser b sum 4\nsplit d x -> a b\nsink out a"
    out = phase.Stream(PASS.replace("sink out x", halves)).feed(s=numpy.arange(20_000))["out"]
    look("a long block to a sink that gets fewer", numpy.array_equal(out, 2 * numpy.arange(10_000)))


def small_and_many():
    stream = phase.Stream(BOTH)
    for number in range(6000):
        stream.feed(s=[number])
    out = stream.feed(t=numpy.zeros(6000, numpy.int64))["out"]
    look("blocks of one that wait", numpy.array_equal(out, numpy.arange(6000)))


def ways():
    stream = phase.Stream(BOTH)
    look("in order", lists(stream.feed([[1], [10]])) == {"out": [11]})
    look("an array with rows", lists(stream.feed(numpy.array([[1, 2], [3, 4]]))) == {"out": [4, 6]})
    look("by a table and a word", lists(stream.feed({"s": [1]}, t=[2])) == {"out": [3]})
    look("by an empty table", lists(stream.feed({})) == {"out": []})
    look("an empty block", lists(stream.feed(s=[])) == {"out": []})
    look("8 bits", lists(stream.feed(s=numpy.array([100], numpy.int8), t=[1])) == {"out": [101]})
    one = phase.Stream(PASS)
    look("an array alone", lists(one.feed(numpy.arange(6)[::2])) == {"out": [0, 2, 4]})
    look("the greatest and the least", lists(one.feed(s=[MOST, -MOST])) == {"out": [MOST, -MOST]})
    odd = phase.Stream(PASS.replace(" s s.csv", " self s.csv"))
    look("a source of any name", lists(odd.feed({"self": [1]})) == {"out": [1]})
    look("its words", repr(stream) == "<phase.Stream s t -> out>")
    look("its names", stream.names == (["s", "t"], ["out"]))
    for copied in (copy.copy, copy.deepcopy, pickle.dumps):
        look("a copy", refused(TypeError, copied, stream))
    path = pathlib.Path(sys.argv[1], "average.graph")
    look("the path of a graph", phase.Stream(path).names == phase.names(path))
    look("bytes", phase.Stream(PASS.encode()).names.sinks == ["out"])
    look("no tasks", lists(phase.Stream("").finish()) == {})
    late = (
        "graph 2\nphaser x sum 4\nsource s s.csv -> x\nsink all x\nsink late x by all at 2 now\n"
    )
    with phase.Stream(late) as stream:
        look("no start yet", stream.starts == {})
        found = lists(stream.feed(s=[5, 6, 7, 8]))
        look("a start", stream.starts["late"] >= 2)
        look("from there on", found["late"] == found["all"][stream.starts["late"] :])


def until():
    """A source with `until` leaves samples, of which nobody has to know."""
    stream = phase.Stream(PASS.replace("-> x\n", "-> x until 2\n"))
    look("what it takes", lists(stream.feed(s=[1, 2, 3])) == {"out": [1, 2]} and stream.done)
    tracemalloc.start()
    for _ in range(100):
        look("it takes no more", lists(stream.feed(s=numpy.arange(9000))) == {"out": []})
    look("nor keeps them", tracemalloc.get_traced_memory()[0] < 1_000_000)
    tracemalloc.stop()
    look("it ends", lists(stream.finish()) == {"out": []} and stream.done)


def misuse():
    look("a graph that is none", refused(TypeError, phase.Stream, 5))
    why = refused(phase.GraphError, phase.Stream, "phaser x sum 4\nsource s s.csv -> z\n")
    look("a fault of the graph", (why.line, why.kind) == (2, "unknown"))
    why = refused(phase.GraphError, phase.Stream, BOTH.replace("sum", "any"))
    look("tasks that may meet", (why.line, why.kind) == (3, "any-meets"))
    stream = phase.Stream(BOTH)
    stream.feed(s=[1], t=[1])
    for name, kind, words, named in (
        ("a list too few", phase.SamplesError, [[[1]]], {}),
        ("a list too many", phase.SamplesError, [[[1], [2], [3]]], {}),
        ("no block", phase.SamplesError, [], {}),
        ("a name that is none", phase.SamplesError, [], {"u": [1]}),
        ("a name that is none beside one", phase.SamplesError, [{"s": [1], "u": [1]}], {}),
        ("in order and by name", TypeError, [[[1], [2]]], {"s": [1]}),
        ("floats", TypeError, [], {"s": [1.0]}),
        ("two rows", TypeError, [], {"s": [[1], [2]]}),
        ("one number", TypeError, [], {"s": 1}),
        ("past 64 bits", OverflowError, [], {"s": numpy.array([2**63], numpy.uint64)}),
        ("a sample that is none", phase.SamplesError, [], {"s": [1, 2], "t": [5, -(2**63)]}),
    ):
        look(name, refused(kind, stream.feed, *words, **named))
    why = refused(phase.SamplesError, stream.feed, s=[5], t=[1, -(2**63), 3])
    look("which one", str(why) == "sample 1 of t is -2**63, which is none")
    why = refused(phase.SamplesError, stream.feed, u=[1])
    look("whose names", str(why) == "the sources are s t, and not u")
    look("a source to end that is none", refused(phase.SamplesError, stream.finish, "s", "u"))
    look("no refusal fed any", lists(stream.feed(s=[3], t=[4])) == {"out": [7]})
    stream.finish("t", "t")
    why = refused(phase.SamplesError, stream.feed, s=[1], t=[1])
    look("a source that is finished", str(why) == "t is finished")
    look("it may have no block", lists(stream.feed(s=[1], t=[])) == {"out": [1]})
    look("it may end again", lists(stream.finish("t")) == {"out": []} and not stream.done)
    stream.close()
    stream.close()
    for call in (stream.feed, stream.finish, lambda: stream.starts):
        why = refused(phase.NoStream, call)
        look("a stream that is closed", str(why) == "The stream was closed.")
    look("also a block", refused(phase.NoStream, stream.feed, s=[1]))
    for kind in (phase.NoStream, phase.Stalled):
        look(f"{kind.__name__} is an error", issubclass(kind, phase.Error))


def ends():
    """Values out of range, and graphs that stand still, are told again at each later call."""
    stream = phase.Stream(BOTH)
    stream.feed(s=[1], t=[1])
    why = refused(phase.TooBig, stream.feed, s=[2, MOST], t=[3, 1])
    look("a phaser's value", (why.name, why.at, str(why)) == ("x", 2, "too big at x 2"))
    look("what came out before it", [5][: len(why.values["out"])] == why.values["out"].tolist())
    for call in (lambda: stream.feed(s=[1], t=[1]), stream.finish):
        why = refused(phase.TooBig, call)
        look("it is told again", (why.name, why.at, lists(why.values)) == ("x", 2, {"out": []}))
    look("it is not done", not stream.done)
    why = refused(phase.TooBig, phase.Stream(TWICE).feed, s=[MOST])
    look("a filter's value", (why.name, why.at) == ("f", 0))
    again = pickle.loads(pickle.dumps(why))
    look("from another process", (again.name, lists(again.values)) == ("f", {"o": []}))
    stream = phase.Stream(STALLED)
    why = refused(phase.Stalled, stream.feed, s=[1, 2, 3, 4, 5, 6, 7, 8, 9])
    look("a graph that stands still", why.waits == WAITS)
    look("who waits for whom", str(why) == "\n  ".join(["stalled", *WAITS]))
    look("what it has", why.values["out"].tolist() == [2, 5, 8])
    again = pickle.loads(pickle.dumps(why))
    look("a stall from another process", (str(again), again.waits) == (str(why), WAITS))
    for call in (lambda: stream.feed(s=[1] * 9000), stream.finish):
        look("it stands still", refused(phase.Stalled, call))


class Scarce:
    """The library, of which one run has no memory."""

    def __init__(self, library, granted):
        self.library, self.granted = library, granted

    def __getattr__(self, name):
        return getattr(self.library, name)

    def phase_stream_run(self, *words):
        self.granted -= 1
        return phase.E_MEMORY if self.granted == -1 else self.library.phase_stream_run(*words)


def memory():
    """Where a run has no memory, nothing is lost."""
    library, samples = phase_stream._lib, numpy.arange(10_000)
    for granted in range(3):
        stream, given = phase.Stream(PASS), samples.copy()
        phase_stream._lib = Scarce(library, granted)
        look("no memory", refused(MemoryError, stream.feed, given))
        phase_stream._lib = library
        given[:] = 7
        out = numpy.concatenate((stream.feed({})["out"], stream.feed(s=[5])["out"]))
        look("it goes on", numpy.array_equal(out, numpy.append(samples, 5)))
        stream = phase.Stream(PASS)
        phase_stream._lib = Scarce(library, 0)
        look("no memory at the end", refused(MemoryError, stream.finish) and not stream.done)
        phase_stream._lib = library
        look("it ends", lists(stream.finish()) == {"out": []} and stream.done)


class Calls:
    """Two samples that make a call when they are asked for."""

    def __init__(self, call):
        self.call = call

    def __array__(self, *_, **__):
        self.call()
        return numpy.array([1, 2])


def within():
    """A call within a call of the same thread is refused and does not wait, and the outer one goes
    on."""
    stream, came = phase.Stream(PASS), []
    tries = [lambda: stream.feed(s=[9]), stream.finish, stream.close, lambda: stream.starts]
    for call in tries:
        block = Calls(lambda: came.append(refused(RuntimeError, call)))
        look("the outer call", lists(stream.feed(s=block)) == {"out": [1, 2]})
    look("a call of what is fed", len(came) == len(tries) and all(came))
    before = signal.signal(
        signal.SIGUSR1, lambda *_: came.append(refused(RuntimeError, stream.feed, s=[9]))
    )
    block = Calls(lambda: signal.raise_signal(signal.SIGUSR1))
    look("the call that a signal meets", lists(stream.feed(s=block)) == {"out": [1, 2]})
    signal.signal(signal.SIGUSR1, before)
    look("a call of a signal handler", len(came) == len(tries) + 1 and came[-1])
    look("it is raised", refused(RuntimeError, stream.feed, s=Calls(lambda: stream.feed(s=[9]))))
    look("and nothing was fed", lists(stream.feed(s=[3])) == {"out": [3]})
    look("it ends", lists(stream.finish()) == {"out": []} and stream.done)


def threads(examples):
    rights = []

    def feeds(length):
        rights.append(all(example.is_stored(*example.fed(length)) for example in examples))

    started = [threading.Thread(target=feeds, args=(it,)) for it in (1, 7, 64, ALL)]
    for it in started:
        it.start()
    for it in started:
        it.join(60)
    look("four threads with a stream each", rights == [True] * 4)
    stream, came = phase.Stream(PASS), []

    def numbers(first):
        for number in range(first, first + 500):
            came.extend(stream.feed(s=[number])["out"].tolist())

    started = [threading.Thread(target=numbers, args=(1000 * it,)) for it in range(4)]
    for it in started:
        it.start()
    for it in started:
        it.join(60)
    wanted = sorted(number for it in range(4) for number in range(1000 * it, 1000 * it + 500))
    look("four threads at one stream", sorted(came) == wanted)


def main(folder):
    examples = [Example(path) for path in sorted(pathlib.Path(folder).glob("*.graph"))]
    look("twelve graphs", len(examples) == 12)
    graphs(examples)
    moving_sums()
    unequal()
    fewer()
    small_and_many()
    ways()
    until()
    misuse()
    ends()
    memory()
    within()
    threads(examples)
    return failed != 0


if __name__ == "__main__":
    sys.exit(main(*sys.argv[1:]))
