"""Graphs, samples and scripts that are long, or of each kind, and what comes of them."""
import made_runs as CASES

PEERS = (
    "phaser X sum 2\nphaser Z sum 2\nphaser E sum 2\nphaser P sum 2\nphaser Q sum 2\n"
    "source a a.csv -> X\n"
    "source b b.csv -> Z\npeer p X <-> E -> P mul 2\npeer q Z <-> E -> Q mul 2\nsink outp P\n"
    "sink outq Q\n"
)

CHILD_FILTER = (
    "phaser X sum 4\nphaser Y sum 4\nsource s s.csv -> X\nfir f X -> Y shift 0 taps 1 1\n"
    "fir g X -> Y shift 0 taps 1 1 by f at 2 until 1\nsink out Y\n"
)

# A source and a filter by blocks, and a sink that joins now: what it has hangs on when it does.
JOINS = (
    "graph 2\nphaser X sum 4\nphaser Y sum 3\nsource s s.csv -> X block=4\n"
    "fir f X -> Y shift 0 taps 1 1 block=3\n"
    "sink out Y block=2\nsink late Y by out at 2 now\n"
)

JOINS_HAVE = ["out 4\n1\n3\n5\n7\nlate from " + end for end in ("2 2\n5\n7\n", "3 1\n7\n", "4 0\n")]

LONG_BLOCKS = "graph 2\nphaser X sum 65536\nsource s s.csv -> X block=65536\nsink out X block=256\n"

FIR_FILES = {"g": CASES.FIR, "s.csv": "-1\n-1\n0\n"}
FIR_HAS = "out 3\n-1\n-1\n-1\n"

FIR_DRAWN = """\
digraph {
    rankdir=LR;
    "X" [shape=ellipse, label="X\\nsum 4"];
    "Y" [shape=ellipse, label="Y\\nsum 4"];
    "s" [shape=box, label="s\\nsource\\ns.csv"];
    "f" [shape=box, label="f\\nfir\\nshift 2\\ntaps 1 2 1"];
    "out" [shape=box, label="out\\nsink"];
    "s" -> "X";
    "X" -> "f";
    "f" -> "Y";
    "Y" -> "out";
}
"""

# A graph whose output takes several writes, and its samples several reads. They are 1000000,
# 1000001 and so on, each of a line of 8 bytes; the filter gives twice a sample and the one before
# it.
MANY = 20000
LONG_GRAPH = (
    "phaser X sum 64\nphaser Y sum 64\nsource s s.csv -> X\nfir f X -> Y shift 0 taps 2 1\n"
    "sink out Y\nsink plain X\n"
)
LONG_SAMPLES = "".join(f"{1000000 + at}\n" for at in range(MANY))


def long_lists(count):
    """What the sinks of the long graph have of so many samples: those of the filter, and the
    samples."""
    filtered = [2000000] + [3000000 + 3 * at - 1 for at in range(1, count)]
    return [filtered[:count], [1000000 + at for at in range(count)]]


def lines_of(name, values):
    return "".join(f"{line}\n" for line in [f"{name} {len(values)}", *values])


def long_output(count=MANY):
    filtered, plain = long_lists(count)
    return (lines_of("out", filtered) + lines_of("plain", plain)).encode()


def long_files():
    return {"g": LONG_GRAPH, "s.csv": LONG_SAMPLES}


LONG_DRAWN = """\
digraph {
    rankdir=LR;
    "X" [shape=ellipse, label="X\\nsum 64"];
    "Y" [shape=ellipse, label="Y\\nsum 64"];
    "s" [shape=box, label="s\\nsource\\ns.csv"];
    "f" [shape=box, label="f\\nfir\\nshift 0\\ntaps 2 1"];
    "out" [shape=box, label="out\\nsink"];
    "plain" [shape=box, label="plain\\nsink"];
    "s" -> "X";
    "X" -> "f";
    "f" -> "Y";
    "Y" -> "out";
    "X" -> "plain";
}
"""


def long_commands():
    """Each command on the long graph, with its output."""
    one = "".join(f"{value}\n" for value in long_lists(MANY)[0]).encode()
    yield "check g", b"ok phasers 2 tasks 4\n"
    yield "check g --explain", b"ok phasers 2 tasks 4\n"
    for command in "eval g", "run g --workers 2", "run g --workers 16":
        yield command, long_output()
        yield f"{command} --explain", long_output()
        yield f"{command} --sink out", one
        yield f"{command} --explain --sink out", one
    yield "draw g", LONG_DRAWN.encode()


# A script of several reads, whose replies take several writes: a founder alone.
ROUNDS = 12000
LONG_SCRIPT = b"make sum 2 1000000\n" + ROUNDS * b"send 0 7\nsignal 0\nwait 0\n"
LONG_REPLIES = [b"ok\n"] + [
    reply for at in range(ROUNDS) for reply in (b"ok\n", b"ok %d\n" % at, b"value %d 7\n" % at)
]


def replies_to(script_part):
    """The replies to the whole lines of the beginning of the long script."""
    return b"".join(LONG_REPLIES[: script_part.count(b"\n")])
