"""The runs of scripts/check/program-cases: those of scripts/check/cases, and those that are made of
tables here and of rules."""
import project
from stored_runs import Has, Like, OneOf, Run, helps, marks, stored_runs, tables
from value_runs import MOST, banks, doubled_lists, joiners, long_filters, long_lists, long_texts, numbers, ways_of_values

# ---- checks, evaluations and drawings of graphs

FIR = "phaser X sum 4\nphaser Y sum 4\nsource s s.csv -> X\nfir f X -> Y shift 2 taps 1 2 1\nsink out Y\n"

# A graph on standard input, and samples there; each sink gets -1, -1 and -1.
ON_INPUT = [
    ("a graph on standard input", "eval -", {"s.csv": "-1\n-1\n0\n"}, FIR),
    ("a graph on standard input by two workers", "run - --workers 2", {"s.csv": "-1\n-1\n0\n"}, FIR),
    ("samples on standard input", "eval g", {"g": FIR.replace("s.csv", "-")}, "-1\n-1\n0\n"),
    ("samples on standard input beside a graph", "eval d/g --beside", {"d/g": FIR.replace("s.csv", "-")}, "-1\n-1\n0\n"),
    ("files beside a graph on standard input", "eval --beside -", {"s.csv": "-1\n-1\n0\n"}, FIR),
]

# Where the samples of A are two, it ends before it adds B.
TWO_FILES = "phaser X any 2\nsource A a.csv -> X\nsource B b.csv -> X by A at 3\nsink out X\n"

CHILD = "phaser X sum 4\nsource s s.csv -> X\nsink out X\nsink late X by out at 2\n"

# A graph with a task of each kind, a phaser with a single, and a child.
EVERY_KIND = """\
phaser X sum 4
phaser E product 1 single neg
phaser Y least 65536
phaser Z greatest 2
phaser U any 3
phaser V sum 1
phaser W sum 9
source s s.csv -> X
source c c.csv -> X by s at 12
peer p X <-> E -> Y mul 2
fir f Y -> Z shift 0 taps 1
split d Z -> U V
join j U V -> W
sink o W
"""

# What each task waits for where a joiner falls behind.
STALL_TOLD = """\
phase: stalled
  s may not signal phase 4 of X: bound 1, and j stands at 3
  d waits for phase 4 of X, which s has not signalled
  j waits for phase 2 of A, which d has not signalled
  out waits for phase 5 of S, which j has not signalled
  X: d has come to phase 4, j has come to phase 3
"""

# Graphs of text 2.
SINKS_BY_BLOCKS = (
    "graph 2\nphaser X sum 4\nsource s s.csv -> X block=4\nsink out X block=4\nsink late X by out at 2\n"
    "sink early X until 2 block=4\n"
)

FILTERS_BY_BLOCKS = (
    "graph 2\nphaser X sum 4\nphaser Y sum 4\nsource s s.csv -> X block=3\nfir f X -> Y shift 0 taps 1 1 block=4\n"
    "fir g X -> Y shift 0 taps 1 1 by f at 2 until 1 block=4\nsink out Y\n"
)

JOINS_NOW = "graph 2\nphaser X sum 4\nsource s s.csv -> X block=4\nsink out X block=2\nsink late X by out at N now\n"


# Graphs whose drawings have these texts.
DRAWN = [
    (
        "a filter has its taps and its shift",
        (
            "phaser X sum 4\nphaser Y sum 65536 single neg\nphaser Z any 4\nsource s s.csv -> X\n"
            "fir f X -> Z shift 2 taps 1 -2 1\nsink out Z"
        ),
        ['"Y\\nsum 65536\\nneg"', '"Z\\nany 4"', '"f\\nfir\\nshift 2\\ntaps 1 -2 1"', '"X" -> "f";', '"f" -> "Z";'],
    ),
    (
        "filters that add, remember and saturate, a delay and one of 0 steps",
        (
            "graph 3\nphaser X sum 4\nphaser Y sum 4\nsource s s.csv -> X\n"
            "fir f X -> Y shift 2 plus -3 taps 1 2\ndelay d X -> Y of 65536 until 7 block=3\n"
            "delay e X -> Y of 0 by d at 2\nfir g X -> Y of 5 shift 0 taps 1\n"
            "fir r X -> Y of 5 shift 1 plus 1 taps 2 -1 again 0 3 single clamp -7 9\nsink out Y"
        ),
        [
            '"g\\ndelay\\nof 5"',
            '"r\\nfir\\nof 5\\nshift 1\\nplus 1\\ntaps 2 -1\\nagain 0 3\\nclamp -7 9"',
            '"f\\nfir\\nshift 2\\nplus -3\\ntaps 1 2"', '"d\\ndelay\\nof 65536\\nuntil 7\\nblock 3"',
            '"e\\nfir\\nshift 0\\ntaps 1"', '"d" -> "e" [style=dashed, label="at 2"];',
        ],
    ),
    (
        "a peer has its inputs in order, its exchange a clamp",
        (
            "# peers\r\n\r\nphaser X least 2\r\nphaser E sum 2 single clamp -5 7\r\nphaser P product 2\r\n"
            "source s s.csv -> X\r\n\tpeer  p X <-> E -> P mul -2147483647 until 3\r\nsink out P\r\n"
        ),
        ['    "X" -> "p";\n    "E" -> "p";\n    "p" -> "E";\n    "p" -> "P";\n'],
    ),
    (
        "a child names its parent",
        (
            "phaser X sum 4\nsource s s.csv -> X\nsink out X\n"
            "sink late X by out at 4611686018427387904\nsink early X until 2\n"
        ),
        ['"out" -> "late" [style=dashed, label="at 4611686018427387904"];'],
    ),
    (
        "a splitter and a joiner have their ends in order",
        (
            "phaser X sum 1\nphaser A greatest 1\nphaser B sum 1\nphaser Y sum 1\nsource s s.csv -> X\n"
            "split d X -> B A\njoin j B A -> Y\nsink out Y\n"
        ),
        ['"d" -> "B";\n    "d" -> "A";\n    "B" -> "j";\n    "A" -> "j";\n    "j" -> "Y";\n'],
    ),
]

# Graphs that are cut after each byte: the lines of each, with a stroke behind each beginning that
# is a line, too. Any other beginning but none is no line.
CUTS = [
    [
        "phaser X sum 1|6|",
        "phaser Y least 8| single clamp -1 1|2|",
        "phaser Z any 4|",
        "source s s.csv -> X| until 1|0|",
        "fir f X -> Z shift 1 taps 1| -2|3|",
        "sink out X|",
        "sink late X| by out at 1|2| until 3|",
    ],
    [
        "graph 2|",
        "phaser X sum 1|6|",
        "phaser Z sum 4|",
        "source s s.csv -> X| until 1|0| block=1|4|",
        "fir f X -> Z shift 1 taps 1| -2|3| block=4|",
        "sink out X| block=2|",
        "sink late X| by out at 1|2| now| until 3| block=1|6|",
    ],
    [
        "graph 3|",
        "phaser X sum 1|6|",
        "phaser Z sum 4|",
        "source s s.csv -> X|",
        "fir f X -> Z shift 1 plus -23 taps 1| -2|3| until 1|",
        "fir g X -> Z of 12 shift 1 taps 1| again 1|2| -3| single neg| by f at 1|",
        "delay d X -> Z of 1|2| until 1|0| block=4|",
        "delay e X -> Z of 1|2| by d at 1|2| block=4|",
    ],
]


def cuts():
    """Each beginning of each graph of the table, with what a check tells of it."""
    for lines in CUTS:
        before, told = "", [0, 0]
        for number, line in enumerate(lines, 1):
            marks = line.split("|")
            whole = {"".join(marks[:count]) for count in range(1, len(marks))}
            text, kind = line.replace("|", ""), line.split()[0]
            counted = [told[0] + (kind == "phaser"), told[1] + (kind not in ("phaser", "graph"))]
            for length in range(1, len(text) + 1):
                begun = text[:length]
                right = "ok phasers {} tasks {}\n".format(*counted)
                end = right if begun.rstrip(" ") in whole else (1, f"phase: graph line {number}: syntax\n")
                yield before + begun, end
            before, told = before + text + "\n", counted


# ---- samples


def of_samples(wanted):
    """What comes of a text in a graph of one source that has these samples, or a bad record."""
    if wanted.startswith("record"):
        return 1, f"phase: samples of s: {wanted}\n"
    values = [] if wanted == "none" else wanted.split()
    return "".join(f"{line}\n" for line in [f"out {len(values)}", *values])


# ---- faults of graphs, explained

# What stands behind lines of text 1, and behind those of texts 2 and 3, by their first words.
ENDS = {
    "source": (" [by P at N] [until M]", " [by P at N] [until M] [block=B]"),
    "fir": (" [by P at N] [until M]", " [by P at N] [until M] [block=B]"),
    "sink": (" [by P at N] [until M]", " [by P at N [now]] [until M] [block=B]"),
    "phaser": (" [single FN]", " [single FN]"),
}
# The forms of lines without what stands behind all, as FORMATS has them.
FORMS = {
    "phaser": "phaser NAME OP BOUND",
    "source": "source NAME FILE -> Y",
    "fir": "fir NAME X -> Y shift S taps T1 T2 ..",
    "split": "split NAME X -> Y0 Y1 .. [until M]",
    "join": "join NAME X0 X1 .. -> Y [until M]",
    "peer": "peer NAME X <-> E -> Y mul A [until M]",
    "sink": "sink NAME X",
}
THIRD_FORMS = {
    "fir": "fir NAME X -> Y [of D] shift S [plus C] taps T1 T2 .. [again A1 A2 ..] [single FN]",
    "delay": "delay NAME X -> Y of D [by P at N] [until M] [block=B]",
    "decimate": "decimate NAME X -> Y every V [until M]",
}


def form_of(graph, line):
    """The form of a line of this graph, or nothing where none begins so."""
    lines = [words for it in graph.split("\n") if (words := it.split()) and words[0][0] != "#"]
    headed = lines[:1] in ([["graph", "2"]], [["graph", "3"]])
    version = int(lines[0][1]) if headed else 1
    word, forms = (line.split() or [""])[0], FORMS if version < 3 else {**FORMS, **THIRD_FORMS}
    return word in forms and forms[word] + ENDS.get(word, ("", ""))[version > 1]


# What stands in the place of a file that is refused.
FOLDER, LOOP, NOT_READ = object(), object(), object()

ONE = "phaser X sum 2\nsource s a.csv -> X\nsink out X\n"

# The child begins where a has signalled three: it meets a where a has four.
HANDS_OVER = "phaser X any 4\nsource a a.csv -> X\nsource b b.csv -> X by a at 3\n"

# Files that are refused, each with what explains that.
REFUSED_FILES = [
    ("a folder is named", FOLDER, "it is a folder"),
    ("a file that may not be read is named", NOT_READ, "there is no permission to read it"),
    ("a file past the limit is named", "\n" * 1048577, "it has more than 1048576 bytes"),
    ("a file that fails in another way is named", LOOP, "it cannot be read"),
]

# Texts of samples, each with its first bad record, where that stands, how it is shown, and why it
# is no sample.
BAD_RECORDS = [
    ("1\n3,4\n", 2, 2, "3,4", "two fields"),
    ('"1","2"\n', 1, 1, '"1","2"', "two fields"),
    ('"1,2"\n', 1, 1, '"1,2"', "not a whole number"),
    ('1"2,3\n', 1, 1, '1"2,3', "two fields"),
    ('"1"2,"3\n', 1, 1, '"1"2,"3', "two fields"),
    ('"5\n6"\n', 1, 1, '"5', "a quote that is not closed on its line"),
    ('1\n"5\r\n"\n', 2, 2, '"5', "a quote that is not closed on its line"),
    ('"1,2\n3"\n', 1, 1, '"1,2', "a quote that is not closed on its line"),
    ('"value\n"', 1, 1, '"value', "a quote that is not closed on its line"),
    ('1\n"x', 2, 2, '"x', "not a whole number"),
    ('"0"1\n', 1, 1, '"0"1', "a sign or zero in front"),
    ('"-"01\n', 1, 1, '"-"01', "a sign or zero in front"),
    ('"5"x\n', 1, 1, '"5"x', "not a whole number"),
    ('""5""\n', 1, 1, '""5""', "not a whole number"),
    ('"""5"\n', 1, 1, '"""5"', "not a whole number"),
    ('1"2\n', 1, 1, '1"2', "not a whole number"),
    ("value\n1\n", 1, 1, "value", "a header is no sample: `tail -n +2` leaves it out"),
    ('"value"\n1\n', 1, 1, '"value"', "a header is no sample: `tail -n +2` leaves it out"),
    ("Value\n1\n", 1, 1, "Value", "a header is no sample: `tail -n +2` leaves it out"),
    ("Zeit\n1\n", 1, 1, "Zeit", "a header is no sample: `tail -n +2` leaves it out"),
    ("zeit\n1\n", 1, 1, "zeit", "a header is no sample: `tail -n +2` leaves it out"),
    ("A\n1\n", 1, 1, "A", "a header is no sample: `tail -n +2` leaves it out"),
    ("NaN\n1\n", 1, 1, "NaN", "no number: NaN and infinity are no samples"),
    ("1\n-inf\n", 2, 2, "-inf", "no number: NaN and infinity are no samples"),
    ("1\n+Infinity\n", 2, 2, "+Infinity", "no number: NaN and infinity are no samples"),
    ("1\nnano\n", 2, 2, "nano", "not a whole number"),
    ("_a\n1\n", 1, 1, "_a", "not a whole number"),
    ("value,time\n1,2\n", 1, 1, "value,time", "two fields"),
    ("1\nvalue\n", 2, 2, "value", "not a whole number"),
    ("1\n\r\n\nx1\n", 2, 4, "x1", "not a whole number"),
    ("1\rx\r2", 2, 1, "x", "not a whole number"),
    ("1\n+5\n", 2, 2, "+5", "a sign or zero in front"),
    ("05", 1, 1, "05", "a sign or zero in front"),
    ("1\n2\n-0\n", 3, 3, "-0", "a sign or zero in front"),
    ("-01\n", 1, 1, "-01", "a sign or zero in front"),
    ('"05"\n', 1, 1, '"05"', "a sign or zero in front"),
    (" 5\n", 1, 1, " 5", "a blank before or behind the number"),
    ("1\n-5\t\n", 2, 2, "-5\t", "a blank before or behind the number"),
    ("5 \r\n", 1, 1, "5 ", "a blank before or behind the number"),
    (" \n", 1, 1, " ", "not a whole number"),
    (" x\n", 1, 1, " x", "not a whole number"),
    ("5 6\n", 1, 1, "5 6", "not a whole number"),
    ('""\n', 1, 1, '""', "not a whole number"),
    ("-\n", 1, 1, "-", "not a whole number"),
    ("+x\n", 1, 1, "+x", "not a whole number"),
    ("1.5\n", 1, 1, "1.5", "a fraction: multiply by 1000, say, and round"),
    ("1\n-.5\n", 2, 2, "-.5", "a fraction: multiply by 1000, say, and round"),
    ("1\n1.\n", 2, 2, "1.", "a fraction: multiply by 1000, say, and round"),
    ("+1.5\n", 1, 1, "+1.5", "not a whole number"),
    (".\n", 1, 1, ".", "not a whole number"),
    ("1.2.3\n", 1, 1, "1.2.3", "not a whole number"),
    ("1\n9223372036854775808\n", 2, 2, "9223372036854775808", "out of range"),
    ("-9223372036854775808\n", 1, 1, "-9223372036854775808", "out of range"),
    ("\x01é\x7f\n", 1, 1, "????", "not a whole number"),
    ("1" + 60 * "0" + "\n", 1, 1, "1" + 59 * "0", "out of range"),
]

# ---- words

HELP = project.text_of("examples/help.stdout")

# Words, each asked with a script: the status, and what stands on both streams.
WORDS = [
    ("help goes to the output", ["--help", "-h", "help"], "make sum 2 100\n", 0, HELP, ""),
]

# ---- scripts in files, and strict replays

ROUND = "make sum 2 100\nsend 0 5\nsignal 0\nwait 0\n"
ROUND_REPLIES = "ok\nok\nok 0\nvalue 0 5\n"

# Tasks of which each makes other steps, of five samples: A has 3, 4 and 5, B has 1 and 1, and D has 3
# and 5.
APART = (
    "graph 3\nphaser X sum 4\nphaser A sum 4\nphaser B sum 4\nphaser D sum 4\n"
    "source s s.csv -> X\nsplit p X -> A B\ndecimate d A -> D every 2\nsink a D\nsink b B until 1\n"
)
STEPS = [("s", 5), ("p", 5), ("d", 3), ("a", 2), ("b", 1)]

# Words that are asked of a script in the file s or on standard input, with all that comes of them.
STRICTLY = ["replay s --strict", "replay --strict s", "replay --strict", "replay - --strict"]
SCRIPTS = [
    (
        "a refusal past the first write",
        STRICTLY,
        ROUND + 20000 * "send 0 1\n" + "x\n",
        1,
        ROUND_REPLIES + 20000 * "ok\n" + "bad line\n",
        "phase: script line 20005\n",
    ),
    ("a long line that is no command", STRICTLY, "x" * 70000 + "\n" + ROUND, 1, "bad line\n", "phase: script line 1\n"),
]

# ---- scripts with a reply to each line

# Lines that are no command.
LOOSE = [
    "", " wait 0", "wait  0", "wait 0 ", "wait 05", "Wait 0", "send 0 -0", "send 0 -9223372036854775808",
    "send 0 9223372036854775808", "signal 0 ", "signal 0 negs", "signal 0 clamp 10 0",
    "signal 0 clamp 0 9223372036854775808", "signal 0 clamp 0  5", "add 0 1 Sig", "add 0 1", "drop 0 0",
    "make mean 2 100", "block", "block 0", "block 0 ", "block 0 1  2", "block 0 1 2 ", "block  0 1", "block 00 1",
    "block 0 01", "block 0 -0", "block 0 x", "block 0 9223372036854775808", "Block 0 1",
    "block 0 1 2 3 4 5 6 7 8 9 10 11 12 13 14 15 16 17", "take", "take 0", "take 0 ", "take 0 0", "take 0 17",
    "take 0 01", "take 0 -1", "take 0 1 2", "take 0 18446744073709551617", "block 19223372036854775807 -1",
]

# Scripts as bytes, and all that is replied.
LINE_ENDS = [
    ("an empty script", "", ""),
    ("a line", "make sum 2 100\n", "ok\n"),
    ("a last line with no end", "make sum 2 100", "ok\n"),
    ("a line that ends in a return and a line feed", "make sum 2 100\r\n", "ok\n"),
    ("a last line that ends in a return", "make sum 2 100\r", "ok\n"),
    ("a line with a return before its end", "make sum 2 100\r\r\n", "bad line\n"),
    ("a line with a space before its end", "make sum 2 100 \n", "bad line\n"),
    ("an empty line", "\n", "bad line\n"),
    ("a return alone", "\r", "bad line\n"),
    ("two empty lines", "\r\n\n", "bad line\nbad line\n"),
    ("a last line behind an empty one", "\nmake sum 2 100", "bad line\nok\n"),
    ("three lines", "make sum 2 100\n\nmake sum 2 100\n", "ok\nbad line\nno made\n"),
    ("three lines and a return at the end", "make sum 2 100\n\nmake sum 2 100\r", "ok\nbad line\nno made\n"),
    (
        "lines of both ends",
        "make sum 2 100\r\nsend 0 5\r\nsignal 0\nwait 0\nsignal 0",
        "ok\nok\nok 0\nvalue 0 5\nok 1\n",
    ),
]

# A line of as many bytes as one may have, 361, and what stands behind it, with the reply.
LEAST = 16 * " -9223372036854775807"
LONGEST = "block 9223372036854775807" + LEAST
LONGEST_ENDS = [("\r\n", "no phaser\n"), (" \n", "bad line\n"), ("0\n", "bad line\n"), ("\r\r\n", "bad line\n")]

# A phase that got as many sends as it may, beside a task 1 that signals, and what comes behind
# them.
OPENING = [("make sum 4 100", "ok"), ("add 0 1 sig", "ok")] + 65536 * [("send 0 1", "ok")]
FULL = [
    (
        "a full task and a full phase take no more sends",
        [
            ("send 0 1", "no too-many-sends"),
            ("signal 0", "ok 0"),
            ("send 1 1", "ok"),
            ("signal 1", "no phase-full"),
            ("drop 1", "ok"),
            ("wait 0", "value 0 65536"),
        ],
    ),
    # The phase has no room for a send of the block, whose other phase stays empty too.
    (
        "a full phase refuses the block",
        [
            ("signal 0", "ok 0"),
            ("block 1 5 6", "no phase-full"),
            ("signal 1", "ok 0"),
            ("take 0 4", "values 0 65536"),
        ],
    ),
]

MANY_TASKS = [
    ("make sum 2 100", "ok"),
    *[(f"add 0 {child} sig", "ok") for child in range(1, 1024)],
    ("add 0 1024 sig", "no too-many-tasks"),
    ("drop 7", "ok"),
    ("add 0 1024 sig", "ok"),
]

LATE_CHILDREN = [
    ("make sum 2 1000", "ok"),
    *[row for phase in range(100) for row in (("signal 0", f"ok {phase}"), ("wait 0", f"value {phase} 0"))],
    *[(f"add 0 {child} sigwait", "ok") for child in range(1, 1001)],
    *[row for child in range(1, 1001) for row in ((f"send {child} {child}", "ok"), (f"signal {child}", "ok 100"))],
    ("wait 7", "no not-yet"),
    ("signal 0", "ok 100"),
    ("wait 7", "value 100 500500"),
]

# What the first signal of a phase may name, and what a phase comes to that sums to -7. Two clamps
# differ where one end does.
NAMED = [
    ("", -7),
    (" neg", 7),
    (" abs", 7),
    (" halve", -4),
    (" clamp -3 5", -3),
    (" clamp -3 6", -3),
    (" clamp -9 -8", -8),
    (" clamp -10 -8", -8),
]


def two_signals(first, second, value):
    """Two signals of a phase, each naming a single or none: the second joins it where it names what
    the first did."""
    opening = [("make sum 1 100", "ok"), ("add 0 1 single", "ok"), ("send 0 -7", "ok"), (f"signal 0{first}", "ok 0")]
    if first == second:
        joining = [(f"signal 1{second}", "ok 0")]
    else:
        joining = [(f"signal 1{second}", "no single-differs"), ("drop 1", "ok")]
    return [*opening, *joining, ("wait 0", f"value 0 {value}")]


LONGEST_BLOCK = [
    ("make sum 16 100", "ok"),
    ("add 0 2 wait", "ok"),
    ("add 0 9223372036854775807 sig", "ok"),
    ("drop 0", "ok"),
    (LONGEST, "ok 0"),
    ("take 2 16", "values 0" + LEAST),
]


def replays():
    """Replays, each with its name, its script and all that is replied."""
    for name, script, replies in LINE_ENDS:
        yield name, script, replies
    for line in LOOSE:
        yield f"no command: {line!r}", f"{line}\n", "bad line\n"
    for end, reply in LONGEST_ENDS:
        yield f"the longest line before {end!r}", LONGEST + end, reply
    for name, _, rows in [*tables("replay"), ("a block of the longest line", "", LONGEST_BLOCK)]:
        yield name, *by_lines(rows)


def long_replays():
    """Replays of many lines or bytes, or of many scripts, which are read whole."""
    for name, rows in FULL:
        yield name, *by_lines(OPENING + rows)
    for first, value in NAMED:
        for second, _ in NAMED:
            yield f"a phase of{first or ' none'} and{second or ' none'}", *by_lines(two_signals(first, second, value))
    yield "a full phaser takes no more tasks", *by_lines(MANY_TASKS)
    yield "children of a late phase send and signal", *by_lines(LATE_CHILDREN)
    yield "a line of a million bytes is one bad line", 1000000 * "x", "bad line\n"


def by_lines(rows):
    return "".join(f"{line}\n" for line, _ in rows), "".join(f"{reply}\n" for _, reply in rows)


# ---- runs on worker threads

BUS = (
    "phaser X sum 1\nphaser A sum 1\nphaser B sum 1\nphaser S sum 1\nsource s s.csv -> X\n"
    "split d X -> A B\nfir f A -> S shift 0 taps 1\nfir g X -> S shift 0 taps 1\nsink out S\n"
)

# A splitter onto three phasers of a bound and an operation, with words behind its line.
DEAL = (
    "phaser X sum {m}\nphaser A {op} {m}\nphaser B {op} {m}\nphaser C {op} {m}\nsource s s.csv -> X\n"
    "split d X -> A B C{words}\nsink a A\nsink b B\nsink c C\n"
)

# As many tasks as a graph may have, each but the last signalling the next one's phaser.
CHAIN = (
    "".join(f"phaser p{n} sum 2\n" for n in range(63))
    + "source s s.csv -> p0\n"
    + "".join(f"fir f{n} p{n} -> p{n + 1} shift 0 taps 1\n" for n in range(62))
    + "sink out p62\n"
)


# Graphs and samples, the words that are asked behind `run g` by 1, 2 and 16 workers, and what comes
# of them.
BY_WORKERS = [
    ("64 tasks over 63 phasers", CHAIN, "1\n-2\n3\n", "", "out 3\n1\n-2\n3\n"),
    (
        "a splitter of 3 by blocks",
        DEAL.format(m=64, op="sum", words=""),
        numbers(200),
        "",
        "a 67\n" + "".join(f"{n}\n" for n in range(0, 200, 3))
        + "b 67\n" + "".join(f"{n}\n" for n in range(1, 200, 3))
        + "c 66\n" + "".join(f"{n}\n" for n in range(2, 200, 3)),
    ),
    (
        "a splitter of 3 by blocks up to its `until`",
        DEAL.format(m=64, op="greatest", words=" until 71"),
        numbers(200),
        "",
        "a 24\n" + "".join(f"{n}\n" for n in range(0, 71, 3))
        + "b 24\n" + "".join(f"{n}\n" for n in range(1, 71, 3))
        + "c 23\n" + "".join(f"{n}\n" for n in range(2, 71, 3)),
    ),
    (
        "a splitter of 3 onto outputs of two operations",
        DEAL.format(m=64, op="sum", words="").replace("C sum", "C any"),
        numbers(70),
        "",
        "a 24\n" + "".join(f"{n}\n" for n in range(0, 70, 3))
        + "b 23\n" + "".join(f"{n}\n" for n in range(1, 70, 3))
        + "c 23\n" + "".join(f"{n}\n" for n in range(2, 70, 3)),
    ),
    (
        "a splitter of 3 has room for no block on its second output",
        DEAL.format(m=64, op="sum", words="").replace("B sum 64", "B sum 1"),
        numbers(70),
        "",
        "a 24\n" + "".join(f"{n}\n" for n in range(0, 70, 3))
        + "b 23\n" + "".join(f"{n}\n" for n in range(1, 70, 3))
        + "c 23\n" + "".join(f"{n}\n" for n in range(2, 70, 3)),
    ),
    # A worker makes 1,024 turns in a row with a source, each with 64 samples, and X is full then.
    (
        "a sink whose line stands first has what the last turn in a row signalled",
        "phaser X sum 65536\nsink out X\nsource s s.csv -> X\n",
        numbers(65600),
        "",
        "out 65600\n" + numbers(65600),
    ),
    (
        "blocks of 65",
        "graph 2\nphaser X sum 65\nphaser Y sum 65\nsource s s.csv -> X block=65\n"
        "fir f X -> Y shift 0 taps 1 block=65\nsink out Y block=65\n",
        numbers(200),
        "",
        "out 200\n" + numbers(200),
    ),
    (
        "blocks of as many as a phaser may have",
        "graph 2\nphaser X sum 65536\nphaser Y sum 65536\nsource s s.csv -> X block=65536\n"
        "fir f X -> Y shift 0 taps 1 block=65536\nsink out Y block=65536\n",
        numbers(65600),
        "",
        "out 65600\n" + numbers(65600),
    ),
    (
        "the last of 64 phasers",
        "".join(f"phaser p{n} sum 2\n" for n in range(64))
        + "source s s.csv -> p62\nfir f p62 -> p63 shift 0 taps 1\nsink out p63\n",
        numbers(20),
        "",
        "out 20\n" + numbers(20),
    ),
    (
        "a value too big that no sink takes",
        "graph 2\nphaser X sum 8\nsource a s.csv -> X\nsource b s.csv -> X\nsink out X until 0\n"
        "sink late X by out at 0 now until 1\n",
        "1\n1\n1\n9223372036854775807\n",
        "",
        OneOf(["out 0\nlate from 4 0\n", *(f"out 0\nlate from {start} 1\n2\n" for start in range(3))]),
    ),
    (
        "a sink that joins now where single steps stand",
        JOINS_NOW.replace("at N", "at 2").replace("-> X block=4", "-> X block=1"),
        "1\n2\n3\n4\n",
        "",
        OneOf(["out 4\n1\n2\n3\n4\n" + end for end in ("late from 2 2\n3\n4\n", "late from 3 1\n4\n", "late from 4 0\n")]),
    ),
]


def ended(end):
    """The status, the output and the line of a fault."""
    return (0, end, "") if isinstance(end, (str, Has, OneOf)) else (end[0], "", end[1])


def all_runs():
    yield from stored_runs()
    for name, graph, texts in DRAWN:
        yield Run(name, "draw g", {"g": graph}, None, 0, Has(texts), "")
    for name, file, why in REFUSED_FILES:
        told = f"phase: read fault\n  h: {why}\n"
        yield Run(name, "check h --explain", {"h": file}, None, 5, "", told)
    for name, around, rows in tables("graphs"):
        for text, told in rows:
            graph = around.replace("*", text).encode().decode("unicode_escape")
            end = f"ok {told}\n" if told.startswith("phasers") else (1, f"phase: graph line {told}\n")
            files = {"g": graph, "!~": "", "s.csv": "", "t.csv": ""}
            yield Run(f"{name}: {text}", "check g", files, None, *ended(end))
    for graph, end in cuts():
        yield Run(f"a graph that is cut: {graph[-20:]!r}", "check g", {"g": graph, "s.csv": "1\n"}, None, *ended(end))
    for count in range(1, 65):
        graph = "phaser X sum 4\nphaser Y sum 4\nsource s s.csv -> X\nfir f X -> Y shift 0 taps" + count * " 1"
        # The window holds the last `count` samples, and fewer at the beginning.
        wanted = "out 66\n" + "".join(f"{min(step, count)}\n" for step in range(1, 67))
        files = {"g": graph + "\nsink out Y\n", "s.csv": 66 * "1\n"}
        yield Run(f"a window of {count} samples", "eval g", files, None, 0, wanted, "")
    for name, _, rows in tables("samples"):
        for text, wanted in rows:
            graph = "phaser X sum 2\nsource s s.csv -> X\nsink out X\n"
            files = {"g": graph, "s.csv": text.encode().decode("unicode_escape")}
            yield Run(f"{name}: {text}", "eval g", files, None, *ended(of_samples(wanted)))
    pieces = "-1234567890123456\n" * 9000
    piped = "phaser X sum 1\nsource s s.csv -> X\nsink out X\n"
    for name, words, files, script in ON_INPUT:
        yield Run(name, words, files, script, 0, "out 3\n-1\n-1\n-1\n", "")
    yield Run("a list of several pieces", "eval g", {"g": piped, "s.csv": pieces}, None, 0, "out 9000\n" + pieces, "")
    did = "".join(rf"  {task}: {steps} steps, [1-9]\d* turns.* % of the time\n" for task, steps in STEPS)
    for workers in 1, 2, 16:
        words, files = f"run g --counts --workers {workers}", {"g": APART, "s.csv": "3\n1\n4\n1\n5\n"}
        yield Run("what each task did", words, files, None, 0, "a 2\n3\n5\nb 1\n1\n", Like(did))
    files = {"g": FIR.replace("shift 2", "shift 0"), "s.csv": f"{2**62}\n{2**62}\n"}
    yield Run("no counts behind a fault", "run g --counts", files, None, 3, "", "phase: too big at f 1\n")
    many = "1\n" * 2100000
    yield Run("a list of over two million values", "eval g", {"g": piped, "s.csv": many}, None, 0, "out 2100000\n" + many, "")
    doubled, told = doubled_lists()
    yield Run("one of 7 of a long list", "check g --explain", doubled, None, 0, Has([told]), "")
    yield Run("lists of over four and eight million values", "eval g --sink last", *long_lists(4200000))
    for name, rows in marks():
        for graph, fault, line, under, expected in rows:
            files = {"g": graph, "a.csv": "1\n"}
            told = f"phase: graph line {fault}\n"
            marked = f"{told}  {line}\n  {under}\n  expected: {expected}\n"
            if fault.endswith(": syntax") and (form := form_of(graph, line)):
                marked += f"  form: {form}\n"
            yield Run(f"{name}: {fault}", "check g", files, None, 1, "", told)
            yield Run(f"{name}: {fault}, explained", "check g --explain", files, None, 1, "", marked)
            if not fault.endswith("any-meets"):
                yield Run(f"{name}: {fault}, explained to one who draws", "draw g --explain", files, None, 1, "", marked)
    for text, number, line, shown, why in BAD_RECORDS:
        told = f"phase: samples of s: record {number}\n  a.csv, record {number}, line {line}: {shown}\n  {why}\n"
        told += "  expected: one whole number, from -9223372036854775807 to 9223372036854775807\n"
        for words in "check g --explain", "eval g --explain", "run g --explain", "eval g --workers 2 --explain":
            yield Run(f"a bad record: {text[:20]!r}", words, {"g": ONE, "a.csv": text}, None, 1, "", told)
            piped, told_piped = ONE.replace("a.csv", "-"), told.replace("a.csv", "-")
            name = f"a bad record of standard input: {text[:20]!r}"
            yield Run(name, words, {"g": piped}, text, 1, "", told_piped)
    for name, asked, script, *end in WORDS:
        for words in asked:
            yield Run(name, words, {}, script, *end)
    for name, asked, script, *end in SCRIPTS:
        for words in asked:
            yield Run(name, words, {"s": script}, script, *end)
    for name, script, replies in replays():
        yield Run(name + ", in a file", "replay s", {"s": script}, None, 0, replies, "")
        for size in None, 1, 3:
            end = f", in pieces of {size}" if size else ""
            yield Run(name + end, "replay", {}, script, 0, replies, "", size=size)
    for name, script, replies in long_replays():
        yield Run(name, "replay", {}, script, 0, replies, "")
    script, replies = example_of_help()
    yield Run("the example in help is answered so", "replay", {}, script, 0, replies, "")
    for command, text in helps():
        for words in f"{command} --help", f"{command} -h", f"help {command}":
            yield Run(f"the whole help of {command}", words, {}, "make sum 2 100\n", 0, text, "")
    for name, graph, samples, words, end in BY_WORKERS:
        for workers in 1, 2, 16:
            asked = f"run g {words} --workers {workers}"
            yield Run(f"{name}, by {workers} workers", asked, {"g": graph, "s.csv": samples}, None, *ended(end))
    # What depends on how the threads meet shows now and then.
    six, end = {"g": BUS, "s.csv": "1\n2\n3\n4\n5\n6\n"}, "out 6\n2\n5\n8\n4\n5\n6\n"
    for number in range(100):
        yield Run(f"a bus by four workers, run {number}", "run g --workers 4", six, None, *ended(end))
    for bound in 1, 2, 64, 65536:
        for name, graph, files, values, end in ways_of_values(bound):
            lines, files = "".join(f"{value}\n" for value in values), {"g": graph, **files}
            name, wanted = f"{name}, bound {bound}", (0, lines, "") if end is None else ended(end)
            for words in "eval g", "run g --workers 1", "run g --workers 3":
                yield Run(f"{name}: {words}", words + " --sink out", files, None, *wanted)
            streamed = wanted[0], lines, wanted[2]
            yield Run(f"{name}: stream", "stream g --sink out", files, None, *streamed)
    for name, files, *end in (*banks(), *joiners()):
        for words in "eval g", *(f"run g --workers {workers}" for workers in (1, 2, 4, 16)):
            yield Run(f"{name}: {words}", words, files, None, *end)
    for name, text, *end in long_texts():
        for workers in 1, 2, 4, 16:
            files = {"g": "phaser X sum 1024\nsource s s.csv -> X\nsink o X\n", "s.csv": text}
            yield Run(f"{name}, by {workers} workers", f"run g --workers {workers}", files, None, *end)
            yield Run(f"{name}, evaluated by {workers}", f"eval g --workers {workers}", files, None, *end)
    for name, files, *end in long_filters():
        for words in "", " --workers 1", " --workers 2", " --workers 4", " --workers 16":
            yield Run(f"{name}, by eval{words}", f"eval g{words}", files, None, *end)


def example_of_help():
    """The script of the example in the help text, whose lines alone have three columns, and its
    replies."""
    script, replies = "", ""
    for line in HELP.splitlines():
        columns = [it.strip() for it in line.split("    ") if it.strip()]
        if len(columns) == 3:
            script, replies = script + columns[0] + "\n", replies + columns[1] + "\n"
    assert script == "make sum 2 100\nadd 0 1 sig\nsend 0 3\nsend 1 4\nsignal 1\nsignal 0\nwait 0\n", script
    assert replies == "ok\nok\nok\nok\nok 0\nok 0\nvalue 0 7\n", replies
    return script, replies
