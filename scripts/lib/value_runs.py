"""Graphs on many samples, and what comes of them."""
# The greatest value.
MOST = 9223372036854775807


def numbers(count, first=0):
    """So many numbers from the first, a line each."""
    return "".join(f"{n}\n" for n in range(first, first + count))


def ways_of_values(bound):
    """Graphs whose phasers of this bound keep numbers alone while one task signals, and go on by
    slots and back: each with a name, its samples, the values of `out`, and a fault or None, behind
    which a stream has written those values."""
    first = f"phaser X sum {bound}\nsource A a.csv -> X"
    a, b = list(range(1, 201)), list(range(1000, 1120))
    files = {"a.csv": numbers(200, 1), "b.csv": numbers(120, 1000)}
    late = "\nsource B b.csv -> X by A at 150\nsink out X\n"
    both = [x + (b[k - 150] if k >= 150 else 0) for k, x in enumerate(a)]
    yield "one source alone", first + "\nsink out X\n", files, a, None
    yield "another source joins, and the first leaves", first + late, files, both + b[50:], None
    yield (
        "a source leaves where another comes", first + " until 150" + late, files, a[:150] + b, None,
    )
    # Of each x a peer makes 2 * x less what the single makes of it.
    for single, of in ("neg", lambda x: -x), ("abs", abs), ("halve", lambda x: x // 2):
        graph = (
            f"phaser X sum {bound}\nphaser E sum {bound} single {single}\nphaser Y sum {bound}\n"
            "source A a.csv -> X\npeer p X <-> E -> Y mul 2\nsink out Y\n"
        )
        yield f"a single, {single}", graph, files, [2 * x - of(x) for x in a], None
    for operation in "product", "least", "greatest", "any":
        yield operation, first.replace("sum", operation) + "\nsink out X\n", files, a, None
    yield (
        "a sink joins", first + "\nsink out X\nsink late X by out at 70\n", files, a, None,
    )
    yield (
        "a sink joins now", f"graph 2\n{first}\nsink out X\nsink late X by out at 70 now\n",
        files, a, None,
    )
    yield (
        "a sink leaves before the other", first + "\nsink gone X until 90\nsink out X\n", files, a,
        None,
    )
    yield "the sink leaves first", first + "\nsink out X until 70\n", files, a[:70], None
    filters = f"{first}\nphaser Y sum {bound}\nfir f X -> Y shift 0 taps 2 1"
    pairs = [2 * x + y for x, y in zip(a, [0] + a)]
    yield "a filter", filters + "\nsink out Y\n", files, pairs, None
    yield (
        "a filter of the same samples joins",
        filters + "\nfir g X -> Y shift 0 taps 1 by f at 100\nsink out Y\n", files,
        pairs[:100] + [z + x for z, x in zip(pairs[100:], a[100:])], None,
    )
    yield (
        "a filter leaves", filters + " until 130\nsink out Y\n", files, pairs[:130], None,
    )
    third = f"graph 3\n{first}\nphaser Y sum {bound}\n"
    for steps in 0, 1, 2, 15, 16, 17, 63, 64, 65, 199, 200, 201, 65536:
        yield (
            f"a delay of {steps}", f"{third}delay d X -> Y of {steps}\nsink out Y\n", files,
            ([0] * steps + a)[:200], None,
        )
    late = [0] * 103 + a[100:197]
    yield (
        "a delay of the same samples joins, with zeros of its own first",
        f"{third}delay d X -> Y of 2\ndelay e X -> Y of 3 by d at 100\nsink out Y\n", files,
        [x + y for x, y in zip([0, 0] + a, late)], None,
    )
    yield (
        "a delay leaves, and keeps its last values", f"{third}delay d X -> Y of 5 until 90\nsink out Y\n",
        files, [0] * 5 + a[:85], None,
    )
    # A decimator puts the first of each so many values, and counts its own steps.
    for steps in 1, 2, 3, 7, 64, 65, 199, 200, 201, 65536:
        yield (
            f"one value of {steps}", f"{third}decimate d X -> Y every {steps}\nsink out Y\n", files,
            a[::steps], None,
        )
    for count in 0, 1, 2, 3, 4, 7:
        few = {"a.csv": numbers(count, 1)}
        yield (
            f"one of 3 of {count} values", f"{third}decimate d X -> Y every 3\nsink out Y\n", few,
            a[:count:3], None,
        )
        yield (
            f"a delay of 3 of {count} values", f"{third}delay d X -> Y of 3\nsink out Y\n", few,
            ([0] * 3 + a)[:count], None,
        )
    yield (
        "a decimator leaves between two values",
        f"{third}decimate d X -> Y every 4 until 90\nsink out Y\n", files, a[:90:4], None,
    )
    yield (
        "two decimators of one stream add up",
        f"{third}decimate d X -> Y every 3\ndecimate e X -> Y every 3 until 7\nsink out Y\n", files,
        [2, 8, 14, *a[9::3]], None,
    )
    # Of each x and the one before it.
    for shift, plus, taps in (
        (2, 2, (1, 0)), (2, -2, (1, 0)), (2, 8, (1, -3)), (1, 1, (-1, 0)), (62, 2 ** 62, (0, 0)),
        (0, -(2 ** 62), (-1, 2)),
    ):
        yield (
            f"a filter that shifts by {shift} what it adds {plus} to",
            f"{third}fir f X -> Y shift {shift} plus {plus} taps {taps[0]} {taps[1]}\nsink out Y\n",
            files,
            [(taps[0] * x + taps[1] * y + plus) // 2 ** shift for x, y in zip(a, [0] + a)], None,
        )
    yield from remembering(bound)
    # What is added leaves the range by itself, and comes back into it before it is shifted.
    for step in 0, 1, 15, 16, 64:
        big = {"a.csv": numbers(step, 1) + f"{2 ** 62}\n" + numbers(40, 1)}
        adds = f"{third}fir f X -> Y shift 0 plus {2 ** 62} taps 1\nsink out Y\n"
        yield (
            f"an answer out of range by what is added at step {step}", adds, big,
            [x + 2 ** 62 for x in a[:step]], (3, f"phase: too big at f {step}\n"),
        )
        values = [*a[:step], 2 ** 62, *range(1, 41)]
        yield (
            f"a sum out of range at step {step} that is shifted into it",
            adds.replace("shift 0", "shift 1"), big, [(x + 2 ** 62) // 2 for x in values], None,
        )
    # The sum of this one, twice, and the one before it is past the greatest value.
    for step in 0, 1, 15, 16, 63, 64, 100:
        big = {"a.csv": numbers(step, 1) + f"{2 ** 62}\n" + numbers(40, 1)}
        yield (
            f"an answer out of range at step {step}", filters + "\nsink out Y\n", big, pairs[:step],
            (3, f"phase: too big at f {step}\n"),
        )
        # Two sums in one phase.
        yield (
            f"a phase out of range at {step}", first + "\nsource B b.csv -> X\nsink out X\n",
            {"a.csv": numbers(step, 1) + f"{MOST}\n" + numbers(40, 1), "b.csv": numbers(200, 1)},
            [2 * x for x in a[:step]], (3, f"phase: too big at X {step}\n"),
        )


def remembering(bound):
    """Filters that weigh what they put, and filters that apply a single, as `ways_of_values` has
    them."""
    a, sums = list(range(1, 201)), [n * (n + 1) // 2 for n in range(1, 201)]
    edge = [30000] * 3 + [-30000] * 4 + [100]
    rows = (
        ("a running sum", "shift 0 taps 1 again 1", a, sums),
        ("one that leaves", "shift 0 taps 1 again 1 until 90", a, sums[:90]),
        ("a sum of every other value", "shift 0 taps 1 again 0 1", a,
         [(n // 2 + 1) * (n // 2 + 1 + n % 2) for n in range(200)]),
        ("what was put 64 steps before", f"shift 0 taps 1{63 * ' 0'} again{63 * ' 0'} 1", a,
         [sum(a[n::-64]) for n in range(200)]),
        ("nothing of what was put", "shift 0 taps 2 1 again 0", a,
         [2 * x + y for x, y in zip(a, [0] + a)]),
        ("a filter that rests beside 0", "shift 1 taps 1 again 1", [-8, 0, 0, 0, 0],
         [-4, -2, -1, -1, -1]),
        ("one that rounds to the nearest", "shift 1 plus 1 taps 1 again 1", [-8, 0, 0, 0, 7, 0],
         [-4, -2, -1, 0, 4, 2]),
        ("a difference of a sum", "shift 0 taps 1 -1 again 1", a, a),
        ("a sum that saturates", "shift 0 taps 1 again 1 single clamp -32768 32767", edge,
         [30000, 32767, 32767, 2767, -27233, -32768, -32768, -32668]),
        ("what is put is negated", "shift 0 taps 1 again 1 single neg", [1, 2, 3, 4, 5],
         [-1, -1, -2, -2, -3]),
        ("a clamp before the range is looked at", "shift 0 taps 3 single clamp -32768 32767",
         [MOST, -MOST, 5], [32767, -32768, 15]),
        ("half of what is out of range", "shift 0 taps 2 single halve", [2 ** 62, -MOST, -3],
         [2 ** 62, -MOST, -3]),
        ("half, rounded down", "shift 0 taps 1 single halve", [7, -7, 1, -1], [3, -4, 0, -1]),
        ("a rectifier", "shift 0 taps -1 single abs", [MOST, -MOST, 0, 5], [MOST, MOST, 0, 5]),
        ("a threshold", "shift 0 plus -9 taps 1 single clamp 0 1", [8, 9, 10, 11], [0, 0, 1, 1]),
        ("samples of some steps before", "of 3 shift 0 taps 1 2", a,
         [x + 2 * y for x, y in zip([0] * 3 + a, [0] * 4 + a)][:200]),
        ("what was put beside such samples", "of 3 shift 0 taps 1 again 1", a, ([0] * 3 + sums)[:200]),
        ("65 taps", f"shift 0 taps{65 * ' 1'}", a, [sum(a[max(0, n - 64) : n + 1]) for n in range(200)]),
        ("1,024 taps", f"shift 0 taps{1024 * ' 1'}", a, sums),
    )
    begin = (
        f"graph 3\nphaser X sum {bound}\nphaser Y sum {bound}\nsource A a.csv -> X\nfir f X -> Y "
    )
    for name, does, samples, values in rows:
        files = {"a.csv": "".join(f"{x}\n" for x in samples)}
        yield name, f"{begin}{does}\nsink out Y\n", files, values, None
    yield (
        "a running sum joins, and begins with nothing",
        f"{begin}shift 0 taps 1 again 1\nfir g X -> Y shift 0 taps 1 again 1 by f at 100\nsink out Y\n",
        {"a.csv": numbers(200, 1)},
        # The samples before the child's first come to 5,050.
        [x + y for x, y in zip(sums, [0] * 100 + [x - 5050 for x in sums[100:]])], None,
    )
    yield (
        "one that grows is out of range at its step", f"{begin}shift 0 taps 1 again 2\nsink out Y\n",
        {"a.csv": "1\n" + 80 * "0\n"}, [2 ** n for n in range(63)], (3, "phase: too big at f 63\n"),
    )


def banks():
    """Banks of three branches, of which each deals what its first filter makes, joins a share with
    zeros and filters that again, and whose answers are added up: with bounds of which some allow no
    block, and with joiners that end by `until`, or since the zeros do."""
    taps = [[1, 2], [3, -1], [-2, 5, 1]]
    values = [n * 7919 % 2003 - 1001 for n in range(210)]
    for bounds, zeros, most in (
        [(64, 64, 64), 105, None], [(1, 1, 1), 105, None], [(64, 1, 64), 105, None],
        [(64, 64, 1), 105, None], [(3, 200, 5), 105, None], [(64, 64, 64), 40, None],
        [(64, 64, 64), 105, 75],
    ):
        before, joined, behind = bounds
        graph = f"phaser X sum {before}\nphaser Z sum {joined}\n"
        for name, bound in ("A", before), ("B", joined), ("C", joined), ("D", behind):
            graph += "".join(f"phaser {name}{k} sum {bound}\n" for k in range(3))
        graph += f"phaser Y sum {behind}\nsource s s.csv -> X\nsource z z.csv -> Z\n"
        until = "" if most is None else f" until {most}"
        for k, those in enumerate(taps):
            numbers_of = " ".join(map(str, those))
            graph += (
                f"fir f{k} X -> A{k} shift 1 taps {numbers_of}\nsplit d{k} A{k} -> B{k} C{k}\n"
                f"join j{k} B{k} Z -> D{k}{until}\nfir g{k} D{k} -> Y shift 0 taps {numbers_of}\n"
            )
        outs = [filtered(those, 1, values)[::2] for those in taps]
        # With so few zeros a joiner ends behind the value that it takes next.
        length = min(2 * len(outs[0]), 2 * zeros + 1, most or 2 * len(outs[0]))
        joins = [[0 if n % 2 else out[n // 2] for n in range(length)] for out in outs]
        sums = [sum(those) for those in zip(*(filtered(t, 0, j) for t, j in zip(taps, joins)))]
        whole = f"out {length}\n" + "".join(f"{value}\n" for value in sums)
        files = {**files_of(graph + "sink out Y\n", values), "z.csv": "0\n" * zeros}
        yield f"a bank with bounds {bounds}, {zeros} zeros{until}", files, 0, whole, ""


def joiners():
    """Joiners of two, three and eight lists that come as fast as they are taken, within bounds of
    which some allow no block: to their ends, or where one of the lists is shorter, `until` cuts, or
    one has a phase out of range."""
    for inputs in 2, 3, 8:
        for bound, behind in (1, 1), (2, 2), (3, 3), (64, 64), (64, 3), (3, 64), (200, 200):
            lists = [[1000 * k + n for n in range(150)] for k in range(inputs)]
            of = f"of {inputs}, bounds {bound} and {behind}"
            yield joined(f"a joiner {of}", lists, bound, behind)
            for cut in 1, inputs * 64 + 1, inputs * 149 - 1:
                yield joined(f"a joiner {of} until {cut}", lists, bound, behind, cut)
            for k in {0, inputs // 2, inputs - 1}:
                fewer = [list[:70] if i == k else list for i, list in enumerate(lists)]
                yield joined(f"a joiner {of} whose input {k} ends first", fewer, bound, behind)
                for step in 0, 67:
                    big = [list[:step] + [MOST] + list[step:] if i == k else list for i, list in enumerate(lists)]
                    name, files, *_ = joined(f"a joiner {of} with too much at {step} of input {k}", big, bound, behind)
                    more = f"source more s{k}.csv -> I{k}\njoin j"
                    files["g"] = files["g"].replace("join j", more)
                    yield name, files, 3, "", f"phase: too big at I{k} {step}\n"


def joined(name, lists, bound, behind, until=None):
    """A graph with a joiner of these lists, and what comes of it."""
    graph = "".join(f"phaser I{k} sum {bound}\n" for k in range(len(lists)))
    graph += f"phaser J sum {behind}\n"
    graph += "".join(f"source s{k} s{k}.csv -> I{k}\n" for k in range(len(lists)))
    graph += f"join j {' '.join(f'I{k}' for k in range(len(lists)))} -> J"
    graph += ("" if until is None else f" until {until}") + "\nsink out J\n"
    length = min(len(values) * len(lists) + k for k, values in enumerate(lists))
    length = length if until is None else min(length, until)
    in_turn = [lists[n % len(lists)][n // len(lists)] for n in range(length)]
    files = {f"s{k}.csv": "".join(f"{value}\n" for value in values) for k, values in enumerate(lists)}
    whole = f"out {length}\n" + "".join(f"{value}\n" for value in in_turn)
    return name, {"g": graph, **files}, 0, whole, ""


def phasers(names, bound, operation="sum"):
    return "".join(f"phaser {name} {operation} {bound}\n" for name in names.split())


DEALS = "source s s.csv -> X\nsplit d X -> A B\n"


def two_branches(bound):
    return phasers("X A B S", bound) + DEALS + "join j A B -> S\n"


def dealers(bound):
    """Graphs whose phasers of this bound stand between splitters, joiners and peers, each with a
    name and a sink: some come to an end, and some stand still. The source `s` reads s.csv, and
    another, which stands before it, z.csv."""
    deals, two = DEALS, two_branches(bound)
    yield "two branches", two + "sink out S\n", "out"
    yield (
        "three branches", phasers("X A B C S", bound)
        + "source s s.csv -> X\nsplit d X -> A B C\njoin j A B C -> S\nsink out S\n", "out",
    )
    yield (
        "a filter on a branch", phasers("X A B F S", bound)
        + deals + "fir f A -> F shift 0 taps 1 2\njoin j F B -> S\nsink out S\n", "out",
    )
    yield (
        "a branch that is dealt again", phasers("X A B C D E S", bound)
        + deals + "split e A -> C D\njoin k C D -> E\njoin j E B -> S\nsink out S\n", "out",
    )
    yield (
        "branches that are added up", phasers("X A B S", bound)
        + deals + "fir f A -> S shift 0 taps 1\nfir g B -> S shift 0 taps 3 1\nsink out S\n", "out",
    )
    yield (
        "a joiner of the whole and of a branch", phasers("X A B S", bound)
        + deals + "join j X A -> S\nsink out S\n", "out",
    )
    yield (
        "a joiner of samples and what a filter makes", phasers("X Y S", bound)
        + "source s s.csv -> X\nfir f X -> Y shift 0 taps 1 1\njoin j X Y -> S\nsink out S\n", "out",
    )
    yield (
        "a joiner with few others", phasers("X Z S", bound)
        + "source z z.csv -> Z\nsource s s.csv -> X\njoin j X Z -> S\nsink out S\n", "out",
    )
    for single in "", " single neg":
        peers = phasers("X A B", bound) + f"phaser E sum {bound}{single}\n" + phasers("P Q S", bound)
        yield (
            f"peers{single}", peers + deals + "peer p A <-> E -> P mul 2\n"
            "peer q B <-> E -> Q mul -1\njoin j P Q -> S\nsink out S\n", "out",
        )
    yield "branches with any", two.replace("sum", "any") + "sink out S\n", "out"
    yield (
        "another source takes over, with any", two.replace("sum", "any").replace(
            deals, "source z z.csv -> X until 20\nsource s s.csv -> X by z at 20\nsplit d X -> A B\n"
        ) + "sink out S\n", "out",
    )
    for most in 0, 1, 64, 65:
        until = f" until {most}"
        yield f"a splitter{until}", two.replace("A B\nj", f"A B{until}\nj") + "sink out S\n", "out"
        yield f"a joiner{until}", two[:-1] + f"{until}\nsink out S\n", "out"
        yield f"a sink{until}", f"{two}sink out S{until}\n", "out"
        peer = phasers("X E Y A B S", bound) + (
            f"source s s.csv -> X\npeer p X <-> E -> Y mul 3{until}\nsplit d Y -> A B\njoin j A B -> S\n"
        )
        yield f"a peer{until}", peer + "sink out S\n", "out"
    children = phasers("X Y A B S", bound) + (
        "source s s.csv -> X\nfir f X -> Y shift 0 taps 1\nsplit d Y -> A B\njoin j A B -> S\n"
        "sink out S\nfir g X -> Y shift 0 taps 2 1 by f at 20\nsink late S by out at 33\n"
    )
    for sink in "out", "late":
        yield f"children, to sink {sink}", children, sink


def too_big(bound, step):
    """Graphs whose phasers of this bound stand between splitters, joiners and peers, and in which
    one value, at this step, is out of range: with the files, what the sink has, and the place."""
    a, zeros = range(1, 201), 200 * [0]
    big = [MOST if n == step else 0 for n in range(200)]
    texts = {
        name: "".join(f"{value}\n" for value in values)
        for name, values in (("a.csv", a), ("b.csv", big), ("z.csv", zeros))
    }
    both = "source a a.csv -> X\nsource b b.csv -> X\n"
    behind = "split d Y -> A B\njoin j A B -> S\nsink out S\n"
    yield (
        "before a splitter", phasers("X A B S", bound) + both + behind.replace("Y", "X"), texts,
        a[:step], f"X {step}",
    )
    yield (
        "before a joiner's second input", phasers("Z X S", bound)
        + f"source z z.csv -> Z\n{both}join j Z X -> S\nsink out S\n", texts,
        [value for n in a[:step] for value in (0, n)] + [0], f"X {step}",
    )
    yield (
        "behind a splitter, of another source", phasers("X A B S", bound)
        + "source a a.csv -> X\nsource b b.csv -> B\n" + behind.replace("Y", "X"), texts,
        a[: 2 * step + 1], f"B {step}",
    )
    # Of each x the peer makes 2 * x + x.
    large = {**texts, "b.csv": "".join(f"{2 ** 62 if n == step else n}\n" for n in range(200))}
    yield (
        "what a peer makes", phasers("X", bound) + f"phaser E sum {bound} single neg\n"
        + phasers("Y A B S", bound) + f"source b b.csv -> X\npeer p X <-> E -> Y mul 2\n{behind}",
        large, [3 * n for n in range(step)], f"p {step}",
    )
    yield (
        "what peers exchange", phasers("X W E Y V S", bound) + (
            "source a a.csv -> X\nsource b b.csv -> W\npeer p X <-> E -> Y mul 0\n"
            "peer q W <-> E -> V mul 0\njoin j Y V -> S\nsink out S\n"
        ), texts, [-n for n in a[:step] for _ in range(2)], f"E {step}",
    )


def filtered(taps, shift, values):
    """What a filter makes of a list."""
    return [
        sum(tap * values[n - j] for j, tap in enumerate(taps) if j <= n) >> shift
        for n in range(len(values))
    ]


def long_texts():
    """Texts of so many samples that threads read parts of them, and write parts of what comes of
    them: with lines of each kind, and with a record in each quarter that is no sample."""
    count = 160_000
    values = [n * 7919 % 20_000_003 - 10_000_001 for n in range(count)]
    lines = [str(value) for value in values]
    good = 0, f"o {count}\n" + "".join(f"{value}\n" for value in values), ""
    yield "a long text", "".join(f"{line}\n" for line in lines), *good
    yield "a long text with no line end", "\n".join(lines), *good
    yield "a long text of other line ends", "".join(f"{line}\r\n" for line in lines), *good
    for at in 0, count // 3, count - 1:
        quoted = [f'"{line}"' if n == at else line for n, line in enumerate(lines)]
        yield f"a long text whose record {at + 1} is quoted", "\n".join(quoted), *good
        empty = lines[:at] + ["", ""] + lines[at:]
        yield f"a long text with empty lines before record {at + 1}", "\n".join(empty), *good
    for quarter in range(4):
        at = quarter * count // 4 + count // 8
        bad = lines[:at] + ["1x"] + lines[at + 1 :]
        told = f"phase: samples of s: record {at + 1}\n"
        yield f"a long text with a bad record in quarter {quarter + 1}", "\n".join(bad), 1, "", told
    rounds = [n * 7919 % 20_000_003 - 10_000_001 for n in range(600_000)]
    text = "".join(f"{value}\n" for value in rounds)
    yield "a text that two threads read in three rounds", text, 0, f"o 600000\n{text}", ""
    yield "a long text of one line", 1_500_000 * "1", 1, "", "phase: samples of s: record 1\n"
    yield "a long text of empty lines", 1_500_000 * "\n", 0, "o 0\n", ""


def long_filters():
    """Filters of so many samples that threads make parts of their lists, and filters of which an
    output is out of range, in each quarter, or in two of them."""
    count = 160_000
    values = [n * 7919 % 2003 - 1001 for n in range(count)]
    for taps in [1], [3, -1], [n * 37 % 101 - 50 for n in range(64)]:
        outputs = filtered(taps, 2, values)
        graph = (
            "phaser X sum 1024\nphaser Y sum 1024\nsource s s.csv -> X\n"
            f"fir f X -> Y shift 2 taps {' '.join(map(str, taps))}\nsink o Y\n"
        )
        whole = f"o {count}\n" + "".join(f"{value}\n" for value in outputs)
        yield f"a long filter of {len(taps)} taps", files_of(graph, values), 0, whole, ""
    values = [n * 7919 % 2003 - 1001 for n in range(600_000)]
    graph = "phaser X sum 1024\nphaser Y sum 1024\nsource s s.csv -> X\nfir f X -> Y shift 0 taps 2 1\nsink o Y\n"
    outputs = [2 * x + y for x, y in zip(values, [0] + values)]
    whole = "o 600000\n" + "".join(f"{value}\n" for value in outputs)
    yield "a filter of three rounds of two threads", files_of(graph, values), 0, whole, ""
    values, graph = values[:count], graph.replace("taps 2 1", "taps 2")
    for places in [[0], [70_000], [90_000, 70_000], [150_000], [count - 1, 40_000]]:
        large = [2**62 if n in places else value for n, value in enumerate(values)]
        told = f"phase: too big at f {min(places)}\n"
        yield f"a long filter out of range at {places}", files_of(graph, large), 3, "", told


def files_of(graph, values):
    """The graph, and the samples of its source, a line each."""
    return {"g": graph, "s.csv": "".join(f"{value}\n" for value in values)}


def doubled_lists():
    """A graph whose lists double 25 times, from three samples on, before a decimator takes one of 7,
    and what is told of the lengths."""
    phasers = "".join(f"phaser X{k} sum 1\nphaser Y{k} sum 1\n" for k in range(25))
    tasks = "".join(
        f"fir f{k} X{k} -> Y{k} shift 0 taps 1\njoin j{k} X{k} Y{k} -> X{k + 1}\n" for k in range(25)
    )
    graph = (
        f"graph 3\n{phasers}phaser X25 sum 1\nphaser D sum 1\nphaser W sum 1\nsource s s.csv -> X0\n"
        f"{tasks}decimate d X25 -> D every 7\njoin last X25 D -> W\nsink out W\n"
    )
    # 3 * 2^25 is 7 * 14380470 + 6.
    told = "  last: its inputs end at X25 100663296, D 14380471\n"
    return {"g": graph, "s.csv": "1\n1\n1\n"}, told


def long_lists(count):
    """A graph on so many samples, with a joiner of them and of what a filter makes, and the last ten
    values."""
    graph = (
        "phaser X sum 1\nphaser Y sum 1\nphaser Z sum 1\nsource s s.csv -> X\nfir f X -> Y shift 0 taps 1 1\n"
        f"join j X Y -> Z\nsink all Z\nsink last Z by all at {2 * count - 10}\n"
    )
    text = "".join(f"{n % 7}\n" for n in range(count))
    last = [value for n in range(count - 5, count) for value in (n % 7, n % 7 + (n - 1) % 7)]
    return {"g": graph, "s.csv": text}, None, 0, "".join(f"{value}\n" for value in last), ""
