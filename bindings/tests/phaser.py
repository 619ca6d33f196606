"""What a phaser of phase.py answers at its edges: each refusal, which leaves it as it was; each
operation and single; numbers past 64 bits; a phaser that was closed or copied; and phasers that go
from thread to thread, and are let go of there."""
import copy
import gc
import pickle
import sys
import threading
import time

import numpy

import phase

LOWEST = -(2**63)
MOST = 2**63 - 1

failed = 0


def look(name, is_right):
    global failed
    if not is_right:
        print(f"phaser.py: {name}")
        failed += 1


def refused(kind, call, *args, **named):
    """Whether the call is refused so, and not as something else."""
    try:
        call(*args, **named)
    except Exception as why:
        return type(why) is kind
    return False


def sums(bound=2, phases=100):
    return phase.Phaser(phase.SUM, bound, phases)


def made():
    look("a word of no operation", refused(phase.BadOperation, phase.Phaser, "mean", 2, 100))
    with phase.Phaser("greatest", 2, 100) as words:
        look("a word of no mode", refused(phase.BadMode, words.register, 0, "signal"))
        modes = [words.view(words.register(0, it)).mode for it in ("sig", "wait", "sigwait")]
        look("words of modes", modes == [phase.SIG, phase.WAIT, phase.SIG_WAIT])
    look("no operation", refused(phase.BadOperation, phase.Phaser, 0, 0, 0))
    look("a sixth operation", refused(phase.BadOperation, phase.Phaser, phase.ANY + 1, 2, 100))
    look(
        "one whose lowest bits are one",
        refused(phase.BadOperation, phase.Phaser, 2**32 + phase.SUM, 2, 100),
    )
    for bound in (-1, 0, phase.BOUND_MAX + 1, 2**64 + 1):
        look(f"a bound of {bound}", refused(phase.BadBound, sums, bound))
    for phases in (-1, 0, phase.PHASES_MAX + 1, 2**64 + 1):
        look(f"{phases} phases", refused(phase.BadPhases, sums, 2, phases))
    look("a bound that is no whole number", refused(TypeError, sums, 2.0))
    look("the greatest phaser", sums(phase.BOUND_MAX, phase.PHASES_MAX).signal(0, []) == 0)
    look(
        "numbers of numpy",
        sums(numpy.int8(2), numpy.uint64(100)).register(numpy.int64(0), phase.SIG) == 1,
    )


def operations():
    rows = {
        phase.SUM: (10, 0, None),
        phase.PRODUCT: (-108, 1, None),
        phase.LEAST: (-3, None, MOST),
        phase.GREATEST: (9, None, MOST),
        phase.ANY: (4, None, MOST),
    }
    for operation, wanted in rows.items():
        with phase.Phaser(operation, 2, 100) as phaser:
            for at, sends in enumerate(([4, 9, -3], [], [MOST, MOST])):
                look(f"a signal under {operation}", phaser.signal(0, sends) == at)
                look(f"the value of {sends} under {operation}", phaser.wait(0) == (at, wanted[at]))


def singles():
    phaser = sums()
    rows = (
        (5, phase.NEG, -5),
        (-MOST, phase.ABS, MOST),
        (-5, phase.HALVE, -3),
        (5, phase.Clamp(-3, 3), 3),
        (5, phase.NO_SINGLE, 5),
        (5, "neg", -5),
        (-7, "Abs", 7),
        (-7, "halve", -4),
    )
    for at, (send, single, wanted) in enumerate(rows):
        look(f"a signal with {single}", phaser.signal(0, [send], single) == at)
        look(f"the value under {single}", phaser.wait(0) == (at, wanted))
    clamps = [
        phase.Clamp(*ends) for ends in ((1, 0), (LOWEST, 0), (0, 2**63), (2**64, 2**64))
    ]
    for single in (phase.CLAMP + 1, -1, 2**32, "negate", "", *clamps):
        look(f"{single} is none", refused(phase.BadSingle, phaser.signal, 0, [1], single))
    look("a clamp without ends", refused(TypeError, phaser.signal, 0, [1], phase.CLAMP))
    look("by name", refused(TypeError, phaser.signal, 0, [1], "clamp"))
    look("after which no phase was signalled", phaser.view(0) == (8, 8, phase.SINGLE))


def sends():
    phaser = sums()
    rows = (
        ("a list", [1, 2, 3]),
        ("a tuple", (6,)),
        ("8 bits", numpy.array([100, -94], numpy.int8)),
        ("64 bits without a sign", numpy.array([6], numpy.uint64)),
        ("every second one", numpy.arange(6)[::2]),
        ("a big end first", numpy.array([1, 5], ">i8")),
        ("the greatest and the least", [MOST, -MOST, 6]),
        ("as many as there may be", numpy.resize([6] + [0] * 65535, phase.SENDS_MAX)),
        ("one", 6),
        ("one of numpy", numpy.int16(6)),
    )
    for at, (name, values) in enumerate(rows):
        look(name, phaser.signal(0, values) == at and phaser.wait(0) == (at, 6))
    look("floats", refused(TypeError, phaser.signal, 0, [1.0]))
    look("two rows", refused(TypeError, phaser.signal, 0, [[1], [2]]))
    look("one that is none", refused(TypeError, phaser.signal, 0, 1.0))
    look("one past 64 bits", refused(OverflowError, phaser.signal, 0, 2**63))
    look(
        "a number past 64 bits",
        refused(OverflowError, phaser.signal, 0, numpy.array([2**63], numpy.uint64)),
    )
    look("a value that is none", refused(phase.BadValue, phaser.signal, 0, [1, LOWEST]))
    many = numpy.zeros(phase.SENDS_MAX + 1, numpy.int64)
    look("a send too many", refused(phase.TooManySends, phaser.signal, 0, many))
    look("after which no phase was signalled", phaser.view(0) == (10, 10, phase.SINGLE))


def registrations():
    phaser = sums()
    for task in (1, -1, 2**64, 2**64 - 1):
        look(f"a parent {task}", refused(phase.NoTask, phaser.register, task, phase.SIG))
        look(f"a parent {task}, now", refused(phase.NoTask, phaser.register_now, task))
        look(f"a task {task} that leaves", refused(phase.NoTask, phaser.drop, task))
        look(f"a task {task} that is looked at", refused(phase.NoTask, phaser.view, task))
        look(f"a task {task} that signals", refused(phase.NoTask, phaser.signal, task, []))
        look(f"a task {task} that waits", refused(phase.NoTask, phaser.wait, task))
    for mode in (0, 5, -1, 2**32 + phase.SIG):
        look(f"a mode {mode}", refused(phase.BadMode, phaser.register, 0, mode))
    modes = (phase.SIG, phase.WAIT, phase.SIG_WAIT, phase.SINGLE)
    look("each mode", [phaser.register(0, mode) for mode in modes] == [1, 2, 3, 4])
    look("a waiter's signaller", refused(phase.NotAllowed, phaser.register, 2, phase.SIG))
    look("a signaller that has one join now", refused(phase.NotAllowed, phaser.register_now, 1))
    more = [phaser.register(0, phase.SIG) for _ in range(5, phase.MEMBERS_MAX)]
    look("as many as there may be", more[-1] == phase.MEMBERS_MAX - 1)
    look("one too many", refused(phase.TooManyTasks, phaser.register, 0, phase.SIG))
    look("one too many, now", refused(phase.TooManyTasks, phaser.register_now, 0))
    phaser.drop(7)
    look("one that left", refused(phase.NoTask, phaser.drop, 7))
    look("room for one more", phaser.register(0, phase.SIG_WAIT) == phase.MEMBERS_MAX)
    look("where it stands", phaser.view(phase.MEMBERS_MAX) == phase.Standing(0, 0, phase.SIG_WAIT))


def phases():
    phaser = sums(2, 3)
    signaller, waiter = phaser.register(0, phase.SIG), phaser.register(0, phase.WAIT)
    look("a wait before a signal", refused(phase.SignalFirst, phaser.wait, 0))
    look("a waiter that signals", refused(phase.NoSignal, phaser.signal, waiter, []))
    look(
        "a single of a signaller", refused(phase.NotSingle, phaser.signal, signaller, [], phase.NEG)
    )
    look("a signal", phaser.signal(0, [1] * phase.SENDS_MAX) == 0)
    look(
        "where it stands then",
        phaser.view(0) == phase.Standing(signal_phase=1, wait_phase=0, mode=phase.SINGLE),
    )
    look("a second one", refused(phase.SignalTwice, phaser.signal, 0, []))
    look("a full phase", refused(phase.PhaseFull, phaser.signal, signaller, [1]))
    phaser.drop(0)
    look("a phase that is not complete", refused(phase.NotYet, phaser.wait, waiter))
    look("its second signal", phaser.signal(signaller, []) == 0)
    look("the next one", phaser.signal(signaller, [7]) == 1)
    look("one too far ahead", refused(phase.Ahead, phaser.signal, signaller, []))
    look("a signaller that waits", refused(phase.NoWait, phaser.wait, signaller))
    look("the first phase", phaser.wait(waiter) == phase.Got(0, phase.SENDS_MAX))
    look("the last signal", phaser.signal(signaller, []) == 2)
    look("the second phase", phaser.wait(waiter) == (1, 7))
    look("a signal past the last", refused(phase.Spent, phaser.signal, signaller, []))
    look("a waiter that joins now", phaser.register_now(waiter) == (3, 3))
    phaser.drop(signaller)
    look("the last phase", phaser.wait(waiter) == (2, 0))
    look("the end", phaser.wait(waiter) is None and phaser.wait(3) is None)
    phaser = sums()
    other = phaser.register(0, phase.SINGLE)
    phaser.signal(0, [5], phase.ABS)
    look("another single", refused(phase.SingleDiffers, phaser.signal, other, [], phase.NEG))
    look("none", refused(phase.SingleDiffers, phaser.signal, other, []))
    why = phase.NotYet()
    look(
        "a refusal has its number",
        why.status == phase.E_NOT_YET and isinstance(why, phase.PhaserError),
    )
    look(
        "a refusal says why",
        str(why) == "The phase is not complete, and a signaller is registered.",
    )


def blocks():
    if not hasattr(phase._lib, "phase_phaser_signal_block"):
        print("phaser.py: SKIPPED, since the library has none: blocks of phases")
        return
    phaser = sums(3, 7)
    signaller, waiter = phaser.register(0, phase.SIG), phaser.register(0, phase.WAIT)
    look(
        "a block of a task that waits too",
        refused(phase.SignalTwice, phaser.signal_block, 0, [1, 2]),
    )
    phaser.drop(0)
    look("a block of none", refused(phase.BadBlock, phaser.signal_block, signaller, []))
    look(
        "a block past the bound",
        refused(phase.BadBlock, phaser.signal_block, signaller, [1, 2, 3, 4]),
    )
    look(
        "a value that is none", refused(phase.BadValue, phaser.signal_block, signaller, [1, LOWEST])
    )
    look("floats", refused(TypeError, phaser.signal_block, signaller, [1.0]))
    look("a task that is none", refused(phase.NoTask, phaser.signal_block, 9, [1]))
    look(
        "a task past 64 bits", refused(phase.NoTask, phaser.signal_block, 2**64 + signaller, [1])
    )
    look("a waiter that signals", refused(phase.NoSignal, phaser.signal_block, waiter, [1]))
    look(
        "a single of a signaller",
        refused(phase.NotSingle, phaser.signal_block, signaller, [1], phase.NEG),
    )
    look(
        "a single that is none",
        refused(phase.BadSingle, phaser.signal_block, signaller, [1], phase.Clamp(1, 0)),
    )
    for places in (
        0, -1, 4, 2**32, 2**64, 2**64 + 1, numpy.zeros(0, numpy.int64), numpy.zeros(4, numpy.int64),
    ):
        look(f"{places} places", refused(phase.BadBlock, phaser.wait_block, waiter, places))
    look("a signaller that waits", refused(phase.NoWait, phaser.wait_block, signaller, 1))
    look("no task that waits", refused(phase.NoTask, phaser.wait_block, 9, 1))
    look("phases that are not complete", refused(phase.NotYet, phaser.wait_block, waiter, 1))
    look(
        "a block with gaps",
        phaser.signal_block(signaller, numpy.arange(6, dtype=numpy.int16)[::2]) == 0,
    )
    look("a block too far ahead", refused(phase.Ahead, phaser.signal_block, signaller, [1]))
    fixed = numpy.zeros(3, numpy.int64)
    fixed.flags.writeable = False
    rows = [numpy.zeros(3, it) for it in ("f8", "i4", ">i8", "u8")]
    rows += [numpy.zeros((1, 3), numpy.int64), numpy.zeros(6, numpy.int64)[::2], fixed, "3", 2.0]
    rows += [numpy.frombuffer(bytearray(17), numpy.int64, 2, 1)]
    for row in rows:
        look(f"places in {row!r}", refused(TypeError, phaser.wait_block, waiter, row))
    out = numpy.full(2, 77)
    got = phaser.wait_block(waiter, out)
    look("a block into an array", got.phase == 0 and got.values.tolist() == [0, 2])
    look("which is that array", numpy.shares_memory(got.values, out))
    look("a block behind it", phaser.signal_block(signaller, [MOST, -MOST]) == 3)
    out = numpy.full(3, 77)
    got = phaser.wait_block(waiter, out[1:])
    look(
        "a block into a part",
        got.phase == 2 and got.values.tolist() == [4, MOST] and out.tolist() == [77, 4, MOST],
    )
    look(
        "a block past the last phase",
        refused(phase.Spent, phaser.signal_block, signaller, [1, 2, 3]),
    )
    look("the last phases", phaser.signal_block(signaller, [8, 9]) == 5)
    phaser.drop(signaller)
    got = phaser.wait_block(waiter, numpy.int8(3))
    look("what is left", got.phase == 4 and got.values.tolist() == [-MOST, 8, 9])
    out = numpy.full(2, 77)
    look("the end", phaser.wait_block(waiter, out) is None and out.tolist() == [77, 77])
    phaser = phase.Phaser(phase.GREATEST, 2, 100)
    look("a block with a single", phaser.signal_block(0, [5], phase.Clamp(0, 3)) == 0)
    look("its value", phaser.wait_block(0, 2).values.tolist() == [3])
    phaser.signal(0, [])
    look("a phase without a value", phaser.wait_block(0, 2).values.tolist() == [LOWEST])
    phaser.close()
    look(
        "a block of a phaser that was closed", refused(phase.NoPhaser, phaser.signal_block, 0, [1])
    )
    look("a wait for one", refused(phase.NoPhaser, phaser.wait_block, 0, 1))


def closed():
    with sums() as phaser:
        look("a signal", phaser.signal(0, [1]) == 0)
    calls = (
        (phaser.register, 0, phase.SIG),
        (phaser.register_now, 0),
        (phaser.drop, 0),
        (phaser.signal, 0, [1]),
        (phaser.wait, 0),
        (phaser.view, 0),
    )
    for call, *words in calls:
        look(f"{call.__name__} of a phaser that was closed", refused(phase.NoPhaser, call, *words))
    phaser.close()
    try:
        with sums() as phaser:
            phaser.wait(0)
    except phase.SignalFirst:
        look("closed behind an error", refused(phase.NoPhaser, phaser.view, 0))
    for call in (copy.copy, copy.deepcopy, pickle.dumps):
        look(f"{call.__name__} of a phaser", refused(TypeError, call, sums()))


def on_a_thread(call):
    thread = threading.Thread(target=call)
    thread.start()
    thread.join()


def threads():
    """A phaser that one thread makes, others use, and another closes; and one that two use at a
    time."""
    made = []
    on_a_thread(lambda: made.append(sums()))
    phaser, said = made.pop(), []
    on_a_thread(lambda: said.append((phaser.signal(0, [7]), phaser.wait(0))))
    look(
        "a phaser of another thread",
        said == [(0, (0, 7))] and phaser.view(0) == (1, 1, phase.SINGLE),
    )
    on_a_thread(phaser.close)
    look("a phaser that another thread closed", refused(phase.NoPhaser, phaser.view, 0))

    phaser, got = sums(16, 20000), []
    tasks = [phaser.register(0, phase.SIG_WAIT) for _ in range(2)]
    phaser.drop(0)

    def phases_of(task):
        for at in range(1000):
            phaser.signal(task, [at])
            while True:
                try:
                    got.append(phaser.wait(task))
                    break
                except phase.NotYet:
                    time.sleep(0)

    pair = [threading.Thread(target=phases_of, args=(it,)) for it in tasks]
    for it in pair:
        it.start()
    for it in pair:
        it.join()
    look("two threads at a phaser", sorted(got) == sorted([(at, 2 * at) for at in range(1000)] * 2))


def blocks_of_threads():
    """A thread that signals blocks of many phases, beside one that gets what is complete."""
    phaser, got = sums(phase.BOUND_MAX, 10**6), []
    signaller, waiter = phaser.register(0, phase.SIG), phaser.register(0, phase.WAIT)
    phaser.drop(0)

    def signals():
        for at in range(0, 400000, 8000):
            while True:
                try:
                    phaser.signal_block(signaller, numpy.arange(at, at + 8000))
                    break
                except phase.Ahead:
                    time.sleep(0)
        phaser.drop(signaller)

    thread = threading.Thread(target=signals)
    thread.start()
    while True:
        try:
            block = phaser.wait_block(waiter, phase.BOUND_MAX)
        except phase.NotYet:
            continue
        if block is None:
            break
        got.append(block.values)
    thread.join()
    look(
        "blocks between two threads",
        numpy.array_equal(numpy.concatenate(got), numpy.arange(400000)),
    )


def within():
    """A call within a call of the same thread, which a signal handler may make, is refused and does
    not wait."""
    phaser, fir = sums(), phase.Fir([1, 1])
    with phaser._lock:
        look("a call within a call", refused(RuntimeError, phaser.signal, 0, [1]))
        look("also one that closes", refused(RuntimeError, phaser.close))
    look("and nothing was signalled", phaser.signal(0, [2]) == 0 and phaser.wait(0).value == 2)
    with fir._lock:
        look("a block within a block", refused(RuntimeError, fir, [7]))
    look("and nothing was filtered", fir([1, 2]).tolist() == [1, 3])


def resident():
    """The memory that this process holds, in bytes."""
    with open("/proc/self/statm") as file:
        return int(file.read().split()[1]) * 4096


def memory():
    """A phaser at bound 65,536 takes over a megabyte, which goes back with the object."""
    sums(phase.BOUND_MAX).signal(0, [1])
    before = resident()
    for _ in range(200):
        sums(phase.BOUND_MAX).signal(0, [1])
    gc.collect()
    look("phasers that were let go of keep no memory", resident() - before < 2**25)
    kept = []
    for _ in range(200):
        kept.append(sums(phase.BOUND_MAX))
        kept[0].signal(0, [1])
        on_a_thread(kept.clear)
    look("nor those that another thread let go of", resident() - before < 2**25)


def shown():
    look("how a phaser is shown", repr(sums()) == "<phase.Phaser SUM, bound 2, 100 phases>")
    look("how a mode is shown", repr(sums().view(0).mode) == "<Mode.SINGLE: 4>")
    look("numbers are operations and modes", phase.Phaser(1, 2, 100).register(0, 1) == 1)


for part in (
    made, operations, singles, sends, registrations, phases, blocks, closed, threads,
    blocks_of_threads, within, memory, shown,
):
    part()
sys.exit(failed != 0)
