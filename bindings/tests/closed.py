"""Who is missing, and an end for all, by phase.py: four threads of which one never signals; a close
while threads wait; a pool of threads of which one raises; what is got of a phaser that is closed;
and what a thread closes in whose call it is not."""
import copy
import os
import pickle
import signal
import sys
import threading
import time
from concurrent.futures import ThreadPoolExecutor

import numpy

import phase

failed = 0


def look(name, is_right):
    global failed
    if not is_right:
        print(f"closed.py: {name}")
        failed += 1


def raised(call, *args, **named):
    """What the call raises, or None."""
    try:
        call(*args, **named)
    except Exception as why:
        return why
    return None


def sums(bound=2, phases=100):
    return phase.SharedPhaser(phase.SUM, bound, phases)


def started(works):
    threads = [threading.Thread(target=work) for work in works]
    for it in threads:
        it.start()
    return threads


def over(threads):
    for it in threads:
        it.join(60)
        look("a thread that does not end", not it.is_alive())


def one_never_signals():
    with sums() as founder:
        owned = [founder.register(phase.SIG_WAIT) for _ in range(4)]
        waiter = founder.register(phase.WAIT)
    look("nobody has signalled", waiter.standing() == (5, 4, 5, 0, 0))
    look("all are missing", waiter.missing() == [1, 2, 3, 4])
    ends = []

    def works(own):
        with own:
            ends.append(raised(own.next, 1, timeout=2))

    threads = started(lambda own=own: works(own) for own in owned if own.number != 3)
    since = time.monotonic()
    while waiter.standing().signalled < 3 and time.monotonic() - since < 60:
        pass
    look("number 3 is missing", waiter.missing() == [3])
    told = raised(waiter.wait, timeout=0.01)
    look("a time limit", type(told) is TimeoutError)
    look("names who is missing", str(told).endswith(": phase 0 lacks the signal of 3"))
    over(threads)
    look("each ran out of time", [type(it) for it in ends] == [phase.Signalled] * 3)
    look("and names who is missing", all(str(it).endswith("the signal of 3") for it in ends))
    owned[2].signal(1)
    look("what was signalled is there", waiter.wait() == (0, 4))
    waiter.leave()
    look("none there", type(raised(waiter.missing)) is phase.NoPhaser)
    look("none that stands", type(raised(waiter.standing)) is phase.NoPhaser)
    owned[2].leave()


def many_are_named():
    with sums() as founder:
        others = [founder.register(phase.SIG) for _ in range(20)]
        waiter = founder.register(phase.WAIT)
    told = str(raised(waiter.wait, timeout=0))
    look("16 are named", told.endswith("lacks the signal of 1, 2, 3, 4, 5, 6, 7, 8, 9, 10, 11, 12, "
                                       "13, 14, 15, 16 and 4 more"))
    look("and all are missing", waiter.missing() == list(range(1, 21)))
    del others


CALLS = {
    "wait": (phase.WAIT, lambda own: own.wait()),
    "a wait with a limit": (phase.WAIT, lambda own: own.wait(60)),
    "wait_block": (phase.WAIT, lambda own: own.wait_block(2)),
    "an iteration": (phase.WAIT, list),
    "next": (phase.SIG_WAIT, lambda own: own.next(1)),
    "next of two sends": (phase.SIG_WAIT, lambda own: own.next([1, 1])),
    "signal": (phase.SIG, lambda own: [own.signal(1) for _ in range(3)]),
    "signal_block": (phase.SIG, lambda own: [own.signal_block([1, 1]) for _ in range(2)]),
}


def closes(threads, mode, call):
    """How long it takes until all are back, and what they were told."""
    founder, told, ended = sums(), [], []
    owned = [founder.register(mode) for _ in range(threads)]

    def works(own):
        with own.closing():
            told.append(raised(call, own))
            ended.append(time.monotonic())

    running = started(lambda own=own: works(own) for own in owned)
    time.sleep(0.03)
    since = time.monotonic()
    founder.close()
    over(running)
    founder.leave()
    return max(ended) - since, told


def close_while_others_wait():
    for name, (mode, call) in CALLS.items():
        for threads in (1, 4, 16):
            least = 60
            # In one of ten tries, since the machine may have no time.
            for _ in range(10):
                took, told = closes(threads, mode, call)
                look(f"{name} is told", [type(it) for it in told]
                     == [phase.BrokenPhaserError] * threads)
                look(f"{name}: what is signalled", {it.phase for it in told}
                     == ({0} if mode == phase.SIG_WAIT else {None}))
                least = min(least, took)
                if least < 0.05:
                    break
            look(f"{name} of {threads} ends soon", least < 0.05)


def a_pool_ends():
    """One of four raises in step 3: the others end, and the pool tells what it raised."""
    class Fails(Exception):
        pass

    def works(own, fails):
        with own.closing():
            for step in range(1000):
                if fails and step == 3:
                    raise Fails
                own.next(step)

    with sums(phases=1000) as founder:
        owned = [founder.register(phase.SIG_WAIT) for _ in range(4)]
    with ThreadPoolExecutor() as pool:
        ends = [pool.submit(works, own, at == 2) for at, own in enumerate(owned)]
    told = [type(it.exception(60)) for it in ends]
    look("a pool ends", told == [phase.BrokenPhaserError] * 2 + [Fails] + [phase.BrokenPhaserError])
    look("all have left", {type(raised(own.wait)) for own in owned} == {phase.NoPhaser})


def another_thread_closes():
    """The main thread has no registration of its own, and closes by that of a thread that waits."""
    with sums() as founder:
        own, silent = founder.register(phase.WAIT), founder.register(phase.SIG)
    told = []

    def waits():
        with own.closing():
            told.append(raised(own.wait))

    threads = started([waits])
    time.sleep(0.03)
    look("it is not closed", not own.closed)
    look("its call is another thread's", type(raised(own.told)) is RuntimeError)
    own.close()
    over(threads)
    look("it is told", type(told[0]) is phase.BrokenPhaserError)
    look("it was told who is missing", str(told[0]) == "the phaser is closed: phase 0 lacks the "
                                                       "signal of 2")
    look("it has left", type(raised(own.close)) is phase.NoPhaser)
    look("and has no phaser", type(raised(lambda: own.closed)) is phase.NoPhaser)
    look("the other's is closed", silent.closed)
    silent.leave()


def nothing_is_lost():
    founder = sums(4)
    waiter, signaller = founder.register(phase.WAIT), founder.register(phase.SIG)
    plain, goes_on = founder.register(phase.WAIT), founder.register(phase.SIG)
    founder.leave()
    goes_on.signal_block([1, 1, 1])
    with signaller.closing():
        signaller.signal_block([5, 6, 7])
        signaller.close()
        signaller.close()
        for call in (lambda: signaller.signal(8), lambda: signaller.signal_block([8])):
            look("no more is signalled", type(raised(call)) is phase.BrokenPhaserError)
        look("nothing was", signaller.view().signal_phase == 3)
        look("one that does not heed it signals", goes_on.signal(8) == 3)
        with waiter.closing():
            look("a phase that is complete", waiter.wait() == (0, 6))
            got = waiter.wait_block(numpy.zeros(4, numpy.int64))
            look("the others", (got.phase, got.values.tolist()) == (1, [7, 8]))
            look("and no more", type(raised(waiter.wait)) is phase.BrokenPhaserError)
        got = plain.wait_block(3)
        look("one that does not heed it", (got.phase, got.values.tolist()) == (0, [6, 7, 8]))
        look("waits on", type(raised(plain.wait, timeout=0.02)) is TimeoutError)
    look("until it is complete", plain.wait() == (3, 8))
    goes_on.leave()
    look("and to the end", plain.wait() is None)
    plain.leave()


def interrupted():
    """Ctrl-C ends the main thread's wait, and closes the phaser for the other thread."""
    founder, told = sums(), []
    other, silent = founder.register(phase.SIG_WAIT), founder.register(phase.SIG)

    def works():
        with other.closing():
            told.append(raised(other.next, 1))

    threads = started([works])
    timer = threading.Timer(0.05, os.kill, (os.getpid(), signal.SIGINT))
    timer.start()
    ended = None
    try:
        with founder.closing():
            founder.next(1)
    except KeyboardInterrupt as why:
        ended = why
    timer.join()
    over(threads)
    look("Ctrl-C ends a wait", ended is not None)
    look("and the other's", [type(it) for it in told] == [phase.BrokenPhaserError])
    silent.leave()


def causes():
    """What closed the phaser is the cause that the others are told, whoever raises behind it."""
    with sums() as founder:
        owned = [founder.register(phase.SIG_WAIT) for _ in range(4)]
    why, told = ValueError("a part that is bad"), []

    def raises(own, error):
        with own.closing():
            raise error

    def works(own):
        with own.closing():
            try:
                own.next(1)
            except phase.BrokenPhaserError as broken:
                told.append(broken)
                raise

    threads = started(lambda own=own: told.append(raised(works, own)) for own in owned[:2])
    time.sleep(0.01)
    look("it raises what it raised", raised(raises, owned[2], why) is why)
    over(threads)
    look("two are told twice", [type(it) for it in told] == [phase.BrokenPhaserError] * 4)
    look("each what the cause was", all(it.__cause__ is why for it in told))
    late = OSError("another that comes late")
    look("one that comes late", raised(raises, owned[3], late) is late)
    with sums() as founder:
        own = founder.register(phase.SIG_WAIT)
        founder.close()
        with own.closing():
            broken = raised(own.next, 1)
    look("a close has no cause", type(broken) is phase.BrokenPhaserError and not broken.__cause__)


def errors():
    why = phase.BrokenPhaserError(7, "phase 7 lacks the signal of 2")
    look("it is a RuntimeError", isinstance(why, RuntimeError))
    look("and a PhaserError", isinstance(why, phase.PhaserError))
    for again in (pickle.loads(pickle.dumps(why)), copy.copy(why)):
        look("a copy of it", (type(again), str(again), again.phase) == (type(why), str(why), 7))
    look("its text alone", str(phase.BrokenPhaserError()) == "the phaser is closed")
    look("its status", why.status == phase.E_CLOSED == -47)


one_never_signals()
many_are_named()
close_while_others_wait()
a_pool_ends()
another_thread_closes()
nothing_is_lost()
interrupted()
causes()
errors()
sys.exit(failed > 0)
