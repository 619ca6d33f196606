"""What phasers between threads of phase.py answer: barriers, streams and blocks beside values
worked out alone; time limits, also where an ask stands then; Ctrl-C in the middle of a wait; each
refusal, which leaves all as it was; registrations that are let go of; and a second thread on one
registration."""
import copy
import gc
import os
import pickle
import signal
import sys
import threading
import time
import unittest.mock

import numpy

import phase
from phase import shared

MOST = 2**63 - 1

failed = 0


def look(name, is_right):
    global failed
    if not is_right:
        print(f"shared.py: {name}")
        failed += 1


def refused(kind, call, *args, **named):
    """Whether the call is refused so, and not as something else."""
    try:
        call(*args, **named)
    except Exception as why:
        return type(why) is kind
    return False


def sums(bound=2, phases=100):
    return phase.SharedPhaser(phase.SUM, bound, phases)


def together(*works):
    """Runs each in a thread, and waits for all of them."""
    threads = [threading.Thread(target=work) for work in works]
    for it in threads:
        it.start()
    for it in threads:
        it.join(60)
        look("a thread that does not end", not it.is_alive())


def made():
    look("a word of no operation", refused(phase.BadOperation, phase.SharedPhaser, "mean", 2, 9))
    look("no operation", refused(phase.BadOperation, phase.SharedPhaser, 0, 0, 0))
    look("a bound of none", refused(phase.BadBound, sums, 0))
    look("a bound past 64 bits", refused(phase.BadBound, sums, 2**64 + 1))
    look("no phases", refused(phase.BadPhases, sums, 2, 0))
    look("a registration by its class", refused(TypeError, phase.Registration))
    founder = sums(numpy.int8(2), phase.PHASES_MAX)
    look("a founder", (founder.number, founder.mode) == (0, phase.SINGLE))
    look("its words", repr(founder) == "<phase.SharedPhaser in SINGLE>")
    for copied in (copy.copy, copy.deepcopy, pickle.dumps):
        look("a copy", refused(TypeError, copied, founder))
    look("a word of no mode", refused(phase.BadMode, founder.register, "signal"))
    words = phase.SharedPhaser("product", 2, 9)
    with words.register("sig_wait") as child:
        look("the word of a mode", child.mode == phase.SIG_WAIT)
    look("the word of an operation", words.next([3, 4]) == (0, 12))
    words.leave()
    look("a mode past 32 bits", refused(phase.BadMode, founder.register, 2**32 + 1))
    child = founder.register(phase.SIG)
    look("a child", (child.number, repr(child)) == (1, "<phase.Registration in SIG>"))
    look("a name that is none", refused(AttributeError, getattr, phase, "Barrier"))


def meets(own, number, threads, phases):
    with own:
        for at in range(phases):
            got = own.next(at + number)
            look("a meeting", got == (at, threads * at + threads * (threads - 1) // 2))


def meetings():
    for threads, phases in ((2, 500), (4, 300), (16, 50)):
        founder = sums(2, phases)
        owned = [founder] + [founder.register(phase.SIG_WAIT) for _ in range(1, threads)]
        together(
            *(
                lambda own=own, number=number: meets(own, number, threads, phases)
                for number, own in enumerate(owned)
            )
        )


def streams():
    lists = [[], []]
    with sums(8, 300) as founder:
        producer = founder.register(phase.SIG)
        consumers = [founder.register(phase.WAIT) for _ in lists]

    def produces():
        with producer:
            for at in range(300):
                producer.signal(at * at)

    def consumes(number):
        lists[number] += consumers[number]

    together(produces, lambda: consumes(0), lambda: consumes(1))
    look("two consumers", lists == [[(at, at * at) for at in range(300)]] * 2)


def blocks():
    with sums(64, 10_000) as founder:
        producer, consumer = founder.register(phase.SIG), founder.register(phase.WAIT)
    sent, places, got = numpy.arange(10_000), numpy.zeros(64, numpy.int64), []

    def produces():
        with producer:
            for at in range(0, 10_000, 50):
                look("a block", producer.signal_block(sent[at : at + 50]) == at)

    def consumes():
        while (block := consumer.wait_block(places)) is not None:
            look("the first of a block", block.phase == len(got))
            got.extend(block.values.tolist())

    together(produces, consumes)
    look("blocks", got == list(range(10_000)))
    look("no block", refused(phase.BadBlock, consumer.wait_block, 0))
    look("a block past the bound", refused(phase.BadBlock, consumer.wait_block, 65))


def times():
    with sums(1, 100) as founder:
        signaller = founder.register(phase.SIG)
        since = time.monotonic()
        look("a wait behind a signal", refused(phase.SignalFirst, founder.wait, 1))
        look("a next with too little time", refused(phase.Signalled, founder.next, 4, None, 0.03))
        look("a wait with too little time", refused(TimeoutError, founder.wait, 0.03))
        look("the time that it took", 0.06 <= time.monotonic() - since < 20)
        look("no time", refused(TimeoutError, founder.wait, 0))
        look("less than none", refused(ValueError, founder.wait, -1))
        look("no number", refused(ValueError, founder.wait, float("nan")))
        late = threading.Timer(0.05, lambda: signaller.signal(5))
        late.start()
        look("a long time", founder.wait(float("inf")) == (0, 9))
        late.join()
        signaller.signal(1)
        look("a signal ahead", refused(TimeoutError, signaller.signal, 1, timeout=0.03))
        look("a block ahead", refused(TimeoutError, signaller.signal_block, [1], timeout=0))
        look("a next in time", founder.next(2, timeout=0) == (1, 3))
        try:
            founder.next(timeout=0)
        except TimeoutError as why:
            look("what was signalled", why.phase == 2 and "2" in str(why))


def asked():
    """Behind a next whose time is over a registration rests, with its signal made, whether it asked
    for the phase, as with one value, or not."""
    for values in (4, [1, 3]):
        founder = sums(2, 100)
        other = founder.register(phase.SIG_WAIT)
        look("a next with too little time", refused(phase.Signalled, founder.next, values, None, 0))
        look("where it stands", founder.view()[:2] == (1, 0) and founder.told() == (0, 0))
        for call in (
            lambda: founder.next(4), lambda: founder.next(4, timeout=0),
            lambda: founder.signal(4), lambda: founder.signal(4, timeout=0),
            lambda: founder.signal_block([4, 5]), lambda: founder.signal_block([4], timeout=0),
        ):
            look("a second signal", refused(phase.SignalTwice, call))
        look("a wait with too little time", refused(TimeoutError, founder.wait, 0.001))
        look("a block of waits", refused(TimeoutError, founder.wait_block, 2, 0))
        child, (late, at) = founder.register(phase.SIG_WAIT), founder.register_now()
        look("where children stand", child.view()[:2] == (1, 0) and at == 0)
        look("what it sent", other.next(5, timeout=10) == (0, 9))
        look("what each got", founder.wait(10) == child.wait(10) == late.wait(10) == (0, 9))
        founder.leave()
        look("a child's time", refused(phase.Signalled, child.next, 6, None, 0.001))
        look("the next phase", other.next(5, timeout=10) == (1, 11))
        look("whose turns made it", 0 <= other.answers <= 2 and child.answers <= 1)
        other.leave()
        look("of none", refused(phase.NoPhaser, lambda: other.answers))


def answered(name, answers):
    """In place of the calls of C of this name, one that is answered so, one after another."""
    call = lambda *_: answers.pop(0)
    return unittest.mock.patch.object(
        shared, name, (call, call, call, getattr(shared, name)[3])
    )


def asked_and_no_turn():
    """A next that has asked others, and did not get its turn in time: what the wait behind it is
    told is its answer, and where its signal was ahead it is made anew."""
    why = None
    for first, then, is_made in (
        (phase.SIGNALLED, phase.E_NOT_YET, True), (phase.ASKED, phase.E_NOT_YET, False),
    ):
        with sums() as own, answered("_NEXT", [first]), answered("_WAIT", [then]):
            try:
                own.next(1, timeout=0)
            except phase.Signalled as told:
                why = told
            look("whether its signal was made", why.phase == 0 and why.made == is_made)
            look("what it says", ("asked for" in str(why)) == (not is_made))
    with sums() as own, answered("_NEXT", [phase.ASKED]), answered("_WAIT", [phase.E_SPENT]):
        look("a refused signal", refused(phase.Spent, own.next, 1))
    nexts, waits = [phase.ASKED, phase.OK], [phase.E_AHEAD]
    with sums() as own, answered("_NEXT", nexts), answered("_WAIT", waits):
        look("one that is made anew", own.next(1) == (0, 0) and nexts == waits == [])
    nexts, waits = [phase.ASKED, phase.E_AHEAD, phase.E_AHEAD], [phase.E_AHEAD]
    with sums() as own, answered("_NEXT", nexts), answered("_WAIT", waits):
        look("one that is ahead to the end", refused(TimeoutError, own.next, 1, None, 0))
        look("by all its tries", nexts == waits == [])


def leaves_in_time():
    """The others go on without one that left, or is gone, when the time of its next was over."""
    for ends in (lambda own: own.leave(), lambda own: own.__exit__(None, None, None)):
        founder = sums(2, 100)
        other = founder.register(phase.SIG_WAIT)
        look("a next with too little time", refused(phase.Signalled, founder.next, 4, None, 0.01))
        ends(founder)
        look("what it sent", other.next(5, timeout=10) == (0, 9))
        look("who goes on without it", other.next(5, timeout=10) == (1, 5))
        other.leave()


def refusals():
    founder = phase.SharedPhaser(phase.PRODUCT, 2, 3)
    signaller, waiter = founder.register(phase.SIG), founder.register(phase.WAIT)
    look("a mode that is not held", refused(phase.NotAllowed, signaller.register, phase.WAIT))
    look("one that joins a signaller", refused(phase.NotAllowed, signaller.register_now))
    look("a signaller that waits", refused(phase.NoWait, signaller.wait))
    look("a signaller's next", refused(phase.NoWait, signaller.next, 1))
    look("a waiter that signals", refused(phase.NoSignal, waiter.signal, 1))
    look("a signaller's single", refused(phase.NotSingle, signaller.signal, 1, phase.NEG))
    look("a clamp with no range", refused(phase.BadSingle, founder.signal, 1, phase.Clamp(2, 1)))
    look("the least number", refused(phase.BadValue, founder.signal, -(2**63)))
    look("past 64 bits", refused(OverflowError, founder.signal, 2**63))
    look("past 64 bits below", refused(OverflowError, founder.signal, -(2**63) - 1))
    look("a float", refused(TypeError, founder.signal, 1.5))
    look("floats", refused(TypeError, founder.signal, [1.5]))
    look("too many sends", refused(phase.TooManySends, founder.signal, range(65_537)))
    look("a signal", founder.signal([numpy.int8(3), 2], phase.NEG) == 0)
    look("a second signal", refused(phase.SignalTwice, founder.signal, 1))
    look("another single", refused(phase.SingleDiffers, signaller.signal, 1))
    look("where it stands", founder.view() == (1, 0, phase.SINGLE) and waiter.told() == (0, 0))
    signaller.leave()
    look("the value", founder.wait() == waiter.wait() == (0, -6))
    look("one too big", founder.next([MOST, MOST]) == (1, None))
    late, at = founder.register_now()
    look("one that joins late", (at, late.mode, late.view()) == (2, phase.WAIT, (2, 2, phase.WAIT)))
    look("the last phase", founder.next(numpy.int64(7)) == late.wait() == (2, 7))
    look("one phase more", refused(phase.Spent, founder.next))
    founder.leave()
    founder.leave()
    look("a call behind the end", refused(phase.NoPhaser, founder.signal, 1))
    look("the end", late.wait() is None and list(waiter) == [(1, None), (2, 7)])


def let_go():
    """A registration whose object is gone has left."""
    founder = sums()
    founder.register(phase.SIG_WAIT)
    gc.collect()
    look("one that is gone", founder.next(5, timeout=10) == (0, 5))

    def raises():
        with founder.register(phase.SIG_WAIT):
            raise KeyError

    look("one whose thread raises", refused(KeyError, raises) and founder.next(6) == (1, 6))


def one_thread_at_a_time():
    with sums() as founder:
        waiter = founder.register(phase.WAIT)
        thread = threading.Thread(target=waiter.wait)
        thread.start()
        while not refused(RuntimeError, waiter.wait, 0):
            time.sleep(0.001)
        look("a second thread", refused(RuntimeError, waiter.leave))
        founder.signal()
        thread.join(60)
        look("a thread that waited", not thread.is_alive() and waiter.view().wait_phase == 1)


def interrupted():
    """Ctrl-C ends a wait, soon, and the registration goes on."""
    with sums() as founder:
        signaller = founder.register(phase.SIG)
        for call in (lambda: founder.next(1), founder.wait):
            late = threading.Timer(0.1, os.kill, (os.getpid(), signal.SIGINT))
            late.start()
            since = time.monotonic()
            try:
                call()
                look("a wait that Ctrl-C does not end", False)
            except KeyboardInterrupt:
                look("a wait that ends late", 0.05 < time.monotonic() - since < 10)
            late.join()
        signaller.signal(4)
        look("a wait behind it", founder.wait() == (0, 5))


def main():
    for test in (
        made, meetings, streams, blocks, times, asked, asked_and_no_turn, leaves_in_time, refusals,
        let_go, one_thread_at_a_time, interrupted,
    ):
        test()
    print(f"shared.py: {failed} failed")
    return failed > 0


if __name__ == "__main__":
    sys.exit(main())
