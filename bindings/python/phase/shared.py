"""Phasers between threads, whose calls wait: what `phase.SharedPhaser` is.

>>> import phase, threading
>>> def work(own, number):
...     with own:
...         for step in range(3):
...             own.next(step * number)
>>> with phase.SharedPhaser(phase.SUM, bound=2, phases=3) as founder:
...     for number in range(1, 4):
...         own = founder.register(phase.SIG_WAIT)
...         threading.Thread(target=work, args=(own, number)).start()
...     [founder.next(0).value for step in range(3)]
[0, 6, 12]

Where one thread may fail, and leave the others to wait for ever, each works in a `with
own.closing():`, so that all end.

A registration is used by one thread at a time: a second one that calls it meanwhile gets a
RuntimeError, but for `close` and `closed`. A call that has to wait lets the interpreter's lock go,
so that other threads run; a build without such a lock needs nothing else, and was not tried. A wait
ends by a KeyboardInterrupt within some 10 milliseconds. What a thread did before its signal is seen
by every thread that got the phase. A process that was forked makes no call on its parent's
registrations.
"""
from __future__ import annotations

import contextlib
import ctypes
import os
import threading
import time
import weakref
from collections.abc import Iterator
from typing import Any, NamedTuple, Optional, Union

import numpy
from numpy.typing import ArrayLike, NDArray

import phase
from phase import ASKED, E_AHEAD, E_BUSY, E_CLOSED, E_NOT_YET, ENDED, MEMBERS_MAX, OK, SIG
from phase import SIGNALLED
from phase import BadMode, Clamp, Got, GotBlock, Mode, NoPhaser, NoWait, PhaserError, Standing

__all__ = ["SharedPhaser", "Registration", "PhaserCounts", "Signalled", "BrokenPhaserError"]

# How long a call of C goes on before the interpreter looks at signals, in nanoseconds.
_SLICE = 10_000_000

# More nanoseconds than any wait takes.
_LONGEST = 2**62

# What a call is answered whose time is over.
_EARLY = frozenset((E_AHEAD, E_NOT_YET))

# The single of a signal that names none.
_NO_SINGLE = (int(phase.NO_SINGLE), 0, 0)

_NO_VALUE = phase._NO_VALUE

# How many bytes the text has that names who is missing, at most.
_LACKS_MAX = 512


class Signalled(TimeoutError):
    """The time of a `next` ran out behind its signal: `wait` gets the phase, which is `phase`. The
    text names who is missing. Where `made` is False others were asked to signal it, and the turn
    was not had since to see whether they did: `wait` is told what came of it, and raises what
    `signal` does, or a TimeoutError where that would have to wait, where nothing was sent."""

    def __init__(self, phase: int, missing: str = "", made: bool = True):
        super().__init__(phase, missing, made)
        self.phase, self.made = phase, made

    def __str__(self) -> str:
        how = "signalled" if self.made else "asked for"
        return _and(f"phase {self.phase} is {how}, and was not complete in time", self.args[1])


class BrokenPhaserError(PhaserError, RuntimeError):
    """The phaser is closed. It comes to the calls of a registration in its `with own.closing():`
    alone. `phase` is the phase that a `next` has signalled by then, or None. The text names who
    was missing. Where the body of such a `with` raised what closed it, that is the `__cause__`."""

    status = E_CLOSED

    def __init__(self, phase: Optional[int] = None, missing: str = ""):
        super().__init__(phase, missing)
        self.phase = phase

    def __str__(self) -> str:
        return _and("the phaser is closed", self.args[1])


class PhaserCounts(NamedTuple):
    """How many registrations a phaser has, how many of them signal and how many wait, the first
    phase that is not complete, and how many of those that signal have signalled it."""

    tasks: int
    signallers: int
    waiters: int
    phase: int
    signalled: int


class _Place(ctypes.Structure):
    _fields_ = [
        ("at", ctypes.c_void_p),
        ("live", ctypes.c_bool),
        ("gate", ctypes.c_void_p),
        ("bound", ctypes.c_uint64),
        ("signal_phase", ctypes.c_uint64),
        ("wait_phase", ctypes.c_uint64),
        ("mode", ctypes.c_uint32),
        ("soon", ctypes.c_uint32),
        ("crowded", ctypes.c_uint64),
        ("answers", ctypes.c_uint64),
        ("asks", ctypes.c_uint32),
        ("outcome", ctypes.c_int32),
        ("kept", ctypes.c_int64),
        ("apart", ctypes.c_uint64 * 5),
    ]


class _Standing(ctypes.Structure):
    _fields_ = [
        ("number", ctypes.c_uint64),
        ("signal_phase", ctypes.c_uint64),
        ("wait_phase", ctypes.c_uint64),
        ("mode", ctypes.c_uint32),
        ("operation", ctypes.c_uint32),
    ]


class _Counts(ctypes.Structure):
    _fields_ = [(name, ctypes.c_uint64) for name in PhaserCounts._fields]


def _load(lib, calls):
    for name, arguments in calls.items():
        call = getattr(lib, "phase_shared_" + name)
        call.argtypes, call.restype = arguments, ctypes.c_int32
    return lib


def _load_all():
    """The library as its calls let the interpreter's lock go, and as those that try once do not."""
    place, few = [ctypes.POINTER(_Place)], ctypes.c_uint32
    whole, number = ctypes.c_uint64, [ctypes.POINTER(ctypes.c_uint64)]
    value, count = [ctypes.POINTER(ctypes.c_int64)], [ctypes.POINTER(ctypes.c_size_t)]
    row = [ctypes.c_void_p, ctypes.c_size_t]
    sends = row + [few, ctypes.c_int64, ctypes.c_int64] + number
    waiting = {
        "signal": place + sends,
        "signal_block": place + sends,
        "next": place + sends + value,
        "wait": place + number + value,
        "wait_block": place + row + number + count,
    }
    others = {
        "new": [few, whole, whole] + place,
        "register": place + [few] + place,
        "register_now": place + place + number,
        "leave": place,
        "view": place + [ctypes.POINTER(_Standing)],
        "told": place + number + number,
        "missing": place + [ctypes.POINTER(_Counts)] + row,
    }
    quick = {
        "close": place,
        "closed": place,
        "answers": place + number,
        "lacks": place + [ctypes.c_char_p, ctypes.c_size_t],
    }
    timed = {
        f"{name}_{form}": arguments + [whole]
        for name, arguments in waiting.items()
        for form in ("for", "or_closed")
    }
    tried = {f"try_{name}": arguments for name, arguments in waiting.items()}
    return _load(phase._lib, timed | others), _load(ctypes.PyDLL(phase._lib._name), tried | quick)


_lib, _quick = _load_all()


def _forms(name, early):
    """A call as it is tried once, as it goes on for some time, and as it does so until the phaser
    is closed; and what it is answered that came too early."""
    once = getattr(_quick, f"phase_shared_try_{name}")
    timed = (getattr(_lib, f"phase_shared_{name}_{form}") for form in ("for", "or_closed"))
    return once, *timed, early


_SIGNAL, _SIGNAL_BLOCK = _forms("signal", E_AHEAD), _forms("signal_block", E_AHEAD)
_NEXT = _forms("next", E_AHEAD)
_WAIT, _WAIT_BLOCK = _forms("wait", E_NOT_YET), _forms("wait_block", E_NOT_YET)


class _Turn:
    """What a thread has while it is in the middle of a call on a registration."""

    __slots__ = ("_acquire", "_release")

    def __init__(self) -> None:
        lock = threading.Lock()
        self._acquire, self._release = lock.acquire, lock.release

    def __enter__(self) -> None:
        if not self._acquire(False):
            raise RuntimeError("another thread is in the middle of a call on this registration")

    def __exit__(self, *_: object) -> None:
        self._release()


class _Closing:
    """What the registrations of a phaser share: what closed it, where that was an exception."""

    __slots__ = ("cause",)

    def __init__(self) -> None:
        self.cause: Optional[BaseException] = None


class Registration:
    """A registration on a phaser between threads, which `SharedPhaser` and `register` make.

    A phase is complete when each registration whose mode signals has signalled it, and its value is
    what the sends of these signals come to. No call names a phase: it is the registration's next
    one. The registration leaves at the end of `with`, by `leave`, or with the object; the phaser
    lives as long as any of its registrations.

    A call waits as long as it takes; or, with a `timeout` in seconds, raises a TimeoutError when
    that is over, whose text names who is missing, and 0 tries once. What is refused raises the
    PhaserError of its reason; want of memory is a MemoryError. A refusal, and a TimeoutError but
    for Signalled, leaves all as it was, and so does a BrokenPhaserError but where its `phase` was
    signalled.
    """

    def __init__(self) -> None:
        raise TypeError("a registration is made by SharedPhaser, or by another one's register")

    def _take(self, place: _Place, closing: _Closing) -> None:
        """Has a place whose registration was made, and what it shares with its phaser's others."""
        self._place, self._turn, self.mode = place, _Turn(), Mode(place.mode)
        self._closing = closing
        # Whether its calls heed a close, and what keeps it from leaving in the middle of one.
        self._heeds, self._gate = False, threading.Lock()
        # Where C reads one send, and writes a phase and a value.
        self._one, self._phase, self._value = ctypes.c_int64(), ctypes.c_uint64(), ctypes.c_int64()
        self._at, self._one_at = ctypes.byref(place), ctypes.addressof(self._one)
        self._phase_at, self._value_at = ctypes.byref(self._phase), ctypes.byref(self._value)
        # At the end of the interpreter other threads may still be in the middle of a call.
        weakref.finalize(self, _leave, place, os.getpid()).atexit = False

    def register(self, mode: Union[int, str]) -> Registration:
        """Registers a child in a mode that the mode of this one holds, at both of its phases. It
        may go to another thread.

        It raises NoPhaser, BadMode, NotAllowed, NotNew, TooManyTasks or MemoryError.
        """
        place, mode = _Place(), phase._word(mode, phase.Mode, 32, BadMode)
        with self._turn:
            phase._done(_lib.phase_shared_register(self._at, mode, place))
        return _of(place, self._closing)

    def register_now(self) -> tuple[Registration, int]:
        """Registers a child in the mode WAIT at the first phase that is not complete, and returns
        it with that phase. It raises what `register` does."""
        place, at = _Place(), ctypes.c_uint64()
        with self._turn:
            phase._done(_lib.phase_shared_register_now(self._at, place, at))
        return _of(place, self._closing), at.value

    def signal(
        self,
        values: Union[int, ArrayLike] = (),
        single: Union[int, str, Clamp, None] = None,
        timeout: Optional[float] = None,
    ) -> int:
        """Signals the phase with one send or a row of them and a single or none, and returns that
        phase. It waits while the phase is the bound or more ahead of the slowest waiter.

        It raises NoPhaser, BadSingle, TooManySends, BadValue, NoSignal, NotSingle, SignalTwice,
        Spent, SingleDiffers, PhaseFull or TimeoutError.
        """
        return self._signals(_SIGNAL, values, single, timeout)

    def signal_block(
        self,
        values: ArrayLike,
        single: Union[int, str, Clamp, None] = None,
        timeout: Optional[float] = None,
    ) -> int:
        """Signals as many phases in a row as there are values, with one send each and the single or
        none for all of them, and returns the first phase. It waits until no phase of the block is
        ahead, and signals all or none.

        It raises what `signal` does where one of the signals would, and BadBlock or MemoryError.
        """
        return self._signals(_SIGNAL_BLOCK, values, single, timeout)

    def next(
        self,
        values: Union[int, ArrayLike] = (),
        single: Union[int, str, Clamp, None] = None,
        timeout: Optional[float] = None,
    ) -> Got:
        """Signals the phase, as `signal` does, and then waits for it, as `wait` does: a barrier,
        from which each gets what all sent.

        It raises what `signal` does, NoWait, and Signalled where the time runs out behind the
        signal.

        >>> import phase
        >>> phase.SharedPhaser(phase.SUM, 2, 100).next([4, 5], phase.HALVE)
        Got(phase=0, value=4)
        """
        if self.mode is SIG:
            raise NoWait
        until = _until(timeout)
        with self._turn:
            self._ends()
            lent, row = self._sends(values)
            got = self._phase_at, self._value_at
            words = *row, *_single(single), *got
            status, signalled = self._goes_next(words, got, until)
            self._done(status, signalled)
            return self._got()

    def wait(self, timeout: Optional[float] = None) -> Optional[Got]:
        """The phase and its value, or None where no more will come. It waits until the phase is
        complete, or nobody is left to signal. The value is None where a sum or a product is out of
        range, and under the other operations where the phase has no send.

        It raises NoPhaser, NoWait, SignalFirst or TimeoutError.

        >>> import phase
        >>> with phase.SharedPhaser(phase.GREATEST, bound=2, phases=100) as founder:
        ...     waiter = founder.register(phase.WAIT)
        ...     founder.signal([4, 9])
        0
        >>> list(waiter)
        [Got(phase=0, value=9)]
        """
        until, words = _until(timeout), (self._phase_at, self._value_at)
        with self._turn:
            status = self._tries(_WAIT, words, until)
            if status == ENDED:
                return None
            self._done(status)
            return self._got()

    def wait_block(
        self, out: Union[int, NDArray[numpy.int64]], timeout: Optional[float] = None
    ) -> Optional[GotBlock]:
        """The first of the phases that are complete, in a row, and their values; or None where no
        more will come. It waits until one phase is complete, and no longer. Where a phase has no
        value, -2**63 stands. `out` is as of `Phaser.wait_block`.

        It raises what `wait` does, and BadBlock, TypeError or MemoryError.

        >>> import phase
        >>> with phase.SharedPhaser(phase.SUM, bound=4, phases=100) as founder:
        ...     waiter, signaller = founder.register(phase.WAIT), founder.register(phase.SIG)
        >>> signaller.signal_block([5, 6, 7])
        0
        >>> waiter.wait_block(4)
        GotBlock(phase=0, values=array([5, 6, 7]))
        """
        values, count, until = phase._places(out), ctypes.c_size_t(), _until(timeout)
        words = values.ctypes.data, len(values), self._phase_at, count
        with self._turn:
            status = self._tries(_WAIT_BLOCK, words, until)
            if status == ENDED:
                return None
            self._done(status)
            return GotBlock(self._phase.value, values[: count.value])

    def view(self) -> Standing:
        """The phases that it signals and waits for next, and its mode. It raises NoPhaser."""
        standing = self._standing()
        return Standing(standing.signal_phase, standing.wait_phase, Mode(standing.mode))

    @property
    def number(self) -> int:
        """Its number, which no other registration of its phaser has. It raises NoPhaser."""
        return self._standing().number

    def told(self) -> tuple[int, int]:
        """How far the phaser is, as far as the calls that have ended tell: the phases below the
        first number are complete, and every waiter got those below the second. Each is 2**64 - 1
        where nobody is left to wait for. It is a hint for when to try. It raises NoPhaser."""
        done, base = ctypes.c_uint64(), ctypes.c_uint64()
        with self._turn:
            phase._done(_lib.phase_shared_told(self._at, done, base))
        return done.value, base.value

    @property
    def answers(self) -> int:
        """How many phases of `next` others' turns made for it: it asked for them, and took no turn
        for the answer. It raises NoPhaser."""
        count = ctypes.c_uint64()
        with self._turn:
            phase._done(_quick.phase_shared_answers(self._at, count))
        return count.value

    def standing(self) -> PhaserCounts:
        """How many registrations there are, and how far the first phase that is not complete has
        come. It waits for its turn alone. It raises NoPhaser.

        >>> import phase
        >>> with phase.SharedPhaser(phase.SUM, bound=2, phases=100) as founder:
        ...     first, second = founder.register(phase.SIG_WAIT), founder.register(phase.SIG_WAIT)
        ...     second.signal(5), founder.standing(), founder.missing()
        (0, PhaserCounts(tasks=3, signallers=3, waiters=3, phase=0, signalled=1), [0, 1])
        """
        counts = _Counts()
        with self._turn:
            phase._done(_lib.phase_shared_missing(self._at, counts, None, 0))
        return PhaserCounts(*(getattr(counts, name) for name in PhaserCounts._fields))

    def missing(self) -> list[int]:
        """Who is missing: the numbers of the registrations that signal and have not signalled the
        first phase that is not complete, in the order in which they joined. It waits for its turn
        alone. It raises NoPhaser."""
        counts, places = _Counts(), (ctypes.c_uint64 * MEMBERS_MAX)()
        with self._turn:
            phase._done(_lib.phase_shared_missing(self._at, counts, places, MEMBERS_MAX))
        return places[: counts.signallers - counts.signalled]

    def close(self) -> None:
        """Closes the phaser, for ever: registrations in a `closing` no longer wait, and signal no
        more. Every other one goes on as before, and nothing is lost that was sent or is complete.
        It is for a thread that fails; any thread may call it, also in the middle of another's call.
        It raises NoPhaser."""
        with self._gate:
            status = _quick.phase_shared_close(self._at)
        phase._done(status)

    @property
    def closed(self) -> bool:
        """Whether the phaser was closed, by any of its registrations. It raises NoPhaser."""
        with self._gate:
            status = _quick.phase_shared_closed(self._at)
        if status != E_CLOSED:
            phase._done(status)
        return status == E_CLOSED

    @contextlib.contextmanager
    def closing(self) -> Iterator[Registration]:
        """A `with` in which it ends with the others: where the body raises, the phaser is closed;
        and where the phaser is closed, by whichever registration, `signal`, `signal_block` and
        `next` raise a BrokenPhaserError, and so do `wait` and `wait_block` once they have got what
        is complete, also in the middle. The registration leaves at the end.

        >>> import phase
        >>> founder = phase.SharedPhaser(phase.SUM, bound=2, phases=100)
        >>> other = founder.register(phase.SIG_WAIT)
        >>> with founder.closing():
        ...     other.close()
        ...     founder.next(1)
        Traceback (most recent call last):
        phase.shared.BrokenPhaserError: the phaser is closed: phase 0 lacks the signal of 0, 1
        """
        self._heeds = True
        with self:
            try:
                yield self
            except BaseException as why:
                with contextlib.suppress(NoPhaser):
                    if not self.closed:
                        self._closing.cause = why
                    self.close()
                raise

    def leave(self) -> None:
        """Ends the registration: from then on no phase waits for it. Later calls raise NoPhaser; to
        leave again does nothing."""
        with self._turn, self._gate:
            _lib.phase_shared_leave(self._at)

    def __iter__(self) -> Iterator[Got]:
        """Its phases, each waited for, until no more will come."""
        while (got := self.wait()) is not None:
            yield got

    def __enter__(self) -> Registration:
        return self

    def __exit__(self, *_: object) -> None:
        self.leave()

    def __repr__(self) -> str:
        return f"<phase.{type(self).__name__} in {self.mode.name}>"

    def __reduce__(self) -> Any:
        raise TypeError("a registration is not copied")

    def _signals(self, calls, values, single, timeout):
        until = _until(timeout)
        with self._turn:
            self._ends()
            lent, row = self._sends(values)
            words = *row, *_single(single), self._phase_at
            self._done(self._tries(calls, words, until))
            return self._phase.value

    def _tries(self, calls, words, until):
        """What a call is answered in the end: once, and then slice by slice, so that the signals of
        the system are seen between."""
        status = calls[0](self._at, *words)
        return self._goes_on(calls, words, until) if status in (calls[3], E_BUSY) else status

    def _goes_on(self, calls, words, until):
        call = calls[2 if self._heeds else 1]
        while True:
            left = _SLICE if until is None else min(_SLICE, max(0, until - time.monotonic_ns()))
            status = call(self._at, *words, left)
            if status != calls[3] or until is not None and time.monotonic_ns() >= until:
                return status

    def _goes_next(self, words, got, until):
        """What a next is answered in the end, and the phase that it has signalled by then."""
        while True:
            status = self._tries(_NEXT, words, until)
            if status not in (SIGNALLED, ASKED):
                return status, None
            signalled, made = self._phase.value, status == SIGNALLED
            status = self._goes_on(_WAIT, got, until)
            if status == E_NOT_YET:
                raise Signalled(signalled, self._lacks(), made)
            # One that had asked, and whose signal was ahead, has signalled nothing.
            if status != E_AHEAD:
                return status, signalled

    def _sends(self, values):
        """What has the sends, and where C finds them and how many they are."""
        if phase._is_one(values):
            self._one.value = phase._send(values)
            return self._one, (self._one_at, 1)
        sends = phase._whole(values)
        return sends, (sends.ctypes.data, len(sends))

    def _ends(self):
        """Refuses a signal of one that ends with the others, where the phaser is closed."""
        if self._heeds and _quick.phase_shared_closed(self._at) == E_CLOSED:
            raise BrokenPhaserError(None, self._lacks()) from self._closing.cause

    def _done(self, status, signalled=None):
        if status == OK:
            return
        if status in _EARLY:
            raise TimeoutError(_and(str(phase._REFUSALS[status]()).rstrip("."), self._lacks()))
        if status == E_CLOSED:
            raise BrokenPhaserError(signalled, self._lacks()) from self._closing.cause
        phase._done(status)

    def _lacks(self):
        """Who is missing, for a text: nothing where another call is in the middle."""
        text = ctypes.create_string_buffer(_LACKS_MAX)
        _quick.phase_shared_lacks(self._at, text, _LACKS_MAX)
        return text.value.decode()

    def _got(self):
        value = self._value.value
        return Got(self._phase.value, value if value != _NO_VALUE else None)

    def _standing(self):
        standing = _Standing()
        with self._turn:
            phase._done(_lib.phase_shared_view(self._at, standing))
        return standing


class SharedPhaser(Registration):
    """A phaser between threads, as the registration of its founder, in the mode SINGLE at phase 0.

    The operation is SUM, PRODUCT, LEAST, GREATEST or ANY, the first of the sends. Signallers may be
    `bound` phases ahead of the slowest waiter, from 1 to 65,536; the phases are 1 to 2**62. Where
    threads meet at a barrier, each of which signals a phase and waits for it, the bound should be
    2.

    It raises BadOperation, BadBound, BadPhases or MemoryError.
    """

    def __init__(self, operation: Union[int, str], bound: int, phases: int):
        operation = phase._word(operation, phase.Operation, 32, phase.BadOperation)
        bound = phase._numbered(bound, 64, phase.BadBound)
        phases, place = phase._numbered(phases, 64, phase.BadPhases), _Place()
        phase._done(_lib.phase_shared_new(operation, bound, phases, place))
        self._take(place, _Closing())


def _leave(place, process):
    # In a process that was forked another thread's turn would never end.
    if os.getpid() == process:
        _lib.phase_shared_leave(place)


def _of(place, closing):
    """The registration of a child that was made."""
    child = object.__new__(Registration)
    child._take(place, closing)
    return child


def _and(told, lacks):
    """What is told, with who is missing."""
    return f"{told}: {lacks}" if lacks else told


def _single(single):
    return _NO_SINGLE if single is None else phase._single(single)


def _until(timeout):
    """When a call that begins now has to end, by the clock in nanoseconds, or None."""
    if timeout is None:
        return None
    if not timeout >= 0:
        raise ValueError("a timeout is not negative")
    return time.monotonic_ns() + int(min(timeout * 1e9, _LONGEST))
